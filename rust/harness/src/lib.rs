//! Compares engines for the machine of document 01, and for the plain engine of document 02 beside it, on
//! generated series of calls, and assemblers and listers for the makers' notation on generated texts.
#![forbid(unsafe_code)]

pub mod call;
mod cli;
pub mod compare;
pub mod engine;
pub mod generate;
pub mod plain;
pub mod program;
pub mod rng;
pub mod texts;

pub use cli::cli;
pub use compare::{compare, Failure, Stats};
pub use engine::{place_of, Engine, ImageAnswer, Peer, State};
pub use plain::{compare_plain, PlainEngine, PlainPeer, PlainState, PlainStats};
pub use texts::{compare_texts, Notation, TextStats};
