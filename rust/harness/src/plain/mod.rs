//! The plain engine of document 02: compared with the peer's on machines of every kind, and from the same image
//! with the paged machine.
mod compare;
mod engine;
mod generate;
mod step;

pub use compare::{compare_plain, PlainStats};
pub use engine::{guest_of, guest_page, PlainEngine, PlainPeer, PlainState};
pub use step::{Edit, Step};
