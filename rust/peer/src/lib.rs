//! The paged DLX console machine of documents 01 and 02, in plain safe Rust, with the plain engine and the
//! makers' notation of 02.
//!
//! It is written from the documents alone and is the independent reading against which another
//! implementation is compared, and the baseline of its benchmarks. Quoted sentences are the document's.
#![forbid(unsafe_code)]

mod cpu;
mod host;
mod image;
mod notation;
mod paging;
pub mod plain;
mod record;

pub use cpu::{run, Ran};
pub use host::{host_read, host_write, page_view, reply, set_spare, spare};
pub use image::{console, least_main_pages, load, read_image, ImageInfo};
pub use notation::{assemble, list, Bad};
pub use record::{Record, WORDS};

/// K, the page size.
pub const PAGE: usize = 4096;
/// The most instructions that one run may be asked for.
pub const MAX_RUN: u32 = 1_000_000;
/// The most bytes that one host transfer may have.
pub const MAX_TRANSFER: usize = 256;

/// The refusals, numbered as in the documents.
pub mod refusal {
    pub const SHAPE: u32 = 1;
    pub const UNSOUND: u32 = 2;
    pub const ACCESS: u32 = 3;
    pub const RANGE: u32 = 4;
    pub const NO_IMAGE: u32 = 5;
    pub const TRAILER: u32 = 6;
    pub const ROOM: u32 = 7;
    pub const MNEMONIC: u32 = 8;
    pub const OPERAND: u32 = 9;
    pub const VALUE: u32 = 10;
}

/// The stops of a run.
pub mod stop {
    pub const LIMIT: u32 = 0;
    pub const TRAP: u32 = 1;
    pub const ILLEGAL_MEMORY: u32 = 2;
    pub const MISALIGNED: u32 = 3;
    pub const ILLEGAL_INSTRUCTION: u32 = 4;
}

/// The little endian word that stands at byte `at`.
fn word_at(bytes: &[u8], at: usize) -> u32 {
    let word = &bytes[at..at + 4];
    u32::from_le_bytes([word[0], word[1], word[2], word[3]])
}
