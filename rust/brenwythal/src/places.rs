//! The lengths and places of brenwythal.h: what is BRENWYTHAL_X there is `X` here.

/// The length of a page in bytes.
pub const PAGE: usize = 4096;

/// The length of a record in words.
pub const RECORD: usize = 75;
/// P, the pages of main memory.
pub const PAGES: usize = 0;
/// a, the frames among them.
pub const FRAMES: usize = 1;
/// The main page of the first frame.
pub const ABASE: usize = 2;
/// The pages of the guest.
pub const PTL: usize = 3;
/// Where the page table begins in main memory.
pub const PTO: usize = 4;
/// The swap page of the guest's page 0.
pub const SBASE: usize = 5;
/// b, the frames that hold a page.
pub const USED: usize = 6;
/// The frame that is emptied next.
pub const HAND: usize = 7;
/// B[0..31], the page in each frame.
pub const HELD: usize = 8;
/// The registers 0 to 31.
pub const GPR: usize = 40;
/// The address of the next instruction.
pub const DPC: usize = 72;
/// PC', the address of the one after it.
pub const NEXT: usize = 73;
/// The marks of the frames, bit i for frame i.
pub const MARKS: usize = 74;

/// The length of the answer of a run in words.
pub const RUN_ANSWER: usize = 5;
/// Why the run ended.
pub const STOP: usize = 0;
/// What belongs to it.
pub const DETAIL: usize = 1;
/// Instructions finished.
pub const FINISHED: usize = 2;
/// Pages loaded from swap.
pub const LOADS: usize = 3;
/// Pages copied back to swap.
pub const COPIED: usize = 4;

/// The length of the answer about an image in words.
pub const IMAGE_ANSWER: usize = 3;
/// The pages of the guest.
pub const IMAGE_PTL: usize = 0;
/// The address of the first instruction.
pub const IMAGE_START: usize = 1;
/// Frames as written; [`Image::least_main_pages`](crate::Image::least_main_pages) says what they ask for.
pub const IMAGE_FRAMES: usize = 2;

/// The length of the answer about a text in sizes.
pub const ASSEMBLE_ANSWER: usize = 3;
/// The bytes written.
pub const ASSEMBLE_LENGTH: usize = 0;
/// The bad line, from 1 on.
pub const ASSEMBLE_LINE: usize = 1;
/// Its byte that is refused, from 1 on.
pub const ASSEMBLE_COLUMN: usize = 2;

/// The length of the answer about a listing in sizes.
pub const LIST_ANSWER: usize = 1;
/// The bytes written.
pub const LIST_LENGTH: usize = 0;
