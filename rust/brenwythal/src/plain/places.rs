//! The lengths and places of brenwythal_plain.h: what is BRENWYTHAL_PLAIN_X there is `X` here.

/// The length of a page in bytes.
pub const PAGE: usize = 4096;

/// The length of a record in words.
pub const RECORD: usize = 35;
/// The pages of the guest.
pub const PTL: usize = 0;
/// The registers 0 to 31.
pub const GPR: usize = 1;
/// The address of the next instruction.
pub const DPC: usize = 33;
/// PC', the address of the one after it.
pub const NEXT: usize = 34;

/// The length of the answer of a run in words.
pub const RUN_ANSWER: usize = 3;
/// Why the run ended.
pub const STOP: usize = 0;
/// What belongs to it.
pub const DETAIL: usize = 1;
/// Instructions finished.
pub const FINISHED: usize = 2;

/// The length of the answer about an image in words.
pub const IMAGE_ANSWER: usize = 3;
/// The pages of the guest.
pub const IMAGE_PTL: usize = 0;
/// The address of the first instruction.
pub const IMAGE_START: usize = 1;
/// Frames as written, which the plain engine has no use for.
pub const IMAGE_FRAMES: usize = 2;
