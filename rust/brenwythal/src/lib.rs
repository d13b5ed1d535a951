//! The proved paged console machine, for hosts in Rust.
//!
//! [`Machine`] owns a machine's record and both of its memories and asks the library of brenwythal.h for
//! everything that it does; [`assemble`] and [`list()`] are the makers' tools. This crate adds types, and no
//! rule of its own. [`calls`] has the same calls on lent slices. The names are those of the header:
//! BRENWYTHAL_DPC is [`DPC`], BRENWYTHAL_STOP_TRAP is [`Stop::Trap`], BRENWYTHAL_REFUSAL_BOUND is
//! [`Refusal::Bound`]. With the feature `plain` there is a second engine, without pages that move: the module
//! `plain`.
//!
//! ```no_run
//! use brenwythal::{image, Machine, Stop};
//! let file = std::fs::read("depot.img")?;
//! let mut machine = Machine::load(&file, image(&file)?.least_main_pages())?;
//! let ran = machine.run(1000)?;
//! if let Stop::Trap(number) = ran.stop {
//!     println!("trap {number} after {} instructions and {} page loads", ran.finished, ran.loads);
//!     machine.write(4095, b"7,5")?;
//!     machine.reply(1, 0)?;
//! }
//! # Ok::<(), Box<dyn std::error::Error>>(())
//! ```
#![deny(unsafe_code)]
#![warn(missing_docs)]

pub mod calls;
mod makers;
mod places;
#[cfg(feature = "plain")]
pub mod plain;
mod refusal;

pub use makers::{assemble, list, BadText};
pub use places::*;
pub use refusal::Refusal;

/// One page more than a main memory may have.
const TOO_MANY: usize = 65;

/// The spare bits of a table entry: the lowest of them, and the most that they hold.
const SPARE_AT: u32 = 3;
const MOST_SPARE: u32 = 511;

/// The numbers of a console image.
#[derive(Clone, Copy, Debug, PartialEq, Eq)]
pub struct Image {
    /// The pages of the guest.
    pub ptl: u32,
    /// The address of the first instruction.
    pub start: u32,
    /// Frames as written, where 0 leaves their number to the machine.
    pub frames: u32,
}

impl Image {
    /// The fewest pages of main memory that [`Machine::load`] takes for this image; fewer are refused 7. For
    /// frames that no image has it is 0.
    ///
    /// ```
    /// # let file = include_bytes!("../../../examples/trap.img");
    /// # use brenwythal::{image, Machine, Refusal};
    /// let pages = image(file)?.least_main_pages();
    /// assert_eq!(pages, 5);
    /// assert!(Machine::load(file, pages).is_ok());
    /// assert_eq!(Machine::load(file, pages - 1).err(), Some(Refusal::Room));
    /// # Ok::<(), Refusal>(())
    /// ```
    pub fn least_main_pages(&self) -> usize {
        calls::least_main_pages(self.frames) as usize
    }
}

/// Reads a console image. It can be refused 5 and 6.
pub fn image(file: &[u8]) -> Result<Image, Refusal> {
    let mut answer = [0; IMAGE_ANSWER];
    Refusal::check(calls::image(file, &mut answer))?;
    let [ptl, start, frames] = answer;
    Ok(Image { ptl, start, frames })
}

/// Why a run ended. After stops 2 to 4 the registers are as before that instruction.
#[derive(Clone, Copy, Debug, PartialEq, Eq)]
#[non_exhaustive]
pub enum Stop {
    /// The limit is used up.
    Limit,
    /// A trap, which is finished; its number.
    Trap(u32),
    /// Illegal memory; the virtual address.
    IllegalMemory(u32),
    /// A misaligned access; the virtual address.
    Misaligned(u32),
    /// An illegal instruction; its word.
    IllegalInstruction(u32),
    /// A stop that this wrapper has no name for.
    Other {
        /// Its number.
        number: u32,
        /// Its detail.
        detail: u32,
    },
}

impl Stop {
    /// The stop's number.
    pub fn number(self) -> u32 {
        match self {
            Stop::Limit => 0,
            Stop::Trap(_) => 1,
            Stop::IllegalMemory(_) => 2,
            Stop::Misaligned(_) => 3,
            Stop::IllegalInstruction(_) => 4,
            Stop::Other { number, .. } => number,
        }
    }

    /// The stop's detail, which is 0 for the limit.
    pub fn detail(self) -> u32 {
        match self {
            Stop::Limit => 0,
            Stop::Trap(detail)
            | Stop::IllegalMemory(detail)
            | Stop::Misaligned(detail)
            | Stop::IllegalInstruction(detail)
            | Stop::Other { detail, .. } => detail,
        }
    }

    fn new(number: u32, detail: u32) -> Self {
        match number {
            0 => Stop::Limit,
            1 => Stop::Trap(detail),
            2 => Stop::IllegalMemory(detail),
            3 => Stop::Misaligned(detail),
            4 => Stop::IllegalInstruction(detail),
            _ => Stop::Other { number, detail },
        }
    }
}

/// What a run answers.
#[derive(Clone, Copy, Debug, PartialEq, Eq)]
pub struct Ran {
    /// Why it ended.
    pub stop: Stop,
    /// Instructions finished.
    pub finished: u32,
    /// Pages loaded from swap.
    pub loads: u32,
    /// Pages copied back to swap: the loads for which a page with a [mark](Machine::marks) left.
    pub copied: u32,
}

/// A machine: its record, its main memory and its swap.
#[derive(Clone, PartialEq, Eq)]
pub struct Machine {
    record: [u32; RECORD],
    main: Vec<u8>,
    swap: Vec<u8>,
}

impl Machine {
    /// A fresh machine of a console image, with this many pages of main memory:
    /// [`least_main_pages`](Image::least_main_pages) of the image to 64. Swap gets the image's pages. It can
    /// be refused 5, 6 and 7.
    pub fn load(file: &[u8], main_pages: usize) -> Result<Self, Refusal> {
        let ptl = image(file)?.ptl as usize;
        // The library refuses any number of pages above 64; so many need not be there for that.
        let mut main = vec![0; PAGE * main_pages.min(TOO_MANY)];
        let mut swap = vec![0; PAGE * ptl];
        let mut record = [0; RECORD];
        Refusal::check(calls::load(file, &mut main, &mut swap, &mut record))?;
        Ok(Machine { record, main, swap })
    }

    /// A machine put together from what [`Machine::into_parts`] gave, or by hand. Nothing is tested here:
    /// each call but `reply` refuses 1 or 2 if the parts do not fit. Where a frame or its swap page is
    /// changed by hand, so that the two differ, the frame needs its [mark](Machine::marks): else it is
    /// refused 2.
    pub fn from_parts(record: [u32; RECORD], main: Vec<u8>, swap: Vec<u8>) -> Self {
        Machine { record, main, swap }
    }

    /// Record, main memory and swap.
    pub fn into_parts(self) -> ([u32; RECORD], Vec<u8>, Vec<u8>) {
        (self.record, self.main, self.swap)
    }

    /// Runs at most `limit` instructions, 0 to 1,000,000. It can be refused 1, 2 and 4.
    pub fn run(&mut self, limit: u32) -> Result<Ran, Refusal> {
        let mut answer = [0; RUN_ANSWER];
        Refusal::check(calls::run(&mut self.record, &mut self.main, &mut self.swap, limit, &mut answer))?;
        let [stop, detail, finished, loads, copied] = answer;
        Ok(Ran { stop: Stop::new(stop, detail), finished, loads, copied })
    }

    /// Fills `into`, 0 to 256 bytes, from the guest's memory at `va`. It can be refused 1 to 4.
    pub fn read(&self, va: u32, into: &mut [u8]) -> Result<(), Refusal> {
        Refusal::check(calls::read(&self.record, &self.main, &self.swap, va, into))
    }

    /// Writes 0 to 256 bytes to the guest's memory at `va`, and marks the frames that get one. It can be
    /// refused 1 to 4.
    pub fn write(&mut self, va: u32, from: &[u8]) -> Result<(), Refusal> {
        Refusal::check(calls::write(&mut self.record, &mut self.main, &mut self.swap, va, from))
    }

    /// The bytes of the guest's page, which needs the right to read. It can be refused 1, 2 and 3.
    pub fn view(&self, page: u32) -> Result<[u8; PAGE], Refusal> {
        let mut into = [0; PAGE];
        Refusal::check(calls::view(&self.record, &self.main, &self.swap, page, &mut into))?;
        Ok(into)
    }

    /// Sets register 1 to 31, as the answer to a trap. It can be refused 4.
    pub fn reply(&mut self, register: u32, value: u32) -> Result<(), Refusal> {
        Refusal::check(calls::reply(&mut self.record, register, value))
    }

    /// The spare bits of a page, 0 to 511: bits 11 to 3 of its entry in the page table. `None` if the page is
    /// beyond the table.
    ///
    /// They are the host's own, to keep a form's number in, for example. No call reads them, and none but
    /// [`Machine::load`], which begins with 0, changes them: they stay while their page is loaded and put out.
    ///
    /// ```
    /// # let file = include_bytes!("../../../examples/hop.img");
    /// # use brenwythal::Machine;
    /// let mut machine = Machine::load(file, 3)?;
    /// assert!(machine.set_spare(1, 417));
    /// assert_eq!(machine.run(1000)?.loads, 206);
    /// assert_eq!(machine.spare(1), Some(417));
    /// # Ok::<(), brenwythal::Refusal>(())
    /// ```
    pub fn spare(&self, page: u32) -> Option<u16> {
        let (_, entry) = self.entry(page)?;
        Some((entry >> SPARE_AT & MOST_SPARE) as u16)
    }

    /// Puts a value into the [spare bits](Machine::spare) of a page, and says whether it did: a page beyond
    /// the table, or a value above 511, changes nothing.
    #[must_use = "false says that nothing was changed"]
    pub fn set_spare(&mut self, page: u32, value: u16) -> bool {
        match self.entry(page) {
            Some((at, entry)) if u32::from(value) <= MOST_SPARE => {
                let entry = entry & !(MOST_SPARE << SPARE_AT) | u32::from(value) << SPARE_AT;
                self.main[at..at + 4].copy_from_slice(&entry.to_le_bytes());
                true
            }
            _ => false,
        }
    }

    /// The entry of a page, and where it stands. The record may say anything: an entry that is not wholly in
    /// main memory is none.
    fn entry(&self, page: u32) -> Option<(usize, u32)> {
        if page >= self.record[PTL] {
            return None;
        }
        let at = (page as usize).checked_mul(4)?.checked_add(self.record[PTO] as usize)?;
        let bytes = self.main.get(at..at.checked_add(4)?)?;
        Some((at, u32::from_le_bytes(bytes.try_into().ok()?)))
    }

    /// The marks of the frames, bit i for frame i. A mark is set by a guest's store and by a
    /// [write](Machine::write) of at least one byte, and cleared when the frame gets another page. A page
    /// without a mark is as it stands in swap, and is not copied back when it leaves.
    ///
    /// ```
    /// # let file = include_bytes!("../../../examples/trap.img");
    /// # use brenwythal::Machine;
    /// let mut machine = Machine::load(file, 5)?;
    /// machine.run(1)?;
    /// assert_eq!(machine.marks(), 0);
    /// machine.write(4000, b"7")?;
    /// assert_eq!(machine.marks(), 1);
    /// # Ok::<(), brenwythal::Refusal>(())
    /// ```
    pub fn marks(&self) -> u32 {
        self.record[MARKS]
    }

    /// GPR 0 to 31.
    pub fn registers(&self) -> &[u32] {
        &self.record[GPR..DPC]
    }

    /// The address of the next instruction.
    pub fn dpc(&self) -> u32 {
        self.record[DPC]
    }

    /// The words of the record.
    pub fn record(&self) -> &[u32; RECORD] {
        &self.record
    }

    /// Main memory: the page table, the frames and what else the host keeps there.
    pub fn main(&self) -> &[u8] {
        &self.main
    }

    /// Swap.
    pub fn swap(&self) -> &[u8] {
        &self.swap
    }
}
