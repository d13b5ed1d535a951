//! The proved plain engine: the guests of a [`Machine`](crate::Machine) over one flat memory, with no frames, no
//! page table and no swap. It is there with the feature `plain`, which links its own archive.
//!
//! [`Plain`] owns a machine's record, memory and rights, and asks the library of brenwythal_plain.h for everything
//! that it does. From one image that both load, the same calls give the same refusals, stops, registers and
//! guest's bytes as on a `Machine`. [`calls`] has the same calls on lent slices. The names are those of the
//! header: BRENWYTHAL_PLAIN_DPC is [`DPC`]; stops and refusals are those of the paged machine, [`Stop`] and
//! [`Refusal`].
//!
//! ```
//! # let file = include_bytes!("../../../../examples/trap.img");
//! use brenwythal::{plain::Plain, Machine, Stop};
//! let mut plain = Plain::load(file)?;
//! let mut machine = Machine::load(file, 5)?;
//! let (ran, paged) = (plain.run(1000)?, machine.run(1000)?);
//! assert_eq!((ran.stop, ran.finished), (Stop::Trap(5), 3));
//! assert_eq!((ran.stop, ran.finished), (paged.stop, paged.finished));
//! assert_eq!(plain.registers(), machine.registers());
//! assert_eq!(plain.view(0)?, machine.view(0)?);
//! # Ok::<(), brenwythal::Refusal>(())
//! ```

pub mod calls;
mod places;

pub use places::*;

use crate::{Image, Refusal, Stop};

/// Reads a console image. It can be refused 5 and 6.
pub fn image(file: &[u8]) -> Result<Image, Refusal> {
    let mut answer = [0; IMAGE_ANSWER];
    Refusal::check(calls::image(file, &mut answer))?;
    let [ptl, start, frames] = answer;
    Ok(Image { ptl, start, frames })
}

/// What a run answers.
#[derive(Clone, Copy, Debug, PartialEq, Eq)]
pub struct Ran {
    /// Why it ended.
    pub stop: Stop,
    /// Instructions finished.
    pub finished: u32,
}

/// A plain machine: its record, its memory and its rights.
#[derive(Clone, PartialEq, Eq)]
pub struct Plain {
    record: [u32; RECORD],
    memory: Vec<u8>,
    rights: Vec<u8>,
}

impl Plain {
    /// A fresh machine of a console image. It can be refused 5 and 6.
    pub fn load(file: &[u8]) -> Result<Self, Refusal> {
        let ptl = image(file)?.ptl as usize;
        let (mut memory, mut rights) = (vec![0; PAGE * ptl], vec![0; ptl]);
        let mut record = [0; RECORD];
        Refusal::check(calls::load(file, &mut memory, &mut rights, &mut record))?;
        Ok(Plain { record, memory, rights })
    }

    /// A machine put together from what [`Plain::into_parts`] gave, or by hand. Nothing is tested here: each
    /// call but `reply` refuses 1 or 2 if the parts do not fit.
    pub fn from_parts(record: [u32; RECORD], memory: Vec<u8>, rights: Vec<u8>) -> Self {
        Plain { record, memory, rights }
    }

    /// Record, memory and rights.
    pub fn into_parts(self) -> ([u32; RECORD], Vec<u8>, Vec<u8>) {
        (self.record, self.memory, self.rights)
    }

    /// Runs at most `limit` instructions, 0 to 1,000,000. It can be refused 1, 2 and 4.
    pub fn run(&mut self, limit: u32) -> Result<Ran, Refusal> {
        let mut answer = [0; RUN_ANSWER];
        Refusal::check(calls::run(&mut self.record, &mut self.memory, &self.rights, limit, &mut answer))?;
        let [stop, detail, finished] = answer;
        Ok(Ran { stop: Stop::new(stop, detail), finished })
    }

    /// Fills `into`, 0 to 256 bytes, from the guest's memory at `va`. It can be refused 1 to 4.
    pub fn read(&self, va: u32, into: &mut [u8]) -> Result<(), Refusal> {
        Refusal::check(calls::read(&self.record, &self.memory, &self.rights, va, into))
    }

    /// Writes 0 to 256 bytes to the guest's memory at `va`. It can be refused 1 to 4.
    pub fn write(&mut self, va: u32, from: &[u8]) -> Result<(), Refusal> {
        Refusal::check(calls::write(&self.record, &mut self.memory, &self.rights, va, from))
    }

    /// The bytes of the guest's page, which needs the right to read. It can be refused 1, 2 and 3.
    pub fn view(&self, page: u32) -> Result<[u8; PAGE], Refusal> {
        let mut into = [0; PAGE];
        Refusal::check(calls::view(&self.record, &self.memory, &self.rights, page, &mut into))?;
        Ok(into)
    }

    /// Sets register 1 to 31, as the answer to a trap. It can be refused 4.
    pub fn reply(&mut self, register: u32, value: u32) -> Result<(), Refusal> {
        Refusal::check(calls::reply(&mut self.record, register, value))
    }

    /// GPR 0 to 31.
    pub fn registers(&self) -> &[u32] {
        &self.record[GPR..DPC]
    }

    /// The address of the next instruction.
    pub fn dpc(&self) -> u32 {
        self.record[DPC]
    }

    /// The words of the record.
    pub fn record(&self) -> &[u32; RECORD] {
        &self.record
    }

    /// The guest's bytes, in the order of their virtual addresses.
    pub fn memory(&self) -> &[u8] {
        &self.memory
    }

    /// The rights, one byte a page: 1 to read, 2 to write, 3 for both, 0 for none.
    pub fn rights(&self) -> &[u8] {
        &self.rights
    }
}
