//! The plain engine: "one flat lent memory of ptl pages and a rights byte for each, with no frames and no
//! table". Images are read as for the paged machine, and the numbers under opcode 0 are carried out as there;
//! the rest is written out once more, for a loop without detours: it is the baseline of the benchmarks, too.
use crate::cpu::{compare, operate, register};
use crate::{read_image, refusal, stop, word_at, MAX_RUN, MAX_TRANSFER, PAGE};
use std::ops::Range;

/// The number of words in a record.
pub const WORDS: usize = 35;

/// "1 read, 2 write, 3 both, 0 none".
const READ: u8 = 1;
const WRITE: u8 = 2;

/// All that belongs to a plain machine besides its lent memory and rights.
#[derive(Clone, Debug, Default, PartialEq, Eq)]
pub struct Plain {
    /// The number of pages.
    pub ptl: u32,
    pub gpr: [u32; 32],
    pub dpc: u32,
    /// PC'.
    pub pcp: u32,
}

/// What a run returns. "Loads are not its business and it reports none."
#[derive(Clone, Copy, Debug, Default, PartialEq, Eq)]
pub struct Ran {
    pub stop: u32,
    pub detail: u32,
    pub finished: u32,
}

/// Makes a fresh machine of an image in the lent memory and rights.
pub fn load(image: &[u8], memory: &mut [u8], rights: &mut [u8]) -> Result<Plain, u32> {
    let info = read_image(image)?;
    if memory.len() != info.pages.len() || rights.len() != info.rights.len() {
        return Err(refusal::ROOM);
    }
    memory.copy_from_slice(info.pages);
    rights.copy_from_slice(info.rights);
    let (dpc, pcp) = (info.start, info.start.wrapping_add(4));
    Ok(Plain { ptl: info.ptl, dpc, pcp, ..Plain::default() })
}

/// Runs at most `limit` instructions.
pub fn run(plain: &mut Plain, memory: &mut [u8], rights: &[u8], limit: u32) -> Result<Ran, u32> {
    plain.check(memory, rights)?;
    if limit > MAX_RUN {
        return Err(refusal::RANGE);
    }
    let mut finished = 0;
    while finished < limit {
        match plain.attempt(memory, rights) {
            Ok(None) => finished += 1,
            Ok(Some(detail)) => return Ok(Ran { stop: stop::TRAP, detail, finished: finished + 1 }),
            Err((stop, detail)) => return Ok(Ran { stop, detail, finished }),
        }
    }
    Ok(Ran { stop: stop::LIMIT, detail: 0, finished })
}

/// Fills `buffer` with the guest's bytes from `va` on.
pub fn host_read(plain: &Plain, memory: &[u8], rights: &[u8], va: u32, buffer: &mut [u8]) -> Result<(), u32> {
    let place = plain.transfer(memory, rights, va, buffer.len(), READ)?;
    buffer.copy_from_slice(&memory[place]);
    Ok(())
}

/// Writes `bytes` to the guest's memory from `va` on.
pub fn host_write(plain: &Plain, memory: &mut [u8], rights: &[u8], va: u32, bytes: &[u8]) -> Result<(), u32> {
    let place = plain.transfer(memory, rights, va, bytes.len(), WRITE)?;
    memory[place].copy_from_slice(bytes);
    Ok(())
}

/// The bytes of a readable page.
pub fn page_view<'m>(plain: &Plain, memory: &'m [u8], rights: &[u8], page: u32) -> Result<&'m [u8], u32> {
    plain.check(memory, rights)?;
    match rights.get(page as usize) {
        Some(byte) if byte & READ != 0 => Ok(&memory[page as usize * PAGE..][..PAGE]),
        _ => Err(refusal::ACCESS),
    }
}

/// Sets one of GPR 1 to 31; looks at nothing else.
pub fn reply(plain: &mut Plain, register: u32, value: u32) -> Result<(), u32> {
    match register {
        1..=31 => {
            plain.gpr[register as usize] = value;
            Ok(())
        }
        _ => Err(refusal::RANGE),
    }
}

/// A stop and its detail.
type Halt = (u32, u32);

impl Plain {
    /// ptl, GPR, DPC, PC'.
    pub fn to_words(&self) -> [u32; WORDS] {
        let mut words = [0; WORDS];
        words[0] = self.ptl;
        words[1..33].copy_from_slice(&self.gpr);
        words[33..].copy_from_slice(&[self.dpc, self.pcp]);
        words
    }

    pub fn from_words(words: &[u32; WORDS]) -> Self {
        let gpr = std::array::from_fn(|i| words[1 + i]);
        Plain { ptl: words[0], gpr, dpc: words[33], pcp: words[34] }
    }

    /// "1 for ptl or a lent length, 2 only for GPR 0 not 0 or a rights byte above 3".
    pub fn check(&self, memory: &[u8], rights: &[u8]) -> Result<(), u32> {
        let ptl = self.ptl as usize;
        if !(1..=1024).contains(&ptl) || memory.len() != PAGE * ptl || rights.len() != ptl {
            Err(refusal::SHAPE)
        } else if self.gpr[0] != 0 || rights.iter().any(|&byte| byte > 3) {
            Err(refusal::UNSOUND)
        } else {
            Ok(())
        }
    }

    /// The bytes that a transfer touches, or its refusal, in the order 1, 2, 4, 3. Addresses do not go round;
    /// "Length 0 is never refused 3, at any address."
    fn transfer(
        &self,
        memory: &[u8],
        rights: &[u8],
        va: u32,
        len: usize,
        right: u8,
    ) -> Result<Range<usize>, u32> {
        self.check(memory, rights)?;
        if len > MAX_TRANSFER {
            return Err(refusal::RANGE);
        }
        if len == 0 {
            return Ok(0..0);
        }
        let (start, end) = (va as usize, va as usize + len);
        match rights.get(start / PAGE..(end - 1) / PAGE + 1) {
            Some(pages) if pages.iter().all(|byte| byte & right != 0) => Ok(start..end),
            _ => Err(refusal::ACCESS),
        }
    }

    /// "One attempt", where no page is ever missing; a trap gives its number.
    #[inline]
    fn attempt(&mut self, memory: &mut [u8], rights: &[u8]) -> Result<Option<u32>, Halt> {
        let word = word_at(memory, locate(rights, self.dpc, 4, READ)?);
        let opcode = word >> 26;
        let (rs1, rd) = (self.gpr[register(word, 21)], register(word, 16));
        let imm = word as i16 as u32;
        let va = rs1.wrapping_add(imm);
        let next = self.pcp.wrapping_add(4);
        let near = self.pcp.wrapping_add(imm);
        let far = self.pcp.wrapping_add(((word << 6) as i32 >> 6) as u32);
        match opcode {
            0 => match operate(word, rs1, self.gpr[rd]) {
                Some(value) => self.set(register(word, 11), value),
                None => return Err((stop::ILLEGAL_INSTRUCTION, word)),
            },
            2 => self.go(far),
            3 => self.link(far),
            4 => self.go(if rs1 == 0 { near } else { next }),
            5 => self.go(if rs1 != 0 { near } else { next }),
            9 => self.set(rd, rs1.wrapping_add(imm)),
            11 => self.set(rd, rs1.wrapping_sub(imm)),
            12 => self.set(rd, rs1 & imm),
            13 => self.set(rd, rs1 | imm),
            14 => self.set(rd, rs1 ^ imm),
            15 => self.set(rd, imm << 16),
            22 => self.go(rs1),
            23 => self.link(rs1),
            24..=31 => self.set(rd, compare(opcode, rs1, imm)),
            32 => self.set(rd, memory[locate(rights, va, 1, READ)?] as i8 as u32),
            33 => self.set(rd, half_at(memory, locate(rights, va, 2, READ)?) as i16 as u32),
            35 => self.set(rd, word_at(memory, locate(rights, va, 4, READ)?)),
            36 => self.set(rd, memory[locate(rights, va, 1, READ)?].into()),
            37 => self.set(rd, half_at(memory, locate(rights, va, 2, READ)?).into()),
            40 => {
                memory[locate(rights, va, 1, WRITE)?] = self.gpr[rd] as u8;
                self.go(next);
            }
            41 => {
                let half = (self.gpr[rd] as u16).to_le_bytes();
                memory[locate(rights, va, 2, WRITE)?..][..2].copy_from_slice(&half);
                self.go(next);
            }
            43 => {
                let word = self.gpr[rd].to_le_bytes();
                memory[locate(rights, va, 4, WRITE)?..][..4].copy_from_slice(&word);
                self.go(next);
            }
            62 => {
                self.go(next);
                return Ok(Some(word & 0x03FF_FFFF));
            }
            _ => return Err((stop::ILLEGAL_INSTRUCTION, word)),
        }
        Ok(None)
    }

    /// "DPC becomes PC', PC' becomes the target".
    fn go(&mut self, target: u32) {
        (self.dpc, self.pcp) = (self.pcp, target);
    }

    /// "jal and jalr put PC'+4 in GPR 31."
    fn link(&mut self, target: u32) {
        self.gpr[31] = self.pcp.wrapping_add(4);
        self.go(target);
    }

    /// Sets a register and goes on; "Writes to GPR 0 are dropped."
    fn set(&mut self, rd: usize, value: u32) {
        if rd != 0 {
            self.gpr[rd] = value;
        }
        self.go(self.pcp.wrapping_add(4));
    }
}

/// Where in the memory an access takes place, or what it comes to instead: misaligned, illegal, in that order.
fn locate(rights: &[u8], va: u32, width: u32, right: u8) -> Result<usize, Halt> {
    if va & (width - 1) != 0 {
        return Err((stop::MISALIGNED, va));
    }
    match rights.get(va as usize / PAGE) {
        Some(byte) if byte & right != 0 => Ok(va as usize),
        _ => Err((stop::ILLEGAL_MEMORY, va)),
    }
}

fn half_at(bytes: &[u8], at: usize) -> u16 {
    u16::from_le_bytes([bytes[at], bytes[at + 1]])
}
