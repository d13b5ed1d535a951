//! The instructions, one attempt, and the run.
use crate::paging::{Access, Machine, MainPage, Place, VirtualPage};
use crate::{refusal, stop, word_at, Record, MAX_RUN, PAGE};

/// What a run returns.
#[derive(Clone, Copy, Debug, Default, PartialEq, Eq)]
pub struct Ran {
    pub stop: u32,
    pub detail: u32,
    pub finished: u32,
    pub loads: u32,
    /// "pages copied back": the loads whose victim was marked.
    pub copied: u32,
}

/// Runs at most `limit` instructions.
pub fn run(rec: &mut Record, main: &mut [u8], swap: &mut [u8], limit: u32) -> Result<Ran, u32> {
    rec.check(main, swap)?;
    if limit > MAX_RUN {
        return Err(refusal::RANGE);
    }
    let mut machine = Machine { rec, main, swap };
    let (mut finished, mut loads, mut copied) = (0, 0, 0);
    while finished < limit {
        match machine.attempt() {
            Ok(None) => finished += 1,
            Ok(Some(detail)) => {
                return Ok(Ran { stop: stop::TRAP, detail, finished: finished + 1, loads, copied });
            }
            Err(Halt::Fault(page)) => {
                copied += u32::from(machine.load_page(page));
                loads += 1;
            }
            Err(Halt::Stop(stop, detail)) => return Ok(Ran { stop, detail, finished, loads, copied }),
        }
    }
    Ok(Ran { stop: stop::LIMIT, detail: 0, finished, loads, copied })
}

/// Why an attempt did not finish its instruction: a page is not there, or a stop and its detail.
enum Halt {
    Fault(VirtualPage),
    Stop(u32, u32),
}

/// What a known word asks for, its operands read.
enum Effect {
    Set { rd: usize, value: u32 },
    Go { target: u32, link: bool },
    Load { rd: usize, va: u32, width: u32, signed: bool },
    Store { va: u32, width: u32, value: u32 },
    Trap(u32),
}

impl Machine<'_> {
    /// "One attempt", but for the load of a page that it lacks; a trap gives its number.
    #[inline]
    fn attempt(&mut self) -> Result<Option<u32>, Halt> {
        let at = self.locate(self.rec.dpc, 4, Access::Read)?;
        let word = word_at(self.main, at);
        let next = self.rec.pcp.wrapping_add(4);
        let (mut target, mut trap) = (next, None);
        match decode(word, &self.rec.gpr, self.rec.pcp) {
            None => return Err(Halt::Stop(stop::ILLEGAL_INSTRUCTION, word)),
            Some(Effect::Set { rd, value }) => self.set(rd, value),
            Some(Effect::Go { target: there, link }) => {
                target = there;
                self.set(if link { 31 } else { 0 }, next);
            }
            Some(Effect::Load { rd, va, width, signed }) => {
                let at = self.locate(va, width, Access::Read)?;
                self.set(rd, fetch(self.main, at, width, signed));
            }
            Some(Effect::Store { va, width, value }) => {
                let at = self.locate(va, width, Access::Write)?;
                store(self.main, at, width, value);
                self.rec.mark(MainPage::of(at));
            }
            Some(Effect::Trap(number)) => trap = Some(number),
        }
        (self.rec.dpc, self.rec.pcp) = (self.rec.pcp, target);
        Ok(trap)
    }

    /// The main address of an access, or what it comes to instead: misaligned, illegal, fault, in that order.
    fn locate(&self, va: u32, width: u32, access: Access) -> Result<usize, Halt> {
        if va & (width - 1) != 0 {
            return Err(Halt::Stop(stop::MISALIGNED, va));
        }
        let page = VirtualPage::of(va);
        match self.rec.place(self.main, page, access) {
            None => Err(Halt::Stop(stop::ILLEGAL_MEMORY, va)),
            Some(Place::Swap(_)) => Err(Halt::Fault(page)),
            Some(Place::Main(frame)) => Ok(frame.bytes().start + va as usize % PAGE),
        }
    }

    /// "Writes to GPR 0 are dropped."
    fn set(&mut self, rd: usize, value: u32) {
        if rd != 0 {
            self.rec.gpr[rd] = value;
        }
    }
}

/// The register number whose lowest bit is bit `low` of the word.
pub(crate) fn register(word: u32, low: u32) -> usize {
    (word >> low & 31) as usize
}

/// What the word asks for; none if it is unknown or privileged.
fn decode(word: u32, gpr: &[u32; 32], pcp: u32) -> Option<Effect> {
    let rs1 = gpr[register(word, 21)];
    let rd = register(word, 16);
    let imm = word as i16 as u32;
    let far = ((word << 6) as i32 >> 6) as u32;
    let va = rs1.wrapping_add(imm);
    let set = |value| Effect::Set { rd, value };
    let go = |target, link| Effect::Go { target, link };
    let branch = |taken| go(pcp.wrapping_add(if taken { imm } else { 4 }), false);
    let load = |width, signed| Effect::Load { rd, va, width, signed };
    let store = |width| Effect::Store { va, width, value: gpr[rd] };
    Some(match word >> 26 {
        0 => Effect::Set { rd: register(word, 11), value: operate(word, rs1, gpr[rd])? },
        2 => go(pcp.wrapping_add(far), false),
        3 => go(pcp.wrapping_add(far), true),
        4 => branch(rs1 == 0),
        5 => branch(rs1 != 0),
        9 => set(rs1.wrapping_add(imm)),
        11 => set(rs1.wrapping_sub(imm)),
        12 => set(rs1 & imm),
        13 => set(rs1 | imm),
        14 => set(rs1 ^ imm),
        15 => set(imm << 16),
        22 => go(rs1, false),
        23 => go(rs1, true),
        code @ 24..=31 => set(compare(code, rs1, imm)),
        32 => load(1, true),
        33 => load(2, true),
        35 => load(4, false),
        36 => load(1, false),
        37 => load(2, false),
        40 => store(1),
        41 => store(2),
        43 => store(4),
        62 => Effect::Trap(word & 0x03FF_FFFF),
        _ => return None,
    })
}

/// The functions under opcode 0. Both machines have it in their loop, so that neither calls it.
#[inline(always)]
pub(crate) fn operate(word: u32, rs1: u32, rs2: u32) -> Option<u32> {
    let sa = word >> 6 & 31;
    Some(match word & 63 {
        0 => rs1 << sa,
        2 => rs1 >> sa,
        3 => (rs1 as i32 >> sa) as u32,
        4 => rs1 << (rs2 % 32),
        6 => rs1 >> (rs2 % 32),
        7 => (rs1 as i32 >> (rs2 % 32)) as u32,
        33 => rs1.wrapping_add(rs2),
        35 => rs1.wrapping_sub(rs2),
        36 => rs1 & rs2,
        37 => rs1 | rs2,
        38 => rs1 ^ rs2,
        39 => rs2 << 16,
        code @ 40..=47 => compare(code, rs1, rs2),
        _ => return None,
    })
}

/// "never, >, =, ≥, <, ≠, ≤, always; signed": opcodes 24–31 and functions 40–47.
pub(crate) fn compare(code: u32, x: u32, y: u32) -> u32 {
    let (x, y) = (x as i32, y as i32);
    let holds = match code % 8 {
        0 => false,
        1 => x > y,
        2 => x == y,
        3 => x >= y,
        4 => x < y,
        5 => x != y,
        6 => x <= y,
        _ => true,
    };
    holds.into()
}

fn fetch(main: &[u8], at: usize, width: u32, signed: bool) -> u32 {
    match (width, signed) {
        (1, true) => main[at] as i8 as u32,
        (1, false) => main[at].into(),
        (2, true) => i16::from_le_bytes([main[at], main[at + 1]]) as u32,
        (2, false) => u16::from_le_bytes([main[at], main[at + 1]]).into(),
        _ => word_at(main, at),
    }
}

fn store(main: &mut [u8], at: usize, width: u32, value: u32) {
    match width {
        1 => main[at] = value as u8,
        2 => main[at..at + 2].copy_from_slice(&(value as u16).to_le_bytes()),
        _ => main[at..at + 4].copy_from_slice(&value.to_le_bytes()),
    }
}
