//! DLX programs that run long: blocks on several pages, each ending in a jump to the next, with loops,
//! branches, delay slots, calls, accesses of all widths, stores into code, and a little that is wrong.
use crate::call::Content;
use crate::rng::Rng;

const CONTROL: [u32; 7] = [2, 3, 4, 5, 22, 23, 62];
const MEMORY: [u32; 8] = [32, 33, 35, 36, 37, 40, 41, 43];
const IMMEDIATES: [u32; 14] = [9, 11, 12, 13, 14, 15, 24, 25, 26, 27, 28, 29, 30, 31];
const FUNCTIONS: [u32; 20] = [0, 2, 3, 4, 6, 7, 33, 35, 36, 37, 38, 39, 40, 41, 42, 43, 44, 45, 46, 47];

/// One right for each page: most pages have both.
pub fn rights(rng: &Rng, ptl: u32) -> Vec<u8> {
    (0..ptl).map(|_| [3, 1, 2, 0][rng.weighted(&[14, 2, 2, 1])]).collect()
}

/// A value with a good chance of being at an edge.
pub fn value(rng: &Rng, ptl: u32) -> u32 {
    match rng.below(5) {
        0 => rng.pick(&[0, 1, 2, 31, 32, 33, u32::MAX, 0x7FFF_FFFF, 0x8000_0000, 0x8000, 0xFFFF_8000]),
        1 => rng.range(0, 40).wrapping_sub(20),
        2 | 3 => rng.below(4096 * ptl) & !3,
        _ => rng.word(),
    }
}

/// A program for pages with these rights (code pages become readable), and where it can be entered.
pub fn program(rng: &Rng, rights: &mut [u8]) -> (Content, Vec<u32>) {
    let ptl = rights.len() as u32;
    let seed = if rng.one_in(2) { rng.next() } else { 0 };
    if rng.one_in(12) {
        return (Content { seed, words: Vec::new() }, vec![rng.below(1024 * ptl) * 4]);
    }
    let starts: Vec<u32> = (0..rng.range(2, 6)).map(|_| start(rng, rights)).collect();
    let wild = rng.pick(&[0, 0, 0, 100, 25]);
    let mut writer = Writer { rng, rights, words: Vec::new(), at: 0, bases: [0; 8], wild, starts: &starts };
    writer.write();
    (Content { seed, words: writer.words }, starts)
}

fn start(rng: &Rng, rights: &mut [u8]) -> u32 {
    let page = rng.below(rights.len() as u32) as usize;
    rights[page] |= 1;
    let offset = match rng.below(4) {
        0 => 0,
        1 if page + 1 < rights.len() => {
            rights[page + 1] |= 1;
            4096 - 4 * rng.range(1, 12)
        }
        _ => 4 * rng.below(800),
    };
    page as u32 * 4096 + offset
}

fn immediate(opcode: u32, rs1: u32, rd: u32, imm: u32) -> u32 {
    opcode << 26 | rs1 << 21 | rd << 16 | imm & 0xFFFF
}

/// GPR 1–7 hold addresses (7 only in the leaf), 28–30 count loops, 31 links; 8–27 hold data.
struct Writer<'w> {
    rng: &'w Rng,
    rights: &'w [u8],
    words: Vec<(u32, u32)>,
    at: u32,
    bases: [u32; 8],
    wild: u32,
    starts: &'w [u32],
}

impl Writer<'_> {
    /// The last block is a leaf that the others call; the others form a ring.
    fn write(&mut self) {
        let ring = self.starts.len() - 1;
        let length = self.rng.pick(&[1, 5, 15, 40]);
        for block in 0..=ring {
            self.at = self.starts[block];
            if block == 0 {
                (1..7).for_each(|base| self.point(base));
            }
            if block == ring {
                self.point(7);
                (0..self.rng.below(5)).for_each(|_| self.access(7));
                self.put(22 << 26 | 31 << 21);
                self.slot();
            } else {
                (0..self.rng.range(0, length)).for_each(|_| self.item());
                self.jump(self.starts[(block + 1) % ring]);
            }
        }
    }

    fn put(&mut self, word: u32) {
        self.words.push((self.at, word));
        self.at = self.at.wrapping_add(4);
    }

    fn constant(&mut self, rd: u32, value: u32) {
        self.put(immediate(15, self.rng.below(32), rd, value.wrapping_add(0x8000) >> 16));
        self.put(immediate(9, rd, rd, value));
    }

    fn data(&self) -> u32 {
        self.rng.range(8, 27)
    }

    /// Makes a base register point into the table.
    fn point(&mut self, base: u32) {
        let value = self.rng.below(1024 * self.rights.len() as u32) * 4;
        self.bases[base as usize] = value;
        self.constant(base, value);
    }

    fn item(&mut self) {
        if self.wild > 0 && self.rng.one_in(self.wild) {
            return self.put(self.wild_word());
        }
        match self.rng.weighted(&[50, 45, 10, 5, 3, 3, 2, 1]) {
            0 => self.simple(),
            1 => self.access(self.rng.range(1, 6)),
            2 => self.skip(),
            3 => self.repeat(),
            4 => {
                let far = self.starts[self.starts.len() - 1].wrapping_sub(self.at.wrapping_add(4));
                self.put(3 << 26 | far & 0x03FF_FFFF);
                self.slot();
            }
            5 => self.copy_code(),
            6 => self.constant(self.data(), value(self.rng, self.rights.len() as u32)),
            _ => self.put(62 << 26 | self.rng.word() >> 6),
        }
    }

    /// An instruction on registers; the fields that it does not use hold anything.
    fn simple(&mut self) {
        let (rs1, rs2) = (self.rng.below(32), self.rng.below(32));
        let rd = if self.rng.one_in(30) { 0 } else { self.data() };
        let word = if self.rng.one_in(2) {
            self.rng.pick(&FUNCTIONS) | rs1 << 21 | rs2 << 16 | rd << 11 | self.rng.below(32) << 6
        } else {
            immediate(self.rng.pick(&IMMEDIATES), rs1, rd, value(self.rng, 4))
        };
        self.put(word);
    }

    /// A load or store by way of a base register, seldom at a wrong address.
    fn access(&mut self, base: u32) {
        let opcode = self.rng.pick(&MEMORY);
        let (width, right) = ([1, 2, 0, 4][opcode as usize % 4], if opcode < 40 { 1 } else { 2 });
        let mut page = self.rng.below(self.rights.len() as u32);
        for _ in 0..8 {
            if self.rights[page as usize] & right == 0 {
                page = self.rng.below(self.rights.len() as u32);
            }
        }
        let inside = self.rng.below(self.rng.pick(&[8, 64, 4096])) / width * width;
        let mut va = page * 4096 + if self.rng.one_in(4) { 4096 - width - inside } else { inside };
        if self.rng.one_in(400) {
            va = match self.rng.below(4) {
                0 => va ^ 1,
                1 => va ^ 2,
                2 => self.rights.len() as u32 * 4096 + inside,
                _ => self.rng.word(),
            };
        }
        let distance = va.wrapping_sub(self.bases[base as usize]);
        if distance as i16 as u32 != distance {
            self.bases[base as usize] = va;
            self.constant(base, va);
        }
        let distance = va.wrapping_sub(self.bases[base as usize]);
        let rd = if self.rng.one_in(30) { 0 } else { self.data() };
        self.put(immediate(opcode, base, rd, distance));
    }

    /// A branch over a few instructions.
    fn skip(&mut self) {
        let (opcode, rs1, over) = (self.rng.range(4, 5), self.data(), self.rng.below(4));
        self.put(immediate(opcode, rs1, self.rng.below(32), 4 + 4 * over));
        self.slot();
        (0..over).for_each(|_| self.simple());
    }

    /// A loop that counts down.
    fn repeat(&mut self) {
        let (counter, times) = (self.rng.range(28, 30), self.rng.range(1, 12));
        self.put(immediate(9, 0, counter, times));
        let top = self.at;
        for _ in 0..self.rng.below(4) {
            self.access(self.rng.range(1, 6));
            self.simple();
        }
        self.put(immediate(11, counter, counter, 1));
        self.put(immediate(5, counter, self.rng.below(32), top.wrapping_sub(self.at.wrapping_add(4))));
        self.slot();
    }

    /// Copies an instruction over another one.
    fn copy_code(&mut self) {
        if self.words.is_empty() {
            return;
        }
        let (from, to, rd) = (self.rng.pick(&self.words).0, self.rng.pick(&self.words).0, self.data());
        self.constant(6, from);
        self.put(immediate(35, 6, rd, 0));
        self.constant(6, to);
        self.bases[6] = to;
        self.put(immediate(43, 6, rd, 0));
    }

    fn jump(&mut self, target: u32) {
        let near = target.wrapping_sub(self.at.wrapping_add(4));
        match self.rng.below(5) {
            0 | 1 if near as i16 as u32 == near => self.put(immediate(4, 0, self.rng.below(32), near)),
            0..=2 => self.put(self.rng.range(2, 3) << 26 | near & 0x03FF_FFFF),
            form => {
                let rd = if self.rng.one_in(3) { 31 } else { self.data() };
                self.constant(rd, target);
                self.put(immediate(form + 19, rd, self.rng.below(32), self.at));
                // 22 jr, 23 jalr
            }
        }
        self.slot();
    }

    /// A delay slot; at times it holds a jump or branch itself.
    fn slot(&mut self) {
        let (opcode, rs1, near) = (self.rng.range(2, 5), self.data(), 4 * self.rng.range(1, 3));
        match self.rng.below(12) {
            0 if opcode < 4 => self.put(opcode << 26 | near),
            0 => self.put(immediate(opcode, rs1, 0, near)),
            1 => self.put(0),
            2 => {
                let base = self.rng.range(1, 6);
                let distance = self.bases[base as usize] & 4095;
                self.put(immediate(35, base, self.data(), 0u32.wrapping_sub(distance)));
            }
            _ => self.simple(),
        }
    }

    fn wild_word(&self) -> u32 {
        let rest = self.rng.word() >> 6;
        match self.rng.below(6) {
            0 => self.rng.word(),
            1 => self.rng.pick(&[self.rng.pick(&CONTROL), self.rng.pick(&MEMORY)]) << 26 | rest,
            2 => rest,
            3 => self.rng.below(64) << 26 | rest,
            4 => self.rng.pick(&[63 << 26 | rest, rest & !63 | 16, rest & !63 | 17]),
            _ => 62 << 26 | rest,
        }
    }
}
