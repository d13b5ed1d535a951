//! Series of calls: machines, images, damage, and what is asked of them.
use crate::call::{get_byte, get_word, Answer, Call, Edit, Image, Setup};
use crate::engine::State;
use crate::program::{program, rights, value};
use crate::rng::Rng;
use peer::Record;

/// Where the marks stand in a record.
const MARKS: usize = 74;

pub struct Generator {
    pub(crate) rng: Rng,
    /// Where the program can be entered.
    starts: Vec<u32>,
    /// What takes the present damage back.
    undo: Vec<Edit>,
}

impl Generator {
    pub fn new(seed: u64, series: u64) -> Self {
        let rng = Rng::new(Rng::new(seed ^ series.wrapping_mul(0xA076_1D64_78BD_642F)).next());
        Generator { rng, starts: vec![0], undo: Vec::new() }
    }

    /// The next call, for a machine in this state whose last answer was this.
    pub fn next(&mut self, state: &State, last: &Answer) -> Call {
        let rec = Record::from_words(&state.words);
        let healthy = rec.check(&state.main, &state.swap).is_ok();
        if healthy {
            self.undo.clear();
        } else if self.undo.is_empty() && self.rng.one_in(3) || state.main.is_empty() {
            return self.machine();
        } else if !self.undo.is_empty() && self.rng.one_in(3) {
            return Call::Poke(std::mem::take(&mut self.undo));
        }
        let stuck = matches!(last, Answer::Ran([0, 2..=4, ..]));
        if stuck && self.rng.one_in(2) {
            return self.resume(&rec);
        }
        match self.rng.weighted(&[46, 12, 14, 6, 6, 9, 3, 9]) {
            0 => Call::Run(self.limit(stuck)),
            1 => self.read(&rec),
            2 => self.write(&rec, |va, bytes| {
                // A write marks all the same where its bytes stand there already.
                let _ = peer::host_read(&rec, &state.main, &state.swap, va, bytes);
            }),
            3 => self.view(&rec),
            4 => self.reply(&rec),
            5 => {
                let mut edits = self.damage(&rec, state);
                if self.rng.one_in(6) {
                    edits.extend(self.damage(&rec, state));
                }
                self.undo.splice(0..0, edits.iter().map(|edit| edit.inverse(state)));
                Call::Poke(edits)
            }
            6 => self.reading(),
            _ => self.spare(&rec),
        }
    }

    pub(crate) fn read(&mut self, rec: &Record) -> Call {
        let len = self.length();
        Call::Read(self.address(rec, len), len as usize)
    }

    /// A write, at times of what `standing` puts in the place of its bytes.
    pub(crate) fn write(&mut self, rec: &Record, standing: impl FnOnce(u32, &mut [u8])) -> Call {
        let len = self.length();
        let va = self.address(rec, len);
        let mut bytes: Vec<u8> = (0..len).map(|_| self.rng.word() as u8).collect();
        if self.rng.one_in(4) {
            standing(va, &mut bytes);
        }
        Call::Write(va, bytes)
    }

    pub(crate) fn view(&mut self, rec: &Record) -> Call {
        let ptl = rec.ptl;
        let near = [ptl.wrapping_sub(1), ptl, ptl.wrapping_add(1), 0x10_0000, u32::MAX];
        let resident = rec.book[self.rng.below(4) as usize];
        let inside = self.rng.below(ptl.max(1));
        Call::View(self.rng.pick(&[self.rng.pick(&near), resident, inside, inside]))
    }

    pub(crate) fn reply(&mut self, rec: &Record) -> Call {
        let register = if self.rng.one_in(9) { self.rng.word() } else { self.rng.below(34) };
        Call::Reply(register, value(&self.rng, rec.ptl.clamp(1, 1024)))
    }

    /// An image that is only read.
    pub(crate) fn reading(&mut self) -> Call {
        let ptl = self.ptl();
        let image = self.image(ptl);
        Call::Image(self.damaged(image))
    }

    /// The host's change of a page's spare bits: a page that is in a frame, has code, or any other; seldom one
    /// beyond the table, or a value of more than 9 bits.
    pub(crate) fn spare(&mut self, rec: &Record) -> Call {
        let rng = &self.rng;
        let ptl = rec.ptl;
        let beyond = [ptl, ptl.wrapping_add(1), 1023, 1024, 0x4000_0000, u32::MAX];
        let (held, code) = (rec.book[rng.below(4) as usize], rng.pick(&self.starts) / 4096);
        let inside = rng.below(ptl.max(1));
        let page =
            rng.pick(&[rng.pick(&beyond), ptl.wrapping_sub(1), held, held, code, code, inside, inside]);
        let value = match rng.below(8) {
            0 => rng.pick(&[0, 0, 1, 255, 256, 511]),
            1 => rng.pick(&[512, 1023, 4096, 0x8000, u16::MAX.into()]),
            _ => rng.range(1, 511),
        };
        Call::Spare(page, value as u16)
    }

    /// Lets a stopped machine go on: past the instruction, or from an entry of its program.
    pub(crate) fn resume(&mut self, rec: &Record) -> Call {
        let start = self.rng.pick(&self.starts);
        let (dpc, next) = match self.rng.below(8) {
            0 | 1 => (rec.pcp, rec.pcp.wrapping_add(4)),
            2 => (start, self.rng.pick(&self.starts)),
            3 => (start, start.wrapping_add(self.rng.below(8))),
            4 => (value(&self.rng, rec.ptl.clamp(1, 1024)), start),
            5 => (start, value(&self.rng, rec.ptl.clamp(1, 1024))),
            _ => (start, start.wrapping_add(4)),
        };
        Call::Poke(vec![Edit::Word(72, dpc), Edit::Word(73, next)])
    }

    pub(crate) fn limit(&mut self, stuck: bool) -> u32 {
        match self.rng.weighted(&[50, 150, 200, 350, 200, 30, 10]) {
            0 => 0,
            1 => 1,
            2 => self.rng.range(2, 10),
            3 => self.rng.range(11, 300),
            4 => self.rng.range(300, 3000),
            5 => self.rng.pick(&[1_000_001, 1_000_001, u32::MAX, 0x8000_0000]),
            _ if stuck || self.rng.one_in(20) => 1_000_000,
            _ => 10_000,
        }
    }

    fn length(&mut self) -> u32 {
        let some = self.rng.range(4, 64);
        self.rng.pick(&[0, 1, 2, 3, 255, 256, 257, 4, some, some, some, 300])
    }

    fn address(&mut self, rec: &Record, len: u32) -> u32 {
        let ptl = rec.ptl.clamp(1, 1024);
        let border = match self.rng.below(8) {
            0 => 4096 * ptl,
            1 => 0,
            2 | 3 => 4096 * rec.book[self.rng.below(3) as usize].min(1024),
            4 => self.rng.pick(&self.starts),
            5 => self.rng.below(4096 * ptl),
            _ => 4096 * self.rng.below(ptl),
        };
        border.wrapping_sub(self.rng.below(len + 2)).wrapping_add(self.rng.pick(&[0, 0, 1]))
    }

    fn machine(&mut self) -> Call {
        if self.rng.one_in(2) {
            return self.setup();
        }
        let ptl = self.ptl();
        let mut image = self.image(ptl);
        if self.rng.one_in(5) {
            image = self.damaged(image);
        }
        let (ptl, frames) = (image.trailer[2].min(1025) as usize, image.trailer[4]);
        // 3 and 4 pages are too few for a zero in frames, which means 4.
        let least = peer::least_main_pages(frames).max(3) as usize;
        let mut main = 4096 * self.rng.pick(&[least, least, least, 1 + least, 3, 4, 8, 64]);
        let mut swap = 4096 * ptl;
        if self.rng.one_in(8) {
            let wrong = self.rng.pick(&[4096 * (least - 1), main + 1, main - 1, 4096 * 65, 4096 * 2, 0]);
            (main, swap) = self.rng.pick(&[(wrong, swap), (main, swap + 4096), (main, swap.wrapping_sub(1))]);
            swap = swap.min(5 << 20);
        }
        Call::Load(image, main, swap)
    }

    pub(crate) fn ptl(&mut self) -> u32 {
        match self.rng.weighted(&[40, 130, 20, 1]) {
            0 => self.rng.range(1, 3),
            1 => self.rng.range(4, 10),
            2 => self.rng.range(11, 40),
            _ => self.rng.range(1020, 1024),
        }
    }

    /// A machine of any allowed shape, with pages in its frames.
    pub(crate) fn setup(&mut self) -> Call {
        // Seldom all 32 frames hold a page, or all but one: each bit of the marks has a frame.
        let wide = self.rng.one_in(40);
        let ptl = if wide { self.rng.range(32, 40) } else { self.ptl() };
        let rng = &self.rng;
        let p = if rng.one_in(30) { rng.pick(&[3, 64]) } else { rng.range(3, 14) };
        let a = if rng.one_in(2) { 2 } else { rng.range(2, 32.min(p - 1)) };
        let (p, a) = if wide { (rng.range(33, 64), 32) } else { (p, a) };
        let abase = rng.range(1, p - a);
        let room = (4096 * abase - 4 * ptl) / 4;
        let pto = 4 * rng.pick(&[0, room, rng.range(0, room)]);
        let sbase = rng.pick(&[0, 0, 1, 3, 16]);
        let mut rights = rights(rng, ptl);
        let (content, starts) = program(rng, &mut rights);
        let (dpc, pcp) = (starts[0], starts[0].wrapping_add(4));
        let mut rec = Record { p, a, abase, ptl, pto, sbase, dpc, pcp, ..Record::default() };
        for _ in 0..if wide { rng.range(31, 32) } else { rng.range(0, a).min(ptl) } {
            let mut page = rng.below(ptl);
            while rec.book[..rec.b as usize].contains(&page) {
                page = (page + 1) % ptl;
            }
            rec.book[rec.b as usize] = page;
            rec.b += 1;
        }
        rec.hand = if rec.b == a { rng.below(a) } else { 0 };
        rec.marks = ((1u64 << rec.b) - 1) as u32 & rng.word();
        let mut changed = rec.marks & rng.pick(&[u32::MAX, u32::MAX, rng.word()]);
        // Seldom a frame has changed without a mark, or one that holds no page has a mark.
        match rng.below(40) {
            0 => changed = rng.word(),
            1 => rec.marks |= rng.word() & rng.word(),
            _ => {}
        }
        rec.gpr[1..].iter_mut().for_each(|gpr| *gpr = value(rng, ptl));
        let noise = if rng.one_in(3) { 0 } else { rng.next() };
        self.starts = starts;
        Call::Make(Box::new(Setup { rec, changed, rights, content, noise }))
    }

    /// A good image.
    pub fn image(&mut self, ptl: u32) -> Image {
        let rng = &self.rng;
        let mut rights = rights(rng, ptl);
        let (content, starts) = program(rng, &mut rights);
        let label = rng.pick(&[0, 0, 1, 1024, 77]);
        let frames = rng.pick(&[0, 0, 2, 3, 4, 5, 32]);
        let trailer = [24 + ptl, 24 + 4097 * ptl, ptl, starts[0], frames, 1];
        self.starts = starts;
        Image { label, content, rights, trailer, front: 0, back: 0 }
    }

    /// An image with one thing wrong, or that only looks wrong.
    pub fn damaged(&mut self, mut image: Image) -> Image {
        let rng = &self.rng;
        let len = image.bytes().len() as u32;
        match rng.below(10) {
            0 | 1 => {
                let number = &mut image.trailer[rng.below(6) as usize];
                let near = [number.wrapping_add(1), number.wrapping_sub(1), rng.word(), 0, u32::MAX];
                *number = rng.pick(&near);
            }
            2 => image.trailer[4] = rng.pick(&[1, 33, 32, 2, 0]),
            3 => {
                let start = rng.pick(&[image.trailer[3], 0xFFFF_FFFC, rng.word()]);
                image.trailer[3] = start & !3 | rng.pick(&[0, 0, 1, 2, 3]);
            }
            4 => {
                let page = rng.below(image.rights.len() as u32) as usize;
                image.rights[page] = rng.pick(&[4, 255, 8, 0]);
            }
            5 => image.label = rng.pick(&[0, 1, 1024, 1025]),
            6 => image.front = rng.pick(&[1, image.label, image.label + 1, rng.below(len) as usize]),
            7 => image.back = rng.pick(&[1, 4, 24, rng.below(len)]) as usize,
            8 => image.front = (len - rng.below(60)) as usize,
            _ => {
                // Consistent in itself, at or past the end of what ptl may be.
                let ptl = if rng.one_in(40) { rng.pick(&[1024, 1025]) } else { 0 };
                image.rights = vec![3; ptl as usize];
                (image.trailer[0], image.trailer[1], image.trailer[2]) = (24 + ptl, 24 + 4097 * ptl, ptl);
            }
        }
        image
    }

    /// Edits that break (or only touch) one rule of a record and its memories.
    fn damage(&mut self, rec: &Record, state: &State) -> Vec<Edit> {
        let rng = &self.rng;
        let x = rng.below(rec.ptl.clamp(1, 1024));
        let entry = |x: u32| rec.pto.wrapping_add(x.wrapping_mul(4)) as usize;
        let old = |x: u32| get_word(&state.main, entry(x));
        let used = rng.pick(&[rng.below(rec.b.clamp(1, 32)), rec.b.clamp(1, 32) - 1]);
        let near = |v: u32| rng.pick(&[v.wrapping_add(1), v.wrapping_sub(1), 0, 1, u32::MAX]);
        match rng.below(14) {
            0..=2 => self.wrong_shape(rec),
            3 => vec![Edit::Word(6, rng.pick(&[near(rec.b), rec.a, rec.a.wrapping_add(1), 32, 33]))],
            4 => vec![Edit::Word(7, rng.pick(&[near(rec.hand), rec.a.wrapping_sub(1), rec.a]))],
            5 => {
                let other = rec.book[rng.below(32) as usize];
                let page = rng.pick(&[other, x, rec.ptl, rec.ptl.wrapping_sub(1), near(other)]);
                let place = rng.pick(&[used, used, rng.below(32), 31]);
                vec![Edit::Word(8 + place as usize, page)]
            }
            6 | 7 => {
                let page = rng.pick(&[x, rec.book[used as usize], rec.book[used as usize], rec.ptl]);
                let bit = 1 << rng.pick(&[0, 0, 1, 2, rng.range(3, 11), 12, 13, rng.range(12, 31)]);
                let twin = old(rec.book[used as usize]);
                vec![Edit::Main(entry(page), rng.pick(&[old(page) ^ bit, old(page) ^ bit, twin, rng.word()]))]
            }
            8 => {
                // The valid bit stands elsewhere, their number stays.
                let moved = |x| Edit::Main(entry(x), old(x) ^ 1);
                vec![moved(rec.book[used as usize]), moved(x)]
            }
            9 => vec![Edit::Word(MARKS, self.wrong_marks(rec))],
            10 | 11 => {
                // One byte of a resident page, in its frame or in swap: right under a mark alone.
                let inside = rng.pick(&[0, 4095, rng.below(4096), rng.below(4096)]) as usize;
                let page = |number: u32| (number as usize).wrapping_mul(4096).wrapping_add(inside);
                let bit = 1 << rng.below(8);
                vec![if rng.one_in(2) {
                    let at = page(rec.abase.wrapping_add(used));
                    Edit::MainByte(at, get_byte(&state.main, at) ^ bit)
                } else {
                    let at = page(rec.sbase.wrapping_add(rec.book[used as usize]));
                    Edit::SwapByte(at, get_byte(&state.swap, at) ^ bit)
                }]
            }
            12 => vec![Edit::Word(rng.pick(&[40, 40, 72, 73]), rng.pick(&[1, 2, 4, 0x8000_0000, x * 4096]))],
            _ => {
                let swap = rng.one_in(2);
                let len = if swap { state.swap.len() } else { state.main.len() };
                let less = |by| len.saturating_sub(by);
                let wrong = rng.pick(&[len + 1, less(1), len + 4096, less(4096), 0]);
                vec![if swap { Edit::SwapLen(wrong) } else { Edit::MainLen(wrong) }]
            }
        }
    }

    /// Marks with one frame's set or taken away, at times that of an unused frame, or quite other marks.
    fn wrong_marks(&self, rec: &Record) -> u32 {
        let rng = &self.rng;
        let used = rng.pick(&[rng.below(rec.b.clamp(1, 32)), rec.b.clamp(1, 32) - 1]);
        let next = rng.pick(&[rec.b, rec.b, rec.a, rng.below(32), 31]);
        let of = |frame: u32| 1u32.checked_shl(frame).unwrap_or(0);
        rng.pick(&[
            rec.marks ^ of(used),
            rec.marks ^ of(used),
            rec.marks ^ of(next),
            rec.marks ^ of(next),
            0,
            of(rec.b).wrapping_sub(1),
            u32::MAX,
            rng.word(),
        ])
    }

    /// A shape number at, beyond or far beyond a bound; at times the memories follow it.
    fn wrong_shape(&mut self, rec: &Record) -> Vec<Edit> {
        let rng = &self.rng;
        let Record { p, a, abase, ptl, pto, sbase, .. } = *rec;
        let table = ptl.wrapping_mul(4);
        let last = abase.wrapping_mul(4096).wrapping_sub(table);
        let mut shape = [p, a, abase, ptl, pto, sbase];
        let index = rng.below(6) as usize;
        let bounds: Vec<u32> = match index {
            0 => vec![2, 3, 64, 65],
            1 => vec![1, 2, 32, 33, p.wrapping_sub(abase), p.wrapping_sub(abase).wrapping_add(1)],
            2 => vec![1, p.wrapping_sub(a), p.wrapping_sub(a).wrapping_add(1), 0u32.wrapping_sub(a)],
            3 => vec![1, 1024, 1025, 0x4000_0000, 0x4000_0001],
            4 => vec![last, last.wrapping_add(4), 0u32.wrapping_sub(table), pto.wrapping_add(2), 0xFFFF_FFFC],
            _ => vec![16, 17, 0u32.wrapping_sub(ptl)],
        };
        let now = shape[index];
        shape[index] = match rng.below(3) {
            0 => rng.pick(&[now.wrapping_add(1), now.wrapping_sub(1), 0, u32::MAX]),
            _ => rng.pick(&bounds),
        };
        let mut edits = vec![Edit::Word(index, shape[index])];
        if rng.one_in(2) {
            let (main, swap) = (shape[0] as usize, shape[3] as usize + shape[5] as usize);
            let most = if index == 3 { 1100 } else { 70 };
            if main <= 65 {
                edits.push(Edit::MainLen(4096 * main));
            }
            if swap <= most {
                edits.push(Edit::SwapLen(4096 * swap));
            }
        }
        edits
    }
}
