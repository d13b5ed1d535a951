//! Series with a plain machine: what is asked of it and the paged machine, and of it alone when it is damaged.
use super::engine::PlainState;
use super::step::{Edit, Step};
use crate::call::{self, Answer, Call, Image};
use crate::engine::State;
use crate::generate::Generator;
use peer::plain::Plain;
use peer::Record;

/// Where GPR 0 stands in a paged machine's record, and in a plain one's; where DPC stands in that.
const PAGED_GPR: usize = 40;
const GPR: usize = 1;
const DPC: usize = 33;

pub struct Maker {
    generator: Generator,
    /// What takes the present damage of a plain machine back.
    undo: Vec<Edit>,
}

impl Maker {
    pub fn new(seed: u64, series: u64) -> Self {
        Maker { generator: Generator::new(seed, series), undo: Vec::new() }
    }

    /// The next call of both machines, for a paged one in this state whose last answer was this. They begin
    /// with an image that both take or both refuse; by hand only registers are changed.
    pub fn next_of_both(&mut self, state: &State, last: &Answer) -> Call {
        let rec = Record::from_words(&state.words);
        let rng = &self.generator.rng;
        let gpr0 = |value| Call::Poke(vec![call::Edit::Word(PAGED_GPR, value)]);
        if rec.ptl == 0 && (state.main.is_empty() || rng.one_in(3)) {
            return self.image_for_both();
        } else if rec.gpr[0] != 0 && rng.one_in(3) {
            return gpr0(0);
        }
        let stuck = matches!(last, Answer::Ran([0, 2..=4, ..]));
        if stuck && rng.one_in(2) {
            return self.generator.resume(&rec);
        }
        match rng.weighted(&[46, 12, 14, 6, 6, 2, 3, 9, 2]) {
            0 => Call::Run(self.generator.limit(stuck)),
            1 => self.generator.read(&rec),
            2 => self.generator.write(&rec, |va, bytes| {
                let _ = peer::host_read(&rec, &state.main, &state.swap, va, bytes);
            }),
            3 => self.generator.view(&rec),
            4 => self.generator.reply(&rec),
            5 => gpr0(rng.pick(&[1, 0x8000_0000, rng.word()])),
            6 => self.generator.reading(),
            7 => self.generator.spare(&rec),
            _ => self.image_for_both(),
        }
    }

    /// An image, at times damaged, with room for its frames; seldom with the wrong length for its pages, of
    /// which swap and the plain machine's memory have the same.
    fn image_for_both(&mut self) -> Call {
        let image = self.image(4);
        let rng = &self.generator.rng;
        let least = peer::least_main_pages(image.trailer[4]).max(3) as usize;
        let main = 4096 * rng.pick(&[least, least, least, least + 1, 64]);
        let mut pages = 4096 * ptl_of(&image);
        if rng.one_in(10) {
            pages = rng.pick(&[pages + 4096, pages + 1, pages.saturating_sub(1), 0]);
        }
        Call::Load(image, main, pages)
    }

    /// An image, one of so many damaged.
    fn image(&mut self, many: u32) -> Image {
        let ptl = self.generator.ptl();
        let image = self.generator.image(ptl);
        if self.generator.rng.one_in(many) {
            return self.generator.damaged(image);
        }
        image
    }

    /// The next step of the plain machine alone: in this state, whose last answer was this.
    pub fn next_alone(&mut self, state: &PlainState, last: &Answer) -> Step {
        let plain = Plain::from_words(&state.words);
        let rng = &self.generator.rng;
        if plain.check(&state.memory, &state.rights).is_ok() {
            self.undo.clear();
        } else if self.undo.is_empty() && rng.one_in(3) || state.memory.is_empty() && rng.one_in(2) {
            return self.machine();
        } else if !self.undo.is_empty() && rng.one_in(3) {
            return Step::Poke(std::mem::take(&mut self.undo));
        }
        // The calls are made as for a paged machine that has no page in a frame.
        let Plain { ptl, gpr, dpc, pcp } = plain;
        let rec = Record { ptl, gpr, dpc, pcp, ..Record::default() };
        let stuck = matches!(last, Answer::Ran([0, 2..=4, ..]));
        if stuck && rng.one_in(2) {
            return Step::Call(self.generator.resume(&rec));
        }
        Step::Call(match rng.weighted(&[36, 14, 16, 8, 6, 18, 2]) {
            0 => Call::Run(self.generator.limit(stuck)),
            1 => self.generator.read(&rec),
            2 => self.generator.write(&rec, |_, _| {}),
            3 => self.generator.view(&rec),
            4 => self.generator.reply(&rec),
            5 => {
                let mut edits = self.damage(state);
                if self.generator.rng.one_in(6) {
                    edits.extend(self.damage(state));
                }
                self.undo.splice(0..0, edits.iter().map(|edit| edit.inverse(state)));
                return Step::Poke(edits);
            }
            _ => self.generator.reading(),
        })
    }

    /// A plain machine: with any registers, or of an image, at times with a wrong length.
    fn machine(&mut self) -> Step {
        if self.generator.rng.one_in(2) {
            return Step::Call(self.generator.setup());
        }
        let image = self.image(5);
        let rng = &self.generator.rng;
        let ptl = ptl_of(&image);
        let (mut memory, mut rights) = (4096 * ptl, ptl);
        if rng.one_in(4) {
            let other = rng.pick(&[memory + 1, memory.saturating_sub(1), memory + 4096, rights, 0]);
            let fewer = rng.pick(&[rights + 1, rights.saturating_sub(1), 2 * rights, 0]);
            (memory, rights) = rng.pick(&[(other, rights), (memory, fewer), (memory + 4096, rights + 1)]);
        }
        Step::Load(image, memory, rights)
    }

    /// Edits that break (or only touch) one rule of a record, its memory and its rights.
    fn damage(&mut self, state: &PlainState) -> Vec<Edit> {
        let rng = &self.generator.rng;
        let (ptl, memory, rights) = (state.words[0], state.memory.len(), state.rights.len());
        let page = rng.pick(&[0, rights.saturating_sub(1), rng.below(rights.max(1) as u32) as usize]);
        match rng.below(10) {
            0 | 1 => self.wrong_ptl(ptl),
            2 => vec![Edit::Word(GPR, rng.pick(&[1, 2, 0x8000_0000, u32::MAX]))],
            3..=5 => vec![Edit::Right(page, rng.pick(&[4, 4, 5, 7, 8, 128, 252, 255, 0, 1, 2, 3]))],
            6 => {
                let less = |by| memory.saturating_sub(by);
                vec![Edit::MemoryLen(rng.pick(&[memory + 1, less(1), memory + 4096, less(4096), rights, 0]))]
            }
            7 => vec![Edit::RightsLen(rng.pick(&[rights + 1, rights.saturating_sub(1), 2 * rights, 0]))],
            8 => {
                let end = ptl.wrapping_mul(4096);
                let va = rng.pick(&[end, end.wrapping_sub(4), 1, 2, 0xFFFF_FFFC, u32::MAX, rng.word()]);
                vec![Edit::Word(rng.pick(&[DPC, DPC + 1]), va)]
            }
            _ => {
                let at =
                    rng.pick(&[0, 4095, memory.saturating_sub(1), rng.below(memory.max(1) as u32) as usize]);
                vec![Edit::Byte(at, rng.word() as u8)]
            }
        }
    }

    /// ptl at, beyond or far beyond a bound, or such that 4096 times it goes round; at times the lengths follow.
    fn wrong_ptl(&self, ptl: u32) -> Vec<Edit> {
        let rng = &self.generator.rng;
        let round = rng.pick(&[1 << 20, ptl.wrapping_add(1 << 20), ptl.wrapping_add(1 << 31)]);
        let near = rng.pick(&[ptl.wrapping_add(1), ptl.wrapping_sub(1)]);
        let bound = rng.pick(&[0, 0, 1, 1024, 1025, 1025, u32::MAX]);
        let ptl = rng.pick(&[bound, bound, near, round]);
        let mut edits = vec![Edit::Word(0, ptl)];
        if ptl <= 1025 && rng.one_in(if ptl < 1000 { 2 } else { 4 }) {
            edits.extend([Edit::MemoryLen(4096 * ptl as usize), Edit::RightsLen(ptl as usize)]);
        }
        edits
    }
}

/// The pages of an image as its trailer says, within reason.
fn ptl_of(image: &Image) -> usize {
    image.trailer[2].min(1025) as usize
}
