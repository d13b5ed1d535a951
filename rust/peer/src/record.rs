use crate::paging::{MainPage, VirtualPage};
use crate::{refusal, PAGE};

/// The number of words in a record.
pub const WORDS: usize = 75;

/// All that belongs to a machine besides its two lent memories.
#[derive(Clone, Debug, Default, PartialEq, Eq)]
pub struct Record {
    /// P, the pages of main memory.
    pub p: u32,
    /// The number of frames.
    pub a: u32,
    /// The main page of frame 0.
    pub abase: u32,
    /// The number of table entries.
    pub ptl: u32,
    /// The main address of the table.
    pub pto: u32,
    /// The swap page of virtual page 0.
    pub sbase: u32,
    /// The frames used.
    pub b: u32,
    /// The next frame to be emptied.
    pub hand: u32,
    /// B: the virtual page in each used frame.
    pub book: [u32; 32],
    pub gpr: [u32; 32],
    pub dpc: u32,
    /// PC'.
    pub pcp: u32,
    /// "a mark per frame": bit f is the mark of frame f.
    pub marks: u32,
}

impl Record {
    /// P, a, abase, ptl, pto, sbase, b, hand, B, GPR, DPC, PC', marks.
    pub fn to_words(&self) -> [u32; WORDS] {
        let mut words = [0; WORDS];
        let numbers = [self.p, self.a, self.abase, self.ptl, self.pto, self.sbase, self.b, self.hand];
        words[..8].copy_from_slice(&numbers);
        words[8..40].copy_from_slice(&self.book);
        words[40..72].copy_from_slice(&self.gpr);
        words[72..].copy_from_slice(&[self.dpc, self.pcp, self.marks]);
        words
    }

    pub fn from_words(words: &[u32; WORDS]) -> Self {
        let [p, a, abase, ptl, pto, sbase, b, hand, ..] = *words;
        let book = std::array::from_fn(|i| words[8 + i]);
        let gpr = std::array::from_fn(|i| words[40 + i]);
        let [dpc, pcp, marks] = [words[72], words[73], words[74]];
        Record { p, a, abase, ptl, pto, sbase, b, hand, book, gpr, dpc, pcp, marks }
    }

    /// Refusal 1 or 2, if one of them applies.
    pub fn check(&self, main: &[u8], swap: &[u8]) -> Result<(), u32> {
        if !self.in_bounds(main.len(), swap.len()) {
            Err(refusal::SHAPE)
        } else if !self.is_sound(main, swap) {
            Err(refusal::UNSOUND)
        } else {
            Ok(())
        }
    }

    /// "Numbers that bound it."
    fn in_bounds(&self, main_len: usize, swap_len: usize) -> bool {
        let numbers = [self.p, self.a, self.abase, self.ptl, self.pto, self.sbase];
        let [p, a, abase, ptl, pto, sbase] = numbers.map(u64::from);
        let page = PAGE as u64;
        (3..=64).contains(&p)
            && (2..=32).contains(&a)
            && abase >= 1
            && abase + a <= p
            && (1..=1024).contains(&ptl)
            && pto % 4 == 0
            && pto + 4 * ptl <= page * abase
            && sbase <= 16
            && main_len as u64 == page * p
            && swap_len as u64 == page * (sbase + ptl)
    }

    /// "A machine is sound when": for a machine whose shape is in bounds.
    fn is_sound(&self, main: &[u8], swap: &[u8]) -> bool {
        if self.gpr[0] != 0 || self.b > self.a {
            return false;
        }
        let (used, unused) = self.book.split_at(self.b as usize);
        let hand_fits = if self.b < self.a { self.hand == 0 } else { self.hand < self.a };
        let resident = |(&x, page)| match self.entry(main, VirtualPage(x)) {
            Some(entry) => entry.is_valid() && entry.ppx() == MainPage(page),
            None => false,
        };
        hand_fits
            && unused.iter().all(|&x| x == 0)
            && (1..used.len()).all(|i| !used[..i].contains(&used[i]))
            && used.iter().zip(self.abase..).all(resident)
            && self.valid_entries(main) == used.len()
            && self.marks_are_true(main, swap)
    }

    /// "an unmarked resident page equals its swap page", and "marks of unused frames are clear": for a book
    /// that holds pages of the table.
    fn marks_are_true(&self, main: &[u8], swap: &[u8]) -> bool {
        let same = |f, x| main[self.frame(f).bytes()] == swap[self.swap_page(VirtualPage(x)).bytes()];
        u64::from(self.marks) >> self.b == 0
            && (0..self.b).zip(self.book).all(|(f, x)| self.is_marked(self.frame(f)) || same(f, x))
    }

    fn valid_entries(&self, main: &[u8]) -> usize {
        let table = &main[self.pto as usize..][..4 * self.ptl as usize];
        table.chunks_exact(4).filter(|entry| entry[0] & 1 == 1).count()
    }
}
