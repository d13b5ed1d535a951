//! The three page numbers, the table, and the handler.
use crate::{word_at, Record, PAGE};
use std::ops::Range;

/// A page of the guest's addresses.
#[derive(Clone, Copy, Debug, PartialEq, Eq)]
pub(crate) struct VirtualPage(pub u32);

/// A page of main memory.
#[derive(Clone, Copy, Debug, PartialEq, Eq)]
pub(crate) struct MainPage(pub u32);

/// A page of swap memory.
#[derive(Clone, Copy, Debug, PartialEq, Eq)]
pub(crate) struct SwapPage(pub u32);

impl VirtualPage {
    pub fn of(va: u32) -> Self {
        VirtualPage(va / PAGE as u32)
    }
}

impl MainPage {
    pub fn of(address: usize) -> Self {
        MainPage((address / PAGE) as u32)
    }

    pub fn bytes(self) -> Range<usize> {
        let start = self.0 as usize * PAGE;
        start..start + PAGE
    }
}

impl SwapPage {
    pub fn bytes(self) -> Range<usize> {
        let start = self.0 as usize * PAGE;
        start..start + PAGE
    }
}

#[derive(Clone, Copy)]
pub(crate) enum Access {
    Read,
    Write,
}

/// What a page load leaves as it is, bits 11–1: r, w, and bits 11–3, which are the host's.
const KEPT: u32 = 0xFFE;

/// A table entry: "bits 31–12 ppx, bit 2 r, bit 1 w, bit 0 v". Bits 11–3 are the host's.
#[derive(Clone, Copy)]
pub(crate) struct Entry(pub u32);

impl Entry {
    pub fn ppx(self) -> MainPage {
        MainPage(self.0 >> 12)
    }

    pub fn is_valid(self) -> bool {
        self.0 & 1 != 0
    }

    fn allows(self, access: Access) -> bool {
        match access {
            Access::Read => self.0 & 4 != 0,
            Access::Write => self.0 & 2 != 0,
        }
    }

    /// "its entry gets ppx 0 and v 0".
    fn absent(self) -> Self {
        Entry(self.0 & KEPT)
    }

    /// "y's entry gets ppx abase+f and v 1".
    fn resident(self, frame: MainPage) -> Self {
        Entry(frame.0 << 12 | self.0 & KEPT | 1)
    }
}

/// Where a page that may be accessed stands.
pub(crate) enum Place {
    Main(MainPage),
    Swap(SwapPage),
}

impl Record {
    fn entry_at(&self, x: VirtualPage) -> usize {
        (self.pto + 4 * x.0) as usize
    }

    pub(crate) fn swap_page(&self, x: VirtualPage) -> SwapPage {
        SwapPage(self.sbase + x.0)
    }

    pub(crate) fn frame(&self, f: u32) -> MainPage {
        MainPage(self.abase + f)
    }

    pub(crate) fn is_marked(&self, frame: MainPage) -> bool {
        self.marks >> (frame.0 - self.abase) & 1 == 1
    }

    /// "set by a guest store and by a host write of at least one byte".
    pub(crate) fn mark(&mut self, frame: MainPage) {
        self.marks |= 1 << (frame.0 - self.abase);
    }

    /// "cleared by a load".
    fn unmark(&mut self, frame: MainPage) {
        self.marks &= !(1 << (frame.0 - self.abase));
    }

    /// The entry of page x, if the table covers it.
    pub(crate) fn entry(&self, main: &[u8], x: VirtualPage) -> Option<Entry> {
        (x.0 < self.ptl).then(|| Entry(word_at(main, self.entry_at(x))))
    }

    /// The place of page x, or none if the access is illegal.
    pub(crate) fn place(&self, main: &[u8], x: VirtualPage, access: Access) -> Option<Place> {
        match self.entry(main, x) {
            Some(entry) if !entry.allows(access) => None,
            Some(entry) if entry.is_valid() => Some(Place::Main(entry.ppx())),
            Some(_) => Some(Place::Swap(self.swap_page(x))),
            None => None,
        }
    }
}

/// A checked machine and its lent memories.
pub(crate) struct Machine<'m> {
    pub rec: &'m mut Record,
    pub main: &'m mut [u8],
    pub swap: &'m mut [u8],
}

impl Machine<'_> {
    /// "The handler loads page y." Whether a page was copied back to swap for it.
    pub fn load_page(&mut self, y: VirtualPage) -> bool {
        let (f, copied) = self.empty_frame();
        let frame = self.rec.frame(f);
        self.main[frame.bytes()].copy_from_slice(&self.swap[self.rec.swap_page(y).bytes()]);
        self.rec.book[f as usize] = y.0;
        self.rec.unmark(frame);
        self.change_entry(y, |entry| entry.resident(frame));
        copied
    }

    /// A frame for the next page: an unused one, else the one at the hand, whose page leaves. Whether that
    /// page was copied back: "An unmarked victim is not copied."
    fn empty_frame(&mut self) -> (u32, bool) {
        let rec = &mut *self.rec;
        if rec.b < rec.a {
            rec.b += 1;
            return (rec.b - 1, false);
        }
        let f = rec.hand;
        rec.hand = (f + 1) % rec.a;
        let x = VirtualPage(rec.book[f as usize]);
        let copied = rec.is_marked(rec.frame(f));
        if copied {
            self.swap[rec.swap_page(x).bytes()].copy_from_slice(&self.main[rec.frame(f).bytes()]);
        }
        self.change_entry(x, Entry::absent);
        (f, copied)
    }

    fn change_entry(&mut self, x: VirtualPage, change: impl Fn(Entry) -> Entry) {
        let at = self.rec.entry_at(x);
        let Entry(word) = change(Entry(word_at(self.main, at)));
        self.main[at..at + 4].copy_from_slice(&word.to_le_bytes());
    }
}
