//! The plain engines that are timed, and the proved paged machine beside them.
use crate::contenders::{Entry, Host, Proved};
use brenwythal::plain::calls;
use harness::plain::guest_of;
use harness::PlainState;
use peer::plain::{self, Plain};
use peer::PAGE;

/// A machine that runs a guest. Its calls panic where they are refused.
pub trait Runner {
    /// Stop, detail, finished.
    fn run(&mut self, limit: u32) -> [u32; 3];
    /// The guest, as a plain machine.
    fn guest(&self) -> PlainState;
    fn read(&mut self, va: u32, into: &mut [u8]);
    fn write(&mut self, va: u32, from: &[u8]);
    fn view(&mut self, page: u32, into: &mut [u8; PAGE]);
    fn reply(&mut self, register: u32, value: u32);
}

/// The proved plain engine first, then the proved paged machine, then the plain engine in plain Rust; each of
/// the guest of a paged machine.
pub fn runners() -> Vec<Entry<dyn Runner>> {
    vec![
        ("plain", |state| Box::new(ProvedPlain(guest_of(&state)))),
        ("paged", |state| Box::new(Paged(Proved(state)))),
        ("Rust", |state| Box::new(PlainRust::new(guest_of(&state)))),
    ]
}

struct ProvedPlain(PlainState);

impl Runner for ProvedPlain {
    fn run(&mut self, limit: u32) -> [u32; 3] {
        let (mut answer, PlainState { words, memory, rights }) = ([0; 3], &mut self.0);
        assert_eq!(calls::run(words, memory, rights, limit, &mut answer), 0);
        answer
    }

    fn guest(&self) -> PlainState {
        self.0.clone()
    }

    fn read(&mut self, va: u32, into: &mut [u8]) {
        assert_eq!(calls::read(&self.0.words, &self.0.memory, &self.0.rights, va, into), 0);
    }

    fn write(&mut self, va: u32, from: &[u8]) {
        assert_eq!(calls::write(&self.0.words, &mut self.0.memory, &self.0.rights, va, from), 0);
    }

    fn view(&mut self, page: u32, into: &mut [u8; PAGE]) {
        assert_eq!(calls::view(&self.0.words, &self.0.memory, &self.0.rights, page, into), 0);
    }

    fn reply(&mut self, register: u32, value: u32) {
        assert_eq!(calls::reply(&mut self.0.words, register, value), 0);
    }
}

/// A paged machine, whose loads do not count here.
struct Paged<M>(M);

impl<M: Host> Runner for Paged<M> {
    fn run(&mut self, limit: u32) -> [u32; 3] {
        let [stop, detail, finished, ..] = self.0.run(limit);
        [stop, detail, finished]
    }

    fn guest(&self) -> PlainState {
        guest_of(&self.0.state())
    }

    fn read(&mut self, va: u32, into: &mut [u8]) {
        self.0.read(va, into);
    }

    fn write(&mut self, va: u32, from: &[u8]) {
        self.0.write(va, from);
    }

    fn view(&mut self, page: u32, into: &mut [u8; PAGE]) {
        self.0.view(page, into);
    }

    fn reply(&mut self, register: u32, value: u32) {
        self.0.reply(register, value);
    }
}

struct PlainRust {
    record: Plain,
    memory: Vec<u8>,
    rights: Vec<u8>,
}

impl PlainRust {
    fn new(guest: PlainState) -> Self {
        let PlainState { words, memory, rights } = guest;
        PlainRust { record: Plain::from_words(&words), memory, rights }
    }
}

impl Runner for PlainRust {
    fn run(&mut self, limit: u32) -> [u32; 3] {
        let ran = plain::run(&mut self.record, &mut self.memory, &self.rights, limit).unwrap();
        [ran.stop, ran.detail, ran.finished]
    }

    fn guest(&self) -> PlainState {
        let (words, memory, rights) = (self.record.to_words(), self.memory.clone(), self.rights.clone());
        PlainState { words, memory, rights }
    }

    fn read(&mut self, va: u32, into: &mut [u8]) {
        plain::host_read(&self.record, &self.memory, &self.rights, va, into).unwrap();
    }

    fn write(&mut self, va: u32, from: &[u8]) {
        plain::host_write(&self.record, &mut self.memory, &self.rights, va, from).unwrap();
    }

    fn view(&mut self, page: u32, into: &mut [u8; PAGE]) {
        into.copy_from_slice(plain::page_view(&self.record, &self.memory, &self.rights, page).unwrap());
    }

    fn reply(&mut self, register: u32, value: u32) {
        plain::reply(&mut self.record, register, value).unwrap();
    }
}
