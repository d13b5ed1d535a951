//! The machines that are timed, each with its record in its own form. Unsafe code is here alone.
use brenwythal::calls;
use harness::State;
use peer::{Record, PAGE};

/// A machine that runs. Its calls panic where they are refused.
pub trait Contender {
    /// Stop, detail, finished, loads, copied.
    fn run(&mut self, limit: u32) -> [u32; 5];
    fn state(&self) -> State;
}

/// A machine that has the calls of a host, too.
pub trait Host: Contender {
    fn read(&mut self, va: u32, into: &mut [u8]);
    fn write(&mut self, va: u32, from: &[u8]);
    fn view(&mut self, page: u32, into: &mut [u8; PAGE]);
    fn reply(&mut self, register: u32, value: u32);
}

/// A name, and how to make the machine of a state.
pub type Entry<M> = (&'static str, fn(State) -> Box<M>);

/// The proved library first, then plain Rust, then C if it could be compiled.
pub fn contenders() -> Vec<Entry<dyn Contender>> {
    let mut entries: Vec<Entry<dyn Contender>> =
        vec![("proved", |state| Box::new(Proved(state))), ("Rust", |state| Box::new(Plain::new(state)))];
    if cfg!(feature = "base") {
        entries.push(("C", |state| Box::new(C(state))));
    }
    entries
}

/// The proved library first, then plain Rust.
pub fn hosts() -> Vec<Entry<dyn Host>> {
    vec![("proved", |state| Box::new(Proved(state))), ("Rust", |state| Box::new(Plain::new(state)))]
}

pub struct Proved(pub State);

impl Contender for Proved {
    fn run(&mut self, limit: u32) -> [u32; 5] {
        let (mut answer, State { words, main, swap }) = ([0; 5], &mut self.0);
        assert_eq!(calls::run(words, main, swap, limit, &mut answer), 0);
        answer
    }

    fn state(&self) -> State {
        self.0.clone()
    }
}

impl Host for Proved {
    fn read(&mut self, va: u32, into: &mut [u8]) {
        assert_eq!(calls::read(&self.0.words, &self.0.main, &self.0.swap, va, into), 0);
    }

    fn write(&mut self, va: u32, from: &[u8]) {
        assert_eq!(calls::write(&mut self.0.words, &mut self.0.main, &mut self.0.swap, va, from), 0);
    }

    fn view(&mut self, page: u32, into: &mut [u8; PAGE]) {
        assert_eq!(calls::view(&self.0.words, &self.0.main, &self.0.swap, page, into), 0);
    }

    fn reply(&mut self, register: u32, value: u32) {
        assert_eq!(calls::reply(&mut self.0.words, register, value), 0);
    }
}

struct Plain {
    rec: Record,
    main: Vec<u8>,
    swap: Vec<u8>,
}

impl Plain {
    fn new(state: State) -> Self {
        Plain { rec: Record::from_words(&state.words), main: state.main, swap: state.swap }
    }
}

impl Contender for Plain {
    fn run(&mut self, limit: u32) -> [u32; 5] {
        let ran = peer::run(&mut self.rec, &mut self.main, &mut self.swap, limit).unwrap();
        [ran.stop, ran.detail, ran.finished, ran.loads, ran.copied]
    }

    fn state(&self) -> State {
        State { words: self.rec.to_words(), main: self.main.clone(), swap: self.swap.clone() }
    }
}

impl Host for Plain {
    fn read(&mut self, va: u32, into: &mut [u8]) {
        peer::host_read(&self.rec, &self.main, &self.swap, va, into).unwrap();
    }

    fn write(&mut self, va: u32, from: &[u8]) {
        peer::host_write(&mut self.rec, &mut self.main, &mut self.swap, va, from).unwrap();
    }

    fn view(&mut self, page: u32, into: &mut [u8; PAGE]) {
        into.copy_from_slice(peer::page_view(&self.rec, &self.main, &self.swap, page).unwrap());
    }

    fn reply(&mut self, register: u32, value: u32) {
        peer::reply(&mut self.rec, register, value).unwrap();
    }
}

/// The machine of base.c, which has the run alone.
struct C(State);

#[cfg(feature = "base")]
extern "C" {
    fn base_run(record: *mut u32, main: *mut u8, swap: *mut u8, limit: u32, answer: *mut u32);
}

impl Contender for C {
    #[cfg(feature = "base")]
    fn run(&mut self, limit: u32) -> [u32; 5] {
        let (mut answer, State { words, main, swap }) = ([0; 5], &mut self.0);
        // SAFETY: it goes where a sound machine's table leads, and only sound machines are handed to it; the
        // record has 75 words, the answer 5.
        unsafe {
            base_run(words.as_mut_ptr(), main.as_mut_ptr(), swap.as_mut_ptr(), limit, answer.as_mut_ptr())
        };
        answer
    }

    #[cfg(not(feature = "base"))]
    fn run(&mut self, _limit: u32) -> [u32; 5] {
        unreachable!("it is no entry without the compiled C")
    }

    fn state(&self) -> State {
        self.0.clone()
    }
}

#[repr(C)]
struct Timespec {
    seconds: std::os::raw::c_long,
    nanoseconds: std::os::raw::c_long,
}

extern "C" {
    fn clock_gettime(clock: std::os::raw::c_int, time: *mut Timespec) -> std::os::raw::c_int;
}

/// The processor time of this thread, in nanoseconds: what other programs take does not count.
pub fn cpu_time() -> f64 {
    const CLOCK_THREAD_CPUTIME_ID: std::os::raw::c_int = 3;
    let mut time = Timespec { seconds: 0, nanoseconds: 0 };
    // SAFETY: the C library fills the lent time, which has the layout of 64-bit Linux.
    let status = unsafe { clock_gettime(CLOCK_THREAD_CPUTIME_ID, &mut time) };
    assert_eq!(status, 0, "clock_gettime");
    time.seconds as f64 * 1e9 + time.nanoseconds as f64
}
