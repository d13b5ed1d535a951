//! What is compared: an engine answers the calls of document 01 on a state that is lent to it.
use peer::{Record, WORDS};
use std::ops::Range;

/// A record, as words in the order P, a, abase, ptl, pto, sbase, b, hand, B, GPR, DPC, PC', marks, and the
/// memories.
#[derive(Clone, PartialEq, Eq)]
pub struct State {
    pub words: [u32; WORDS],
    pub main: Vec<u8>,
    pub swap: Vec<u8>,
}

impl Default for State {
    fn default() -> Self {
        State { words: [0; WORDS], main: Vec::new(), swap: Vec::new() }
    }
}

/// The answer of the image reader; a part is its place in the image, an empty part is 0..0.
#[derive(Clone, Debug, Default, PartialEq, Eq)]
pub struct ImageAnswer {
    pub refusal: u32,
    pub ptl: u32,
    pub start: u32,
    pub frames: u32,
    pub pages: Range<usize>,
    pub rights: Range<usize>,
}

/// A refusal is its number, and 0 where the call was not refused. Other numbers of a refused call are given
/// as the engine has them (they must be 0). Memories are never resized by an engine.
pub trait Engine {
    /// Sets `state.words` (to zeros if refused) and both memories.
    fn load(&mut self, image: &[u8], state: &mut State) -> u32;
    /// Refusal, stop, detail, finished, loads, copied.
    fn run(&mut self, state: &mut State, limit: u32) -> [u32; 6];
    fn host_read(&mut self, state: &mut State, va: u32, buffer: &mut [u8]) -> u32;
    fn host_write(&mut self, state: &mut State, va: u32, bytes: &[u8]) -> u32;
    /// The refusal, and the viewed bytes copied out.
    fn page_view(&mut self, state: &mut State, page: u32) -> (u32, Vec<u8>);
    fn reply(&mut self, state: &mut State, register: u32, value: u32) -> u32;
    fn read_image(&mut self, image: &[u8]) -> ImageAnswer;
    /// How many main pages an image with these frames needs at least; 0 where no image has them.
    fn least_main_pages(&mut self, frames: u32) -> u32;
    /// What the host does between calls: other bits 11–3 in the entry of a page; whether it was done. It is
    /// no call of the machine, so an engine need not bring its own.
    fn set_spare(&mut self, state: &mut State, page: u32, value: u16) -> bool {
        with(state, |rec, main, _| peer::set_spare(rec, main, page, value))
    }
    /// These bits, or none where the page has no entry.
    fn spare(&mut self, state: &mut State, page: u32) -> Option<u16> {
        with(state, |rec, main, _| peer::spare(rec, main, page))
    }
}

/// The place of `part`, which is cut from `whole`, by its address.
pub fn place_of(whole: &[u8], part: &[u8]) -> Range<usize> {
    if part.is_empty() {
        return 0..0;
    }
    let at = (part.as_ptr() as usize).wrapping_sub(whole.as_ptr() as usize);
    at..at.wrapping_add(part.len())
}

/// The machine of crate `peer`.
pub struct Peer;

fn with<T>(state: &mut State, call: impl FnOnce(&mut Record, &mut [u8], &mut [u8]) -> T) -> T {
    let mut rec = Record::from_words(&state.words);
    let answer = call(&mut rec, &mut state.main, &mut state.swap);
    state.words = rec.to_words();
    answer
}

pub(crate) fn number<T>(answer: Result<T, u32>) -> u32 {
    answer.err().unwrap_or(0)
}

impl Engine for Peer {
    fn load(&mut self, image: &[u8], state: &mut State) -> u32 {
        let answer = peer::load(image, &mut state.main, &mut state.swap);
        state.words = answer.as_ref().map_or([0; WORDS], Record::to_words);
        number(answer)
    }

    fn run(&mut self, state: &mut State, limit: u32) -> [u32; 6] {
        match with(state, |rec, main, swap| peer::run(rec, main, swap, limit)) {
            Ok(ran) => [0, ran.stop, ran.detail, ran.finished, ran.loads, ran.copied],
            Err(refusal) => [refusal, 0, 0, 0, 0, 0],
        }
    }

    fn host_read(&mut self, state: &mut State, va: u32, buffer: &mut [u8]) -> u32 {
        number(with(state, |rec, main, swap| peer::host_read(rec, main, swap, va, buffer)))
    }

    fn host_write(&mut self, state: &mut State, va: u32, bytes: &[u8]) -> u32 {
        number(with(state, |rec, main, swap| peer::host_write(rec, main, swap, va, bytes)))
    }

    fn page_view(&mut self, state: &mut State, page: u32) -> (u32, Vec<u8>) {
        match with(state, |rec, main, swap| peer::page_view(rec, main, swap, page).map(<[u8]>::to_vec)) {
            Ok(bytes) => (0, bytes),
            Err(refusal) => (refusal, Vec::new()),
        }
    }

    fn reply(&mut self, state: &mut State, register: u32, value: u32) -> u32 {
        number(with(state, |rec, _, _| peer::reply(rec, register, value)))
    }

    fn read_image(&mut self, image: &[u8]) -> ImageAnswer {
        match peer::read_image(image) {
            Ok(info) => ImageAnswer {
                refusal: 0,
                ptl: info.ptl,
                start: info.start,
                frames: info.frames,
                pages: place_of(image, info.pages),
                rights: place_of(image, info.rights),
            },
            Err(refusal) => ImageAnswer { refusal, ..ImageAnswer::default() },
        }
    }

    fn least_main_pages(&mut self, frames: u32) -> u32 {
        peer::least_main_pages(frames)
    }
}
