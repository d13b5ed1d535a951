//! What is compared: a plain engine answers its calls on a state that is lent to it.
use crate::call::get_word;
use crate::engine::{number, State};
use peer::plain::{self, Plain, WORDS};
use peer::{Record, PAGE};

/// A record, as words in the order ptl, GPR, DPC, PC', the memory and the rights.
#[derive(Clone, PartialEq, Eq)]
pub struct PlainState {
    pub words: [u32; WORDS],
    pub memory: Vec<u8>,
    pub rights: Vec<u8>,
}

impl Default for PlainState {
    fn default() -> Self {
        PlainState { words: [0; WORDS], memory: Vec::new(), rights: Vec::new() }
    }
}

/// A refusal is its number, and 0 where the call was not refused. Other numbers of a refused call are given
/// as the engine has them (they must be 0). Memory and rights are never resized by an engine.
pub trait PlainEngine {
    /// Sets `state.words` (to zeros if refused), memory and rights.
    fn load(&mut self, image: &[u8], state: &mut PlainState) -> u32;
    /// Refusal, stop, detail, finished.
    fn run(&mut self, state: &mut PlainState, limit: u32) -> [u32; 4];
    fn host_read(&mut self, state: &mut PlainState, va: u32, buffer: &mut [u8]) -> u32;
    fn host_write(&mut self, state: &mut PlainState, va: u32, bytes: &[u8]) -> u32;
    /// The refusal, and the viewed bytes copied out.
    fn page_view(&mut self, state: &mut PlainState, page: u32) -> (u32, Vec<u8>);
    fn reply(&mut self, state: &mut PlainState, register: u32, value: u32) -> u32;
    /// Refusal, ptl, start, frames as written.
    fn read_image(&mut self, image: &[u8]) -> [u32; 4];
}

/// The bytes of a page in the table of a paged machine, in its frame or in swap: what the plain machine of
/// the same guest has in its memory.
pub fn guest_page(state: &State, page: u32) -> &[u8] {
    let entry = entry(state, page);
    let (bytes, number) =
        if entry & 1 == 1 { (&state.main, entry >> 12) } else { (&state.swap, state.words[5] + page) };
    &bytes[number as usize * PAGE..][..PAGE]
}

/// The plain machine of a sound paged machine's guest.
pub fn guest_of(state: &State) -> PlainState {
    let Record { ptl, gpr, dpc, pcp, .. } = Record::from_words(&state.words);
    let right = |page| (entry(state, page) >> 2 & 1 | entry(state, page) & 2) as u8;
    PlainState {
        words: Plain { ptl, gpr, dpc, pcp }.to_words(),
        memory: (0..ptl).flat_map(|page| guest_page(state, page).iter().copied()).collect(),
        rights: (0..ptl).map(right).collect(),
    }
}

/// The table's entry of a page.
fn entry(state: &State, page: u32) -> u32 {
    get_word(&state.main, (state.words[4] + 4 * page) as usize)
}

/// The plain engine of crate `peer`.
pub struct PlainPeer;

impl PlainEngine for PlainPeer {
    fn load(&mut self, image: &[u8], state: &mut PlainState) -> u32 {
        let answer = plain::load(image, &mut state.memory, &mut state.rights);
        state.words = answer.as_ref().map_or([0; WORDS], Plain::to_words);
        number(answer)
    }

    fn run(&mut self, state: &mut PlainState, limit: u32) -> [u32; 4] {
        let mut record = Plain::from_words(&state.words);
        let answer = plain::run(&mut record, &mut state.memory, &state.rights, limit);
        state.words = record.to_words();
        match answer {
            Ok(ran) => [0, ran.stop, ran.detail, ran.finished],
            Err(refusal) => [refusal, 0, 0, 0],
        }
    }

    fn host_read(&mut self, state: &mut PlainState, va: u32, buffer: &mut [u8]) -> u32 {
        number(plain::host_read(&Plain::from_words(&state.words), &state.memory, &state.rights, va, buffer))
    }

    fn host_write(&mut self, state: &mut PlainState, va: u32, bytes: &[u8]) -> u32 {
        number(plain::host_write(
            &Plain::from_words(&state.words),
            &mut state.memory,
            &state.rights,
            va,
            bytes,
        ))
    }

    fn page_view(&mut self, state: &mut PlainState, page: u32) -> (u32, Vec<u8>) {
        match plain::page_view(&Plain::from_words(&state.words), &state.memory, &state.rights, page) {
            Ok(bytes) => (0, bytes.to_vec()),
            Err(refusal) => (refusal, Vec::new()),
        }
    }

    fn reply(&mut self, state: &mut PlainState, register: u32, value: u32) -> u32 {
        let mut record = Plain::from_words(&state.words);
        let answer = plain::reply(&mut record, register, value);
        state.words = record.to_words();
        number(answer)
    }

    fn read_image(&mut self, image: &[u8]) -> [u32; 4] {
        match peer::read_image(image) {
            Ok(info) => [0, info.ptl, info.start, info.frames],
            Err(refusal) => [refusal, 0, 0, 0],
        }
    }
}
