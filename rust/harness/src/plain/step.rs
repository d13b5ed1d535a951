//! The steps of a series with a plain machine: how each is carried out, printed, and made smaller.
use super::engine::{PlainEngine, PlainState};
use crate::call::{get_byte, put_byte, shorter, Answer, Call, Image, Setup};
use crate::compare::Simpler;
use crate::engine::ImageAnswer;
use peer::plain::{Plain, WORDS};
use peer::PAGE;
use std::fmt;

#[derive(Clone)]
pub enum Step {
    /// A call of both machines, or of the plain one alone.
    Call(Call),
    /// An image and the lengths of memory and rights, for the plain machine alone.
    Load(Image, usize, usize),
    /// The plain machine changed by hand.
    Poke(Vec<Edit>),
}

#[derive(Clone, Debug)]
pub enum Edit {
    Word(usize, u32),
    Byte(usize, u8),
    Right(usize, u8),
    MemoryLen(usize),
    RightsLen(usize),
}

impl Edit {
    fn apply(&self, state: &mut PlainState) {
        match *self {
            Edit::Word(index, value) => state.words[index] = value,
            Edit::Byte(at, byte) => put_byte(&mut state.memory, at, byte),
            Edit::Right(page, byte) => put_byte(&mut state.rights, page, byte),
            Edit::MemoryLen(len) => state.memory.resize(len, 0),
            Edit::RightsLen(len) => state.rights.resize(len, 0),
        }
    }

    /// The edit that takes this one back.
    pub fn inverse(&self, state: &PlainState) -> Edit {
        match *self {
            Edit::Word(index, _) => Edit::Word(index, state.words[index]),
            Edit::Byte(at, _) => Edit::Byte(at, get_byte(&state.memory, at)),
            Edit::Right(page, _) => Edit::Right(page, get_byte(&state.rights, page)),
            Edit::MemoryLen(_) => Edit::MemoryLen(state.memory.len()),
            Edit::RightsLen(_) => Edit::RightsLen(state.rights.len()),
        }
    }
}

impl Step {
    pub fn apply(&self, engine: &mut dyn PlainEngine, state: &mut PlainState) -> Answer {
        match self {
            Step::Call(call) => apply(call, engine, state),
            Step::Load(image, memory, rights) => load(image, *memory, *rights, engine, state),
            Step::Poke(edits) => {
                edits.iter().for_each(|edit| edit.apply(state));
                Answer::Nothing
            }
        }
    }
}

/// A call on a plain machine. What the paged machine has more is left out: a machine put together by hand has
/// its guest alone, of its record the registers alone are changed, and spare bits do nothing.
fn apply(call: &Call, engine: &mut dyn PlainEngine, state: &mut PlainState) -> Answer {
    match call {
        Call::Make(setup) => *state = guest(setup),
        Call::Poke(edits) => edits.iter().for_each(|edit| {
            if let crate::call::Edit::Word(index @ 40..=73, value) = *edit {
                state.words[index - 39] = value;
            }
        }),
        Call::Load(image, _, swap) => return load(image, *swap, swap / PAGE, engine, state),
        Call::Image(image) => {
            let [refusal, ptl, start, frames] = engine.read_image(&image.bytes());
            let numbers = ImageAnswer { refusal, ptl, start, frames, ..ImageAnswer::default() };
            return Answer::Image(numbers, 0);
        }
        Call::Run(limit) => {
            let [refusal, stop, detail, finished] = engine.run(state, *limit);
            return Answer::Ran([refusal, stop, detail, finished, 0, 0]);
        }
        Call::Read(va, len) => {
            let mut buffer = vec![0xEE; *len];
            return Answer::Bytes(engine.host_read(state, *va, &mut buffer), buffer);
        }
        Call::Write(va, bytes) => return Answer::Code(engine.host_write(state, *va, bytes)),
        Call::View(page) => {
            let (refusal, bytes) = engine.page_view(state, *page);
            return Answer::Bytes(refusal, bytes);
        }
        Call::Reply(register, value) => return Answer::Code(engine.reply(state, *register, *value)),
        Call::Spare(..) => {}
    }
    Answer::Nothing
}

fn load(
    image: &Image,
    memory: usize,
    rights: usize,
    engine: &mut dyn PlainEngine,
    state: &mut PlainState,
) -> Answer {
    *state = PlainState { words: [0xDEAD; WORDS], memory: vec![0x5A; memory], rights: vec![0xA5; rights] };
    Answer::Code(engine.load(&image.bytes(), state))
}

/// The plain machine of the same guest.
fn guest(setup: &Setup) -> PlainState {
    let rec = &setup.rec;
    let plain = Plain { ptl: rec.ptl, gpr: rec.gpr, dpc: rec.dpc, pcp: rec.pcp };
    let mut memory = vec![0; rec.ptl as usize * PAGE];
    setup.content.put(&mut memory);
    PlainState { words: plain.to_words(), memory, rights: setup.rights.clone() }
}

/// Of a paged machine's answer what the plain engine answers, too.
pub(super) fn told(answer: &Answer) -> Answer {
    match answer.clone() {
        Answer::Ran([refusal, stop, detail, finished, ..]) => {
            Answer::Ran([refusal, stop, detail, finished, 0, 0])
        }
        Answer::Image(numbers, _) => Answer::Image(ImageAnswer { pages: 0..0, rights: 0..0, ..numbers }, 0),
        Answer::Spare(..) => Answer::Nothing,
        answer => answer,
    }
}

pub(super) fn word_name(index: usize) -> String {
    match index {
        0 => "ptl".into(),
        1..=32 => format!("GPR {}", index - 1),
        33 => "DPC".into(),
        _ => "PC'".into(),
    }
}

impl Simpler for Step {
    fn simpler(&self) -> Vec<Step> {
        match self {
            Step::Call(call) => call.simpler().into_iter().map(Step::Call).collect(),
            Step::Load(image, memory, rights) => {
                let with = |image| Step::Load(image, *memory, *rights);
                image.simpler().into_iter().map(with).collect()
            }
            Step::Poke(edits) => shorter(edits).into_iter().map(Step::Poke).collect(),
        }
    }
}

impl fmt::Display for Step {
    fn fmt(&self, f: &mut fmt::Formatter) -> fmt::Result {
        match self {
            Step::Call(call) => call.fmt(f),
            Step::Load(image, memory, rights) => write!(f, "load memory={memory} rights={rights} {image}"),
            Step::Poke(edits) => {
                write!(f, "poke")?;
                edits.iter().try_for_each(|edit| match edit {
                    Edit::Word(index, value) => write!(f, " {}={value:#x}", word_name(*index)),
                    other => write!(f, " {other:x?}"),
                })
            }
        }
    }
}
