//! The calls of a series: how each is carried out, printed, and made smaller.
use crate::compare::Simpler;
use crate::engine::{Engine, ImageAnswer, State};
use crate::rng::{fill, Rng};
use peer::{Record, PAGE, WORDS};
use std::fmt;

#[derive(Clone)]
pub enum Call {
    /// Put a machine together by hand (the harness does this, on both sides).
    Make(Box<Setup>),
    /// Change record, memory or lengths by hand.
    Poke(Vec<Edit>),
    /// An image and the lengths of main and swap memory.
    Load(Image, usize, usize),
    Image(Image),
    Run(u32),
    /// Address and length.
    Read(u32, usize),
    Write(u32, Vec<u8>),
    View(u32),
    /// Register and value.
    Reply(u32, u32),
    /// The host's change of a page's spare bits: page and value.
    Spare(u32, u16),
}

#[derive(Clone, Debug, PartialEq)]
pub enum Answer {
    Nothing,
    Code(u32),
    Ran([u32; 6]),
    Bytes(u32, Vec<u8>),
    /// The reader's answer, and the main pages for the frames that stand in the trailer, right or not.
    Image(ImageAnswer, u32),
    /// Whether the bits were changed, and what stands there then.
    Spare(bool, Option<u16>),
}

/// The bytes of pages: noise or zeros, and words at virtual addresses.
#[derive(Clone, Default)]
pub struct Content {
    pub seed: u64,
    pub words: Vec<(u32, u32)>,
}

/// A machine with any record. The resident pages are those of its frame book.
#[derive(Clone)]
pub struct Setup {
    pub rec: Record,
    /// Bit f: the page in frame f has changed, so its swap page is another. Elsewhere they are equal, under a
    /// mark too; where a frame has changed and has no mark, the machine is not sound.
    pub changed: u32,
    pub rights: Vec<u8>,
    pub content: Content,
    /// Noise in every byte and bit that has no meaning, if not 0.
    pub noise: u64,
}

/// An image; the trailer says what it says, and bytes may lack at both ends.
#[derive(Clone)]
pub struct Image {
    pub label: usize,
    pub content: Content,
    pub rights: Vec<u8>,
    pub trailer: [u32; 6],
    pub front: usize,
    pub back: usize,
}

#[derive(Clone, Debug)]
pub enum Edit {
    Word(usize, u32),
    /// The word at a byte address of main memory.
    Main(usize, u32),
    /// The byte at an address of main memory, and at one of swap.
    MainByte(usize, u8),
    SwapByte(usize, u8),
    MainLen(usize),
    SwapLen(usize),
}

impl Content {
    pub(crate) fn put(&self, pages: &mut [u8]) {
        fill(self.seed, pages);
        for &(va, word) in &self.words {
            put_word(pages, va as usize, word);
        }
    }
}

fn put_word(bytes: &mut [u8], at: usize, word: u32) {
    if let Some(place) = bytes.get_mut(at..at + 4) {
        place.copy_from_slice(&word.to_le_bytes());
    }
}

pub(crate) fn put_byte(bytes: &mut [u8], at: usize, byte: u8) {
    if let Some(place) = bytes.get_mut(at) {
        *place = byte;
    }
}

/// The byte at `at`, or 0 past the end.
pub fn get_byte(bytes: &[u8], at: usize) -> u8 {
    *bytes.get(at).unwrap_or(&0)
}

/// The word at `at`, or 0 past the end.
pub fn get_word(bytes: &[u8], at: usize) -> u32 {
    (0..4).map(|i| u32::from(get_byte(bytes, at + i)) << (8 * i)).sum()
}

impl Setup {
    fn build(&self) -> State {
        let rec = &self.rec;
        let mut main = vec![0; rec.p as usize * PAGE];
        let mut swap = vec![0; (rec.sbase + rec.ptl) as usize * PAGE];
        fill(self.noise, &mut main);
        fill(self.noise, &mut swap);
        let base = rec.sbase as usize * PAGE;
        self.content.put(&mut swap[base..]);
        let rng = Rng::new(self.noise);
        for (x, &rights) in self.rights.iter().enumerate() {
            let bits = u32::from(rights & 1) << 2 | u32::from(rights & 2);
            let frame = rec.book[..rec.b as usize].iter().position(|&y| y == x as u32);
            let spare = if self.noise == 0 { 0 } else { rng.word() };
            let mut entry = spare & !7 | bits;
            if let Some(f) = frame {
                entry = (rec.abase + f as u32) << 12 | spare & 0xFF8 | bits | 1;
                let page = &mut swap[base + x * PAGE..][..PAGE];
                main[(rec.abase as usize + f) * PAGE..][..PAGE].copy_from_slice(page);
                if self.changed >> f & 1 == 1 {
                    fill(self.noise, page);
                }
            }
            put_word(&mut main, rec.pto as usize + 4 * x, entry);
        }
        State { words: rec.to_words(), main, swap }
    }
}

impl Image {
    pub fn bytes(&self) -> Vec<u8> {
        let pages = self.rights.len() * PAGE;
        let mut file = vec![0; self.label + pages];
        fill(self.content.seed, &mut file[..self.label]);
        self.content.put(&mut file[self.label..]);
        file.extend(&self.rights);
        file.extend(self.trailer.iter().flat_map(|number| number.to_le_bytes()));
        let end = file.len().saturating_sub(self.back);
        file[self.front.min(end)..end].to_vec()
    }

    /// The images whose pages hold less.
    pub(crate) fn simpler(&self) -> Vec<Image> {
        let with = |content| Image { content, ..self.clone() };
        self.content.simpler().into_iter().map(with).collect()
    }
}

impl Edit {
    fn apply(&self, state: &mut State) {
        match *self {
            Edit::Word(index, value) => state.words[index] = value,
            Edit::Main(at, word) => put_word(&mut state.main, at, word),
            Edit::MainByte(at, byte) => put_byte(&mut state.main, at, byte),
            Edit::SwapByte(at, byte) => put_byte(&mut state.swap, at, byte),
            Edit::MainLen(len) => state.main.resize(len, 0),
            Edit::SwapLen(len) => state.swap.resize(len, 0),
        }
    }

    /// The edit that takes this one back.
    pub fn inverse(&self, state: &State) -> Edit {
        match *self {
            Edit::Word(index, _) => Edit::Word(index, state.words[index]),
            Edit::Main(at, _) => Edit::Main(at, get_word(&state.main, at)),
            Edit::MainByte(at, _) => Edit::MainByte(at, get_byte(&state.main, at)),
            Edit::SwapByte(at, _) => Edit::SwapByte(at, get_byte(&state.swap, at)),
            Edit::MainLen(_) => Edit::MainLen(state.main.len()),
            Edit::SwapLen(_) => Edit::SwapLen(state.swap.len()),
        }
    }
}

impl Call {
    pub fn apply(&self, engine: &mut dyn Engine, state: &mut State) -> Answer {
        match self {
            Call::Make(setup) => *state = setup.build(),
            Call::Poke(edits) => edits.iter().for_each(|edit| edit.apply(state)),
            Call::Load(image, main, swap) => {
                *state = State { words: [0xDEAD; WORDS], main: vec![0xA5; *main], swap: vec![0x5A; *swap] };
                return Answer::Code(engine.load(&image.bytes(), state));
            }
            Call::Image(image) => {
                let least = engine.least_main_pages(image.trailer[4]);
                return Answer::Image(engine.read_image(&image.bytes()), least);
            }
            Call::Run(limit) => return Answer::Ran(engine.run(state, *limit)),
            Call::Read(va, len) => {
                let mut buffer = vec![0xEE; *len];
                return Answer::Bytes(engine.host_read(state, *va, &mut buffer), buffer);
            }
            Call::Write(va, bytes) => return Answer::Code(engine.host_write(state, *va, bytes)),
            Call::View(page) => {
                let (refusal, bytes) = engine.page_view(state, *page);
                return Answer::Bytes(refusal, bytes);
            }
            Call::Reply(register, value) => return Answer::Code(engine.reply(state, *register, *value)),
            Call::Spare(page, value) => {
                let done = engine.set_spare(state, *page, *value);
                return Answer::Spare(done, engine.spare(state, *page));
            }
        }
        Answer::Nothing
    }
}

impl Simpler for Call {
    fn simpler(&self) -> Vec<Call> {
        match self {
            Call::Make(setup) => {
                let with = |content| Call::Make(Box::new(Setup { content, ..*setup.clone() }));
                let mut list: Vec<Call> = setup.content.simpler().into_iter().map(with).collect();
                for i in (0..32).filter(|&i| setup.rec.gpr[i] != 0) {
                    let mut less = setup.clone();
                    less.rec.gpr[i] = 0;
                    list.push(Call::Make(less));
                }
                for f in (0..32).filter(|&f| setup.rec.marks >> f & 1 == 1) {
                    let mut less = setup.clone();
                    less.rec.marks ^= 1 << f;
                    less.changed &= less.rec.marks;
                    list.push(Call::Make(less));
                }
                if setup.noise != 0 {
                    list.push(Call::Make(Box::new(Setup { noise: 0, ..*setup.clone() })));
                }
                list
            }
            Call::Load(image, main, swap) => {
                image.simpler().into_iter().map(|image| Call::Load(image, *main, *swap)).collect()
            }
            Call::Poke(edits) => shorter(edits).into_iter().map(Call::Poke).collect(),
            Call::Run(limit) => less(*limit as usize).map(|less| Call::Run(less as u32)).collect(),
            Call::Read(va, len) => less(*len).map(|less| Call::Read(*va, less)).collect(),
            Call::Write(va, bytes) => {
                shorter(bytes).into_iter().map(|bytes| Call::Write(*va, bytes)).collect()
            }
            Call::Spare(page, value) => {
                less((*value).into()).map(|less| Call::Spare(*page, less as u16)).collect()
            }
            Call::Image(_) | Call::View(_) | Call::Reply(..) => Vec::new(),
        }
    }
}

impl Content {
    /// Less noise, fewer words, or words that do nothing.
    fn simpler(&self) -> Vec<Content> {
        let with = |words| Content { words, ..*self };
        let mut list: Vec<Content> = shorter(&self.words).into_iter().map(with).collect();
        if self.seed != 0 {
            list.insert(0, Content { seed: 0, ..self.clone() });
            for i in (0..self.words.len()).filter(|&i| self.words[i].1 != 0) {
                let mut words = self.words.clone();
                words[i].1 = 0;
                list.push(with(words));
            }
        }
        list
    }
}

fn less(number: usize) -> impl Iterator<Item = usize> {
    let tries = [0, 1, number / 2, number - number / 4, number.saturating_sub(1)];
    tries.into_iter().filter(move |&less| less < number)
}

/// The list without one of its parts, for large parts first.
pub fn shorter<T: Clone>(list: &[T]) -> Vec<Vec<T>> {
    let mut all = Vec::new();
    let mut size = list.len();
    while size > 0 {
        for start in (0..list.len()).step_by(size) {
            let end = (start + size).min(list.len());
            all.push([&list[..start], &list[end..]].concat());
        }
        size /= 2;
    }
    all
}

pub fn word_name(index: usize) -> String {
    const NAMES: [&str; 8] = ["P", "a", "abase", "ptl", "pto", "sbase", "b", "hand"];
    match index {
        0..=7 => NAMES[index].into(),
        8..=39 => format!("B[{}]", index - 8),
        40..=71 => format!("GPR {}", index - 40),
        72 => "DPC".into(),
        73 => "PC'".into(),
        _ => "marks".into(),
    }
}

/// A word as an instruction, roughly.
fn instruction(word: u32) -> String {
    const NAMES: &str =
        "- ? j jal beqz bnez ? ? ? addi ? subi andi ori xori lhgi ? ? ? ? ? ? jr jalr clri sgri \
        seqi sgei slsi snei slei seti lb lh ? lw lbu lhu ? ? sb sh ? sw ? ? ? ? ? ? ? ? ? ? ? ? ? \
        ? ? ? ? ? trap ?";
    let name = NAMES.split(' ').nth(word as usize >> 26).unwrap_or("?");
    let (x, y, z, sa) = (word >> 21 & 31, word >> 16 & 31, word >> 11 & 31, word >> 6 & 31);
    match word >> 26 {
        0 => format!("function {} rs1={x} rs2={y} rd={z} sa={sa}", word & 63),
        2 | 3 | 62 => format!("{name} {}", (word << 6) as i32 >> 6),
        _ => format!("{name} rs1={x} rd={y} imm={}", word as i16),
    }
}

impl fmt::Display for Content {
    fn fmt(&self, f: &mut fmt::Formatter) -> fmt::Result {
        write!(f, " fill={:#x}", self.seed)?;
        for &(va, word) in &self.words {
            write!(f, "\n      {va:08x}: {word:08x}  {}", instruction(word))?;
        }
        Ok(())
    }
}

impl fmt::Display for Image {
    fn fmt(&self, f: &mut fmt::Formatter) -> fmt::Result {
        let Image { label, content, rights, trailer, front, back } = self;
        write!(f, "label={label} rights={rights:?} trailer={trailer:?} cut={front},{back}{content}")
    }
}

impl fmt::Display for Call {
    fn fmt(&self, f: &mut fmt::Formatter) -> fmt::Result {
        match self {
            Call::Make(setup) => {
                write!(f, "make")?;
                for (i, value) in setup.rec.to_words().into_iter().enumerate() {
                    if !(8..72).contains(&i) || value != 0 {
                        write!(f, " {}={value}", word_name(i))?;
                    }
                }
                let Setup { changed, rights, content, noise, .. } = &**setup;
                write!(f, " changed={changed} rights={rights:?} noise={noise:#x}{content}")
            }
            Call::Poke(edits) => {
                write!(f, "poke")?;
                for edit in edits {
                    match edit {
                        Edit::Word(index, value) => write!(f, " {}={value:#x}", word_name(*index))?,
                        other => write!(f, " {other:x?}")?,
                    }
                }
                Ok(())
            }
            Call::Load(image, main, swap) => write!(f, "load main={main} swap={swap} {image}"),
            Call::Image(image) => write!(f, "image {image}"),
            Call::Run(limit) => write!(f, "run {limit}"),
            Call::Read(va, len) => write!(f, "read va={va:#x} len={len}"),
            Call::Write(va, bytes) => write!(f, "write va={va:#x} {bytes:02x?}"),
            Call::View(page) => write!(f, "view {page:#x}"),
            Call::Reply(register, value) => write!(f, "reply {register} {value:#x}"),
            Call::Spare(page, value) => write!(f, "spare {page} {value}"),
        }
    }
}
