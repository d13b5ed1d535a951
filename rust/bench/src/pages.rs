//! The makers' tools that are timed, and the page that they are timed on.
use crate::contenders::Entry;
use brenwythal::calls;
use harness::rng::Rng;
use peer::PAGE;

/// How often a page is assembled or listed in one figure.
pub const TIMES: u32 = 200;

/// An assembler and a lister. They panic where they refuse.
pub trait Tool {
    fn assemble(&mut self, text: &[u8], out: &mut [u8]);
    fn list(&mut self, words: &[u8], out: &mut [u8]);
}

/// The proved library first, then plain Rust.
pub fn tools() -> Vec<Entry<dyn Tool>> {
    vec![("proved", |_| Box::new(Proved)), ("Rust", |_| Box::new(Plain))]
}

struct Proved;

impl Tool for Proved {
    fn assemble(&mut self, text: &[u8], out: &mut [u8]) {
        assert_eq!(calls::assemble(text, out, &mut [0; 3]), 0);
    }

    fn list(&mut self, words: &[u8], out: &mut [u8]) {
        assert_eq!(calls::list(words, out, &mut [0]), 0);
    }
}

struct Plain;

impl Tool for Plain {
    fn assemble(&mut self, text: &[u8], out: &mut [u8]) {
        peer::assemble(text, out).unwrap();
    }

    fn list(&mut self, words: &[u8], out: &mut [u8]) {
        peer::list(words, out).unwrap();
    }
}

/// A page of instructions as a maker writes them, a few numbers among them: its text and its words.
pub fn page() -> (Vec<u8>, Vec<u8>) {
    let rng = Rng::new(1);
    let register = || rng.below(32);
    let mut text = String::new();
    for _ in 0..PAGE / 4 {
        let (d, s, t) = (register(), register(), register());
        let near = rng.range(0, 800) as i32 - 400;
        let line = match rng.below(20) {
            0..=5 => format!("{} {d},{s},{}", rng.pick(&["addi", "subi", "andi", "sgri"]), near * 80),
            6..=10 => format!("{} {d},{}({s})", rng.pick(&["lw", "sw", "lbu", "sb"]), rng.below(4096)),
            11..=14 => format!("{} {d},{s},{t}", rng.pick(&["add", "sub", "xor", "sle", "slli"])),
            15..=16 => format!("{} {s},{near}", rng.pick(&["beqz", "bnez"])),
            17 => format!("{} {}", rng.pick(&["j", "jal"]), near * 4),
            18 => format!("{} {s}", rng.pick(&["jr", "trap"])),
            _ => (0xFC00_0000 | rng.word()).to_string(),
        };
        text.push_str(&line);
        text.push('\n');
    }
    let mut words = vec![0; PAGE];
    assert_eq!(peer::assemble(text.as_bytes(), &mut words), Ok(PAGE));
    (text.into_bytes(), words)
}
