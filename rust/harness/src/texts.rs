//! Compares assemblers and listers on generated texts and words, good ones and damaged ones.
use crate::rng::Rng;
use std::fmt;

/// An assembler and a lister. `out` is filled in place.
pub trait Notation {
    /// Refusal, length, line, column.
    fn assemble(&mut self, text: &[u8], out: &mut [u8]) -> [usize; 4];
    /// Refusal, length.
    fn list(&mut self, words: &[u8], out: &mut [u8]) -> [usize; 2];
}

impl Notation for crate::Peer {
    fn assemble(&mut self, text: &[u8], out: &mut [u8]) -> [usize; 4] {
        match peer::assemble(text, out) {
            Ok(length) => [0, length, 0, 0],
            Err(bad) => [bad.refusal as usize, 0, bad.line, bad.column],
        }
    }

    fn list(&mut self, words: &[u8], out: &mut [u8]) -> [usize; 2] {
        match peer::list(words, out) {
            Ok(length) => [0, length],
            Err(refusal) => [refusal as usize, 0],
        }
    }
}

/// How often each was answered.
#[derive(Debug, Default)]
pub struct TextStats {
    pub texts: usize,
    pub assembled: usize,
    /// Refused 7, 8, 9 and 10.
    pub refused: [usize; 4],
    pub listed: usize,
    /// Refused 1 and 7.
    pub unlisted: [usize; 2],
}

impl fmt::Display for TextStats {
    fn fmt(&self, f: &mut fmt::Formatter) -> fmt::Result {
        let [room, mnemonic, operand, value] = self.refused;
        let [bound, short] = self.unlisted;
        writeln!(f, "{} texts and as many listings: no difference", self.texts)?;
        writeln!(f, "assembled {}, refused 7 to 10: {room} {mnemonic} {operand} {value}", self.assembled)?;
        write!(f, "listed {}, refused 1 and 7: {bound} {short}", self.listed)
    }
}

/// Text number `n` of a seed, and what differs.
pub struct TextFailure(String);

impl fmt::Display for TextFailure {
    fn fmt(&self, f: &mut fmt::Formatter) -> fmt::Result {
        self.0.fmt(f)
    }
}

/// Compares two on texts and words made from a seed.
pub fn compare_texts(
    seed: u64,
    texts: usize,
    first: &mut dyn Notation,
    second: &mut dyn Notation,
) -> Result<TextStats, TextFailure> {
    let mut stats = TextStats { texts, ..TextStats::default() };
    for n in 0..texts {
        let rng = Rng::new(seed ^ (n as u64) << 32);
        let text = text(&rng);
        let out = room(&rng, 4 * (text.iter().filter(|&&byte| byte == b'\n').count() + 1));
        let answer = agree(&out, |out| first.assemble(&text, out), |out| second.assemble(&text, out))
            .map_err(|why| failure(seed, n, &text, &why))?;
        match answer[0] {
            0 => stats.assembled += 1,
            refusal => stats.refused[refusal - 7] += 1,
        }

        let words = words(&rng);
        let out = room(&rng, 18 * (words.len() / 4));
        let answer = agree(&out, |out| first.list(&words, out), |out| second.list(&words, out))
            .map_err(|why| failure(seed, n, &words, &why))?;
        match answer[0] {
            0 => stats.listed += 1,
            refusal => stats.unlisted[usize::from(refusal == 7)] += 1,
        }
    }
    Ok(stats)
}

/// The answer of both sides, and every byte of the lent output, are the same.
fn agree<A: PartialEq + fmt::Debug>(
    out: &[u8],
    first: impl FnOnce(&mut [u8]) -> A,
    second: impl FnOnce(&mut [u8]) -> A,
) -> Result<A, String> {
    let (mut ours, mut theirs) = (out.to_vec(), out.to_vec());
    let (one, other) = (first(&mut ours), second(&mut theirs));
    if one != other {
        return Err(format!("the first answers {one:?}, the second {other:?}"));
    }
    if ours != theirs {
        return Err(format!("both answer {one:?}, and the outputs differ"));
    }
    Ok(one)
}

fn failure(seed: u64, n: usize, given: &[u8], why: &str) -> TextFailure {
    TextFailure(format!("seed {seed}, text {n}: {why}\n{}", given.escape_ascii()))
}

/// An output that holds noise: as long as may be needed, or shorter, or longer.
fn room(rng: &Rng, most: usize) -> Vec<u8> {
    let length = match rng.below(6) {
        0 => rng.below(most as u32 + 1) as usize,
        1 => most.saturating_sub(1),
        2 => most + rng.below(9) as usize,
        _ => most,
    };
    let mut out = vec![0; length];
    crate::rng::fill(rng.next() | 1, &mut out);
    out
}

const MNEMONICS: [(&str, &str); 16] = [
    ("addi", "r,r,i"),
    ("xori", "r,r,i"),
    ("slei", "r,r,i"),
    ("sw", "r,i(r)"),
    ("lbu", "r,i(r)"),
    ("slli", "r,r,r"),
    ("sra", "r,r,r"),
    ("sge", "r,r,r"),
    ("lhg", "r,r"),
    ("clr", "r"),
    ("seti", "r"),
    ("lhgi", "r,u"),
    ("beqz", "r,i"),
    ("jal", "j"),
    ("jr", "r"),
    ("trap", "n"),
];

fn text(rng: &Rng) -> Vec<u8> {
    let mut text = Vec::new();
    for _ in 0..rng.pick(&[0, 1, 1, 2, 5]) {
        line(rng, &mut text);
        text.push(b'\n');
    }
    if rng.one_in(4) {
        text.pop();
    }
    if rng.one_in(3) && !text.is_empty() {
        damage(rng, &mut text);
    }
    text
}

/// A byte put in, taken out or changed.
fn damage(rng: &Rng, text: &mut Vec<u8>) {
    let at = rng.below(text.len() as u32) as usize;
    let byte = rng.pick(b"()+-,;09 \t\r\n\x00\x0b\x0c\x80\xffaxA");
    match rng.below(3) {
        0 => text.insert(at, byte),
        1 => {
            text.remove(at);
        }
        _ => text[at] = byte,
    }
}

fn line(rng: &Rng, text: &mut Vec<u8>) {
    blanks(rng, text);
    if rng.one_in(6) {
        let zeros = rng.pick(&[0, 0, 0, 1, 30]);
        text.extend(std::iter::repeat(b'0').take(zeros));
        let number = rng.pick(&[0, 5, u64::from(rng.word()), 4294967295, 4294967296, 99999999999]);
        text.extend(number.to_string().bytes());
    } else {
        let (name, operands) = rng.pick(&MNEMONICS);
        text.extend(name.bytes());
        text.push(b' ');
        for letter in operands.bytes() {
            blanks(rng, text);
            let (least, most) = match letter {
                b'r' => (0, 31),
                b'i' => (-32768, 32767),
                b'u' => (0, 65535),
                b'j' => (-33554432, 33554431),
                b'n' => (0, 67108863),
                _ => {
                    text.push(letter);
                    continue;
                }
            };
            let wrong = rng.one_in(40);
            let value = match rng.below(4) {
                0 => least - i64::from(wrong),
                1 => most + i64::from(wrong),
                _ => least + (rng.next() % (most - least + 1) as u64) as i64,
            };
            let depth = if rng.one_in(30) { 9 } else { rng.pick(&[0, 0, 1, 2, 8]) };
            sum(rng, value, depth, text);
        }
    }
    blanks(rng, text);
}

fn blanks(rng: &Rng, text: &mut Vec<u8>) {
    if rng.one_in(5) {
        (0..rng.range(1, 3)).for_each(|_| text.push(rng.pick(b"  \t\r")));
    }
}

/// A sum of that value, with parentheses as deep.
fn sum(rng: &Rng, value: i64, depth: u32, text: &mut Vec<u8>) {
    let terms = rng.pick(&[1, 1, 1, 2, 3]);
    let mut left = value;
    for n in 0..terms {
        let last = n + 1 == terms;
        let far =
            if rng.one_in(20) { rng.pick(&[2147483647, -2147483647]) } else { i64::from(rng.below(70_000)) };
        let part = if last { left } else { rng.pick(&[0, 1, -1, far, -far]) };
        left -= part;
        let minus = n > 0 && rng.one_in(2);
        if n > 0 {
            text.push(if minus { b'-' } else { b'+' });
            blanks(rng, text);
        }
        term(rng, if minus { -part } else { part }, depth, text);
        blanks(rng, text);
    }
}

fn term(rng: &Rng, value: i64, depth: u32, text: &mut Vec<u8>) {
    let minus = value < 0 || (depth > 0 && rng.one_in(4));
    if minus {
        text.push(b'-');
        blanks(rng, text);
    }
    let value = if minus { -value } else { value };
    if depth == 0 {
        text.extend(value.to_string().bytes());
    } else {
        text.push(b'(');
        blanks(rng, text);
        sum(rng, value, depth - 1, text);
        text.push(b')');
    }
}

/// Words with a good chance of a mnemonic, and at times a byte too many.
fn words(rng: &Rng) -> Vec<u8> {
    let mut words = Vec::new();
    for _ in 0..rng.pick(&[0, 1, 3, 8]) {
        let key = match rng.below(3) {
            0 => rng.below(64),
            1 => rng.below(64) << 26,
            _ => rng.word(),
        };
        let bits = rng.pick(&[0, 0xFFFF, 0x03FF_FFFF, 0x03E0_0000, 0x001F_F800, 0x03FF_F800, 0x03E0_FFC0]);
        words.extend((key | rng.word() & bits).to_le_bytes());
    }
    if rng.one_in(12) {
        words.extend(vec![7; rng.range(1, 3) as usize]);
    }
    words
}
