//! The makers' notation of document 02, request 2: an assembler and a lister.
use crate::{refusal, word_at};

/// Where a text is refused. Line and column count from 1, and are 0 for want of room.
#[derive(Clone, Copy, Debug, PartialEq, Eq)]
pub struct Bad {
    pub refusal: u32,
    pub line: usize,
    pub column: usize,
}

/// A refusal and the place of the line, from 0 on, that earns it.
type Parsed<T> = Result<T, (u32, usize)>;

/// "32 bits signed"
const LEAST: i64 = -(1 << 31);
const MOST: i64 = (1 << 31) - 1;

/// "nested at most eight deep"
const NESTED: usize = 8;

/// What the machine goes by: the opcode, or the function under opcode 0.
#[derive(Clone, Copy)]
enum Code {
    Opcode(u32),
    Function(u32),
}
use Code::{Function, Opcode};

/// The mnemonics with their operands. A letter is an operand: d RD and s RS1 and i imm; D, t and a the RD, RS2
/// and SA of opcode 0; h the number of lhgi, j that of j and jal, n that of trap. All else stands for itself.
const ROWS: [(&str, Code, &str); 49] = [
    ("j", Opcode(2), "j"),
    ("jal", Opcode(3), "j"),
    ("beqz", Opcode(4), "s,i"),
    ("bnez", Opcode(5), "s,i"),
    ("jr", Opcode(22), "s"),
    ("jalr", Opcode(23), "s"),
    ("addi", Opcode(9), "d,s,i"),
    ("subi", Opcode(11), "d,s,i"),
    ("andi", Opcode(12), "d,s,i"),
    ("ori", Opcode(13), "d,s,i"),
    ("xori", Opcode(14), "d,s,i"),
    ("lhgi", Opcode(15), "d,h"),
    ("clri", Opcode(24), "d"),
    ("sgri", Opcode(25), "d,s,i"),
    ("seqi", Opcode(26), "d,s,i"),
    ("sgei", Opcode(27), "d,s,i"),
    ("slsi", Opcode(28), "d,s,i"),
    ("snei", Opcode(29), "d,s,i"),
    ("slei", Opcode(30), "d,s,i"),
    ("seti", Opcode(31), "d"),
    ("lb", Opcode(32), "d,i(s)"),
    ("lh", Opcode(33), "d,i(s)"),
    ("lw", Opcode(35), "d,i(s)"),
    ("lbu", Opcode(36), "d,i(s)"),
    ("lhu", Opcode(37), "d,i(s)"),
    ("sb", Opcode(40), "d,i(s)"),
    ("sh", Opcode(41), "d,i(s)"),
    ("sw", Opcode(43), "d,i(s)"),
    ("trap", Opcode(62), "n"),
    ("slli", Function(0), "D,s,a"),
    ("srli", Function(2), "D,s,a"),
    ("srai", Function(3), "D,s,a"),
    ("sll", Function(4), "D,s,t"),
    ("srl", Function(6), "D,s,t"),
    ("sra", Function(7), "D,s,t"),
    ("add", Function(33), "D,s,t"),
    ("sub", Function(35), "D,s,t"),
    ("and", Function(36), "D,s,t"),
    ("or", Function(37), "D,s,t"),
    ("xor", Function(38), "D,s,t"),
    ("lhg", Function(39), "D,t"),
    ("clr", Function(40), "D"),
    ("sgr", Function(41), "D,s,t"),
    ("seq", Function(42), "D,s,t"),
    ("sge", Function(43), "D,s,t"),
    ("sls", Function(44), "D,s,t"),
    ("sne", Function(45), "D,s,t"),
    ("sle", Function(46), "D,s,t"),
    ("set", Function(47), "D"),
];

/// A field of a word: its lowest bit, its width, and whether it is extended by sign.
struct Field {
    low: u32,
    bits: u32,
    signed: bool,
}

/// The field of an operand's letter, or none for a byte that stands for itself.
fn field(letter: u8) -> Option<Field> {
    let (low, bits, signed) = match letter {
        b's' => (21, 5, false),
        b'd' | b't' => (16, 5, false),
        b'D' => (11, 5, false),
        b'a' => (6, 5, false),
        b'i' => (0, 16, true),
        b'h' => (0, 16, false),
        b'j' => (0, 26, true),
        b'n' => (0, 26, false),
        _ => return None,
    };
    Some(Field { low, bits, signed })
}

impl Field {
    fn mask(&self) -> u32 {
        (1 << self.bits) - 1
    }

    /// The value in the field, or none where it does not fit.
    fn hold(&self, value: i64) -> Option<u32> {
        let least = if self.signed { -(1 << (self.bits - 1)) } else { 0 };
        let fits = (least..least + (1 << self.bits)).contains(&value);
        fits.then_some((value as u32 & self.mask()) << self.low)
    }

    /// The value that the field of a word holds.
    fn value(&self, word: u32) -> i64 {
        let value = i64::from(word >> self.low & self.mask());
        if self.signed && value >> (self.bits - 1) == 1 {
            value - (1 << self.bits)
        } else {
            value
        }
    }
}

impl Code {
    fn word(self) -> u32 {
        match self {
            Opcode(opcode) => opcode << 26,
            Function(function) => function,
        }
    }

    fn is_of(self, word: u32) -> bool {
        match self {
            Opcode(opcode) => word >> 26 == opcode,
            Function(function) => word >> 26 == 0 && word & 63 == function,
        }
    }
}

// ---- the assembler

/// A text, a word a line, into `out`; the bytes written. "The first bad line decides".
pub fn assemble(text: &[u8], out: &mut [u8]) -> Result<usize, Bad> {
    let mut words = Vec::new();
    for (number, line) in lines(text).enumerate() {
        let word = Line { bytes: line, at: 0 }.word();
        words.push(word.map_err(|(refusal, place)| Bad { refusal, line: number + 1, column: place + 1 })?);
    }
    let length = 4 * words.len();
    let out = out.get_mut(..length).ok_or(Bad { refusal: refusal::ROOM, line: 0, column: 0 })?;
    for (bytes, word) in out.chunks_exact_mut(4).zip(words) {
        bytes.copy_from_slice(&word.to_le_bytes());
    }
    Ok(length)
}

/// "Byte 10 ends a line; behind the last one there is a line only if a byte stands there."
fn lines(text: &[u8]) -> impl Iterator<Item = &[u8]> {
    text.split_inclusive(|&byte| byte == b'\n').map(|line| line.strip_suffix(b"\n").unwrap_or(line))
}

fn is_blank(byte: u8) -> bool {
    matches!(byte, b' ' | b'\t' | b'\r')
}

/// A line and how far it is read.
struct Line<'t> {
    bytes: &'t [u8],
    at: usize,
}

impl Line<'_> {
    /// The next byte that is no blank, without reading it.
    fn peek(&mut self) -> Option<u8> {
        while self.bytes.get(self.at).map_or(false, |&byte| is_blank(byte)) {
            self.at += 1;
        }
        self.bytes.get(self.at).copied()
    }

    /// Reads the byte if it is the next that is no blank.
    fn eat(&mut self, byte: u8) -> bool {
        let found = self.peek() == Some(byte);
        self.at += usize::from(found);
        found
    }

    fn expect(&mut self, byte: u8) -> Parsed<()> {
        if self.eat(byte) {
            Ok(())
        } else {
            Err((refusal::OPERAND, self.at))
        }
    }

    fn end(&mut self) -> Parsed<()> {
        match self.peek() {
            None => Ok(()),
            Some(_) => Err((refusal::OPERAND, self.at)),
        }
    }

    fn word(mut self) -> Parsed<u32> {
        if self.peek().map_or(false, |byte| byte.is_ascii_digit()) {
            let word = self.number(u32::MAX.into())?;
            self.end()?;
            return Ok(word as u32);
        }
        let begin = self.at;
        let rest = &self.bytes[begin..];
        let name = &rest[..rest.iter().position(|&byte| is_blank(byte)).unwrap_or(rest.len())];
        let (_, code, operands) =
            ROWS.iter().find(|row| row.0.as_bytes() == name).ok_or((refusal::MNEMONIC, begin))?;
        self.at += name.len();
        let mut word = code.word();
        for letter in operands.bytes() {
            match field(letter) {
                None => self.expect(letter)?,
                Some(field) => word |= self.operand(&field)?,
            }
        }
        self.end()?;
        Ok(word)
    }

    /// An operand, in its field.
    fn operand(&mut self, field: &Field) -> Parsed<u32> {
        self.peek();
        let begin = self.at;
        let value = self.sum(NESTED)?;
        field.hold(value).ok_or((refusal::VALUE, begin))
    }

    /// "Sum = term {("+"|"-") term}, left to right." `depth` parentheses more may be open.
    fn sum(&mut self, depth: usize) -> Parsed<i64> {
        self.peek();
        let begin = self.at;
        let mut sum = self.term(depth)?;
        loop {
            sum = if self.eat(b'+') {
                kept(sum + self.term(depth)?, begin)?
            } else if self.eat(b'-') {
                kept(sum - self.term(depth)?, begin)?
            } else {
                return Ok(sum);
            };
        }
    }

    /// "Term = at most one "-", then a number or "(" sum ")"."
    fn term(&mut self, depth: usize) -> Parsed<i64> {
        self.peek();
        let begin = self.at;
        if self.eat(b'-') {
            return kept(-self.factor(depth)?, begin);
        }
        self.factor(depth)
    }

    fn factor(&mut self, depth: usize) -> Parsed<i64> {
        if self.peek() != Some(b'(') {
            return self.number(MOST);
        }
        if depth == 0 {
            return Err((refusal::OPERAND, self.at));
        }
        self.at += 1;
        let sum = self.sum(depth - 1)?;
        self.expect(b')')?;
        Ok(sum)
    }

    /// "decimal digits, at least one, any count of leading zeros"
    fn number(&mut self, most: i64) -> Parsed<i64> {
        self.peek();
        let begin = self.at;
        let mut number = 0i64;
        while let Some(digit) = self.bytes.get(self.at).filter(|byte| byte.is_ascii_digit()) {
            // Above `most` it stays there, however many digits follow.
            number = (10 * number + i64::from(digit - b'0')).min(most + 1);
            self.at += 1;
        }
        if self.at == begin {
            Err((refusal::OPERAND, begin))
        } else if number > most {
            Err((refusal::VALUE, begin))
        } else {
            Ok(number)
        }
    }
}

/// "each value kept in 32 bits signed"
fn kept(value: i64, begin: usize) -> Parsed<i64> {
    if (LEAST..=MOST).contains(&value) {
        Ok(value)
    } else {
        Err((refusal::VALUE, begin))
    }
}

// ---- the lister

/// Words as a text that assembles to them, into `out`; the bytes written.
pub fn list(bytes: &[u8], out: &mut [u8]) -> Result<usize, u32> {
    if bytes.len() % 4 != 0 {
        return Err(refusal::SHAPE);
    }
    let mut text = Vec::new();
    for at in (0..bytes.len()).step_by(4) {
        list_word(word_at(bytes, at), &mut text);
    }
    out.get_mut(..text.len()).ok_or(refusal::ROOM)?.copy_from_slice(&text);
    Ok(text.len())
}

/// "A word that the machine carries out, with its unused fields zero, is listed by mnemonic"
fn list_word(word: u32, text: &mut Vec<u8>) {
    let row = ROWS.iter().find(|row| row.1.is_of(word));
    match row.filter(|(_, code, operands)| word & !used(operands) == code.word()) {
        None => put_number(word.into(), text),
        Some((name, _, operands)) => {
            text.extend_from_slice(name.as_bytes());
            text.push(b' ');
            for letter in operands.bytes() {
                match field(letter) {
                    None => text.push(letter),
                    Some(field) => put_number(field.value(word), text),
                }
            }
        }
    }
    text.push(b'\n');
}

/// The bits of the fields.
fn used(operands: &str) -> u32 {
    operands.bytes().filter_map(field).fold(0, |bits, field| bits | field.mask() << field.low)
}

fn put_number(number: i64, text: &mut Vec<u8>) {
    if number < 0 {
        text.push(b'-');
    }
    let mut digits = [0; 20];
    let mut left = number.unsigned_abs();
    let mut at = digits.len();
    loop {
        at -= 1;
        digits[at] = b'0' + (left % 10) as u8;
        left /= 10;
        if left == 0 {
            break;
        }
    }
    text.extend_from_slice(&digits[at..]);
}
