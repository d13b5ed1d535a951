//! The refusals, by the names that the library gives them.
use std::fmt;

/// A refusal. A refused call changes nothing.
#[derive(Clone, Copy, Debug, PartialEq, Eq)]
#[non_exhaustive]
pub enum Refusal {
    /// 1: a shape number or a memory's length breaks its bound; bytes to list are no whole number of words.
    Bound,
    /// 2: registers, frame book, page table and pages do not agree; of a plain machine, register 0 is not 0 or
    /// a rights byte is above 3.
    Unsound,
    /// 3: a page is outside the page table, or lacks the right; a plain machine has as many pages as rights.
    Rights,
    /// 4: the run or the transfer is too long, or the register is not 1 to 31.
    TooMuch,
    /// 5: the image is under 24 bytes, or its edition is not 1.
    Edition,
    /// 6: a number of the image's trailer, a rights byte or the label's length breaks its rule.
    Format,
    /// 7: main memory or swap does not fit the image, or the result does not fit the lent output.
    Room,
    /// 8: a line of a text begins with no mnemonic and no number.
    Mnemonic,
    /// 9: a byte of a text cannot stand there, or a ninth parenthesis is opened.
    Operand,
    /// 10: a value of a text does not fit its field, or 32 bits signed.
    Overflow,
    /// A refusal that this wrapper has no name for.
    Other(u32),
}

/// The refusals with a name, from 1 on.
const NAMED: [Refusal; 10] = [
    Refusal::Bound,
    Refusal::Unsound,
    Refusal::Rights,
    Refusal::TooMuch,
    Refusal::Edition,
    Refusal::Format,
    Refusal::Room,
    Refusal::Mnemonic,
    Refusal::Operand,
    Refusal::Overflow,
];

impl Refusal {
    /// The number of the refusal.
    pub fn number(self) -> u32 {
        match self {
            Refusal::Bound => 1,
            Refusal::Unsound => 2,
            Refusal::Rights => 3,
            Refusal::TooMuch => 4,
            Refusal::Edition => 5,
            Refusal::Format => 6,
            Refusal::Room => 7,
            Refusal::Mnemonic => 8,
            Refusal::Operand => 9,
            Refusal::Overflow => 10,
            Refusal::Other(number) => number,
        }
    }

    /// The answer of a call: 0, or the number of a refusal.
    pub(crate) fn check(number: u32) -> Result<(), Self> {
        if number == 0 {
            return Ok(());
        }
        Err(NAMED.into_iter().find(|e| e.number() == number).unwrap_or(Refusal::Other(number)))
    }
}

impl fmt::Display for Refusal {
    fn fmt(&self, f: &mut fmt::Formatter) -> fmt::Result {
        let why = match self {
            Refusal::Bound => "a shape number or a memory's length breaks its bound",
            Refusal::Unsound => {
                "registers, frame book, page table and pages do not agree, or a rights byte is above 3"
            }
            Refusal::Rights => "a page is outside the page table, or lacks the right",
            Refusal::TooMuch => "the run or the transfer is too long, or the register is not 1 to 31",
            Refusal::Edition => "no console image of edition 1",
            Refusal::Format => "a number, a rights byte or the label of the image breaks its rule",
            Refusal::Room => "main memory or swap does not fit the image, or the result the lent output",
            Refusal::Mnemonic => "no mnemonic and no number begins the line",
            Refusal::Operand => "what stands there cannot stand there, or a ninth parenthesis is opened",
            Refusal::Overflow => "a value does not fit its field, or 32 bits signed",
            Refusal::Other(_) => "this wrapper has no name for it",
        };
        write!(f, "refused {}: {why}", self.number())
    }
}

impl std::error::Error for Refusal {}
