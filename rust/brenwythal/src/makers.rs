//! The makers' tools: a text of one instruction a line to words, and back.
use crate::{calls, Refusal, ASSEMBLE_ANSWER, LIST_ANSWER};
use std::fmt;

/// The most bytes that a listed word takes, with its newline.
const LISTED: usize = 18;

/// Why a text is refused, and where.
#[derive(Clone, Copy, Debug, PartialEq, Eq)]
pub struct BadText {
    /// 8, 9 or 10.
    pub refusal: Refusal,
    /// The first bad line, from 1 on.
    pub line: usize,
    /// The byte of that line, from 1 on; one more than its length at its end.
    pub column: usize,
}

impl fmt::Display for BadText {
    fn fmt(&self, f: &mut fmt::Formatter) -> fmt::Result {
        write!(f, "line {}, column {}: {}", self.line, self.column, self.refusal)
    }
}

impl std::error::Error for BadText {}

/// The words of a text, four bytes a line, low byte first.
///
/// ```
/// let words = brenwythal::assemble(b"addi 1,0,3+4\ntrap 5\n")?;
/// assert_eq!(words, [0x07, 0x00, 0x01, 0x24, 0x05, 0x00, 0x00, 0xF8]);
/// let bad = brenwythal::assemble(b"trap 5\naddi 1,0\n").unwrap_err();
/// assert_eq!(bad.to_string(), "line 2, column 9: refused 9: \
///     what stands there cannot stand there, or a ninth parenthesis is opened");
/// # Ok::<(), brenwythal::BadText>(())
/// ```
pub fn assemble(text: &[u8]) -> Result<Vec<u8>, BadText> {
    let lines = text.iter().filter(|&&byte| byte == b'\n').count() + 1;
    let mut out = vec![0; 4 * lines];
    let mut answer = [0; ASSEMBLE_ANSWER];
    let refused = Refusal::check(calls::assemble(text, &mut out, &mut answer));
    let [length, line, column] = answer;
    refused.map_err(|refusal| BadText { refusal, line, column })?;
    out.truncate(length);
    Ok(out)
}

/// The text of words, a line each, which assembles to them. Refused 1 where the bytes are no whole number of
/// words.
///
/// ```
/// assert_eq!(brenwythal::list(&0xAC01_0040u32.to_le_bytes())?, b"sw 1,64(0)\n");
/// # Ok::<(), brenwythal::Refusal>(())
/// ```
pub fn list(words: &[u8]) -> Result<Vec<u8>, Refusal> {
    let mut out = vec![0; LISTED * (words.len() / 4)];
    let mut answer = [0; LIST_ANSWER];
    Refusal::check(calls::list(words, &mut out, &mut answer))?;
    let [length] = answer;
    out.truncate(length);
    Ok(out)
}
