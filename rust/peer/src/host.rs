//! The host's calls, and its own bits of an entry.
use crate::paging::{Access, Place, VirtualPage};
use crate::{refusal, Record, MAX_TRANSFER, PAGE};
use std::ops::Range;

/// Fills `buffer` with the guest's bytes from `va` on.
pub fn host_read(rec: &Record, main: &[u8], swap: &[u8], va: u32, buffer: &mut [u8]) -> Result<(), u32> {
    check(rec, main, swap, va, buffer.len(), Access::Read)?;
    for piece in pieces(va, buffer.len()) {
        let source = match rec.place(main, piece.page, Access::Read) {
            Some(Place::Main(page)) => &main[page.bytes()],
            Some(Place::Swap(page)) => &swap[page.bytes()],
            None => return Err(refusal::ACCESS),
        };
        buffer[piece.buffer].copy_from_slice(&source[piece.inside]);
    }
    Ok(())
}

/// Writes `bytes` to the guest's memory from `va` on, and marks the frames that get one.
pub fn host_write(
    rec: &mut Record,
    main: &mut [u8],
    swap: &mut [u8],
    va: u32,
    bytes: &[u8],
) -> Result<(), u32> {
    check(rec, main, swap, va, bytes.len(), Access::Write)?;
    for piece in pieces(va, bytes.len()) {
        let goal = match rec.place(main, piece.page, Access::Write) {
            Some(Place::Main(page)) => {
                rec.mark(page);
                &mut main[page.bytes()]
            }
            Some(Place::Swap(page)) => &mut swap[page.bytes()],
            None => return Err(refusal::ACCESS),
        };
        goal[piece.inside].copy_from_slice(&bytes[piece.buffer]);
    }
    Ok(())
}

/// The bytes of a readable page, "from main memory or from swap as its entry says".
pub fn page_view<'m>(rec: &Record, main: &'m [u8], swap: &'m [u8], page: u32) -> Result<&'m [u8], u32> {
    rec.check(main, swap)?;
    match rec.place(main, VirtualPage(page), Access::Read) {
        Some(Place::Main(page)) => Ok(&main[page.bytes()]),
        Some(Place::Swap(page)) => Ok(&swap[page.bytes()]),
        None => Err(refusal::ACCESS),
    }
}

/// Sets one of GPR 1 to 31; looks at nothing else.
pub fn reply(rec: &mut Record, register: u32, value: u32) -> Result<(), u32> {
    match register {
        1..=31 => {
            rec.gpr[register as usize] = value;
            Ok(())
        }
        _ => Err(refusal::RANGE),
    }
}

/// Bits 11–3 of the entry of a page, which are the host's. None where there is no such entry.
pub fn spare(rec: &Record, main: &[u8], page: u32) -> Option<u16> {
    let at = entry_of(rec, main, page)?;
    Some(u16::from(main[at] >> 3) | u16::from(main[at + 1] & 15) << 5)
}

/// "the host changes these bits between calls": bits 11–3 of the entry of a page become `value`. Where there
/// is no such entry, or the value has more than 9 bits, nothing is done, and the answer is false.
pub fn set_spare(rec: &Record, main: &mut [u8], page: u32, value: u16) -> bool {
    let at = match entry_of(rec, main, page) {
        Some(at) if value < 512 => at,
        _ => return false,
    };
    main[at] = (value << 3) as u8 | main[at] & 7;
    main[at + 1] = (value >> 5) as u8 | main[at + 1] & 0xF0;
    true
}

/// Where the entry of a page begins, if the table covers the page and all of the entry is in main memory. The
/// record may hold anything.
fn entry_of(rec: &Record, main: &[u8], page: u32) -> Option<usize> {
    let at = u64::from(rec.pto) + 4 * u64::from(page);
    (page < rec.ptl && at + 4 <= main.len() as u64).then_some(at as usize)
}

/// The refusals of a transfer, in the order 1, 2, 4, 3.
fn check(rec: &Record, main: &[u8], swap: &[u8], va: u32, len: usize, access: Access) -> Result<(), u32> {
    rec.check(main, swap)?;
    if len > MAX_TRANSFER {
        return Err(refusal::RANGE);
    }
    if pieces(va, len).any(|piece| rec.place(main, piece.page, access).is_none()) {
        return Err(refusal::ACCESS);
    }
    Ok(())
}

/// The part of a transfer that lies in one page.
struct Piece {
    page: VirtualPage,
    inside: Range<usize>,
    buffer: Range<usize>,
}

/// The parts of a transfer. Addresses do not go round: what lies past 2^32 is on page 2^20 or above.
fn pieces(va: u32, len: usize) -> impl Iterator<Item = Piece> {
    let mut done = 0;
    std::iter::from_fn(move || {
        let address = u64::from(va) + done as u64;
        let start = address as usize % PAGE;
        let count = (PAGE - start).min(len - done);
        let buffer = done..done + count;
        done += count;
        let page = VirtualPage((address / PAGE as u64) as u32);
        (count > 0).then_some(Piece { page, inside: start..start + count, buffer })
    })
}
