//! The programs that are timed. Each goes on for ever. Branches count from PC', the address of the delay slot.
use harness::State;
use peer::{Record, PAGE};

pub struct Guest {
    pub name: &'static str,
    pub frames: u32,
    pub ptl: u32,
    pub code: Vec<u32>,
}

const BEQZ: u32 = 4;
const BNEZ: u32 = 5;
const ADDI: u32 = 9;
const SUBI: u32 = 11;
const ANDI: u32 = 12;
const XORI: u32 = 14;
const SLSI: u32 = 28;
const LW: u32 = 35;
const LBU: u32 = 36;
const SB: u32 = 40;
const SW: u32 = 43;
const SLLI: u32 = 0;
const SRAI: u32 = 3;
const SRL: u32 = 6;
const SRA: u32 = 7;
const ADD: u32 = 33;
const SUB: u32 = 35;
const SGR: u32 = 41;
const SLS: u32 = 44;

/// The word of an instruction under opcode 0.
fn r(function: u32, rd: u32, rs1: u32, rs2: u32, sa: u32) -> u32 {
    rs1 << 21 | rs2 << 16 | rd << 11 | sa << 6 | function
}

/// The word of an instruction with a number of 16 bits.
fn i(opcode: u32, rd: u32, rs1: u32, imm: i32) -> u32 {
    opcode << 26 | rs1 << 21 | rd << 16 | imm as u32 & 0xFFFF
}

/// The word of a jump.
fn j(imm: i32) -> u32 {
    2 << 26 | imm as u32 & 0x3FF_FFFF
}

fn alu() -> Vec<u32> {
    vec![
        i(ADDI, 1, 1, 1),
        r(ADD, 2, 2, 1, 0),
        i(XORI, 3, 2, 0x55),
        r(SLLI, 4, 3, 0, 3),
        r(SUB, 5, 4, 1, 0),
        r(SRL, 6, 5, 1, 0),
        i(SLSI, 7, 1, 30000),
        r(SLS, 8, 6, 2, 0),
        i(BEQZ, 0, 7, 8),
        i(ANDI, 9, 5, 255),
        j(-40),
        i(SUBI, 10, 9, 3),
    ]
}

/// Shifts words right with their sign, by SA and by a register; bit 31 is now set and now clear.
fn shifts() -> Vec<u32> {
    vec![
        i(ADDI, 1, 1, 12345),
        r(SLLI, 2, 1, 0, 13),
        r(SRAI, 3, 2, 0, 5),
        r(SRA, 4, 2, 1, 0),
        r(ADD, 5, 3, 4, 0),
        r(SRAI, 6, 5, 0, 31),
        r(SUB, 7, 7, 6, 0),
        r(SRA, 8, 5, 7, 0),
        j(-32),
        r(SRAI, 9, 8, 0, 1),
    ]
}

/// Copies page 1 to page 2, an item of `width` bytes at a time, and adds the items up.
fn copy(load: u32, store: u32, width: i32) -> Vec<u32> {
    vec![
        i(ADDI, 1, 0, 4096),
        i(ADDI, 2, 0, 8192),
        i(ADDI, 3, 0, 4096 / width),
        i(load, 4, 1, 0),
        r(ADD, 5, 5, 4, 0),
        i(store, 4, 2, 0),
        i(ADDI, 1, 1, width),
        i(SUBI, 3, 3, 1),
        i(BNEZ, 0, 3, -24),
        i(ADDI, 2, 2, width),
        j(-44),
        0,
    ]
}

fn addi() -> Vec<u32> {
    let mut code = vec![i(ADDI, 1, 1, 1); 200];
    code.extend([j(-804), 0]);
    code
}

/// Fills 64 words with noise and sorts them, by bubbles.
fn sort() -> Vec<u32> {
    vec![
        i(ADDI, 1, 0, 4096),
        i(ADDI, 2, 0, 64),
        r(SLLI, 8, 9, 0, 2),
        r(ADD, 9, 9, 8, 0),
        i(ADDI, 9, 9, 12345),
        i(ANDI, 8, 9, 0x7FFF),
        i(SW, 8, 1, 0),
        i(SUBI, 2, 2, 1),
        i(BNEZ, 0, 2, -28),
        i(ADDI, 1, 1, 4),
        i(ADDI, 3, 0, 63),
        // each pass, from 44
        i(ADDI, 1, 0, 4096),
        i(ADDI, 2, 3, 0),
        // each pair, from 52
        i(LW, 4, 1, 0),
        i(LW, 5, 1, 4),
        r(SGR, 6, 4, 5, 0),
        i(BEQZ, 0, 6, 12),
        i(SUBI, 2, 2, 1),
        i(SW, 5, 1, 0),
        i(SW, 4, 1, 4),
        i(BNEZ, 0, 2, -32),
        i(ADDI, 1, 1, 4),
        i(SUBI, 3, 3, 1),
        i(BNEZ, 0, 3, -52),
        0,
        j(-104),
        0,
    ]
}

/// Adds 1 to the first word of pages 1 to 7 in turn, and puts the sum back by the word `last`.
fn hop(last: u32) -> Vec<u32> {
    vec![
        i(ADDI, 1, 0, 4096),
        i(ADDI, 6, 0, 7),
        i(LW, 2, 1, 0),
        i(ADDI, 2, 2, 1),
        last,
        i(SUBI, 6, 6, 1),
        i(BNEZ, 0, 6, -20),
        i(ADDI, 1, 1, 4096),
        j(-36),
        0,
    ]
}

pub fn guests() -> Vec<Guest> {
    let guest = |name, frames, ptl, code| Guest { name, frames, ptl, code };
    let (write, read) = (i(SW, 2, 1, 0), i(ADDI, 3, 2, 0));
    vec![
        guest("ALU loop", 4, 4, alu()),
        guest("signed shifts", 4, 4, shifts()),
        guest("byte copy", 4, 4, copy(LBU, SB, 1)),
        guest("word copy", 4, 4, copy(LW, SW, 4)),
        guest("addi", 4, 4, addi()),
        guest("sort", 4, 4, sort()),
        guest("page hops, a = 2", 2, 8, hop(write)),
        guest("page hops, a = 3", 3, 8, hop(write)),
        guest("page hops, a = 4", 4, 8, hop(write)),
        guest("page hops that only read, a = 2", 2, 8, hop(read)),
        guest("page hops that only read, a = 3", 3, 8, hop(read)),
        guest("page hops that only read, a = 4", 4, 8, hop(read)),
    ]
}

/// A fresh machine with this program at 0, every page with both rights, and bytes of all kinds in them.
pub fn fresh(guest: &Guest) -> State {
    let mut main = vec![0; PAGE * (1 + guest.frames as usize)];
    for entry in main.chunks_exact_mut(4).take(guest.ptl as usize) {
        entry[0] = 6;
    }
    let mut swap: Vec<u8> = (0..PAGE * guest.ptl as usize).map(|at| (at * 7 % 251) as u8).collect();
    for (place, word) in swap.chunks_exact_mut(4).zip(&guest.code) {
        place.copy_from_slice(&word.to_le_bytes());
    }
    let (p, a, ptl) = (1 + guest.frames, guest.frames, guest.ptl);
    let rec = Record { p, a, abase: 1, ptl, pcp: 4, ..Record::default() };
    State { words: rec.to_words(), main, swap }
}
