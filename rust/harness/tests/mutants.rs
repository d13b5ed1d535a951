//! The comparison must hold where it should, and must catch what is wrong.
use harness::call::get_word;
use harness::{compare, Engine, ImageAnswer, Peer, State};
use peer::{Record, PAGE};

/// What one finished instruction does to the record: its word, the record before, the record after.
type Step = fn(u32, &Record, &mut Record);

/// What a page load makes of an entry: whether its page has left, the entry before, the entry after.
type Touch = fn(bool, u32, u32) -> u32;

/// What the host does to a page's spare bits, and whether it did it.
type Spare = fn(&Record, &mut [u8], u32, u16) -> bool;

/// What a host write of some bytes does to the marks: the record before, address, length, the record after.
type Mark = fn(&Record, u32, usize, &mut Record);

/// Puts right what a check does not look at.
type Blind = fn(&mut Record, &mut [u8], &mut [u8]);

/// What loading takes a zero in an image's frames for, with this many whole pages of main memory.
type Zero = fn(usize) -> u32;

/// The main pages that are said to be the least for some frames.
type Least = fn(u32) -> u32;

/// The peer, stepped one instruction at a time through `step` and `touch`, its promises checked, or its host
/// write, its check, its host's `spare`, its loading or the main pages that it asks for wrong.
#[derive(Default)]
struct Stepped {
    step: Option<Step>,
    touch: Option<Touch>,
    spare: Option<Spare>,
    mark: Option<Mark>,
    blind: Option<Blind>,
    zero: Option<Zero>,
    least: Option<Least>,
    /// Every page that leaves counts as copied.
    copies_all: bool,
    /// Spoil every step of this opcode, or of function (code − 64).
    code: Option<u32>,
    write_to_swap: bool,
}

fn word_at_dpc(state: &State) -> Option<u32> {
    let rec = Record::from_words(&state.words);
    let mut bytes = [0; 4];
    peer::host_read(&rec, &state.main, &state.swap, rec.dpc, &mut bytes).ok()?;
    Some(u32::from_le_bytes(bytes))
}

/// The entry of a page, in a machine that is sound.
fn entry(rec: &Record, main: &[u8], page: u32) -> u32 {
    get_word(main, (rec.pto + 4 * page) as usize)
}

fn put_entry(rec: &Record, main: &mut [u8], page: u32, word: u32) {
    main[(rec.pto + 4 * page) as usize..][..4].copy_from_slice(&word.to_le_bytes());
}

/// An instruction, with `touch` done to the entries of the pages that it brought in or put out.
fn touched(touch: Touch, state: &mut State) -> [u32; 6] {
    let before = Record::from_words(&state.words);
    let table: Vec<u32> = (0..before.ptl).map(|x| entry(&before, &state.main, x)).collect();
    let ran = Peer.run(state, 1);
    let after = Record::from_words(&state.words);
    let held = |rec: &Record, x| rec.book[..rec.b as usize].contains(&x);
    for (x, &old) in (0..).zip(&table).filter(|&(x, _)| held(&before, x) != held(&after, x)) {
        let word = touch(held(&before, x), old, entry(&after, &state.main, x));
        put_entry(&after, &mut state.main, x, word);
    }
    ran
}

/// Bits 11–3 of the whole table.
fn spares(state: &State) -> Vec<u32> {
    let rec = Record::from_words(&state.words);
    (0..rec.ptl).map(|x| entry(&rec, &state.main, x) & 0xFF8).collect()
}

impl Stepped {
    fn one(&self, state: &mut State) -> [u32; 6] {
        let word = word_at_dpc(state);
        let before = Record::from_words(&state.words);
        let ran = match self.touch {
            Some(touch) => touched(touch, state),
            None => Peer.run(state, 1),
        };
        if let (Some(word), 1) = (word, ran[3]) {
            let mut after = Record::from_words(&state.words);
            let code = if word >> 26 == 0 { 64 + word % 64 } else { word >> 26 };
            if self.code == Some(code) {
                after.gpr[27] ^= 1;
            }
            if let Some(step) = self.step {
                step(word, &before, &mut after);
                after.gpr[0] = 0;
            }
            state.words = after.to_words();
        }
        ran
    }

    /// A machine that is sound but for what `blind` puts right is taken for sound.
    fn look_away(&self, blind: Blind, state: &mut State) {
        let mut rec = Record::from_words(&state.words);
        if rec.check(&state.main, &state.swap) == Err(2) && rec.b <= rec.a {
            let mut seen = state.clone();
            blind(&mut rec, &mut seen.main, &mut seen.swap);
            seen.words = rec.to_words();
            if rec.check(&seen.main, &seen.swap).is_ok() {
                *state = seen;
            }
        }
    }
}

/// The mark of the frame that holds a page, or 0.
fn mark_of(rec: &Record, page: u32) -> u32 {
    rec.book[..rec.b as usize].iter().position(|&x| x == page).map_or(0, |f| 1 << f)
}

/// A refused call and a call that only looks leave everything as it was.
fn unchanged<T>(state: &mut State, looks: bool, call: impl FnOnce(&mut State) -> (u32, T)) -> (u32, T) {
    let before = state.clone();
    let answer = call(state);
    assert!(*state == before || answer.0 == 0 && !looks);
    answer
}

impl Engine for Stepped {
    fn load(&mut self, image: &[u8], state: &mut State) -> u32 {
        let before = state.clone();
        let mut image = image.to_vec();
        if let (Some(zero), Some(at)) = (self.zero, image.len().checked_sub(24)) {
            if image[at + 16..at + 20] == [0; 4] {
                image[at + 16..at + 20].copy_from_slice(&zero(state.main.len() / PAGE).to_le_bytes());
            }
        }
        let refusal = Peer.load(&image, state);
        assert!(refusal == 0 || (&state.main, &state.swap) == (&before.main, &before.swap));
        refusal
    }

    fn run(&mut self, state: &mut State, limit: u32) -> [u32; 6] {
        if let Some(blind) = self.blind {
            self.look_away(blind, state);
        }
        let used = state.words[6];
        let mut sum = if limit <= 1_000_000 { Peer.run(state, 0) } else { Peer.run(state, limit) };
        let before = if sum[0] == 0 { spares(state) } else { Vec::new() };
        while sum[0] == 0 && sum[1] == 0 && sum[3] < limit {
            let ran = self.one(state);
            if ran[0] != 0 {
                return ran; // only a spoiled step makes the machine unsound
            }
            sum = [0, ran[1], ran[2], sum[3] + ran[3], sum[4] + ran[4], sum[5] + ran[5]];
        }
        assert!(sum[4] <= 2 * sum[3] + u32::from(sum[1] != 0));
        assert!(sum[5] <= sum[4]);
        if self.copies_all && sum[0] == 0 {
            sum[5] = sum[4] - (state.words[6] - used);
        }
        assert!(sum[0] != 0 || self.touch.is_some() || spares(state) == before);
        sum
    }

    fn host_read(&mut self, state: &mut State, va: u32, buffer: &mut [u8]) -> u32 {
        unchanged(state, true, |state| (Peer.host_read(state, va, buffer), ())).0
    }

    fn host_write(&mut self, state: &mut State, va: u32, bytes: &[u8]) -> u32 {
        let (main, before) = (state.main.clone(), Record::from_words(&state.words));
        let refusal = unchanged(state, false, |state| (Peer.host_write(state, va, bytes), ())).0;
        if let (Some(mark), 0) = (self.mark, refusal) {
            let mut after = Record::from_words(&state.words);
            mark(&before, va, bytes.len(), &mut after);
            state.words = after.to_words();
        }
        if self.write_to_swap && refusal == 0 && !bytes.is_empty() {
            state.main = main;
            let at = state.words[5] as usize * PAGE + va as usize;
            state.swap[at..at + bytes.len()].copy_from_slice(bytes);
        }
        refusal
    }

    fn page_view(&mut self, state: &mut State, page: u32) -> (u32, Vec<u8>) {
        unchanged(state, true, |state| Peer.page_view(state, page))
    }

    fn reply(&mut self, state: &mut State, register: u32, value: u32) -> u32 {
        unchanged(state, false, |state| (Peer.reply(state, register, value), ())).0
    }

    fn read_image(&mut self, image: &[u8]) -> ImageAnswer {
        Peer.read_image(image)
    }

    fn least_main_pages(&mut self, frames: u32) -> u32 {
        self.least.map_or(Peer.least_main_pages(frames), |least| least(frames))
    }

    fn set_spare(&mut self, state: &mut State, page: u32, value: u16) -> bool {
        match self.spare {
            Some(spare) => spare(&Record::from_words(&state.words), &mut state.main, page, value),
            None => Peer.set_spare(state, page, value),
        }
    }
}

fn caught(seed: u64, mut wrong: Stepped) -> String {
    match compare(seed, 20_000, &mut Peer, &mut wrong) {
        Ok(_) => panic!("not caught"),
        Err(failure) => failure.to_string(),
    }
}

#[test]
fn the_peer_is_itself() {
    let stats = compare(1, 40_000, &mut Peer, &mut Peer).unwrap();
    assert!(stats.refusals.iter().all(|&count| count > 50), "{stats:?}");
    assert!(stats.stops.iter().all(|&count| count > 200), "{stats:?}");
    assert!(stats.loads > 100_000 && stats.finished > 1_000_000, "{stats:?}");
    assert!(stats.copied > 20_000 && stats.loads - stats.copied > 20_000, "{stats:?}");
    assert!(stats.spares.iter().all(|&count| count > 500), "{stats:?}");
    assert_eq!(stats, compare(1, 40_000, &mut Peer, &mut Peer).unwrap());
}

#[test]
fn a_run_is_its_steps_and_promises_hold() {
    compare(2, 8_000, &mut Peer, &mut Stepped::default()).unwrap();
}

#[test]
fn every_instruction_is_reached() {
    let opcodes = [2, 3, 4, 5, 9, 11, 12, 13, 14, 15, 22, 23, 32, 33, 35, 36, 37, 40, 41, 43, 62];
    let functions = [0, 2, 3, 4, 6, 7, 33, 35, 36, 37, 38, 39].map(|function| 64 + function);
    for code in opcodes.into_iter().chain(24..=31).chain(functions).chain(64 + 40..=64 + 47) {
        caught(code.into(), Stepped { code: Some(code), ..Stepped::default() });
    }
}

#[test]
fn a_write_to_swap_while_resident_is_caught() {
    let report = caught(3, Stepped { write_to_swap: true, ..Stepped::default() });
    let lines: Vec<&str> = report.lines().filter(|line| line.starts_with("  ")).collect();
    assert!(lines.len() <= 6 && report.contains("write va="), "{report}");
}

/// A page load "changes only ppx and v", in both entries that it touches.
#[test]
fn wrong_entries_after_a_load_are_caught() {
    let touches: [(&str, Touch); 6] = [
        ("the newcomer's spare bits are cleared", |left, _, new| if left { new } else { new & !0xFF8 }),
        ("the victim's spare bits are cleared", |left, _, new| if left { new & !0xFF8 } else { new }),
        ("the victim keeps its ppx", |left, old, new| if left { old & !0xFFF | new & 0xFFF } else { new }),
        ("the victim keeps v", |left, _, new| new | u32::from(left)),
        ("bit 3 is cleared", |_, _, new| new & !8),
        ("bit 11 is cleared", |_, _, new| new & !0x800),
    ];
    for (seed, (name, touch)) in (30..).zip(touches) {
        let report = caught(seed, Stepped { touch: Some(touch), ..Stepped::default() });
        assert!(report.starts_with("main differs"), "{name}: {report}");
    }
}

/// The host's change touches bits 11–3 of the entry of a page in the table, and nothing else.
#[test]
fn wrong_changes_of_spare_bits_are_caught() {
    let spares: [(&str, Spare); 5] = [
        ("v is changed", |rec, main, page, value| {
            let done = peer::set_spare(rec, main, page, value);
            if done {
                main[rec.pto as usize + 4 * page as usize] ^= 1;
            }
            done
        }),
        ("nothing is done", |rec, main, page, value| value < 512 && peer::spare(rec, main, page).is_some()),
        ("a value is cut to 9 bits", |rec, main, page, value| peer::set_spare(rec, main, page, value % 512)),
        ("a page beyond the table is taken", |rec, main, page, value| {
            peer::set_spare(&Record { ptl: u32::MAX, ..rec.clone() }, main, page, value)
        }),
        ("the table is looked for at 0", |rec, main, page, value| {
            peer::set_spare(&Record { pto: 0, ..rec.clone() }, main, page, value)
        }),
    ];
    for (seed, (name, spare)) in (40..).zip(spares) {
        let report = caught(seed, Stepped { spare: Some(spare), ..Stepped::default() });
        assert!(report.contains("spare "), "{name}: {report}");
    }
}

/// A write of at least one byte marks each frame that gets a byte, and no other.
#[test]
fn wrong_marks_of_a_host_write_are_caught() {
    let marks: [(&str, Mark); 5] = [
        ("no mark is set", |old, _, _, new| new.marks = old.marks),
        ("the second page gets none", |old, va, _, new| new.marks = old.marks | mark_of(old, va / 4096)),
        ("the first page gets none", |old, va, len, new| {
            if len > 0 {
                new.marks = old.marks | mark_of(old, (va + len as u32 - 1) / 4096);
            }
        }),
        ("length 0 marks", |old, va, len, new| {
            if len == 0 {
                new.marks |= mark_of(old, va / 4096);
            }
        }),
        ("a page in swap marks frame 0", |old, va, len, new| {
            if len > 0 && old.b > 0 && mark_of(old, va / 4096) == 0 {
                new.marks |= 1;
            }
        }),
    ];
    for (seed, (name, mark)) in (50..).zip(marks) {
        let report = caught(seed, Stepped { mark: Some(mark), ..Stepped::default() });
        assert!(report.starts_with("marks differs") && report.contains("write va="), "{name}: {report}");
    }
}

/// The check compares every byte of every page without a mark, and the marks with the frames used.
#[test]
fn checks_that_do_not_look_are_caught() {
    /// Where each page without a mark begins, in main memory and in swap.
    const UNMARKED: fn(&Record) -> Vec<(usize, usize)> = |rec| {
        let unmarked = (0..rec.b as usize).filter(|&f| rec.marks >> f & 1 == 0 && rec.book[f] < rec.ptl);
        unmarked
            .map(|f| ((rec.abase as usize + f) * PAGE, (rec.sbase + rec.book[f]) as usize * PAGE))
            .collect()
    };
    let blinds: [(&str, Blind); 6] = [
        ("no byte is compared", |rec, _, _| rec.marks |= ((1u64 << rec.b) - 1) as u32),
        ("the first byte is not compared", |rec, main, swap| {
            UNMARKED(rec).into_iter().for_each(|(frame, page)| swap[page] = main[frame]);
        }),
        ("the last byte is not compared", |rec, main, swap| {
            UNMARKED(rec).into_iter().for_each(|(frame, page)| swap[page + 4095] = main[frame + 4095]);
        }),
        ("the last frame is not compared", |rec, _, _| rec.marks |= ((1u64 << rec.b) >> 1) as u32),
        ("a mark of frame b passes", |rec, _, _| rec.marks &= !((1u64 << rec.b) as u32)),
        ("marks of unused frames pass", |rec, _, _| rec.marks &= ((1u64 << rec.b) - 1) as u32),
    ];
    for (seed, (name, blind)) in (60..).zip(blinds) {
        let report = caught(seed, Stepped { blind: Some(blind), ..Stepped::default() });
        assert!(report.starts_with("answers differ"), "{name}: {report}");
    }
}

/// "A zero in the image's frames field shall mean 4."; "A lent main memory with room for fewer than four frames
/// was accepted before with a zero. Refusals: that case is now 7."
#[test]
fn a_zero_that_does_not_mean_four_is_caught() {
    let zeros: [(&str, Zero); 5] = [
        ("it means 2", |_| 2),
        ("it means 3", |_| 3),
        ("it means 5", |_| 5),
        ("four main pages are taken", |pages| if pages == 4 { 3 } else { 4 }),
        ("three main pages are taken", |pages| if pages == 3 { 2 } else { 4 }),
    ];
    for (seed, (name, zero)) in (80..).zip(zeros) {
        let report = caught(seed, Stepped { zero: Some(zero), ..Stepped::default() });
        assert!(report.contains("differ") && report.contains("load"), "{name}: {report}");
    }
}

#[test]
fn wrong_least_main_pages_are_caught() {
    let leasts: [(&str, Least); 5] = [
        ("three for a zero", |frames| if frames == 0 { 3 } else { peer::least_main_pages(frames) }),
        ("without the table's page", |frames| peer::least_main_pages(frames).saturating_sub(1)),
        ("none for frames 32", |frames| if frames == 32 { 0 } else { peer::least_main_pages(frames) }),
        ("some for frames 1", |frames| peer::least_main_pages(frames).max(2)),
        ("some for frames 33", |frames| if frames == 33 { 34 } else { peer::least_main_pages(frames) }),
    ];
    for (seed, (name, least)) in (90..).zip(leasts) {
        let report = caught(seed, Stepped { least: Some(least), ..Stepped::default() });
        assert!(report.starts_with("answers differ") && report.contains("image"), "{name}: {report}");
    }
}

#[test]
fn a_wrong_count_of_copied_pages_is_caught() {
    let report = caught(70, Stepped { copies_all: true, ..Stepped::default() });
    assert!(report.starts_with("answers differ"), "{report}");
}

const OPCODE: fn(u32) -> u32 = |word| word >> 26;
const RS1: fn(u32, &Record) -> u32 = |word, rec| rec.gpr[(word >> 21 & 31) as usize];
const RD: fn(u32) -> usize = |word| (word >> 16 & 31) as usize;

#[test]
fn wrong_steps_are_caught() {
    let steps: [(&str, Step); 13] = [
        ("branch from DPC", |word, old, new| {
            if matches!(OPCODE(word), 2..=5) && new.pcp != old.pcp.wrapping_add(4) {
                new.pcp = new.pcp.wrapping_sub(old.pcp).wrapping_add(old.dpc);
            }
        }),
        ("hand not advanced", |_, old, new| new.hand = old.hand),
        ("link is DPC+8", |word, old, new| {
            if matches!(OPCODE(word), 3 | 23) {
                new.gpr[31] = old.dpc.wrapping_add(8);
            }
        }),
        ("jalr 31 jumps to its own link", |word, _, new| {
            if OPCODE(word) == 23 && word >> 21 & 31 == 31 {
                new.pcp = new.gpr[31];
            }
        }),
        ("andi not sign extended", |word, old, new| {
            if OPCODE(word) == 12 {
                new.gpr[RD(word)] = RS1(word, old) & (word & 0xFFFF);
            }
        }),
        ("sgr unsigned", |word, old, new| {
            if word >> 26 == 0 && word & 63 == 41 {
                new.gpr[(word >> 11 & 31) as usize] = u32::from(RS1(word, old) > old.gpr[RD(word)]);
            }
        }),
        ("sll by more than 31", |word, old, new| {
            if word >> 26 == 0 && word & 63 == 4 && old.gpr[RD(word)] > 31 {
                new.gpr[(word >> 11 & 31) as usize] = 0;
            }
        }),
        ("lh not sign extended", |word, _, new| {
            if OPCODE(word) == 33 {
                new.gpr[RD(word)] &= 0xFFFF;
            }
        }),
        ("a store sets no mark", |word, old, new| {
            if matches!(OPCODE(word), 40..=43) {
                new.marks &= old.marks;
            }
        }),
        ("a load from memory sets a mark", |word, old, new| {
            if matches!(OPCODE(word), 32..=37) {
                let va = RS1(word, old).wrapping_add(word as i16 as u32);
                new.marks |= mark_of(new, va / 4096);
            }
        }),
        ("a page load keeps the mark", |_, old, new| new.marks |= old.marks),
        ("a page load clears all marks", |word, old, new| {
            if old.book != new.book && !matches!(OPCODE(word), 40..=43) {
                new.marks = 0;
            }
        }),
        ("untaken branch has no delay slot", |word, old, new| {
            if matches!(OPCODE(word), 4 | 5) && new.pcp == old.pcp.wrapping_add(4) {
                new.dpc = new.pcp;
            }
        }),
    ];
    for (seed, (name, step)) in (10..).zip(steps) {
        let report = caught(seed, Stepped { step: Some(step), ..Stepped::default() });
        println!("{name}: {report}");
    }
}
