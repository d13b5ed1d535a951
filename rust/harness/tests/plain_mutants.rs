//! The comparison with plain engines must hold where it should, and must catch what is wrong.
use harness::{compare_plain, PlainEngine, PlainPeer, PlainState, PlainStats};
use harness::{Engine, ImageAnswer, Peer, State};
use peer::plain::Plain;
use peer::PAGE;

type Load = fn(&[u8], &mut PlainState) -> u32;
type Run = fn(&mut PlainState, u32) -> [u32; 4];
type Read = fn(&mut PlainState, u32, &mut [u8]) -> u32;
type Write = fn(&mut PlainState, u32, &[u8]) -> u32;
type View = fn(&mut PlainState, u32) -> (u32, Vec<u8>);
type Reply = fn(&mut PlainState, u32, u32) -> u32;
type Reading = fn(&[u8]) -> [u32; 4];

/// Puts right what a check does not look at.
type Blind = fn(&mut PlainState);

/// What one finished instruction does besides: its word, the machine before, the machine after.
type Step = fn(u32, &PlainState, &mut PlainState);

/// The peer's plain engine, some of its calls made otherwise. By default its runs go one instruction at a time,
/// and its promises are checked.
#[derive(Clone, Copy, Default)]
struct Wrong {
    load: Option<Load>,
    run: Option<Run>,
    read: Option<Read>,
    write: Option<Write>,
    view: Option<View>,
    reply: Option<Reply>,
    reading: Option<Reading>,
    blind: Option<Blind>,
    step: Option<Step>,
    /// Spoil every step of this opcode, or of function (code − 64).
    code: Option<u32>,
}

fn record(state: &PlainState) -> Plain {
    Plain::from_words(&state.words)
}

fn word_at_dpc(state: &PlainState) -> Option<u32> {
    let at = record(state).dpc as usize;
    let bytes = state.memory.get(at..at + 4)?;
    Some(u32::from_le_bytes(bytes.try_into().unwrap()))
}

/// The address of a load or store.
fn address(word: u32, state: &PlainState) -> usize {
    record(state).gpr[(word >> 21 & 31) as usize].wrapping_add(word as i16 as u32) as usize
}

impl Wrong {
    fn one(&self, state: &mut PlainState) -> [u32; 4] {
        let word = word_at_dpc(state);
        // Only who looks at the machine before the step needs it.
        let before = if self.step.is_some() { state.clone() } else { PlainState::default() };
        let ran = PlainPeer.run(state, 1);
        if let (Some(word), 1) = (word, ran[3]) {
            let code = if word >> 26 == 0 { 64 + word % 64 } else { word >> 26 };
            if self.code == Some(code) {
                state.words[28] ^= 1;
            }
            if let Some(step) = self.step {
                step(word, &before, state);
            }
        }
        ran
    }

    /// A machine that is fine but for what `blind` puts right is taken for fine.
    fn look_away(&self, state: &mut PlainState) {
        if let (Some(blind), Err(_)) = (self.blind, record(state).check(&state.memory, &state.rights)) {
            let mut seen = state.clone();
            blind(&mut seen);
            if record(&seen).check(&seen.memory, &seen.rights).is_ok() {
                *state = seen;
            }
        }
    }
}

/// A refused call and a call that only looks leave everything as it was; none but loading changes the rights.
fn unchanged<T>(
    state: &mut PlainState,
    looks: bool,
    call: impl FnOnce(&mut PlainState) -> (u32, T),
) -> (u32, T) {
    let before = state.clone();
    let answer = call(state);
    assert!(state.rights == before.rights && state.words[0] == before.words[0]);
    assert!(*state == before || answer.0 == 0 && !looks);
    answer
}

impl PlainEngine for Wrong {
    fn load(&mut self, image: &[u8], state: &mut PlainState) -> u32 {
        if let Some(load) = self.load {
            return load(image, state);
        }
        let before = state.clone();
        let refusal = PlainPeer.load(image, state);
        assert!(refusal == 0 || (&state.memory, &state.rights) == (&before.memory, &before.rights));
        assert!(refusal == 0 || state.words == [0; 35]);
        refusal
    }

    fn run(&mut self, state: &mut PlainState, limit: u32) -> [u32; 4] {
        self.look_away(state);
        if let Some(run) = self.run {
            return run(state, limit);
        }
        let first = if limit <= 1_000_000 { 0 } else { limit };
        let mut sum = unchanged(state, true, |state| {
            let ran = PlainPeer.run(state, first);
            (ran[0], ran)
        })
        .1;
        while sum[..2] == [0, 0] && sum[3] < limit {
            let ran = self.one(state);
            if ran[0] != 0 {
                return ran; // only a spoiled step makes the machine unsound
            }
            sum = [0, ran[1], ran[2], sum[3] + ran[3]];
        }
        sum
    }

    fn host_read(&mut self, state: &mut PlainState, va: u32, buffer: &mut [u8]) -> u32 {
        self.look_away(state);
        match self.read {
            Some(read) => read(state, va, buffer),
            None => unchanged(state, true, |state| (PlainPeer.host_read(state, va, buffer), ())).0,
        }
    }

    fn host_write(&mut self, state: &mut PlainState, va: u32, bytes: &[u8]) -> u32 {
        self.look_away(state);
        match self.write {
            Some(write) => write(state, va, bytes),
            None => unchanged(state, false, |state| (PlainPeer.host_write(state, va, bytes), ())).0,
        }
    }

    fn page_view(&mut self, state: &mut PlainState, page: u32) -> (u32, Vec<u8>) {
        self.look_away(state);
        match self.view {
            Some(view) => view(state, page),
            None => unchanged(state, true, |state| PlainPeer.page_view(state, page)),
        }
    }

    fn reply(&mut self, state: &mut PlainState, register: u32, value: u32) -> u32 {
        match self.reply {
            Some(reply) => reply(state, register, value),
            None => unchanged(state, false, |state| (PlainPeer.reply(state, register, value), ())).0,
        }
    }

    fn read_image(&mut self, image: &[u8]) -> [u32; 4] {
        match self.reading {
            Some(reading) => reading(image),
            None => PlainPeer.read_image(image),
        }
    }
}

fn compared(seed: u64, calls: u64, plain: [&mut dyn PlainEngine; 2]) -> Result<PlainStats, String> {
    compare_plain(seed, calls, [&mut Peer, &mut Peer], plain).map_err(|failure| failure.to_string())
}

/// Beside the peer's plain engine.
fn caught(seed: u64, mut wrong: Wrong) -> String {
    let report = compared(seed, 20_000, [&mut PlainPeer, &mut wrong]).expect_err("not caught");
    assert!(report.starts_with("plain engines: "), "{report}");
    report
}

/// Beside the paged machine alone: both plain engines are wrong in the same way.
fn caught_by_the_paged_machine(seed: u64, wrong: Wrong) -> String {
    let report = compared(seed, 20_000, [&mut wrong.clone(), &mut wrong.clone()]).expect_err("not caught");
    assert!(report.starts_with("paged and plain: "), "{report}");
    report
}

#[test]
fn the_peers_agree() {
    let peers = || compared(1, 40_000, [&mut PlainPeer, &mut PlainPeer]).unwrap();
    let stats = peers();
    for stats in [&stats.both, &stats.alone] {
        assert!(stats.refusals.iter().all(|&count| count > 20), "{stats:?}");
        assert!(stats.stops.iter().all(|&count| count > 40), "{stats:?}");
        assert!(stats.finished > 500_000, "{stats:?}");
    }
    assert!(stats.both.calls > 25_000 && stats.alone.calls > 10_000, "{stats:?}");
    assert!(stats.both.loads > 100_000 && stats.both.spares[1] > 1000, "{stats:?}");
    assert_eq!(stats, peers());
}

#[test]
fn a_run_is_its_steps_and_promises_hold() {
    compared(2, 8_000, [&mut PlainPeer, &mut Wrong::default()]).unwrap();
}

#[test]
fn every_instruction_is_reached() {
    let opcodes = [2, 3, 4, 5, 9, 11, 12, 13, 14, 15, 22, 23, 32, 33, 35, 36, 37, 40, 41, 43, 62];
    let functions = [0, 2, 3, 4, 6, 7, 33, 35, 36, 37, 38, 39].map(|function| 64 + function);
    for code in opcodes.into_iter().chain(24..=31).chain(functions).chain(64 + 40..=64 + 47) {
        caught_by_the_paged_machine(code.into(), Wrong { code: Some(code), ..Wrong::default() });
    }
}

/// A wrong paged engine is found here, too.
#[test]
fn a_wrong_paged_engine_is_caught() {
    /// Its view is of the swap page, wherever the page is.
    struct Swapped;
    impl Engine for Swapped {
        fn load(&mut self, image: &[u8], state: &mut State) -> u32 {
            Peer.load(image, state)
        }
        fn run(&mut self, state: &mut State, limit: u32) -> [u32; 6] {
            Peer.run(state, limit)
        }
        fn host_read(&mut self, state: &mut State, va: u32, buffer: &mut [u8]) -> u32 {
            Peer.host_read(state, va, buffer)
        }
        fn host_write(&mut self, state: &mut State, va: u32, bytes: &[u8]) -> u32 {
            Peer.host_write(state, va, bytes)
        }
        fn page_view(&mut self, state: &mut State, page: u32) -> (u32, Vec<u8>) {
            match Peer.page_view(state, page).0 {
                0 => (0, state.swap[(state.words[5] + page) as usize * PAGE..][..PAGE].to_vec()),
                refusal => (refusal, Vec::new()),
            }
        }
        fn reply(&mut self, state: &mut State, register: u32, value: u32) -> u32 {
            Peer.reply(state, register, value)
        }
        fn read_image(&mut self, image: &[u8]) -> ImageAnswer {
            Peer.read_image(image)
        }
        fn least_main_pages(&mut self, frames: u32) -> u32 {
            Peer.least_main_pages(frames)
        }
    }
    let plain: [&mut dyn PlainEngine; 2] = [&mut PlainPeer, &mut PlainPeer];
    let report = compare_plain(3, 20_000, [&mut Peer, &mut Swapped], plain).unwrap_err().to_string();
    assert!(report.starts_with("paged engines: answers differ") && report.contains("view "), "{report}");
    let plain: [&mut dyn PlainEngine; 2] = [&mut PlainPeer, &mut PlainPeer];
    let report = compare_plain(3, 20_000, [&mut Swapped, &mut Swapped], plain).unwrap_err().to_string();
    assert!(report.starts_with("paged and plain: answers differ") && report.contains("view "), "{report}");
}

/// "1 for ptl or a lent length, 2 only for GPR 0 not 0 or a rights byte above 3".
#[test]
fn checks_that_do_not_look_are_caught() {
    let blinds: [(&str, Blind); 13] = [
        ("ptl 1025 is taken", |state| {
            if state.words[0] == 1025 {
                state.words[0] = 1024;
                state.memory.truncate(1024 * PAGE);
                state.rights.truncate(1024);
            }
        }),
        ("ptl 0 is taken", |state| {
            if state.words[0] == 0 && state.memory.is_empty() {
                state.words[0] = 1;
                state.memory.resize(PAGE, 0);
                state.rights.resize(1, 0);
            }
        }),
        ("ptl goes round at 2^20", |state| state.words[0] %= 1 << 20),
        ("ptl is not looked at", |state| state.words[0] = state.rights.len() as u32),
        ("a rights byte of 4 is taken", |state| {
            state.rights.iter_mut().filter(|byte| **byte == 4).for_each(|byte| *byte = 0);
        }),
        ("a rights byte of 255 is taken", |state| {
            state.rights.iter_mut().filter(|byte| **byte == 255).for_each(|byte| *byte = 3);
        }),
        ("the first rights byte is not looked at", |state| {
            state.rights.iter_mut().take(1).for_each(|byte| *byte &= 3);
        }),
        ("the last rights byte is not looked at", |state| {
            state.rights.iter_mut().rev().take(1).for_each(|byte| *byte &= 3);
        }),
        ("GPR 0 is not looked at", |state| state.words[1] = 0),
        ("a byte too many of memory is taken", |state| {
            state.memory.truncate(state.memory.len() / PAGE * PAGE);
        }),
        ("a byte too few of memory is taken", |state| {
            state.memory.resize((state.memory.len() + PAGE - 1) / PAGE * PAGE, 0);
        }),
        ("too many rights are taken", |state| state.rights.truncate(state.words[0] as usize)),
        ("one right too few is taken", |state| state.rights.push(0)),
    ];
    for (seed, (name, blind)) in (10..).zip(blinds) {
        let report = caught(seed, Wrong { blind: Some(blind), ..Wrong::default() });
        assert!(report.contains("answers differ"), "{name}: {report}");
    }
}

/// Whether all pages that the transfer touches have this right.
fn granted(state: &PlainState, va: u32, len: usize, right: u8) -> bool {
    let pages = va as usize / PAGE..(va as usize + len + PAGE - 1) / PAGE;
    state.rights.get(pages).map_or(false, |pages| pages.iter().all(|byte| byte & right != 0))
}

/// A call on a machine whose rights are others for its length.
fn with_rights<T>(state: &mut PlainState, right: fn(u8) -> u8, call: impl FnOnce(&mut PlainState) -> T) -> T {
    let rights = state.rights.clone();
    state.rights.iter_mut().for_each(|byte| *byte = if *byte > 3 { *byte } else { right(*byte) });
    let answer = call(state);
    state.rights = rights;
    answer
}

#[test]
fn wrong_reads_are_caught() {
    let reads: [(&str, Read); 10] = [
        ("the rights of the page before", |state, va, buffer| {
            let by = state.rights.len().min(1);
            state.rights.rotate_right(by);
            let refusal = PlainPeer.host_read(state, va, buffer);
            state.rights.rotate_left(by);
            refusal
        }),
        ("a byte past ptl is taken", |state, va, buffer| {
            let end = va as usize + buffer.len();
            if buffer.is_empty() || end != state.memory.len() + 1 {
                return PlainPeer.host_read(state, va, buffer);
            }
            let last = buffer.len() - 1;
            PlainPeer.host_read(state, va, &mut buffer[..last])
        }),
        ("the last page's right is not looked at", |state, va, buffer| {
            let first = buffer.len().min(PAGE - va as usize % PAGE);
            if buffer.len() > 256 || !granted(state, va, first, 1) {
                return PlainPeer.host_read(state, va, buffer);
            }
            with_rights(state, |_| 3, |state| PlainPeer.host_read(state, va, buffer))
        }),
        ("w is asked for", |state, va, buffer| {
            with_rights(state, |byte| byte / 2 + byte % 2 * 2, |state| PlainPeer.host_read(state, va, buffer))
        }),
        ("257 bytes are taken", |state, va, buffer| match buffer.len() {
            257 => PlainPeer.host_read(state, va, &mut buffer[..256]),
            _ => PlainPeer.host_read(state, va, buffer),
        }),
        ("256 bytes are refused", |state, va, buffer| match PlainPeer.host_read(state, va, buffer) {
            0 if buffer.len() == 256 => 4,
            refusal => refusal,
        }),
        ("3 comes before 4", |state, va, buffer| match PlainPeer.host_read(state, va, buffer) {
            4 if !granted(state, va, buffer.len(), 1) => 3,
            refusal => refusal,
        }),
        ("length 0 is refused 3", |state, va, buffer| match PlainPeer.host_read(state, va, buffer) {
            0 if buffer.is_empty() && va as usize > state.memory.len() => 3,
            refusal => refusal,
        }),
        ("addresses go round", |state, va, buffer| {
            let room = va.wrapping_neg() as usize;
            match PlainPeer.host_read(state, va, buffer) {
                3 if room < buffer.len() => PlainPeer.host_read(state, 0, &mut buffer[room..]),
                refusal => refusal,
            }
        }),
        ("a refused read clears its buffer", |state, va, buffer| {
            let refusal = PlainPeer.host_read(state, va, buffer);
            if refusal == 3 {
                buffer.fill(0);
            }
            refusal
        }),
    ];
    for (seed, (name, read)) in (30..).zip(reads) {
        let wrong = Wrong { read: Some(read), ..Wrong::default() };
        let reports = [caught(seed, wrong), caught_by_the_paged_machine(seed, wrong)];
        for report in reports {
            assert!(report.contains("answers differ") && report.contains("read va="), "{name}: {report}");
        }
    }
}

#[test]
fn wrong_writes_are_caught() {
    let writes: [(&str, Write); 6] = [
        ("the last byte is dropped", |state, va, bytes| {
            let kept = state.memory.clone();
            let refusal = PlainPeer.host_write(state, va, bytes);
            if refusal == 0 && !bytes.is_empty() {
                let last = va as usize + bytes.len() - 1;
                state.memory[last] = kept[last];
            }
            refusal
        }),
        ("the second page gets nothing", |state, va, bytes| {
            let border = (va as usize / PAGE + 1) * PAGE;
            let kept = state.memory.clone();
            let refusal = PlainPeer.host_write(state, va, bytes);
            if refusal == 0 && border < va as usize + bytes.len() {
                state.memory[border..].copy_from_slice(&kept[border..]);
            }
            refusal
        }),
        ("r is asked for", |state, va, bytes| {
            with_rights(state, |byte| byte / 2 + byte % 2 * 2, |state| PlainPeer.host_write(state, va, bytes))
        }),
        ("r and w are asked for", |state, va, bytes| {
            with_rights(state, |byte| byte / 3 * 3, |state| PlainPeer.host_write(state, va, bytes))
        }),
        ("a refused write writes its first page", |state, va, bytes| {
            let refusal = PlainPeer.host_write(state, va, bytes);
            let first = bytes.len().min(PAGE - va as usize % PAGE);
            if refusal == 3 {
                PlainPeer.host_write(state, va, &bytes[..first]);
            }
            refusal
        }),
        ("a write gives its page the right to read", |state, va, bytes| {
            let refusal = PlainPeer.host_write(state, va, bytes);
            if refusal == 0 && !bytes.is_empty() {
                state.rights[va as usize / PAGE] |= 1;
            }
            refusal
        }),
    ];
    for (seed, (name, write)) in (50..).zip(writes) {
        let wrong = Wrong { write: Some(write), ..Wrong::default() };
        for report in [caught(seed, wrong), caught_by_the_paged_machine(seed, wrong)] {
            assert!(report.contains("write va="), "{name}: {report}");
        }
    }
}

#[test]
fn wrong_views_and_replies_are_caught() {
    let views: [(&str, View); 4] = [
        ("no right is needed", |state, page| {
            with_rights(state, |_| 3, |state| PlainPeer.page_view(state, page))
        }),
        ("the page at ptl is the last one", |state, page| match PlainPeer.page_view(state, page) {
            (3, _) if page == state.words[0] => PlainPeer.page_view(state, page - 1),
            answer => answer,
        }),
        ("page numbers go round at 2^20", |state, page| PlainPeer.page_view(state, page % (1 << 20))),
        ("the last byte is missing", |state, page| {
            let (refusal, mut bytes) = PlainPeer.page_view(state, page);
            bytes.pop();
            (refusal, bytes)
        }),
    ];
    for (seed, (name, view)) in (60..).zip(views) {
        let wrong = Wrong { view: Some(view), ..Wrong::default() };
        for report in [caught(seed, wrong), caught_by_the_paged_machine(seed, wrong)] {
            assert!(report.contains("answers differ") && report.contains("view "), "{name}: {report}");
        }
    }
    let replies: [(&str, Reply); 4] = [
        ("register 0 is taken", |state, register, value| match register {
            0 => 0,
            _ => PlainPeer.reply(state, register, value),
        }),
        ("register 31 is refused", |state, register, value| match register {
            31 => 4,
            _ => PlainPeer.reply(state, register, value),
        }),
        ("register numbers go round at 32", |state, register, value| {
            PlainPeer.reply(state, register % 32, value)
        }),
        ("the machine is looked at", |state, register, value| {
            match record(state).check(&state.memory, &state.rights) {
                Ok(()) => PlainPeer.reply(state, register, value),
                Err(refusal) => refusal,
            }
        }),
    ];
    for (seed, (name, reply)) in (70..).zip(replies) {
        let wrong = Wrong { reply: Some(reply), ..Wrong::default() };
        for report in [caught(seed, wrong), caught_by_the_paged_machine(seed, wrong)] {
            assert!(report.contains("reply "), "{name}: {report}");
        }
    }
}

/// The image with these frames in the place of those.
fn other_frames(image: &[u8], from: u32, to: u32) -> Vec<u8> {
    let mut image = image.to_vec();
    if let Some(at) = image.len().checked_sub(8) {
        if image[at..at + 4] == from.to_le_bytes() {
            image[at..at + 4].copy_from_slice(&to.to_le_bytes());
        }
    }
    image
}

#[test]
fn wrong_loading_is_caught() {
    let loads: [(&str, Load); 9] = [
        ("the last page is skipped", |image, state| {
            let kept = state.memory.clone();
            let refusal = PlainPeer.load(image, state);
            let last = state.memory.len().saturating_sub(PAGE);
            state.memory[last..].copy_from_slice(&kept[last..]);
            refusal
        }),
        ("the last right is skipped", |image, state| {
            let kept = state.rights.last().copied();
            let refusal = PlainPeer.load(image, state);
            state.rights.last_mut().into_iter().zip(kept).for_each(|(byte, kept)| *byte = kept);
            refusal
        }),
        ("r and w are exchanged", |image, state| {
            let refusal = PlainPeer.load(image, state);
            if refusal == 0 {
                state.rights.iter_mut().for_each(|byte| *byte = *byte / 2 + *byte % 2 * 2);
            }
            refusal
        }),
        ("the record stays where it is refused", |image, state| {
            let kept = state.words;
            let refusal = PlainPeer.load(image, state);
            if refusal != 0 {
                state.words = kept;
            }
            refusal
        }),
        ("PC' is start", |image, state| {
            let refusal = PlainPeer.load(image, state);
            state.words[34] = state.words[33];
            refusal
        }),
        ("frames 1 are taken", |image, state| PlainPeer.load(&other_frames(image, 1, 2), state)),
        ("frames 33 are taken", |image, state| PlainPeer.load(&other_frames(image, 33, 2), state)),
        ("a longer memory is taken", |image, state| {
            let mut memory = std::mem::take(&mut state.memory);
            let pages = PlainPeer.read_image(image)[1] as usize * PAGE;
            let end = if memory.len() > pages && pages > 0 { pages } else { memory.len() };
            let rest = memory.split_off(end);
            state.memory = memory;
            let refusal = PlainPeer.load(image, state);
            state.memory.extend(rest);
            refusal
        }),
        ("7 comes before 6", |image, state| {
            let refusal = PlainPeer.load(image, state);
            let fits = state.memory.len() == PAGE * state.rights.len();
            if refusal == 6 && !fits {
                7
            } else {
                refusal
            }
        }),
    ];
    for (seed, (name, load)) in (80..).zip(loads) {
        let report = caught(seed, Wrong { load: Some(load), ..Wrong::default() });
        assert!(report.contains("load "), "{name}: {report}");
    }
    // What the frames of an image mean is no business of the reader.
    let reading: Reading = |image| match PlainPeer.read_image(image) {
        [0, ptl, start, 0] => [0, ptl, start, 4],
        answer => answer,
    };
    let wrong = Wrong { reading: Some(reading), ..Wrong::default() };
    for report in [caught(90, wrong), caught_by_the_paged_machine(90, wrong)] {
        assert!(report.contains("answers differ") && report.contains("image "), "{report}");
    }
}

#[test]
fn wrong_runs_are_caught() {
    let runs: [(&str, Run); 7] = [
        ("4 comes before 2", |state, limit| match PlainPeer.run(state, limit) {
            [2, ..] if limit > 1_000_000 => [4, 0, 0, 0],
            ran => ran,
        }),
        ("1,000,001 is taken", |state, limit| match limit {
            1_000_001 => PlainPeer.run(state, 1),
            _ => PlainPeer.run(state, limit),
        }),
        ("a refused run counts", |state, limit| match PlainPeer.run(state, limit) {
            [0, stop, detail, finished] => [0, stop, detail, finished],
            [refusal, ..] => [refusal, 0, 0, 1],
        }),
        ("a trap is not finished", |state, limit| match PlainPeer.run(state, limit) {
            [0, 1, detail, finished] => [0, 1, detail, finished - 1],
            ran => ran,
        }),
        ("illegal comes before misaligned", |state, limit| match PlainPeer.run(state, limit) {
            [0, 3, va, finished] if va as usize >= state.memory.len() => [0, 2, va, finished],
            ran => ran,
        }),
        ("a stop goes past its instruction", |state, limit| {
            let ran = PlainPeer.run(state, limit);
            if let [0, 2..=4, ..] = ran {
                state.words[33] = state.words[34];
            }
            ran
        }),
        ("no right is needed for a fetch", |state, limit| match PlainPeer.run(state, limit) {
            [0, 2, va, finished] if va == state.words[33] && granted(state, va, 4, 2) => {
                let ran = with_rights(state, |byte| byte | 1, |state| PlainPeer.run(state, 1));
                [0, ran[1], ran[2], finished + ran[3]]
            }
            ran => ran,
        }),
    ];
    for (seed, (name, run)) in (100..).zip(runs) {
        let wrong = Wrong { run: Some(run), ..Wrong::default() };
        for report in [caught(seed, wrong), caught_by_the_paged_machine(seed, wrong)] {
            assert!(report.contains("run "), "{name}: {report}");
        }
    }
}

#[test]
fn wrong_stores_are_caught() {
    let steps: [(&str, Step); 5] = [
        ("sw drops its last byte", |word, old, new| {
            if word >> 26 == 43 {
                new.memory[address(word, old) + 3] = old.memory[address(word, old) + 3];
            }
        }),
        ("sh drops its last byte", |word, old, new| {
            if word >> 26 == 41 {
                new.memory[address(word, old) + 1] = old.memory[address(word, old) + 1];
            }
        }),
        ("sb stores a half", |word, old, new| {
            let at = address(word, old) + 1;
            if word >> 26 == 40 && at < new.memory.len() {
                new.memory[at] = (record(old).gpr[(word >> 16 & 31) as usize] >> 8) as u8;
            }
        }),
        ("a store into the page of the code is lost", |word, old, new| {
            let code = record(old).dpc as usize / PAGE;
            if matches!(word >> 26, 40..=43) && address(word, old) / PAGE == code {
                new.memory[code * PAGE..][..PAGE].copy_from_slice(&old.memory[code * PAGE..][..PAGE]);
            }
        }),
        ("a store gives its page the right to read", |word, old, new| {
            if matches!(word >> 26, 40..=43) {
                new.rights[address(word, old) / PAGE] |= 1;
            }
        }),
    ];
    for (seed, (name, step)) in (110..).zip(steps) {
        let report = caught(seed, Wrong { step: Some(step), ..Wrong::default() });
        assert!(report.contains("differ"), "{name}: {report}");
    }
}
