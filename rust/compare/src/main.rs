//! Compares the proved library and the proved plain engine with the peer: `compare [seed] [calls]`, and
//! `compare plain [seed] [calls]`, as the harness has it.
#![forbid(unsafe_code)]
mod plain;

use brenwythal::{calls, Machine, PAGE};
use harness::{Engine, ImageAnswer, Notation, State};
use plain::ProvedPlain;

/// What stands in an answer or a buffer before the call, to see what the library writes there.
const BEFORE: u32 = 0xDEAD_BEEF;

/// The proved library, on the state as it is.
struct Proved;

impl Engine for Proved {
    fn load(&mut self, image: &[u8], state: &mut State) -> u32 {
        calls::load(image, &mut state.main, &mut state.swap, &mut state.words)
    }

    fn run(&mut self, state: &mut State, limit: u32) -> [u32; 6] {
        let mut answer = [BEFORE; 5];
        let refusal = calls::run(&mut state.words, &mut state.main, &mut state.swap, limit, &mut answer);
        let [stop, detail, finished, loads, copied] = answer;
        [refusal, stop, detail, finished, loads, copied]
    }

    fn host_read(&mut self, state: &mut State, va: u32, buffer: &mut [u8]) -> u32 {
        calls::read(&state.words, &state.main, &state.swap, va, buffer)
    }

    fn host_write(&mut self, state: &mut State, va: u32, bytes: &[u8]) -> u32 {
        calls::write(&mut state.words, &mut state.main, &mut state.swap, va, bytes)
    }

    /// The library copies the page out; of a refused view the buffer is handed on if it was touched.
    fn page_view(&mut self, state: &mut State, page: u32) -> (u32, Vec<u8>) {
        let untouched = vec![BEFORE as u8; PAGE];
        let mut buffer = untouched.clone();
        let refusal = calls::view(&state.words, &state.main, &state.swap, page, &mut buffer);
        if refusal != 0 && buffer == untouched {
            buffer.clear();
        }
        (refusal, buffer)
    }

    fn reply(&mut self, state: &mut State, register: u32, value: u32) -> u32 {
        calls::reply(&mut state.words, register, value)
    }

    /// The header's call answers the numbers alone; the parts follow from them as a C host would cut them.
    fn read_image(&mut self, image: &[u8]) -> ImageAnswer {
        let mut answer = [BEFORE; 3];
        let refusal = calls::image(image, &mut answer);
        let [ptl, start, frames] = answer;
        let (mut pages, mut rights) = (0..0, 0..0);
        if refusal == 0 {
            rights.end = image.len() - 24;
            rights.start = rights.end - ptl as usize;
            pages.end = rights.start;
            pages.start = pages.end - PAGE * ptl as usize;
        }
        ImageAnswer { refusal, ptl, start, frames, pages, rights }
    }

    fn least_main_pages(&mut self, frames: u32) -> u32 {
        calls::least_main_pages(frames)
    }

    fn set_spare(&mut self, state: &mut State, page: u32, value: u16) -> bool {
        with(state, |machine| machine.set_spare(page, value))
    }

    fn spare(&mut self, state: &mut State, page: u32) -> Option<u16> {
        with(state, |machine| machine.spare(page))
    }
}

impl Notation for Proved {
    fn assemble(&mut self, text: &[u8], out: &mut [u8]) -> [usize; 4] {
        let mut answer = [BEFORE as usize; 3];
        let refusal = calls::assemble(text, out, &mut answer);
        let [length, line, column] = answer;
        [refusal as usize, length, line, column]
    }

    fn list(&mut self, words: &[u8], out: &mut [u8]) -> [usize; 2] {
        let mut answer = [BEFORE as usize; 1];
        let refusal = calls::list(words, out, &mut answer);
        [refusal as usize, answer[0]]
    }
}

/// The state as a machine of the wrapper, which owns its memories.
fn with<T>(state: &mut State, act: impl FnOnce(&mut Machine) -> T) -> T {
    let (main, swap) = (std::mem::take(&mut state.main), std::mem::take(&mut state.swap));
    let mut machine = Machine::from_parts(state.words, main, swap);
    let answer = act(&mut machine);
    (state.words, state.main, state.swap) = machine.into_parts();
    answer
}

fn main() -> std::io::Result<()> {
    harness::cli(&mut Proved, &mut ProvedPlain)
}

#[cfg(test)]
mod tests {
    use super::*;
    use harness::{compare, compare_texts, Peer};

    #[test]
    fn the_proved_library_agrees_with_the_peer() {
        let stats = compare(7, 4000, &mut Peer, &mut Proved).unwrap();
        assert!(stats.refusals.iter().all(|&count| count > 0), "{stats:?}");
        assert!(stats.stops.iter().all(|&count| count > 0), "{stats:?}");
        assert!(stats.spares.iter().all(|&count| count > 0), "{stats:?}");
        assert!(0 < stats.copied && stats.copied < stats.loads, "{stats:?}");
    }

    #[test]
    fn the_proved_assembler_and_lister_agree_with_the_peer() {
        let stats = compare_texts(7, 20_000, &mut Peer, &mut Proved).map_err(|e| e.to_string()).unwrap();
        assert!(stats.refused.iter().all(|&count| count > 100), "{stats:?}");
        assert!(stats.unlisted.iter().all(|&count| count > 100), "{stats:?}");
        assert!(stats.assembled > 2000 && stats.listed > 2000, "{stats:?}");
    }

    /// Lines of 290,000 bytes: none deepens the stack, and the answers are the peer's.
    #[test]
    fn long_lines() {
        let long = |piece: &str| piece.repeat(290_000 / piece.len());
        let lines = [
            long("-"),
            format!("trap {}", long("-")),
            format!("trap 1{}", long("-")),
            format!("trap 1{}", long("-1+1")),
            format!("trap 1{}", long("+0")),
            format!("trap -1{}", long("--0")),
            format!("trap {}", long("(")),
            format!("trap 0{}", long("+((((((((0))))))))")),
            format!("trap 0{}", long("+(((((((((0)))))))))")),
            format!("trap{}5", long(" ")),
            format!("trap 5{}", long("\r\t ")),
            format!("trap {}5", long("0")),
            format!("trap {}", long("9")),
            long("0"),
            long("9"),
            long("a"),
            long(")"),
        ];
        for line in lines {
            let (mut ours, mut theirs) = ([7; 4], [7; 4]);
            let (one, other) =
                (Proved.assemble(line.as_bytes(), &mut ours), Peer.assemble(line.as_bytes(), &mut theirs));
            assert_eq!((one, ours), (other, theirs), "{}", &line[..20]);
        }
    }

    /// An answer of the wrong length is refused 1, before a bad line, and nothing changes.
    #[test]
    fn wrong_lengths_of_texts() {
        let mut out = [7; 64];
        for len in [0, 1, 2, 4] {
            let mut answer = vec![BEFORE as usize; len];
            assert_eq!(calls::assemble(b"?", &mut out, &mut answer), 1);
            assert!(answer.iter().all(|&size| size == BEFORE as usize));
            if len != 1 {
                assert_eq!(calls::list(&[0; 4], &mut out, &mut answer), 1);
                assert!(answer.iter().all(|&size| size == BEFORE as usize));
            }
        }
        assert_eq!(out, [7; 64]);
    }

    /// A record, an answer or a view's buffer of the wrong length is refused 1, and nothing changes.
    #[test]
    fn wrong_lengths() {
        let file =
            [vec![0; PAGE], vec![3], [25u32, 4121, 1, 0, 0, 1].map(u32::to_le_bytes).concat()].concat();
        let (mut main, mut swap) = (vec![0xA5; 5 * PAGE], vec![0x5A; PAGE]);
        for len in [0, 74, 76, 150] {
            let mut words = vec![BEFORE; len];
            assert_eq!(calls::load(&file, &mut main, &mut swap, &mut words), 1);
            assert!(words.iter().all(|&word| word == BEFORE));
        }
        assert!(main.iter().all(|&byte| byte == 0xA5) && swap.iter().all(|&byte| byte == 0x5A));
        for len in [0, 2, 4] {
            let mut answer = vec![BEFORE; len];
            assert_eq!(calls::image(&file, &mut answer), 1);
            assert_eq!(calls::image(&[], &mut answer), 1, "1 comes before 5");
            assert!(answer.iter().all(|&word| word == BEFORE));
        }

        let mut record = vec![BEFORE; 75];
        assert_eq!(calls::load(&file, &mut main, &mut swap, &mut record), 0);
        let good = (record.clone(), main.clone(), swap.clone());
        for len in [0, 4, 6] {
            let mut answer = vec![BEFORE; len];
            assert_eq!(calls::run(&mut record, &mut main, &mut swap, 1, &mut answer), 1);
            assert!(answer.iter().all(|&word| word == BEFORE));
        }
        for len in [0, 1, PAGE - 1, PAGE + 1] {
            let mut buffer = vec![0xEE; len];
            assert_eq!(calls::view(&record, &main, &swap, 0, &mut buffer), 1);
            assert!(buffer.iter().all(|&byte| byte == 0xEE));
        }
        for len in [0, 74, 76] {
            let mut other = record.clone();
            other.resize(len, 0);
            let before = other.clone();
            let (mut answer, mut buffer) = ([BEFORE; 5], [0xEE; PAGE]);
            assert_eq!(calls::run(&mut other, &mut main, &mut swap, 1, &mut answer), 1);
            assert_eq!(calls::read(&other, &main, &swap, 0, &mut buffer[..1]), 1);
            assert_eq!(calls::write(&mut other, &mut main, &mut swap, 0, &[1]), 1);
            assert_eq!(calls::view(&other, &main, &swap, 0, &mut buffer), 1);
            assert_eq!(calls::reply(&mut other, 1, 1), 1);
            assert!(other == before && buffer.iter().all(|&byte| byte == 0xEE));
        }
        assert!((record, main, swap) == good);
    }

    /// Of every frames that an image may have, and some that none has.
    #[test]
    fn the_least_main_pages_are_those_of_the_peer() {
        for frames in (0..1000).chain(u32::MAX - 9..=u32::MAX) {
            assert_eq!(Proved.least_main_pages(frames), Peer.least_main_pages(frames), "frames {frames}");
        }
    }

    /// The trap image, cut at every length from either end: the reader and the loader answer as the peer's do.
    #[test]
    fn images_cut_at_every_length() {
        let image = std::fs::read(concat!(env!("CARGO_MANIFEST_DIR"), "/../../examples/trap.img")).unwrap();
        for n in 0..=image.len() {
            for cut in [&image[..n], &image[n..]] {
                assert_eq!(Proved.read_image(cut), Peer.read_image(cut), "{} bytes", cut.len());
                let lent = State { words: [7; 75], main: vec![9; 5 * 4096], swap: vec![9; 4096] };
                let (mut ours, mut theirs) = (lent.clone(), lent);
                let refusal = Proved.load(cut, &mut ours);
                assert_eq!(refusal == 0, cut.len() == image.len(), "{} bytes", cut.len());
                assert_eq!(refusal, Peer.load(cut, &mut theirs), "{} bytes", cut.len());
                assert!(ours == theirs, "{} bytes", cut.len());
            }
        }
    }
}
