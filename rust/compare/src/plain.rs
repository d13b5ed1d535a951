//! The proved plain engine, as the harness asks for it.
use crate::BEFORE;
use brenwythal::plain::{calls, PAGE};
use harness::{PlainEngine, PlainState};

/// The proved plain engine, on the state as it is.
pub struct ProvedPlain;

impl PlainEngine for ProvedPlain {
    fn load(&mut self, image: &[u8], state: &mut PlainState) -> u32 {
        calls::load(image, &mut state.memory, &mut state.rights, &mut state.words)
    }

    fn run(&mut self, state: &mut PlainState, limit: u32) -> [u32; 4] {
        let mut answer = [BEFORE; 3];
        let refusal = calls::run(&mut state.words, &mut state.memory, &state.rights, limit, &mut answer);
        let [stop, detail, finished] = answer;
        [refusal, stop, detail, finished]
    }

    fn host_read(&mut self, state: &mut PlainState, va: u32, buffer: &mut [u8]) -> u32 {
        calls::read(&state.words, &state.memory, &state.rights, va, buffer)
    }

    fn host_write(&mut self, state: &mut PlainState, va: u32, bytes: &[u8]) -> u32 {
        calls::write(&state.words, &mut state.memory, &state.rights, va, bytes)
    }

    /// The library copies the page out; of a refused view the buffer is handed on if it was touched.
    fn page_view(&mut self, state: &mut PlainState, page: u32) -> (u32, Vec<u8>) {
        let untouched = vec![BEFORE as u8; PAGE];
        let mut buffer = untouched.clone();
        let refusal = calls::view(&state.words, &state.memory, &state.rights, page, &mut buffer);
        if refusal != 0 && buffer == untouched {
            buffer.clear();
        }
        (refusal, buffer)
    }

    fn reply(&mut self, state: &mut PlainState, register: u32, value: u32) -> u32 {
        calls::reply(&mut state.words, register, value)
    }

    fn read_image(&mut self, image: &[u8]) -> [u32; 4] {
        let mut answer = [BEFORE; 3];
        let refusal = calls::image(image, &mut answer);
        let [ptl, start, frames] = answer;
        [refusal, ptl, start, frames]
    }
}

#[cfg(test)]
mod tests {
    use super::*;
    use crate::Proved;
    use harness::{compare_plain, Peer, PlainPeer};

    #[test]
    fn the_proved_engines_agree_with_the_peers() {
        let (paged, plain) = (&mut Proved, &mut ProvedPlain);
        let stats = compare_plain(7, 8000, [&mut Peer, paged], [&mut PlainPeer, plain]).unwrap();
        for stats in [&stats.both, &stats.alone] {
            assert!(stats.refusals.iter().all(|&count| count > 0), "{stats:?}");
            assert!(stats.stops.iter().all(|&count| count > 0), "{stats:?}");
        }
        assert!(stats.both.loads > 0 && stats.both.spares[1] > 0, "{stats:?}");
    }

    /// A record, an answer or a view's buffer of the wrong length is refused 1, before all else, and nothing
    /// changes.
    #[test]
    fn wrong_lengths() {
        let file =
            [vec![0; PAGE], vec![3], [25u32, 4121, 1, 0, 0, 1].map(u32::to_le_bytes).concat()].concat();
        let (mut memory, mut rights) = (vec![0x5A; PAGE], vec![0xA5; 1]);
        for len in [0, 34, 36, 75] {
            let mut words = vec![BEFORE; len];
            assert_eq!(calls::load(&file, &mut memory, &mut rights, &mut words), 1);
            assert_eq!(calls::load(&[], &mut memory, &mut rights, &mut words), 1, "1 comes before 5");
            assert!(words.iter().all(|&word| word == BEFORE));
        }
        assert!(memory.iter().all(|&byte| byte == 0x5A) && rights == [0xA5]);
        for len in [0, 2, 4] {
            let mut answer = vec![BEFORE; len];
            assert_eq!(calls::image(&file, &mut answer), 1);
            assert_eq!(calls::image(&[], &mut answer), 1, "1 comes before 5");
            assert!(answer.iter().all(|&word| word == BEFORE));
        }

        let mut record = vec![BEFORE; 35];
        assert_eq!(calls::load(&file, &mut memory, &mut rights, &mut record), 0);
        let good = (record.clone(), memory.clone(), rights.clone());
        for len in [0, 2, 4, 5] {
            let mut answer = vec![BEFORE; len];
            assert_eq!(calls::run(&mut record, &mut memory, &rights, 1, &mut answer), 1);
            assert_eq!(calls::run(&mut record, &mut memory, &[4], u32::MAX, &mut answer), 1);
            assert!(answer.iter().all(|&word| word == BEFORE));
        }
        for len in [0, 1, PAGE - 1, PAGE + 1] {
            let mut buffer = vec![0xEE; len];
            assert_eq!(calls::view(&record, &memory, &rights, 0, &mut buffer), 1);
            assert_eq!(calls::view(&record, &memory, &[4], 9, &mut buffer), 1);
            assert!(buffer.iter().all(|&byte| byte == 0xEE));
        }
        for len in [0, 34, 36] {
            let mut other = record.clone();
            other.resize(len, 0);
            let before = other.clone();
            let (mut answer, mut buffer) = ([BEFORE; 3], [0xEE; PAGE]);
            assert_eq!(calls::run(&mut other, &mut memory, &rights, 1, &mut answer), 1);
            assert_eq!(calls::read(&other, &memory, &rights, 0, &mut buffer[..1]), 1);
            assert_eq!(calls::write(&other, &mut memory, &rights, 0, &[1]), 1);
            assert_eq!(calls::view(&other, &memory, &rights, 0, &mut buffer), 1);
            assert_eq!(calls::reply(&mut other, 1, 1), 1);
            assert!(other == before && answer == [BEFORE; 3] && buffer.iter().all(|&byte| byte == 0xEE));
        }
        assert!((record, memory, rights) == good);
    }

    /// The trap image, cut at every length from either end: the reader and the loader answer as the peer's do.
    #[test]
    fn images_cut_at_every_length() {
        let image = std::fs::read(concat!(env!("CARGO_MANIFEST_DIR"), "/../../examples/trap.img")).unwrap();
        for n in 0..=image.len() {
            for cut in [&image[..n], &image[n..]] {
                assert_eq!(ProvedPlain.read_image(cut), PlainPeer.read_image(cut), "{} bytes", cut.len());
                let lent = PlainState { words: [7; 35], memory: vec![9; PAGE], rights: vec![9] };
                let (mut ours, mut theirs) = (lent.clone(), lent);
                let refusal = ProvedPlain.load(cut, &mut ours);
                assert_eq!(refusal == 0, cut.len() == image.len(), "{} bytes", cut.len());
                assert_eq!(refusal, PlainPeer.load(cut, &mut theirs), "{} bytes", cut.len());
                assert!(ours == theirs, "{} bytes", cut.len());
            }
        }
    }
}
