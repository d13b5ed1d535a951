//! Plays series on four machines, two paged and two plain, and compares everything after each step. Every third
//! series is one of plain machines alone.
use super::engine::{guest_page, PlainEngine, PlainState};
use super::generate::Maker;
use super::step::{told, word_name, Step};
use crate::call::Answer;
use crate::compare::{caught, same_answers, same_bytes, same_words, shrink, Failure, Pair, Stats};
use crate::engine::{Engine, State};
use peer::PAGE;
use std::fmt;

/// How much was compared: in the series of both machines, and in those of plain machines alone.
#[derive(Clone, Debug, Default, PartialEq, Eq)]
pub struct PlainStats {
    pub both: Stats,
    pub alone: Stats,
}

impl PlainStats {
    fn calls(&self) -> u64 {
        self.both.calls + self.alone.calls
    }

    fn series(&self) -> u64 {
        self.both.series + self.alone.series
    }

    fn of(&mut self, both: bool) -> &mut Stats {
        if both {
            &mut self.both
        } else {
            &mut self.alone
        }
    }
}

impl fmt::Display for PlainStats {
    fn fmt(&self, f: &mut fmt::Formatter) -> fmt::Result {
        let listed = |counts: &[u64]| counts.iter().map(u64::to_string).collect::<Vec<_>>().join(" ");
        writeln!(f, "{} calls in {} series: no difference", self.calls(), self.series())?;
        for (name, stats) in [("paged and plain", &self.both), ("plain alone", &self.alone)] {
            let (answered, refused) = (stats.refusals[0], listed(&stats.refusals[1..]));
            let (stops, finished) = (listed(&stats.stops), stats.finished);
            writeln!(f, "{name}: answered {answered}, refused 1 to 7: {refused}")?;
            writeln!(f, "{name}: runs by stop 0 to 4: {stops}, instructions {finished}")?;
        }
        let [_, made] = self.both.spares;
        write!(f, "page loads of the paged machine {}, spare bits changed {made}", self.both.loads)
    }
}

/// Compares on at least this many calls (the last series is played to its end): the paged engines with each
/// other, the plain ones with each other, and from the same image the first paged with the first plain one.
pub fn compare_plain(
    seed: u64,
    calls: u64,
    paged: [&mut dyn Engine; 2],
    plain: [&mut dyn PlainEngine; 2],
) -> Result<PlainStats, Failure<Step>> {
    let mut stats = PlainStats::default();
    let mut four = Four::new(paged, plain);
    while stats.calls() < calls {
        let series = stats.series();
        let mut maker = Maker::new(seed, series);
        four.begin(series % 3 != 2);
        let mut played = Vec::new();
        let mut last = Answer::Nothing;
        for _ in 0..40 {
            played.push(four.next(&mut maker, &last));
            match four.step(&played[played.len() - 1]) {
                Ok(answer) => last = answer,
                Err(what) => {
                    let (calls, what) = shrink(|steps| four.play(steps), played, what);
                    return Err(Failure { seed, series, what, calls });
                }
            }
            stats.of(four.both).count(&last);
        }
        stats.of(four.both).series += 1;
    }
    Ok(stats)
}

struct PlainPair<'e> {
    a: &'e mut dyn PlainEngine,
    b: &'e mut dyn PlainEngine,
    left: PlainState,
    right: PlainState,
}

impl PlainPair<'_> {
    /// One step on both; the common answer, or the first difference.
    fn step(&mut self, step: &Step) -> Result<Answer, String> {
        let left = caught(|| step.apply(self.a, &mut self.left))?;
        let right = caught(|| step.apply(self.b, &mut self.right))?;
        same_answers(&left, &right)?;
        same_words(&self.left.words, &self.right.words, word_name)?;
        same_bytes("memory", &self.left.memory, &self.right.memory)?;
        same_bytes("rights", &self.left.rights, &self.right.rights)?;
        Ok(left)
    }
}

struct Four<'e, 'p> {
    paged: Pair<'e>,
    plain: PlainPair<'p>,
    /// Whether the paged machines go along.
    both: bool,
}

impl<'e, 'p> Four<'e, 'p> {
    fn new([a, b]: [&'e mut dyn Engine; 2], [c, d]: [&'p mut dyn PlainEngine; 2]) -> Self {
        let paged = Pair { a, b, left: State::default(), right: State::default() };
        let plain = PlainPair { a: c, b: d, left: PlainState::default(), right: PlainState::default() };
        Four { paged, plain, both: true }
    }

    /// Begins a series from nothing.
    fn begin(&mut self, both: bool) {
        (self.paged.left, self.paged.right) = (State::default(), State::default());
        (self.plain.left, self.plain.right) = (PlainState::default(), PlainState::default());
        self.both = both;
    }

    fn next(&self, maker: &mut Maker, last: &Answer) -> Step {
        if self.both {
            Step::Call(maker.next_of_both(&self.paged.left, last))
        } else {
            maker.next_alone(&self.plain.left, last)
        }
    }

    /// One step on all; the answer, or the first difference.
    fn step(&mut self, step: &Step) -> Result<Answer, String> {
        let plain = self.plain.step(step).map_err(|what| format!("plain engines: {what}"))?;
        let call = match step {
            Step::Call(call) if self.both => call,
            _ => return Ok(plain),
        };
        let paged = self.paged.step(call).map_err(|what| format!("paged engines: {what}"))?;
        let same = same_answers(&told(&paged), &plain).and(same_guest(&self.paged.left, &self.plain.left));
        same.map_err(|what| format!("paged and plain: {what}"))?;
        Ok(paged)
    }

    /// Plays a series from nothing; its first difference and the number of steps up to it.
    fn play(&mut self, steps: &[Step]) -> Option<(usize, String)> {
        self.begin(self.both);
        (1..).zip(steps).find_map(|(count, step)| self.step(step).err().map(|what| (count, what)))
    }
}

/// Both machines have the same ptl, registers and guest's bytes.
fn same_guest(paged: &State, plain: &PlainState) -> Result<(), String> {
    let ptl = paged.words[3];
    same_words(&[ptl], &plain.words[..1], word_name)?;
    same_words(&paged.words[40..74], &plain.words[1..], |index| word_name(1 + index))?;
    let mut pages = (0..ptl).zip(plain.memory.chunks(PAGE));
    pages.try_for_each(|(page, bytes)| same_bytes(&format!("page {page}"), guest_page(paged, page), bytes))
}
