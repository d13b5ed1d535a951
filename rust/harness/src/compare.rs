//! Plays series of calls on two engines and compares everything after each call.
use crate::call::{shorter, word_name, Answer, Call};
use crate::engine::{Engine, State};
use crate::generate::Generator;
use std::fmt;
use std::panic::{catch_unwind, AssertUnwindSafe};

/// How much was compared.
#[derive(Clone, Debug, Default, PartialEq, Eq)]
pub struct Stats {
    pub calls: u64,
    pub series: u64,
    /// Calls answered without refusal, then calls refused 1 to 7.
    pub refusals: [u64; 8],
    /// Runs by their stop.
    pub stops: [u64; 5],
    pub finished: u64,
    pub loads: u64,
    pub copied: u64,
    /// Changes of spare bits that did nothing, and those that were made.
    pub spares: [u64; 2],
}

impl fmt::Display for Stats {
    fn fmt(&self, f: &mut fmt::Formatter) -> fmt::Result {
        let listed = |counts: &[u64]| counts.iter().map(u64::to_string).collect::<Vec<_>>().join(" ");
        let (answered, refused) = (self.refusals[0], listed(&self.refusals[1..]));
        writeln!(f, "{} calls in {} series: no difference", self.calls, self.series)?;
        writeln!(f, "answered {answered}, refused 1 to 7: {refused}")?;
        writeln!(f, "runs by stop 0 to 4: {}", listed(&self.stops))?;
        let (finished, loads, copied) = (self.finished, self.loads, self.copied);
        writeln!(f, "instructions {finished}, page loads {loads}, pages copied back {copied}")?;
        let [nothing, made] = self.spares;
        write!(f, "spare bits changed {made}, no such page or value {nothing}")
    }
}

/// A difference, with the smallest series found that shows it.
pub struct Failure<C = Call> {
    pub seed: u64,
    pub series: u64,
    pub what: String,
    pub calls: Vec<C>,
}

/// What a series is made of.
pub trait Simpler: Clone {
    /// What is smaller than this and of its kind.
    fn simpler(&self) -> Vec<Self>;
}

/// Compares the engines on at least this many calls (the last series is played to its end).
pub fn compare(seed: u64, calls: u64, a: &mut dyn Engine, b: &mut dyn Engine) -> Result<Stats, Failure> {
    let mut stats = Stats::default();
    while stats.calls < calls {
        let series = stats.series;
        let mut generator = Generator::new(seed, series);
        let mut pair = Pair { a, b, left: State::default(), right: State::default() };
        let mut played = Vec::new();
        let mut last = Answer::Nothing;
        for _ in 0..40 {
            played.push(generator.next(&pair.left, &last));
            match pair.step(&played[played.len() - 1]) {
                Ok(answer) => last = answer,
                Err(what) => {
                    let (calls, what) = shrink(|calls| pair.play(calls), played, what);
                    return Err(Failure { seed, series, what, calls });
                }
            }
            stats.count(&last);
        }
        stats.series += 1;
    }
    Ok(stats)
}

pub(crate) struct Pair<'e> {
    pub a: &'e mut dyn Engine,
    pub b: &'e mut dyn Engine,
    pub left: State,
    pub right: State,
}

impl Pair<'_> {
    /// One call on both; the common answer, or the first difference.
    pub fn step(&mut self, call: &Call) -> Result<Answer, String> {
        let left = caught(|| call.apply(self.a, &mut self.left))?;
        let right = caught(|| call.apply(self.b, &mut self.right))?;
        same_answers(&left, &right)?;
        same_words(&self.left.words, &self.right.words, word_name)?;
        same_bytes("main", &self.left.main, &self.right.main)?;
        same_bytes("swap", &self.left.swap, &self.right.swap)?;
        Ok(left)
    }

    /// Plays a series from nothing; its first difference and the number of calls up to it.
    fn play(&mut self, calls: &[Call]) -> Option<(usize, String)> {
        (self.left, self.right) = (State::default(), State::default());
        (1..).zip(calls).find_map(|(count, call)| self.step(call).err().map(|what| (count, what)))
    }
}

/// What an engine answers, if it comes back.
pub(crate) fn caught(call: impl FnOnce() -> Answer) -> Result<Answer, String> {
    catch_unwind(AssertUnwindSafe(call)).map_err(|_| "an engine panicked".to_string())
}

pub(crate) fn same_answers(left: &Answer, right: &Answer) -> Result<(), String> {
    if left == right {
        return Ok(());
    }
    Err(format!("answers differ: {left:02x?} and {right:02x?}"))
}

pub(crate) fn same_words(left: &[u32], right: &[u32], name: fn(usize) -> String) -> Result<(), String> {
    let mut words = (0..).zip(left.iter().zip(right));
    match words.find(|(_, (x, y))| x != y) {
        Some((index, (x, y))) => Err(format!("{} differs: {x:#x} and {y:#x}", name(index))),
        None => Ok(()),
    }
}

pub(crate) fn same_bytes(name: &str, left: &[u8], right: &[u8]) -> Result<(), String> {
    if left == right {
        return Ok(());
    }
    let at = left.iter().zip(right).position(|(x, y)| x != y).unwrap_or(left.len().min(right.len()));
    Err(format!("{name} differs at {at:#x}: {:02x?} and {:02x?}", left.get(at), right.get(at)))
}

/// Takes calls away and makes calls smaller, as long as some difference stays and for a bounded time. `play`
/// gives the first difference of a series and the number of calls up to it.
pub(crate) fn shrink<C: Simpler>(
    mut play: impl FnMut(&[C]) -> Option<(usize, String)>,
    mut calls: Vec<C>,
    mut what: String,
) -> (Vec<C>, String) {
    let mut candidates = smaller(&calls);
    let (mut next, mut fruitless, mut plays) = (0, 0, 0);
    while fruitless < candidates.len() && plays < 5000 {
        plays += 1;
        let candidate = &candidates[next % candidates.len()];
        if let Some((count, difference)) = play(candidate) {
            (calls, what, fruitless) = (candidate[..count].to_vec(), difference, 0);
            candidates = smaller(&calls);
        } else {
            next += 1;
            fruitless += 1;
        }
    }
    (calls, what)
}

/// The series that are one reduction smaller.
fn smaller<C: Simpler>(calls: &[C]) -> Vec<Vec<C>> {
    let mut list = shorter(calls);
    for (i, call) in calls.iter().enumerate() {
        let changed = |less| [&calls[..i], &[less], &calls[i + 1..]].concat();
        list.extend(call.simpler().into_iter().map(changed));
    }
    list
}

impl Stats {
    pub(crate) fn count(&mut self, answer: &Answer) {
        self.calls += 1;
        let refusal = match answer {
            Answer::Nothing => return,
            Answer::Code(refusal) | Answer::Bytes(refusal, _) => *refusal,
            Answer::Image(image, _) => image.refusal,
            Answer::Ran(ran) => ran[0],
            Answer::Spare(done, _) => {
                self.spares[usize::from(*done)] += 1;
                return;
            }
        };
        self.refusals[refusal as usize] += 1;
        if let Answer::Ran([0, stop, _, finished, loads, copied]) = *answer {
            self.stops[stop as usize] += 1;
            self.finished += u64::from(finished);
            self.loads += u64::from(loads);
            self.copied += u64::from(copied);
        }
    }
}

impl<C: fmt::Display> fmt::Display for Failure<C> {
    fn fmt(&self, f: &mut fmt::Formatter) -> fmt::Result {
        writeln!(f, "{} (seed {}, series {}), after:", self.what, self.seed, self.series)?;
        (0..).zip(&self.calls).try_for_each(|(i, call): (usize, _)| writeln!(f, "  {i}: {call}"))
    }
}

impl<C: fmt::Display> fmt::Debug for Failure<C> {
    fn fmt(&self, f: &mut fmt::Formatter) -> fmt::Result {
        fmt::Display::fmt(self, f)
    }
}
