//! Times the proved library beside the same machine, assembler and lister in plain Rust (`peer`), and beside the
//! machine in C; and the proved plain engine beside the proved paged machine and the plain engine in plain Rust:
//! `bench [rounds]`. The contenders take turns in each round; a figure is the median over the rounds. It prints
//! tables, and writes no file.
#![deny(unsafe_code)]

#[allow(unsafe_code)]
mod contenders;
mod guests;
mod pages;
mod plain;

use contenders::{contenders, cpu_time, hosts, Contender, Entry, Host};
use guests::{fresh, guests, Guest};
use harness::State;
use peer::PAGE;
use plain::{runners, Runner};

/// The instructions of a timed run, and how often a timed call is made.
const RUN: u32 = 1_000_000;
const CALLS: u32 = 20_000;

fn main() {
    let rounds = std::env::args().nth(1).and_then(|word| word.parse().ok()).unwrap_or(15).max(1);
    runs(rounds);
    println!();
    calls(rounds);
    println!();
    texts(rounds);
    println!();
    plain_runs(rounds);
    println!();
    plain_calls(rounds);
}

/// A full page of instructions, assembled and listed: into 18 bytes a word, which are always enough, and into an
/// output that just holds the text.
fn texts(rounds: usize) {
    let tools = pages::tools();
    heading("one page, µs", &tools, "");
    let (text, page) = pages::page();
    let times_of = |name: &str, work: &dyn Fn(&mut dyn pages::Tool)| {
        let times = medians(rounds, &tools, |tool: fn(State) -> Box<dyn pages::Tool>| {
            let mut tool = tool(State::default());
            let begin = cpu_time();
            (0..pages::TIMES).for_each(|_| work(&mut *tool));
            (cpu_time() - begin) / f64::from(pages::TIMES) / 1e3
        });
        row(name, &times, "");
    };
    times_of("1024 lines assembled", &|tool| {
        let mut out = [0; PAGE];
        tool.assemble(&text, &mut out);
        assert!(out[..] == page[..]);
    });
    for (name, room) in [("1024 words listed", 18 * PAGE / 4), ("the same, where they just fit", text.len())]
    {
        times_of(name, &|tool| {
            let mut out = vec![0; room];
            tool.list(&page, &mut out);
            assert!(out[..text.len()] == text[..]);
        });
    }
}

/// The guests.
fn runs(rounds: usize) {
    let contenders = contenders();
    heading("guest, ns an instruction", &contenders, " loads an instruction | copied back |");
    for guest in guests() {
        agree(&guest, &contenders);
        let (mut loads, mut copied) = (0, 0);
        let times = medians(rounds, &contenders, |make| {
            let mut machine = make(fresh(&guest));
            let begin = cpu_time();
            let answer = machine.run(RUN);
            let time = cpu_time() - begin;
            assert_eq!(answer[..3], [0, 0, RUN]);
            (loads, copied) = (answer[3], answer[4]);
            time / f64::from(RUN)
        });
        let share = |count: u32| f64::from(count) / f64::from(RUN);
        row(guest.name, &times, &format!(" {:.2} | {:.2} |", share(loads), share(copied)));
    }
}

/// One call of each kind, on a machine with all frames in use. All but the reply check that the machine is
/// sound, which is all that a run of no instruction does: it compares every page that has no mark with swap.
fn calls(rounds: usize) {
    let hosts = hosts();
    heading("one call, ns", &hosts, "");
    let time_with = |name: &'static str, frames: u32, ptl: u32, call: &dyn Fn(&mut dyn Host)| {
        let guest = Guest { name, frames, ptl, code: Vec::new() };
        // A call through `dyn` is a real call: nothing of it can be left out or taken together.
        let times = medians(rounds, &hosts, |make| {
            let mut host = make(full(&guest));
            let begin = cpu_time();
            (0..CALLS).for_each(|_| call(&mut *host));
            (cpu_time() - begin) / f64::from(CALLS)
        });
        row(name, &times, "");
    };
    let time_of = |name, ptl, call: &dyn Fn(&mut dyn Host)| time_with(name, 4, ptl, call);
    let run = |host: &mut dyn Host| assert_eq!(host.run(0), [0; 5]);
    time_of("run of 0 instructions, ptl 4", 4, &run);
    time_of("run of 0 instructions, ptl 64", 64, &run);
    time_of("run of 0 instructions, ptl 1024", 1024, &run);
    time_with("run of 0 instructions, 2 frames", 2, 32, &run);
    time_with("run of 0 instructions, 4 frames", 4, 32, &run);
    time_with("run of 0 instructions, 32 frames", 32, 32, &run);
    time_of("read of 3 bytes, ptl 4", 4, &read::<3>);
    time_of("read of 3 bytes, ptl 1024", 1024, &read::<3>);
    time_of("read of 256 bytes, ptl 4", 4, &read::<256>);
    time_of("write of 3 bytes, ptl 4", 4, &write::<3>);
    time_of("write of 256 bytes, ptl 4", 4, &write::<256>);
    time_of("view, ptl 4", 4, &|host| {
        let mut into = [0; PAGE];
        host.view(1, &mut into);
    });
    time_of("reply", 4, &|host| host.reply(1, 7));
}

/// The guests, on the plain engine.
fn plain_runs(rounds: usize) {
    let runners = runners();
    heading("plain: guest, ns an instruction", &runners, "");
    for guest in guests() {
        same_guests(&guest, &runners);
        let times = medians(rounds, &runners, |make| {
            let mut machine = make(fresh(&guest));
            let begin = cpu_time();
            let answer = machine.run(RUN);
            let time = cpu_time() - begin;
            assert_eq!(answer, [0, 0, RUN]);
            time / f64::from(RUN)
        });
        row(guest.name, &times, "");
    }
}

/// One call of each kind on the plain engine; the paged machine has four frames, all in use. All but the reply
/// check the machine, which on the plain engine is to look at GPR 0 and each rights byte.
fn plain_calls(rounds: usize) {
    let runners = runners();
    heading("plain: one call, ns", &runners, "");
    let time_of = |name: &'static str, ptl: u32, call: &dyn Fn(&mut dyn Runner)| {
        let guest = Guest { name, frames: 4, ptl, code: Vec::new() };
        let times = medians(rounds, &runners, |make| {
            let mut runner = make(full(&guest));
            let begin = cpu_time();
            (0..CALLS).for_each(|_| call(&mut *runner));
            (cpu_time() - begin) / f64::from(CALLS)
        });
        row(name, &times, "");
    };
    let run = |runner: &mut dyn Runner| assert_eq!(runner.run(0), [0; 3]);
    time_of("run of 0 instructions, ptl 4", 4, &run);
    time_of("run of 0 instructions, ptl 64", 64, &run);
    time_of("run of 0 instructions, ptl 1024", 1024, &run);
    time_of("read of 3 bytes, ptl 4", 4, &|runner| runner.read(4095, &mut [0; 3]));
    time_of("read of 256 bytes, ptl 4", 4, &|runner| runner.read(4095, &mut [0; 256]));
    time_of("write of 3 bytes, ptl 4", 4, &|runner| runner.write(4095, &[7; 3]));
    time_of("write of 256 bytes, ptl 4", 4, &|runner| runner.write(4095, &[7; 256]));
    time_of("view, ptl 4", 4, &|runner| runner.view(1, &mut [0; PAGE]));
    time_of("reply", 4, &|runner| runner.reply(1, 7));
}

/// Reads across the border of pages 0 and 1.
fn read<const LENGTH: usize>(host: &mut dyn Host) {
    let mut into = [0; LENGTH];
    host.read(4095, &mut into);
}

/// Writes across the border of pages 0 and 1.
fn write<const LENGTH: usize>(host: &mut dyn Host) {
    host.write(4095, &[7; LENGTH]);
}

/// A machine whose frames hold the first pages, as they stand in swap.
fn full(guest: &Guest) -> State {
    let mut state = fresh(guest);
    state.words[6] = guest.frames;
    for (frame, entry) in (0..guest.frames).zip(state.main.chunks_exact_mut(4)) {
        entry.copy_from_slice(&((1 + frame) << 12 | 7).to_le_bytes());
        state.words[8 + frame as usize] = frame;
    }
    let pages = PAGE * guest.frames as usize;
    state.main[PAGE..][..pages].copy_from_slice(&state.swap[..pages]);
    state
}

/// Every contender must answer the same and leave the same machine, after runs of several lengths.
fn agree(guest: &Guest, contenders: &[Entry<dyn Contender>]) {
    for limit in [0, 1, 2, 3, 5, 17, 1000, 40_000] {
        let outcome = |(_, make): &Entry<dyn Contender>| {
            let mut machine = make(fresh(guest));
            (machine.run(limit), machine.state())
        };
        let first = outcome(&contenders[0]);
        for contender in &contenders[1..] {
            assert!(outcome(contender) == first, "{} differs on {} after {limit}", contender.0, guest.name);
        }
    }
}

/// Every runner must answer the same and leave the same guest, after runs of several lengths.
fn same_guests(guest: &Guest, runners: &[Entry<dyn Runner>]) {
    for limit in [0, 1, 2, 3, 5, 17, 1000, 40_000] {
        let outcome = |(_, make): &Entry<dyn Runner>| {
            let mut machine = make(fresh(guest));
            (machine.run(limit), machine.guest())
        };
        let first = outcome(&runners[0]);
        for runner in &runners[1..] {
            assert!(outcome(runner) == first, "{} differs on {} after {limit}", runner.0, guest.name);
        }
    }
}

/// The median time of each contender.
fn medians<M: ?Sized>(
    rounds: usize,
    contenders: &[Entry<M>],
    mut time: impl FnMut(fn(State) -> Box<M>) -> f64,
) -> Vec<f64> {
    let mut times = vec![Vec::new(); contenders.len()];
    for _ in 0..rounds {
        for (times, (_, make)) in times.iter_mut().zip(contenders) {
            times.push(time(*make));
        }
    }
    let median = |mut times: Vec<f64>| {
        times.sort_by(f64::total_cmp);
        times[times.len() / 2]
    };
    times.into_iter().map(median).collect()
}

fn heading<M: ?Sized>(what: &str, contenders: &[Entry<M>], more: &str) {
    let names: String = contenders.iter().map(|(name, _)| format!(" {name} |")).collect();
    let first = contenders[0].0;
    let ratios: String = contenders[1..].iter().map(|(name, _)| format!(" {first} / {name} |")).collect();
    let head = format!("| {what} |{names}{ratios}{more}");
    println!("{head}\n|{}", "---|".repeat(head.matches('|').count() - 1));
}

fn row(name: &str, times: &[f64], more: &str) {
    let figures: String = times.iter().map(|time| format!(" {time:.2} |")).collect();
    let ratios: String = times[1..].iter().map(|time| format!(" {:.2} |", times[0] / time)).collect();
    println!("| {name} |{figures}{ratios}{more}");
}
