//! Holds the engine against `plain`: `differ [calls] [seed] [seconds]`.
//!
//! Random histories are given as text to the replay programs, sheets to the visiting program, and calls to the functions
//! for C. Whatever they answer and leave must be what `plain` does, byte for byte. Rounds have rising seeds and go on until
//! so many calls were made or so many seconds have passed; `differ 1 seed` repeats one. Every refusal of every
//! call and every step of the step table must have been seen, unless the run asked for less than a hundred thousand calls.
//! From 0 on rounds are of every kind at first, from other seeds on perhaps after 1,680,000 calls that are mostly by place.

mod difference;
#[path = "../engine/mod.rs"]
mod engine;
#[path = "../engine/conversions.rs"]
mod engine_conversions;
#[path = "../engine/rank.rs"]
mod engine_rank;
#[path = "../engine/written.rs"]
mod engine_written;
mod programs;

use programs::Engine;
use reference::compare::rounds::Tally;
use reference::compare::Case;
use std::process::ExitCode;
use std::sync::mpsc::{sync_channel, Receiver, SyncSender};
use std::thread;
use std::time::{Duration, Instant};

/// From so many calls on, something not seen is a fault.
const ENOUGH: u64 = 100_000;

/// Rounds that may wait for the engine.
const WAITING: usize = 4;

/// The number at this place of the command line, `otherwise` where there is none.
fn argument(place: usize, otherwise: u64) -> Option<u64> {
    match std::env::args().nth(place) {
        Some(text) => text.parse().ok(),
        None => Some(otherwise),
    }
}

/// Cases and the seed of their round.
type Round = (u64, Vec<Case>);

/// Holds the engine against cases in the order in which they were made, up to the first difference.
fn hold(rounds: Receiver<Round>) -> Result<(), String> {
    for (seed, cases) in rounds {
        if let Some(case) = cases.iter().find(|case| !case.holds(&Engine)) {
            return Err(format!("seed {seed}: {}", difference::told(seed, case)));
        }
    }
    Ok(())
}

/// Makes rounds until there are enough calls, the time is over or a difference was found; answers the seed after the last.
fn make(
    tally: &mut Tally,
    calls: u64,
    first: u64,
    time: Duration,
    rounds: SyncSender<Round>,
) -> Result<u64, String> {
    let start = Instant::now();
    let mut seed = first;
    while tally.seen.calls() < calls && start.elapsed() < time {
        let cases = tally.round(seed);
        let cases = cases.map_err(|difference| format!("seed {seed}: {difference}"))?;
        if rounds.send((seed, cases)).is_err() {
            break;
        }
        seed += 1;
    }
    Ok(seed)
}

/// Makes cases by `plain` and holds the engine against them at the same time.
fn rounds(tally: &mut Tally, calls: u64, first: u64, time: Duration) -> Result<u64, String> {
    let (send, receive) = sync_channel(WAITING);
    thread::scope(|scope| {
        let held = scope.spawn(|| hold(receive));
        let made = make(tally, calls, first, time, send);
        held.join().expect("no panic")?;
        made
    })
}

fn report(tally: &Tally, first: u64, end: u64) {
    let seen = &tally.seen;
    println!("{seen}\n");
    println!(
        "seeds {first} to {}: {} calls, of these {} on two sheets ({} for C), {} for C ({} by place) and {} of the visiting program; what was written told beside {}; {} histories, {} bad inputs, {} other lines; 0 differences",
        end - 1,
        seen.calls(),
        seen.calls_on_two_sheets(),
        seen.exported_calls_on_two_sheets(),
        seen.exported_calls(),
        seen.calls_by_place(),
        seen.visitor_inputs(),
        seen.told_beside,
        tally.histories,
        tally.bad_inputs,
        seen.other_lines,
    );
}

fn main() -> ExitCode {
    let (Some(calls), Some(seed), Some(seconds)) =
        (argument(1, 200_000), argument(2, 0), argument(3, 600))
    else {
        eprintln!("differ [calls] [seed] [seconds], all numbers");
        return ExitCode::from(2);
    };
    let mut tally = Tally::default();
    match rounds(&mut tally, calls, seed, Duration::from_secs(seconds)) {
        Ok(end) => report(&tally, seed, end),
        Err(difference) => {
            println!("{difference}");
            return ExitCode::FAILURE;
        }
    }
    let amiss = tally.seen.amiss();
    if calls >= ENOUGH && !amiss.is_empty() {
        println!("not seen, or seen and not of the tables: {amiss:?}");
        return ExitCode::FAILURE;
    }
    ExitCode::SUCCESS
}
