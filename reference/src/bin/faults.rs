//! Tries the comparison itself: `faults [calls] [seed]..`.
//!
//! `plain` with one fault stands for the engine. From each seed on, the rounds of `differ` must show a difference within so
//! many calls, for every fault. Prints at which call each was found, and fails if one wasn't.

use reference::compare::rounds::Tally;
use reference::compare::{calls_until, Case, Subject};
use reference::conversions::{self, Conversion};
use reference::exported::{self, Call, Lent};
use reference::faults::{self, TITLES};
use reference::make::Sheets;
use reference::plain::key::Key;
use reference::plain::visitor;
use reference::replay::laid_out::LaidOut;
use reference::replay::{replay, Layout};
use std::panic::{catch_unwind, set_hook, AssertUnwindSafe};
use std::process::ExitCode;

/// A third of the calls that `make differ` makes.
const CALLS: u64 = 66_000;
/// At each of them rounds begin with small ones of every kind, as from 0 on.
const SEEDS: [u64; 5] = [0, 285_600, 571_200, 856_800, 1_142_400];

/// `plain` with this fault.
struct Faulty(usize);

impl Faulty {
    /// What is done with the fault on; a panic is nothing.
    fn make<T>(&self, done: impl FnOnce() -> T) -> Option<T> {
        faults::with(self.0, || catch_unwind(AssertUnwindSafe(done)).ok())
    }

    fn program(&self, output: impl FnOnce() -> Vec<u8>) -> Result<Vec<u8>, String> {
        self.make(output).ok_or("a panic".into())
    }
}

impl Subject for Faulty {
    fn replay(&self, layout: Layout, input: &[u8]) -> Result<Vec<u8>, String> {
        self.program(|| replay(layout, input))
    }

    fn visitor(&self, input: &[u8]) -> Result<Vec<u8>, String> {
        self.program(|| visitor::output(input))
    }

    fn call(&self, call: &Call, lent: &mut Lent) -> u64 {
        let answer = self.make(|| exported::by_plain(call, lent));
        answer.unwrap_or(u64::MAX)
    }

    fn convert(&self, conversion: Conversion, lent: &mut conversions::Lent) -> u32 {
        let answer = self.make(|| conversions::by_plain(conversion, lent));
        answer.unwrap_or(u32::MAX)
    }

    fn written(&self, before: &Sheets, after: &Sheets, lines: &mut [u32]) -> u32 {
        let answer = self.make(|| exported::written_by_plain(before, after, lines));
        answer.unwrap_or(u32::MAX)
    }

    fn rank(&self, sheets: &LaidOut, key: Key, target: &mut [u32]) -> u32 {
        let answer = self.make(|| exported::rank_by_plain(sheets, key, target));
        answer.unwrap_or(u32::MAX)
    }
}

/// The call at which each fault is found, from 1.
type Found = Vec<Option<u64>>;

/// Makes rounds from a seed on, and holds every fault not yet found against their cases.
fn find(calls: u64, first: u64) -> Found {
    let mut found = vec![None; TITLES.len()];
    let mut tally = Tally::default();
    let mut made = 0;
    let mut seed = first;
    while made < calls && found.contains(&None) {
        let cases = tally.round(seed).expect("no fault is on");
        for case in &cases {
            assert!(
                case.holds(&Faulty(0)),
                "seed {seed}: a difference without a fault"
            );
            for (place, at) in found.iter_mut().enumerate() {
                let subject = Faulty(place + 1);
                if at.is_none() && !case.holds(&subject) {
                    *at = Some(made + call_in(case, &subject));
                }
            }
            made += case.calls();
        }
        seed += 1;
    }
    found
}

/// The call of a case that shows the difference, counted in it from 1.
fn call_in(case: &Case, subject: &Faulty) -> u64 {
    match case {
        Case::Replay {
            layout,
            input,
            expected,
            ..
        } => {
            let output = subject.replay(*layout, input).unwrap_or_default();
            let both = output.iter().zip(expected);
            let same = both.take_while(|(one, other)| one == other).count();
            calls_until(*layout, input, same)
        }
        Case::Clients(history) => history.difference(subject).map_or(1, |d| d.place),
        _ => 1,
    }
}

fn report(seeds: &[u64], found: &[Found]) -> usize {
    println!("found at call, from the seeds {seeds:?}");
    let mut missed = 0;
    for (place, title) in TITLES.iter().enumerate() {
        for found in found {
            match found[place] {
                Some(call) => print!("{call:>7}"),
                None => print!("{:>7}", "-"),
            }
            missed += usize::from(found[place].is_none());
        }
        println!("  {title}");
    }
    let latest = found.iter().flatten().flatten().max().unwrap_or(&0);
    println!(
        "{} faults from {} seeds: {missed} missed; the latest found at call {latest}",
        TITLES.len(),
        seeds.len()
    );
    missed
}

fn main() -> ExitCode {
    let numbers: Option<Vec<u64>> = std::env::args().skip(1).map(|a| a.parse().ok()).collect();
    let Some(numbers) = numbers else {
        eprintln!("faults [calls] [seed].., all numbers");
        return ExitCode::from(2);
    };
    let (calls, seeds) = match numbers.as_slice() {
        [] => (CALLS, &SEEDS[..]),
        [calls] => (*calls, &SEEDS[..]),
        [calls, seeds @ ..] => (*calls, seeds),
    };
    // Of panics only that of the trial itself is told.
    set_hook(Box::new(|panic| {
        if faults::on() == 0 {
            eprintln!("{panic}");
        }
    }));
    let found: Vec<Found> = seeds.iter().map(|seed| find(calls, *seed)).collect();
    match report(seeds, &found) {
        0 => ExitCode::SUCCESS,
        _ => ExitCode::FAILURE,
    }
}
