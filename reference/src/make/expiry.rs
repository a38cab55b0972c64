//! Readings at which a number has expired, all its PREPARED lines taken together, and clocks for the lines that it prepares.

use super::arguments::{clock, prepared, reading_after};
use super::random::Random;
use crate::plain::coordinator::Decision;
use crate::plain::record::Record;
use crate::plain::store::Store;
use crate::plain::writes::EXPIRED;
use std::collections::BTreeSet;

/// Ticks between two lines of a number: at many readings the older has expired and the younger hasn't.
const NEAR: [u32; 8] = [0, 0, 1, 2, 14_999, 15_000, 15_001, 40_000];
/// Ticks that leave a few readings at which both have expired, one, or none.
const FAR: [u32; 6] = [
    2_147_468_640,
    2_147_468_646,
    2_147_468_647,
    2_147_468_648,
    2_147_483_647,
    2_147_483_648,
];

/// Once in so many steps a line is prepared as far away, whatever that leaves.
const HEEDLESS: usize = 3;

/// The lines that are PREPARED by a number.
pub fn lines_of(records: &[Record], number: u32) -> Vec<&Record> {
    let lines = prepared(records).into_iter();
    lines.filter(|line| line.image.tx_id == number).collect()
}

fn clocks_of(records: &[Record], number: u32) -> Vec<u32> {
    let lines = lines_of(records, number).into_iter();
    lines.map(|line| line.prepare_clock).collect()
}

fn have_expired(clocks: &[u32], now: u32) -> bool {
    let mut elapsed = clocks.iter().map(|clock| now.wrapping_sub(*clock));
    elapsed.all(|elapsed| EXPIRED.contains(&elapsed))
}

/// A reading at which lines prepared at these clocks have all expired, if there is one. Each line has an arc of readings:
/// whoever goes back from one that lies in all of them meets the first reading of some line, and that lies in all as well.
pub fn reading_for(clocks: &[u32]) -> Option<u32> {
    let mut firsts = clocks
        .iter()
        .map(|clock| clock.wrapping_add(*EXPIRED.start()));
    firsts.find(|now| have_expired(clocks, *now))
}

/// A reading at which the number has expired, if its clocks allow one; most often near an edge of one of them.
pub fn expired_reading(random: &mut Random, records: &[Record], number: u32) -> Option<u32> {
    let lines = lines_of(records, number);
    let clocks = clocks_of(records, number);
    let sure = reading_for(&clocks)?;
    let mut tried = (0..8).map(|_| {
        let line = random.pick(&lines);
        reading_after(random, line)
    });
    let found = tried.find(|now| have_expired(&clocks, *now));
    Some(found.unwrap_or(sure))
}

/// The undecided numbers that have PREPARED lines.
fn undecided(store: &Store) -> BTreeSet<u32> {
    let owners = prepared(&store.records).into_iter();
    let owners = owners.map(|line| line.image.tx_id);
    let undecided = |number: &u32| store.decision(*number) == Decision::Undecided;
    owners.filter(undecided).collect()
}

/// The undecided numbers whose prepare clocks allow no reading at which they have expired. No visit ever decides one of
/// them, so that a list which leaves one falls outside demand 3.
pub fn without_reading(store: &Store) -> BTreeSet<u32> {
    let lost = |number: &u32| reading_for(&clocks_of(&store.records, *number)).is_none();
    undecided(store).into_iter().filter(lost).collect()
}

/// Whether an undecided number has lines of different clocks.
fn has_different_clocks(store: &Store) -> bool {
    let numbers = undecided(store).into_iter();
    let mut numbers = numbers.map(|number| clocks_of(&store.records, number));
    numbers.any(|clocks| clocks.iter().any(|clock| *clock != clocks[0]))
}

/// What a list of demand 3 is to leave, so that it stops before its end.
#[derive(Clone, Copy)]
enum Wanted {
    Anything,
    DifferentClocks,
    NoReading,
}

/// Where a list of demand 3 stops: at its end, or as soon as an order is half-way with lines of different clocks.
pub struct Stop {
    wanted: Wanted,
    /// The first call before which it may.
    from: usize,
}

impl Stop {
    pub fn new(random: &mut Random, calls: usize) -> Stop {
        let wanted = [
            Wanted::Anything,
            Wanted::Anything,
            Wanted::DifferentClocks,
            Wanted::NoReading,
        ];
        Stop {
            wanted: random.pick(&wanted),
            from: random.below(1 + calls / 4),
        }
    }

    /// Whether it stops before this call.
    pub fn is_before(&self, call: usize, store: &Store) -> bool {
        match self.wanted {
            _ if call < self.from => false,
            Wanted::Anything => false,
            Wanted::DifferentClocks => has_different_clocks(store),
            Wanted::NoReading => !without_reading(store).is_empty(),
        }
    }
}

/// How many ticks after another line one is prepared.
pub fn apart(random: &mut Random) -> u32 {
    match random.below(8) {
        0 => random.figure(0, u32::MAX),
        1 => random.pick(&FAR),
        _ => random.pick(&NEAR),
    }
}

/// A reading for a step of this number. If it has lines already, one that mostly leaves a reading at which they and those
/// that the step prepares have expired: else nobody but its own client could free them, and a long history would soon have
/// no key left.
pub fn clock_for_step(random: &mut Random, number: u32, records: &[Record]) -> u32 {
    let clocks = clocks_of(records, number);
    if clocks.is_empty() {
        return clock(random, records);
    }
    let heedless = random.once_in(HEEDLESS) || reading_for(&clocks).is_none();
    loop {
        let ticks = match heedless {
            true => random.pick(&FAR),
            false => apart(random),
        };
        // The clock may have gone back.
        let ticks = random.pick(&[ticks, ticks, ticks.wrapping_neg()]);
        let now = random.pick(&clocks).wrapping_add(ticks);
        if heedless || reading_for(&[&clocks[..], &[now]].concat()).is_some() {
            return now;
        }
    }
}
