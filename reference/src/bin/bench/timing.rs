//! Times both sides of every case by turns on fresh copies: a busy machine slows all alike, and no copying is timed.

use crate::cases::{Case, Make};
use reference::exported::Lent;
use reference::make::Sheets;
use reference::plain::transaction::Transaction;
use reference::replay::laid_out::LaidOut;
use reference::replay::Layout;
use std::hint::black_box;
use std::time::Instant;

/// Bytes of all copies together as joined sheets, so that they stay in the processor's cache.
const COPIED: usize = 400_000;
const MOST_COPIES: usize = 64;

/// A case as one of the two sides makes it, on sheets laid out like this.
#[derive(Clone, Copy)]
pub struct Side {
    pub case: Case,
    pub make: Make,
    pub layout: Layout,
}

impl Side {
    fn run(self, lent: &mut Lent) -> u64 {
        self.case.run(self.make, lent)
    }
}

/// What a side is lent, and copies of it.
struct Fresh {
    first: Lent,
    copies: Vec<Lent>,
}

impl Fresh {
    fn new(layout: Layout, lent: &Lent) -> Fresh {
        let joined = lent.sheets.joined();
        let bytes = joined.records.len() + joined.coordinator.len();
        let first = Lent {
            sheets: LaidOut::of(layout, joined),
            list: lent.list.clone(),
        };
        let copies = vec![first.clone(); (COPIED / bytes).clamp(1, MOST_COPIES)];
        Fresh { first, copies }
    }

    /// Nanoseconds of one call, after one that isn't timed.
    fn run(&mut self, side: Side) -> f64 {
        restore(&mut self.copies[0], &self.first);
        black_box(side.run(&mut self.copies[0]));
        for copy in &mut self.copies {
            restore(copy, &self.first);
        }
        let start = Instant::now();
        for copy in &mut self.copies {
            black_box(side.run(black_box(copy)));
        }
        start.elapsed().as_secs_f64() * 1e9 / self.copies.len() as f64
    }
}

/// Two sides on sheets of one size, with the nanoseconds of one call in each run so far.
pub struct Cell {
    sides: [Side; 2],
    /// One for each side, or for both where they have the same layout.
    fresh: Vec<Fresh>,
    times: [Vec<f64>; 2],
}

/// Nanoseconds of one call by the engine and by what is held beside it, and the middle of their ratios. A tenth of the
/// runs were faster than the time told: the rest shows what else the machine did.
#[derive(Clone, Copy)]
pub struct Times {
    pub engine: f64,
    pub other: f64,
    pub ratio: f64,
}

impl Cell {
    /// Sides that are alike must do the same work, on these sheets or on the two that they join; others answer the same.
    pub fn new(sides: [Side; 2], alike: bool, lent: &Lent) -> Cell {
        let mut layouts = sides.map(|side| side.layout).to_vec();
        layouts.dedup();
        let fresh = layouts.iter().map(|layout| Fresh::new(*layout, lent));
        let mut cell = Cell {
            sides,
            fresh: fresh.collect(),
            times: [Vec::new(), Vec::new()],
        };
        let [one, other] = [0, 1].map(|side| cell.left(side));
        match sides[0].case.answer() {
            Some(answer) => assert_eq!(one.0, answer, "refused, or otherwise"),
            None => assert!(one.0 < 1_000, "refused: {}", one.0),
        }
        assert_eq!(one.0, other.0, "the sides' answers differ");
        assert!(!alike || one == other, "the sides differ");
        cell
    }

    fn fresh(&mut self, side: usize) -> &mut Fresh {
        let last = self.fresh.len() - 1;
        &mut self.fresh[side.min(last)]
    }

    /// What a side answers, and what it leaves, joined.
    fn left(&mut self, side: usize) -> (u64, Sheets, Vec<Transaction>) {
        let mut lent = self.fresh(side).first.clone();
        let answer = self.sides[side].run(&mut lent);
        (answer, lent.sheets.joined(), lent.list)
    }

    /// Times both sides once.
    pub fn turn(&mut self) {
        for i in 0..2 {
            let side = self.sides[i];
            let time = self.fresh(i).run(side);
            self.times[i].push(time);
        }
    }

    pub fn times(&self) -> Times {
        let [engine, other] = &self.times;
        let pairs = engine.iter().zip(other);
        Times {
            engine: at_part(10, engine.iter().copied()),
            other: at_part(10, other.iter().copied()),
            ratio: at_part(2, pairs.map(|(engine, other)| engine / other)),
        }
    }
}

/// Copies into the memory that is there.
fn restore(copy: &mut Lent, first: &Lent) {
    match (&mut copy.sheets, &first.sheets) {
        (LaidOut::Joined(copy), LaidOut::Joined(first)) => {
            copy.records.copy_from_slice(&first.records);
            copy.coordinator.copy_from_slice(&first.coordinator);
        }
        (LaidOut::Two(copy), LaidOut::Two(first)) => {
            copy.plain.copy_from_slice(&first.plain);
            copy.bookkeeping.copy_from_slice(&first.bookkeeping);
            copy.coordinator.copy_from_slice(&first.coordinator);
        }
        _ => panic!("a copy has the layout of the first"),
    }
    copy.list.copy_from_slice(&first.list);
}

/// The value that one part of so many lies below.
fn at_part(parts: usize, values: impl Iterator<Item = f64>) -> f64 {
    let mut values: Vec<f64> = values.collect();
    values.sort_by(f64::total_cmp);
    values[values.len() / parts]
}
