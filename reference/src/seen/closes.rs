//! How closes ended: with which limit, after how many writes, and from which phase in which.

use super::answers::count;
use super::steps::{Steps, CLOSES};
use crate::plain::transaction::Transaction;
use std::fmt;

/// Numbers from here on are counted as one.
const ABOVE: usize = 19;
/// The most writes of a close.
const MOST_WRITES: usize = 17;

pub struct Closes {
    limits: [u64; ABOVE + 1],
    writes: [u64; ABOVE + 1],
    steps: Steps,
}

impl Default for Closes {
    fn default() -> Closes {
        Closes {
            limits: [0; ABOVE + 1],
            writes: [0; ABOVE + 1],
            steps: Steps::new("close to", &CLOSES),
        }
    }
}

/// The place of a number among those counted.
fn place(number: u32) -> usize {
    ABOVE.min(number as usize)
}

/// The name of a place.
fn name(place: usize) -> String {
    match place {
        ABOVE => "above".into(),
        _ => place.to_string(),
    }
}

impl Closes {
    /// Notes an accepted close: its limit, its report, and the transaction before and after it.
    pub fn note(&mut self, limit: u32, writes: u32, taken: &Transaction, returned: &Transaction) {
        self.limits[place(limit)] += 1;
        self.writes[place(writes)] += 1;
        self.steps.note(taken, returned);
    }

    /// Closes that should have been seen and weren't, or were seen and shouldn't have been.
    pub fn amiss(&self, call: &str) -> Vec<String> {
        let unlimited = (0..=ABOVE).filter(|limit| self.limits[*limit] == 0);
        let limits = unlimited.map(|limit| format!("{call}: limit {}", name(limit)));
        let miscounted =
            (0..=ABOVE).filter(|writes| (*writes <= MOST_WRITES) != (self.writes[*writes] > 0));
        let writes = miscounted.map(|writes| format!("{call}: writes {}", name(writes)));
        let steps = self.steps.amiss(call);
        limits.chain(writes).chain(steps).collect()
    }
}

impl fmt::Display for Closes {
    fn fmt(&self, out: &mut fmt::Formatter) -> fmt::Result {
        write!(out, "{:<9}", "close")?;
        for number in 0..=ABOVE {
            write!(out, "{:>7}", name(number))?;
        }
        for (row, counts) in [("limit", &self.limits), ("writes", &self.writes)] {
            write!(out, "\n{row:<9}")?;
            for number in counts {
                write!(out, "{:>7}", count(*number))?;
            }
        }
        write!(out, "\n\n{}", self.steps)
    }
}
