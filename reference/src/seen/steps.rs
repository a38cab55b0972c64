//! How often a call led from each phase to each.

use super::answers::count;
use crate::plain::transaction::Transaction;
use std::fmt;

pub const PHASES: [&str; 8] = [
    "open", "prepare", "check", "decide", "withdraw", "finish", "undo", "done",
];

/// The phases to which a call leads from each phase.
pub type Table = [&'static [usize]; 8];

/// Where an advance leads: the step table.
pub const ADVANCES: Table = [
    &[1, 2, 4, 7],
    &[1, 2, 3, 4],
    &[2, 3, 4, 7],
    &[5, 6],
    &[6, 7],
    &[5, 7],
    &[6, 7],
    &[],
];

/// Where a close ends: done, or in a phase whose next step writes. The check writes nothing, so that none ends there.
pub const CLOSES: Table = [
    &[0, 1, 3, 4, 5, 6, 7],
    &[1, 3, 4, 5, 6, 7],
    &[3, 4, 5, 6, 7],
    &[3, 5, 6, 7],
    &[4, 6, 7],
    &[5, 7],
    &[6, 7],
    &[],
];

pub struct Steps {
    head: &'static str,
    table: &'static Table,
    counts: [[u64; 8]; 8],
}

impl Steps {
    pub fn new(head: &'static str, table: &'static Table) -> Steps {
        Steps {
            head,
            table,
            counts: [[0; 8]; 8],
        }
    }

    /// Notes an accepted call.
    pub fn note(&mut self, taken: &Transaction, returned: &Transaction) {
        self.counts[taken.phase as usize][returned.phase as usize] += 1;
    }

    /// Steps that should have been seen and weren't, or were seen and shouldn't have been.
    pub fn amiss(&self, call: &str) -> Vec<String> {
        let amiss = (0..8).flat_map(|from| {
            let wanted = self.table[from];
            let amiss = move |to: &usize| wanted.contains(to) != (self.counts[from][*to] > 0);
            let to = (0..8).filter(amiss);
            to.map(move |to| format!("{call}: {} to {}", PHASES[from], PHASES[to]))
        });
        amiss.collect()
    }
}

impl fmt::Display for Steps {
    fn fmt(&self, out: &mut fmt::Formatter) -> fmt::Result {
        write!(out, "{:<9}", self.head)?;
        for phase in PHASES {
            write!(out, "{phase:>9}")?;
        }
        for (from, counts) in PHASES.iter().zip(&self.counts) {
            write!(out, "\n{from:<9}")?;
            for number in counts {
                write!(out, "{:>9}", count(*number))?;
            }
        }
        Ok(())
    }
}
