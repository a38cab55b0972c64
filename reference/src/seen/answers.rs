//! How often each call gave each answer.

use std::collections::BTreeSet;
use std::fmt;

/// A call and the refusals that it can give, 0 among them where it can be accepted.
pub type Row = (&'static str, &'static [usize]);

/// Acceptance and the numbers of all refusals.
const NUMBERS: usize = 17;

pub struct Answers {
    rows: &'static [Row],
    /// Accepted calls at 0, refused ones at the number of the refusal.
    counts: Vec<[u64; NUMBERS]>,
}

impl Answers {
    pub fn new(rows: &'static [Row]) -> Answers {
        Answers {
            rows,
            counts: vec![[0; NUMBERS]; rows.len()],
        }
    }

    pub fn note(&mut self, row: usize, refusal: u32) {
        self.counts[row][refusal as usize] += 1;
    }

    pub fn last_row(&self) -> usize {
        self.rows.len() - 1
    }

    pub fn total(&self) -> u64 {
        self.counts.iter().flatten().sum()
    }

    /// Answers that should have been seen and weren't, or were seen and shouldn't have been.
    pub fn amiss(&self) -> Vec<String> {
        let rows = self.rows.iter().zip(&self.counts);
        let amiss = rows.flat_map(|((call, refusals), counts)| {
            let amiss = (0..counts.len()).filter(|n| refusals.contains(n) != (counts[*n] > 0));
            amiss.map(move |n| format!("{call}: answer {n}"))
        });
        amiss.collect()
    }
}

/// A count, or a point where there was none.
pub fn count(count: u64) -> String {
    match count {
        0 => ".".into(),
        _ => count.to_string(),
    }
}

impl fmt::Display for Answers {
    fn fmt(&self, out: &mut fmt::Formatter) -> fmt::Result {
        let widest = self.rows.iter().map(|(call, _)| call.len()).max();
        let width = widest.unwrap_or(0).max(7) + 2;
        write!(out, "{:<width$}{:>9}", "refusal", "none")?;
        // The numbers that some call of the table can be refused with.
        let numbers = self.rows.iter().flat_map(|(_, refusals)| *refusals);
        let mut numbers: BTreeSet<usize> = numbers.copied().collect();
        numbers.remove(&0);
        for number in &numbers {
            write!(out, "{number:>8}")?;
        }
        for ((call, _), counts) in self.rows.iter().zip(&self.counts) {
            write!(out, "\n{call:<width$}{:>9}", count(counts[0]))?;
            for number in &numbers {
                write!(out, "{:>8}", count(counts[*number]))?;
            }
        }
        Ok(())
    }
}
