//! How often things of several kinds were met, by who asked.

use super::answers::count;
use std::fmt;

pub struct Table {
    head: &'static str,
    asked: &'static [&'static str],
    kinds: Vec<String>,
    /// By who asked and by kind; nothing where the kind can't be met.
    counts: Vec<Vec<Option<u64>>>,
}

impl Table {
    pub fn new(
        head: &'static str,
        asked: &'static [&'static str],
        kinds: impl IntoIterator<Item = impl Into<String>>,
    ) -> Table {
        let kinds: Vec<String> = kinds.into_iter().map(Into::into).collect();
        Table {
            head,
            asked,
            counts: vec![vec![Some(0); kinds.len()]; asked.len()],
            kinds,
        }
    }

    /// The same, but that those who ask here can't meet a kind.
    pub fn without(mut self, asked: &[usize], kind: usize) -> Table {
        for row in asked {
            self.counts[*row][kind] = None;
        }
        self
    }

    pub fn count(&mut self, asked: usize, kinds: impl IntoIterator<Item = usize>) {
        for kind in kinds {
            let count = self.counts[asked][kind].as_mut();
            *count.expect("a kind that can be met here") += 1;
        }
    }

    /// What should have been seen and wasn't.
    pub fn amiss(&self) -> Vec<String> {
        let rows = self.asked.iter().zip(&self.counts);
        let amiss = rows.flat_map(|(asked, counts)| {
            let kinds = self.kinds.iter().zip(counts);
            let unseen = kinds.filter(|(_, count)| **count == Some(0));
            unseen.map(move |(kind, _)| format!("{}, {asked}: {kind}", self.head))
        });
        amiss.collect()
    }
}

impl fmt::Display for Table {
    /// A line for each kind, with a count for each who asked.
    fn fmt(&self, out: &mut fmt::Formatter) -> fmt::Result {
        write!(out, "{}: {}", self.head, self.asked.join(", "))?;
        for (kind, name) in self.kinds.iter().enumerate() {
            writeln!(out)?;
            for counts in &self.counts {
                let text = counts[kind].map_or(String::new(), count);
                write!(out, "{text:>8}")?;
            }
            write!(out, "  {name}")?;
        }
        Ok(())
    }
}
