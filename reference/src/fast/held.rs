//! Which transactions are well formed, and where their entries lie in the sheet.

use super::coordinator::Accepted;
use super::search::find;
use super::tables::LINE;
use crate::plain::record::{columns_in_range, MOST_VERSION};
use crate::plain::transaction::*;
use crate::plain::{ILL_FORMED, NO_LINE};

/// Stands for the line of a key that has none: no sheet has a line there.
const NOWHERE: usize = usize::MAX;

/// What the steps need to know of a well-formed transaction.
pub struct Held {
    /// The line of each entry that counts, or `NOWHERE`.
    pub lines: [usize; MOST_ENTRIES],
    /// The entries with a put, in rising key order.
    order: [usize; MOST_ENTRIES],
    pub puts: usize,
    /// Where each group starts in that order, and where the last ends.
    starts: [usize; MOST_ENTRIES + 1],
    pub groups: usize,
}

impl Held {
    /// Refusal 3 unless the transaction is well formed.
    pub fn of(t: &Transaction, lines: &[[u8; LINE]], coordinator: &Accepted) -> Result<Held, u32> {
        let fits = (1..=coordinator.issued).contains(&t.number)
            && t.serializable <= 1
            && t.count as usize <= MOST_ENTRIES;
        if !fits {
            return Err(ILL_FORMED);
        }
        let mut held = Held {
            lines: [0; MOST_ENTRIES],
            order: [0; MOST_ENTRIES],
            puts: 0,
            starts: [0; MOST_ENTRIES + 1],
            groups: 0,
        };
        for place in 0..t.count as usize {
            held.add(t, place, lines, coordinator.issued)?;
        }
        held.group_puts(t, coordinator);
        (phase_fits(t, &held) && place_fits(t, &held))
            .then_some(held)
            .ok_or(ILL_FORMED)
    }

    /// Takes in an entry that fits.
    #[inline(always)]
    fn add(
        &mut self,
        t: &Transaction,
        place: usize,
        lines: &[[u8; LINE]],
        issued: u32,
    ) -> Result<(), u32> {
        let entry = &t.entries[place];
        let line = match find(lines, &entry.key) {
            Ok(line) => line,
            Err(NO_LINE) => NOWHERE,
            Err(_) => return Err(ILL_FORMED),
        };
        if !values_fit(entry, issued) || self.holds(t, place, line) {
            return Err(ILL_FORMED);
        }
        self.lines[place] = line;
        if entry.wrote == 1 {
            self.sort_in(t, place);
        }
        Ok(())
    }

    /// Whether an entry before this one has its key. Keys are distinct if their lines are.
    #[inline(always)]
    fn holds(&self, t: &Transaction, place: usize, line: usize) -> bool {
        let key = t.entries[place].key;
        match line {
            NOWHERE => t.entries[..place].iter().any(|entry| entry.key == key),
            line => self.lines[..place].contains(&line),
        }
    }

    /// Whether the key of one entry comes behind that of another. Keys with lines are in the order of these.
    #[inline(always)]
    fn is_behind(&self, t: &Transaction, one: usize, other: usize) -> bool {
        match (self.lines[one], self.lines[other]) {
            (NOWHERE, _) | (_, NOWHERE) => t.entries[one].key > t.entries[other].key,
            (one, other) => one > other,
        }
    }

    /// Puts the entry to its place in key order.
    #[inline(always)]
    fn sort_in(&mut self, t: &Transaction, place: usize) {
        let mut at = self.puts;
        while at > 0 && self.is_behind(t, self.order[at - 1], place) {
            self.order[at] = self.order[at - 1];
            at -= 1;
        }
        self.order[at] = place;
        self.puts += 1;
    }

    /// Parts the puts into groups: neighbours whose keys agree as far as the letter of their storage asks.
    #[inline(always)]
    fn group_puts(&mut self, t: &Transaction, coordinator: &Accepted) {
        for at in 0..self.puts {
            let key = t.entries[self.order[at]].key.numbers();
            let fields = coordinator.fields(key[0]);
            let joins = at > 0 && {
                let last = t.entries[self.order[at - 1]].key.numbers();
                last[..fields] == key[..fields]
            };
            if !joins {
                self.starts[self.groups] = at;
                self.groups += 1;
            }
        }
        self.starts[self.groups] = self.puts;
    }

    /// The entries of a group, in key order.
    pub fn group(&self, place: usize) -> &[usize] {
        &self.order[self.starts[place]..self.starts[place + 1]]
    }
}

fn values_fit(entry: &Entry, issued: u32) -> bool {
    let seen = &entry.seen;
    let put_fits = match entry.wrote {
        0 => true,
        1 => columns_in_range(entry.put()) && seen.version < MOST_VERSION,
        _ => false,
    };
    let absence_fits = match entry.absent {
        0 => seen.version >= 1,
        1 => seen.is_absence(),
        _ => false,
    };
    put_fits && absence_fits && seen.in_range() && seen.tx_id <= issued
}

fn phase_fits(t: &Transaction, held: &Held) -> bool {
    match t.phase {
        OPEN | PREPARE | WITHDRAW => t.verdict == NO_VERDICT,
        CHECK => t.verdict == NO_VERDICT && t.serializable == 1,
        DECIDE => t.verdict == NO_VERDICT && held.puts > 0,
        FINISH => t.verdict == COMMITTED,
        UNDO => t.verdict == ABORTED,
        DONE => t.verdict == COMMITTED || t.verdict == ABORTED,
        _ => false,
    }
}

fn place_fits(t: &Transaction, held: &Held) -> bool {
    let place = t.place as usize;
    match t.phase {
        PREPARE | FINISH | UNDO => place < held.groups,
        CHECK => place < t.count as usize - held.puts,
        _ => place == 0,
    }
}
