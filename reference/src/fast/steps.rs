//! The step table on the sheets' bytes.

use super::coordinator::{decide_on, decision, COORDINATOR_LINE};
use super::held::Held;
use super::line;
use super::tables::LINE;
use crate::plain::coordinator::Decision;
use crate::plain::transaction::*;
use crate::plain::WRONG_PHASE;

/// The sheets' lines, and what is held.
pub struct Step<'a> {
    pub records: &'a mut [[u8; LINE]],
    pub coordinator: &'a mut [[u8; COORDINATOR_LINE]],
    pub held: &'a Held,
}

fn enter(t: &mut Transaction, phase: u32, verdict: u32) {
    t.phase = phase;
    t.place = 0;
    t.verdict = verdict;
}

/// The next place if there is one; answers whether there was none.
fn was_last(t: &mut Transaction, places: usize) -> bool {
    if t.place as usize + 1 < places {
        t.place += 1;
        return false;
    }
    true
}

impl Step<'_> {
    /// One step of a well-formed transaction, or refusal 4.
    pub fn advance(&mut self, t: &mut Transaction, now: u32) -> Result<(), u32> {
        match t.phase {
            OPEN => self.leave_open(t),
            PREPARE => self.prepare(t, now),
            CHECK => self.check(t),
            DECIDE => return self.decide(t),
            WITHDRAW => return self.withdraw(t),
            FINISH => return self.roll(t, Decision::Committed, line::forward),
            UNDO => return self.roll(t, Decision::Aborted, line::back),
            _ => return Err(WRONG_PHASE),
        }
        Ok(())
    }

    fn must_check(&self, t: &Transaction) -> bool {
        t.serializable == 1 && t.count as usize > self.held.puts
    }

    fn is_as_read(&self, t: &Transaction, place: usize) -> bool {
        let line = self.records.get(self.held.lines[place]);
        line.is_some_and(|line| line::is_as_read(line, &t.entries[place]))
    }

    fn group_is_as_read(&self, t: &Transaction, group: usize) -> bool {
        let mut entries = self.held.group(group).iter();
        entries.all(|place| self.is_as_read(t, *place))
    }

    fn leave_open(&mut self, t: &mut Transaction) {
        match self.held.groups {
            0 if self.must_check(t) => enter(t, CHECK, NO_VERDICT),
            0 => enter(t, DONE, COMMITTED),
            1 if t.serializable == 0 => self.one_phase(t),
            _ => enter(t, PREPARE, NO_VERDICT),
        }
    }

    fn one_phase(&mut self, t: &mut Transaction) {
        if !self.group_is_as_read(t, 0) {
            return enter(t, WITHDRAW, NO_VERDICT);
        }
        for place in self.held.group(0) {
            let line = &mut self.records[self.held.lines[*place]];
            line::commit(line, t.number, &t.entries[*place]);
        }
        enter(t, DONE, COMMITTED);
    }

    fn prepare(&mut self, t: &mut Transaction, now: u32) {
        let group = t.place as usize;
        if !self.group_is_as_read(t, group) {
            return enter(t, WITHDRAW, NO_VERDICT);
        }
        for place in self.held.group(group) {
            let line = &mut self.records[self.held.lines[*place]];
            line::prepare(line, t.number, &t.entries[*place], now);
        }
        if was_last(t, self.held.groups) {
            let then = if self.must_check(t) { CHECK } else { DECIDE };
            enter(t, then, NO_VERDICT);
        }
    }

    fn check(&self, t: &mut Transaction) {
        let mut only_read = (0..t.count as usize).filter(|place| t.entries[*place].wrote == 0);
        let place = only_read.nth(t.place as usize);
        if !place.is_some_and(|place| self.is_as_read(t, place)) {
            return enter(t, WITHDRAW, NO_VERDICT);
        }
        if was_last(t, t.count as usize - self.held.puts) {
            match self.held.puts {
                0 => enter(t, DONE, COMMITTED),
                _ => enter(t, DECIDE, NO_VERDICT),
            }
        }
    }

    fn decide(&mut self, t: &mut Transaction) -> Result<(), u32> {
        let own = &mut self.coordinator[t.number as usize];
        match decision(own) {
            Decision::Committed => return Err(WRONG_PHASE),
            Decision::Aborted => enter(t, UNDO, ABORTED),
            Decision::Undecided => {
                decide_on(own, b" COMMITTED");
                enter(t, FINISH, COMMITTED);
            }
        }
        Ok(())
    }

    fn withdraw(&mut self, t: &mut Transaction) -> Result<(), u32> {
        let own = &mut self.coordinator[t.number as usize];
        match decision(own) {
            Decision::Committed => return Err(WRONG_PHASE),
            Decision::Aborted => {}
            Decision::Undecided => decide_on(own, b"   ABORTED"),
        }
        let then = if self.held.puts > 0 { UNDO } else { DONE };
        enter(t, then, ABORTED);
        Ok(())
    }

    fn roll(
        &mut self,
        t: &mut Transaction,
        wanted: Decision,
        roll: fn(&mut [u8; LINE]),
    ) -> Result<(), u32> {
        if decision(&self.coordinator[t.number as usize]) != wanted {
            return Err(WRONG_PHASE);
        }
        for place in self.held.group(t.place as usize) {
            match self.records.get_mut(self.held.lines[*place]) {
                Some(line) if line::is_prepared(line) && line::tx_id(line) == t.number => {
                    roll(line)
                }
                _ => {}
            }
        }
        if was_last(t, self.held.groups) {
            enter(t, DONE, t.verdict);
        }
        Ok(())
    }
}
