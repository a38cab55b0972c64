//! What calls have met of lines that are ABSENT with a version, and of entries that were read as absent or weren't.

use super::adding::{looked_at, row, ASKED};
use super::table::Table;
use crate::plain::key::Key;
use crate::plain::record::{Before, Record, State, NOTHING};
use crate::plain::request::Request;
use crate::plain::transaction::*;
use crate::plain::{well_formed, ILL_FORMED, VERSION_SPENT};
use crate::replay::laid_out::LaidOut;
use std::fmt;

#[derive(Clone, Copy)]
enum Kind {
    ReadHolds,
    PutOver,
    SpentOver,
    OnePhaseOver,
    PrepareOver,
    FinishOver,
    UndoTo,
    VisitForward,
    VisitBack,
    FailsByVersion,
    HoldsOfAbsent,
    HoldsOfCommitted,
    FlagTooLarge,
    VersionAlone,
    TxIdAlone,
    Columns,
    VersionZero,
}

/// In the order of the kinds.
const KINDS: [&str; 17] = [
    "read holds ABSENT of a version",
    "put over ABSENT of a version",
    "11 of a put over ABSENT",
    "one-phase over ABSENT of a version",
    "prepare over ABSENT of a version",
    "finish over ABSENT of a version",
    "undo back to ABSENT of a version",
    "visit forward over ABSENT of a version",
    "visit back to ABSENT of a version",
    "a condition fails by the version of an ABSENT line",
    "a condition holds, the line ABSENT and not read so",
    "a condition holds, the line COMMITTED and read as absent",
    "3 by an absence above 1",
    "3 by an absent version without a TxID",
    "3 by an absent TxID without a version",
    "3 by absent columns",
    "3 by version 0 that isn't absent",
];

/// A call on accepted sheets: the refusal, or the transaction that it returned, if it takes one.
pub struct Called<'a> {
    pub request: &'a Request,
    pub answer: Result<Option<&'a Transaction>, u32>,
}

pub struct AbsentEntries(Table);

impl Default for AbsentEntries {
    fn default() -> AbsentEntries {
        AbsentEntries(Table::new("absent entries", &ASKED, KINDS))
    }
}

fn is_absent_of_version(line: &Record) -> bool {
    line.state == State::Absent && line.image.version > 0
}

fn is_over_absent_of_version(line: &Record) -> bool {
    line.before_state == Before::Absent && line.before.version > 0
}

/// The kinds of an accepted step, by the lines that it looked at.
fn of_step(taken: &Transaction, returned: &Transaction, before: &LaidOut) -> Vec<Kind> {
    let Some(store) = before.store().filter(|_| taken.count > 0) else {
        return Vec::new();
    };
    let entries = looked_at(taken, returned, &store);
    let there = entries.iter().filter(|entry| store.has_line(&entry.key));
    let of = |entry: &Entry| {
        let line = store.record(&entry.key);
        let own = line.is_prepared_by(taken.number) && is_over_absent_of_version(line);
        match taken.phase {
            FINISH => own.then_some(Kind::FinishOver),
            UNDO => own.then_some(Kind::UndoTo),
            _ if returned.phase == WITHDRAW => fails(entry, line),
            OPEN if is_absent_of_version(line) => Some(Kind::OnePhaseOver),
            PREPARE if is_absent_of_version(line) => Some(Kind::PrepareOver),
            _ => None,
        }
    };
    let holds = returned.phase != WITHDRAW && matches!(taken.phase, OPEN | PREPARE | CHECK);
    let differ = there.clone().filter(|_| holds);
    let differ = differ.filter_map(|entry| other_absence(entry, store.record(&entry.key)));
    there.filter_map(of).chain(differ).collect()
}

fn fails(entry: &Entry, line: &Record) -> Option<Kind> {
    let other = line.image.version != entry.seen.version;
    (is_absent_of_version(line) && other).then_some(Kind::FailsByVersion)
}

/// Where a condition holds though the line isn't absent as the entry is.
fn other_absence(entry: &Entry, line: &Record) -> Option<Kind> {
    match (line.state, entry.absent) {
        (State::Absent, 0) => Some(Kind::HoldsOfAbsent),
        (State::Committed, 1) => Some(Kind::HoldsOfCommitted),
        _ => None,
    }
}

/// The kinds of entries by whose absence alone a transaction isn't well formed.
fn of_ill_formed(taken: &Transaction, before: &LaidOut) -> Vec<Kind> {
    let Some(store) = before.store() else {
        return Vec::new();
    };
    let count = MOST_ENTRIES.min(taken.count as usize);
    let alone = |place: &usize| {
        let mut repaired = *taken;
        let entry = &mut repaired.entries[*place];
        (entry.absent, entry.seen) = (1, NOTHING);
        well_formed::require(&repaired, &store).is_ok()
    };
    let places = (0..count).filter(alone);
    places
        .filter_map(|place| ill_formed(&taken.entries[place]))
        .collect()
}

fn ill_formed(entry: &Entry) -> Option<Kind> {
    let seen = &entry.seen;
    match (entry.absent, seen.version > 0, seen.tx_id > 0) {
        _ if !seen.in_range() => None,
        (0, false, _) => Some(Kind::VersionZero),
        (1, true, false) => Some(Kind::VersionAlone),
        (1, false, true) => Some(Kind::TxIdAlone),
        (1, _, _) if seen.columns() != [0, 0] => Some(Kind::Columns),
        (2.., _, _) => Some(Kind::FlagTooLarge),
        _ => None,
    }
}

fn of_visit(line: &Record, after: &Record) -> Option<Kind> {
    if line.state != State::Prepared || !is_over_absent_of_version(line) {
        return None;
    }
    match after.state {
        State::Absent => Some(Kind::VisitBack),
        State::Committed => Some(Kind::VisitForward),
        State::Prepared => None,
    }
}

fn of(called: &Called, before: &LaidOut) -> Vec<Kind> {
    let of_version = |entry: &&Entry| entry.absent == 1 && entry.seen.version > 0;
    let kind = match (called.request, called.request.taken(), called.answer) {
        (Request::Visit { key, now }, ..) => of_visited(key, *now, before),
        (_, Some(taken), Err(ILL_FORMED)) => return of_ill_formed(taken, before),
        (Request::Advance { .. }, Some(taken), Ok(Some(returned))) => {
            return of_step(taken, returned, before);
        }
        (Request::Put { key, .. }, Some(taken), Err(VERSION_SPENT)) => {
            let entry = held(taken, key).filter(|entry| entry.absent == 1);
            entry.map(|_| Kind::SpentOver)
        }
        (Request::Put { key, .. }, Some(taken), Ok(_)) => {
            let entry = held(taken, key).filter(of_version);
            entry.map(|_| Kind::PutOver)
        }
        (Request::Read { .. } | Request::Second { .. }, Some(taken), Ok(Some(returned))) => {
            let new = returned.held().get(taken.count as usize);
            new.filter(of_version).map(|_| Kind::ReadHolds)
        }
        _ => None,
    };
    kind.into_iter().collect()
}

fn held<'a>(taken: &'a Transaction, key: &Key) -> Option<&'a Entry> {
    taken.place_of(key).map(|place| &taken.entries[place])
}

/// The kind of a visit that rolled its line.
fn of_visited(key: &Key, now: u32, before: &LaidOut) -> Option<Kind> {
    let mut store = before.store()?;
    let place = store.place_of(key).ok()?;
    let line = store.records[place];
    store.visit(place, now).ok()?;
    of_visit(&line, &store.records[place])
}

impl AbsentEntries {
    /// Notes a call and the sheets before it.
    pub fn note(&mut self, for_c: bool, called: &Called, before: &LaidOut) {
        let kinds = of(called, before).into_iter().map(|kind| kind as usize);
        self.0.count(row(for_c, before.layout()), kinds);
    }

    pub fn amiss(&self) -> Vec<String> {
        self.0.amiss()
    }
}

impl fmt::Display for AbsentEntries {
    fn fmt(&self, out: &mut fmt::Formatter) -> fmt::Result {
        self.0.fmt(out)
    }
}
