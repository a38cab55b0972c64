//! What must be met on two sheets beside refusals and steps.

use crate::make::TwoSheets;
use crate::plain::coordinator::{Coordinator, Decision};
use crate::plain::groups::groups;
use crate::plain::record::{columns_in_range, Record, State};
use crate::plain::steps::to_validate;
use crate::plain::store::Store;
use crate::plain::transaction::*;
use crate::plain::two_sheets::{self, read_bookkeeping, read_plain};
use crate::plain::{BAD_COORDINATOR, BAD_RECORDS, SHEETS_DIFFER};
use crate::replay::laid_out::LaidOut;
use crate::replay::line::Line;
use crate::replay::reply::Reply;

#[derive(Clone, Copy)]
pub enum Kind {
    OneByPlain,
    OneByBookkeeping,
    OneByJoined,
    TwoWhereKeysDiffer,
    DifferInLines,
    DifferInKey,
    PlainLine,
    BookkeepingLine,
    LineOfNoSheet,
    FirstAbsent,
    FirstCommitted,
    FirstPrepared,
    FirstUnexpired,
    ReadHeld,
    ReadCapital,
    SecondAbsent,
    SecondSame,
    SecondOther,
    SecondForward,
    SecondBack,
    SecondAgain,
    SecondHeld,
    SecondCapital,
    SecondTooLarge,
    OnePhase,
    BarredByPut,
    BarredByRead,
    UncheckedToCheck,
    PreparedToCheck,
    PreparedToDecide,
    UncheckedHolds,
    UncheckedFails,
    PrepareColumns,
    CheckColumns,
    CapitalColumns,
    NotToValidate,
}

/// In the order of the kinds.
pub const KINDS: [&str; 36] = [
    "1 by the plain sheet alone",
    "1 by the bookkeeping sheet alone",
    "1 by the joined sheet only",
    "2 where the keys differ",
    "13 by the number of lines",
    "13 by a key",
    "line of the plain sheet",
    "line of the bookkeeping sheet",
    "line of no such sheet",
    "first call of a line ABSENT",
    "first call of a line COMMITTED",
    "first call of a line PREPARED",
    "first call of a line undecided and not expired",
    "first call whole, held under a small letter",
    "first call whole, under a capital beside small ones",
    "second call of a line ABSENT",
    "second call with the line's columns",
    "second call with other columns",
    "second call that rolls forward",
    "second call that rolls back",
    "second call that says again",
    "second call whole, held under a small letter",
    "second call whole, under a capital",
    "second call whole, with a column too large",
    "one-phase",
    "no one-phase, by a put under a small letter",
    "no one-phase, by a read under a small letter",
    "open to check, not checked",
    "prepare to check, not checked",
    "prepare to decide, not checked, with a read under a capital",
    "check holds, not checked",
    "check fails, not checked",
    "prepare finds only columns changed",
    "check finds only columns changed",
    "prepare or check passes over columns under a capital",
    "3 in check at an entry not to be validated",
];

/// By what refusals 1, 2 and 13 were given.
pub fn of_refusal(refusal: u32, sheets: &TwoSheets) -> Option<Kind> {
    let TwoSheets {
        plain, bookkeeping, ..
    } = sheets;
    let alone = [
        read_plain(plain).is_some(),
        read_bookkeeping(bookkeeping).is_some(),
    ];
    let join = two_sheets::read(plain, bookkeeping).is_some_and(|(_, join)| join);
    let lines = |sheet: &[u8], line: usize| sheet.len() / line;
    let same_lines =
        lines(plain, two_sheets::PLAIN_LINE) == lines(bookkeeping, two_sheets::BOOKKEEPING_LINE);
    match (refusal, alone) {
        (BAD_RECORDS, [false, true]) => Some(Kind::OneByPlain),
        (BAD_RECORDS, [true, false]) => Some(Kind::OneByBookkeeping),
        (BAD_RECORDS, [true, true]) => Some(Kind::OneByJoined),
        (BAD_COORDINATOR, _) if !join => Some(Kind::TwoWhereKeysDiffer),
        (SHEETS_DIFFER, _) if same_lines => Some(Kind::DifferInKey),
        (SHEETS_DIFFER, _) => Some(Kind::DifferInLines),
        _ => None,
    }
}

/// Which sheet's line was handed back.
pub fn of_line(sheet: Option<u32>, reply: &Reply, sheets: &LaidOut) -> Option<Kind> {
    match (sheet, reply) {
        (Some(two_sheets::PLAIN), Reply::Line(_)) => Some(Kind::PlainLine),
        (Some(two_sheets::BOOKKEEPING), Reply::Line(_)) => Some(Kind::BookkeepingLine),
        (Some(2..), _) if sheets.store().is_some() => Some(Kind::LineOfNoSheet),
        _ => None,
    }
}

/// Which call of a read it was, and what it came to.
pub fn of_read(line: &Line, taken: &Transaction, reading: &Reading, store: &Store) -> Vec<Kind> {
    let (key, now, columns) = match line {
        Line::Read { key, now, .. } => (key, *now, None),
        Line::Second {
            key, now, columns, ..
        } => (key, *now, Some(*columns)),
        _ => return Vec::new(),
    };
    let coordinator = &store.coordinator;
    let small = coordinator.is_small(key.storage);
    let held = taken.place_of(key).is_some();
    let record = store.record(key);
    match (columns, small && !held) {
        (None, true) => of_first(record, now, store),
        (None, false) if small => vec![Kind::ReadHeld],
        (None, false) if coordinator.has_small() => vec![Kind::ReadCapital],
        (None, false) => Vec::new(),
        (Some(columns), true) => of_second(record, reading, columns, store),
        (Some(columns), false) => {
            let whole = match small {
                true => Kind::SecondHeld,
                false => Kind::SecondCapital,
            };
            let too_large = !columns_in_range(columns);
            [whole]
                .into_iter()
                .chain(too_large.then_some(Kind::SecondTooLarge))
                .collect()
        }
    }
}

fn of_first(record: &Record, now: u32, store: &Store) -> Vec<Kind> {
    let place = store.place_of(&record.key);
    let visited = place.and_then(|place| store.clone().visit(place, now));
    let state = match record.state {
        State::Absent => Kind::FirstAbsent,
        State::Committed => Kind::FirstCommitted,
        State::Prepared => Kind::FirstPrepared,
    };
    let unexpired = visited.is_err().then_some(Kind::FirstUnexpired);
    [state].into_iter().chain(unexpired).collect()
}

/// Of a second call that was needed, by the line before it.
fn of_second(record: &Record, reading: &Reading, columns: [u32; 2], store: &Store) -> Vec<Kind> {
    let prepared = record.state == State::Prepared;
    let line = match prepared {
        true if *reading == Reading::Again => return vec![Kind::SecondAgain],
        true if store.decision(record.image.tx_id) == Decision::Committed => record.forward(),
        true => record.back(),
        false => *record,
    };
    let rolled = match line.image == record.image {
        true => Kind::SecondForward,
        false => Kind::SecondBack,
    };
    let came_to = match line.state {
        State::Absent => Kind::SecondAbsent,
        _ if line.image.columns() == columns => Kind::SecondSame,
        _ => Kind::SecondOther,
    };
    [came_to]
        .into_iter()
        .chain(prepared.then_some(rolled))
        .collect()
}

/// Whether the line is as it was read but for its columns, and those aren't.
fn has_only_other_columns(entry: &Entry, store: &Store) -> bool {
    holds_but_for_columns(entry, store)
        && store.record(&entry.key).image.columns() != entry.seen.columns()
}

fn holds_but_for_columns(entry: &Entry, store: &Store) -> bool {
    if !store.has_line(&entry.key) {
        return false;
    }
    let line = store.record(&entry.key);
    line.state != State::Prepared
        && line.image.version == entry.seen.version
        && line.image.tx_id == entry.seen.tx_id
}

/// What small letters had to do with a step.
pub fn of_step(taken: &Transaction, returned: &Transaction, store: &Store) -> Vec<Kind> {
    let coordinator = &store.coordinator;
    match (taken.phase, returned.phase) {
        (OPEN, _) => of_open(taken, returned, coordinator).into_iter().collect(),
        (PREPARE, _) => {
            let groups = groups(taken, &coordinator.units);
            let after = of_prepared(taken, returned);
            let entries = &groups[taken.place as usize];
            of_conditions(entries, taken, returned, store)
                .chain(after)
                .collect()
        }
        (CHECK, _) => {
            let entry = to_validate(taken, coordinator)[taken.place as usize];
            let unchecked = match returned.phase {
                WITHDRAW => Kind::UncheckedFails,
                _ => Kind::UncheckedHolds,
            };
            let unchecked = (taken.serializable == 0).then_some(unchecked);
            of_conditions(&[entry], taken, returned, store)
                .chain(unchecked)
                .collect()
        }
        _ => Vec::new(),
    }
}

/// The way out of open of one that isn't checked, by what it holds.
fn of_open(taken: &Transaction, returned: &Transaction, coordinator: &Coordinator) -> Option<Kind> {
    let one_group = groups(taken, &coordinator.units).len() == 1;
    let small = |entry: &Entry| coordinator.is_small(entry.key.storage);
    match (taken.serializable, returned.phase) {
        (0, DONE) if one_group => Some(Kind::OnePhase),
        (0, PREPARE) if one_group && taken.puts().any(small) => Some(Kind::BarredByPut),
        (0, PREPARE) if one_group => Some(Kind::BarredByRead),
        (0, CHECK) => Some(Kind::UncheckedToCheck),
        _ => None,
    }
}

/// The way out of prepare of one that isn't checked.
fn of_prepared(taken: &Transaction, returned: &Transaction) -> Option<Kind> {
    match (taken.serializable, returned.phase) {
        (0, CHECK) => Some(Kind::PreparedToCheck),
        (0, DECIDE) if taken.only_read().next().is_some() => Some(Kind::PreparedToDecide),
        _ => None,
    }
}

/// Whether columns, and nothing else, decided on these entries, or could have.
fn of_conditions(
    entries: &[Entry],
    taken: &Transaction,
    returned: &Transaction,
    store: &Store,
) -> impl Iterator<Item = Kind> {
    let hold = entries
        .iter()
        .all(|entry| holds_but_for_columns(entry, store));
    let differ = entries
        .iter()
        .any(|entry| has_only_other_columns(entry, store));
    let kind = match returned.phase {
        WITHDRAW if taken.phase == CHECK => Kind::CheckColumns,
        WITHDRAW => Kind::PrepareColumns,
        _ => Kind::CapitalColumns,
    };
    (hold && differ).then_some(kind).into_iter()
}

/// A place in check that another reading of the entries would let pass.
pub fn of_ill_formed(taken: &Transaction, store: &Store) -> Option<Kind> {
    let few = taken.count as usize <= MOST_ENTRIES;
    let fits = |entry: &Entry| store.place_of(&entry.key).is_ok();
    if taken.phase != CHECK || !few || !taken.held().iter().all(fits) {
        return None;
    }
    let place = taken.place as usize;
    let beyond = place >= to_validate(taken, &store.coordinator).len();
    let counted = place < taken.only_read().count();
    (beyond && counted && store.coordinator.has_small()).then_some(Kind::NotToValidate)
}
