//! What is timed, and on which sheets.

use reference::exported::{by_fast, Call, Lent};
use reference::make::random::Random;
use reference::make::sheets::{of_size, Mix, Size};
use reference::make::spares::fill_up;
use reference::plain::by_place::{self, Asked};
use reference::plain::coordinator::{Decision, Unit};
use reference::plain::key::Key;
use reference::plain::record::{Image, Record, State, LINE};
use reference::plain::store::Store;
use reference::plain::transaction::*;
use reference::replay::laid_out::LaidOut;

/// The numbers of lines at which each call is timed: record lines, but for a few cases that have spares among them. At 51 and
/// 251 the calls on two sheets take the next larger area.
pub const LINES: [usize; 9] = [10, 50, 51, 100, 200, 251, 300, 400, 500];

const NOW: u32 = 20_000;

/// How one side makes a call.
pub type Make = fn(&Call, &mut Lent) -> u64;

#[derive(Clone, Copy, PartialEq, Eq)]
pub enum Case {
    Check,
    /// The check where every line, but for a few, has this state.
    CheckCommitted,
    CheckPrepared,
    /// The check where every second line is a spare.
    CheckSpares,
    Begin,
    BeginByPlace,
    VisitStays,
    VisitBack,
    /// The owner has a second line, so that all lines are looked through.
    VisitAgain,
    /// No line has the key.
    VisitMissing,
    /// Before all lines, so that all shift.
    Add,
    Remove,
    /// Both, one after the other: the sheet is as before.
    AddAndRemove,
    Lookup,
    LookupMissing,
    /// One step in prepare, with 8 puts in 8 groups.
    Prepare,
    /// From begin to done, with 8 puts in 8 groups: 19 calls.
    Transaction,
    /// The same, begun by place.
    TransactionByPlace,
    /// The same in two calls, begin and close.
    Close,
}

/// In the order printed.
pub const CASES: [(Case, &str); 14] = [
    (Case::Check, "check"),
    (Case::Begin, "begin"),
    (Case::VisitStays, "visit, line stays"),
    (Case::VisitBack, "visit, rolls back"),
    (Case::VisitAgain, "visit, writes ABORTED"),
    (Case::VisitMissing, "visit, refused with 6"),
    (Case::Prepare, "advance, 8 puts in 8 groups"),
    (Case::Transaction, "whole transaction, 8 puts, 19 calls"),
    (Case::CheckCommitted, "check, all COMMITTED"),
    (Case::CheckPrepared, "check, all PREPARED"),
    (Case::CheckSpares, "check, half spares"),
    (Case::Add, "add at the front"),
    (Case::Remove, "remove at the front"),
    (Case::AddAndRemove, "add and remove at the front"),
];

/// Those that are held beside the least that they can take.
pub const BESIDE_MOVE: [(Case, &str); 2] = [
    (Case::Add, "add at the front"),
    (Case::Remove, "remove at the front"),
];

/// Those that are held on two sheets beside the joined sheet.
pub const ON_TWO: [(Case, &str); 8] = [
    (Case::Check, "two sheets, check"),
    (Case::BeginByPlace, "two sheets, begin by place"),
    (Case::VisitStays, "two sheets, visit, line stays"),
    (Case::VisitBack, "two sheets, visit, rolls back"),
    (Case::Lookup, "two sheets, look-up"),
    (Case::LookupMissing, "two sheets, look-up with 6"),
    (Case::Prepare, "two sheets, advance, 8 puts"),
    (Case::TransactionByPlace, "two sheets, whole transaction"),
];

impl Case {
    /// Makes the call or calls, and answers as the last one did, or with the number given.
    pub fn run(self, make: Make, lent: &mut Lent) -> u64 {
        let key = middle_key(lent);
        match self {
            Case::Check | Case::CheckCommitted | Case::CheckPrepared | Case::CheckSpares => {
                make(&Call::Check, lent)
            }
            Case::Begin => make(&Call::Begin, lent),
            Case::BeginByPlace => make(&BEGIN, lent),
            Case::VisitStays | Case::VisitBack | Case::VisitAgain => {
                make(&Call::Visit { key, now: NOW }, lent)
            }
            Case::VisitMissing => {
                let key = beside(key);
                make(&Call::Visit { key, now: NOW }, lent)
            }
            Case::Add => make(&ADD, lent),
            Case::Remove => make(&REMOVE, lent),
            Case::AddAndRemove => {
                assert_eq!(make(&ADD, lent), 0, "a spare is left");
                make(&REMOVE, lent)
            }
            Case::Lookup => make(&Call::Lookup { key }, lent),
            Case::LookupMissing => make(&Call::Lookup { key: beside(key) }, lent),
            Case::Prepare => make(&ADVANCE, lent),
            Case::Transaction => {
                begun(make, lent);
                advanced(make, lent)
            }
            Case::TransactionByPlace => {
                begun_by_place(make, lent);
                advanced(make, lent)
            }
            Case::Close => {
                begun(make, lent);
                closed(make, lent)
            }
        }
    }

    fn mix(self) -> Mix {
        match self {
            Case::CheckCommitted => Mix::Committed,
            Case::CheckPrepared => Mix::Prepared,
            _ => Mix::Thirds,
        }
    }

    /// What the call answers with that is refused, or that answers 0 or the refusal itself.
    pub fn answer(self) -> Option<u64> {
        match self {
            Case::VisitMissing | Case::LookupMissing => Some(1_006),
            Case::Check | Case::CheckCommitted | Case::CheckPrepared | Case::CheckSpares => Some(0),
            Case::Add | Case::Remove | Case::AddAndRemove => Some(0),
            _ => None,
        }
    }

    /// How many of so many lines are spares.
    fn spares(self, lines: usize) -> usize {
        match self {
            Case::CheckSpares => lines / 2,
            Case::Add | Case::Remove | Case::AddAndRemove => 2,
            _ => 0,
        }
    }

    pub fn has_every_state(self) -> bool {
        matches!(self.mix(), Mix::Thirds)
    }

    /// Sheets of so many lines and a list for the call. A third of the lines each is ABSENT, COMMITTED and
    /// PREPARED unless the case says otherwise, and eight are set up for the call.
    pub fn lent(self, random: &mut Random, lines: usize) -> Lent {
        let decisions = (2 * lines).min(999);
        let size = Size {
            records: lines - self.spares(lines),
            decisions,
            issued: decisions - 1,
        };
        let mut sheets = of_size(random, size, self.mix());
        fill_up(&mut sheets.records, LINE, lines);
        let mut store = sheets.store();
        let lines = store.records.len();
        store.coordinator.units = [Unit::Record; 9];
        store.coordinator.decisions[0] = Decision::Aborted;
        for place in places(lines) {
            store.records[place] = settled(store.records[place].key);
        }
        match self {
            Case::VisitBack => prepare(&mut store.records[lines / 2], 1, NOW),
            Case::VisitAgain => halfway(&mut store),
            Case::Remove => store.records[0] = Record::absent(FRONT),
            Case::Add | Case::AddAndRemove => store.records.retain(|line| line.key != FRONT),
            _ => {}
        }
        store.write(&mut sheets.records, &mut sheets.coordinator);
        Lent {
            sheets: LaidOut::Joined(sheets),
            list: vec![in_prepare(&store, size.issued as u32)],
        }
    }
}

/// Calls at place 0. An advance takes none of the numbers but the clock, and a close has the limit besides.
const BEGIN: Call = at_place_0(by_place::BEGIN);
const ADVANCE: Call = at_place_0(by_place::ADVANCE);
const CLOSE: Call = at_place_0(by_place::CLOSE);

const fn at_place_0(call: u32) -> Call {
    Call::At {
        place: 0,
        asked: Asked {
            call,
            key: NO_KEY,
            columns: [0; 2],
            now: NOW,
            limit: 17,
        },
    }
}

/// The least key there is.
const FRONT: Key = Key {
    storage: 1,
    namespace: 1,
    table: 1,
    partition: 0,
    clustering: 0,
};
const ADD: Call = Call::Add { key: FRONT };
const REMOVE: Call = Call::Remove { key: FRONT };

/// The least that adding or removing at the front can take: the baseline's check, and a move of all lines by one. It leaves
/// no good sheet.
pub fn check_and_move(call: &Call, lent: &mut Lent) -> u64 {
    let answer = by_fast(&Call::Check, lent);
    let LaidOut::Joined(sheets) = &mut lent.sheets else {
        panic!("the baseline has no calls on two sheets");
    };
    let last = sheets.records.len() - LINE;
    match call {
        Call::Add { .. } => sheets.records.copy_within(..last, LINE),
        _ => sheets.records.copy_within(LINE.., 0),
    }
    answer
}

const NO_KEY: Key = Key {
    storage: 0,
    namespace: 0,
    table: 0,
    partition: 0,
    clustering: 0,
};

/// A key beside this one, which no line has.
fn beside(key: Key) -> Key {
    let clustering = match key.clustering {
        0 => 1,
        other => other - 1,
    };
    Key { clustering, ..key }
}

/// Eight lines spread over the sheet, the middle one among them.
fn places(lines: usize) -> impl Iterator<Item = usize> {
    (0..MOST_ENTRIES).map(move |i| i * lines / MOST_ENTRIES)
}

fn settled(key: Key) -> Record {
    Record {
        state: State::Committed,
        image: Image {
            version: 41,
            tx_id: 0,
            column_1: 500,
            column_2: 12_345,
        },
        ..Record::absent(key)
    }
}

/// Prepares a line by this number at this clock.
fn prepare(record: &mut Record, number: u32, clock: u32) {
    *record = settled(record.key).prepared(number, [600, 54_321], clock);
}

/// The middle line and the last prepared by number 2, which is undecided and has expired; no other line is.
fn halfway(store: &mut Store) {
    store.coordinator.decisions[1] = Decision::Undecided;
    let records = &mut store.records;
    for record in records.iter_mut().filter(|line| line.is_prepared_by(2)) {
        *record = settled(record.key);
    }
    let (middle, last) = (records.len() / 2, records.len() - 1);
    prepare(&mut records[middle], 2, NOW - 15_000);
    prepare(&mut records[last], 2, NOW - 15_001);
}

/// The key of the middle line as the list's fifth entry has it, so that nothing need be read from the sheet.
fn middle_key(lent: &Lent) -> Key {
    lent.list[0].entries[MOST_ENTRIES / 2].key
}

/// A transaction that has read the eight lines and put columns to each, about to prepare the first.
fn in_prepare(store: &Store, number: u32) -> Transaction {
    let mut transaction = Transaction::begun(number, false);
    let entries = transaction.entries.iter_mut();
    for (entry, place) in entries.zip(places(store.records.len())) {
        let record = &store.records[place];
        *entry = Entry::read(&settled(record.key));
        entry.wrote = 1;
        [entry.put_1, entry.put_2] = [777, 88_888_888];
    }
    transaction.count = MOST_ENTRIES as u32;
    transaction.phase = PREPARE;
    transaction
}

/// Begins, and fills the new transaction with the entries.
fn begun(make: Make, lent: &mut Lent) {
    let number = make(&Call::Begin, lent) as u32;
    let transaction = &mut lent.list[0];
    transaction.number = number;
    transaction.phase = OPEN;
}

/// The same by place, where the new transaction has no entries at first.
fn begun_by_place(make: Make, lent: &mut Lent) {
    let entries = lent.list[0].entries;
    assert_eq!(make(&BEGIN, lent), 0, "a number is left");
    let transaction = &mut lent.list[0];
    transaction.entries = entries;
    transaction.count = MOST_ENTRIES as u32;
}

/// Advances the transaction until it is done.
fn advanced(make: Make, lent: &mut Lent) -> u64 {
    while lent.list[0].phase != DONE {
        let answer = make(&ADVANCE, lent);
        assert_eq!(answer, 0, "the transaction goes through");
    }
    lent.list[0].number.into()
}

/// Closes the transaction in one call, which makes as many writes as any can.
fn closed(make: Make, lent: &mut Lent) -> u64 {
    assert_eq!(make(&CLOSE, lent), 17, "the transaction goes through");
    lent.list[0].number.into()
}
