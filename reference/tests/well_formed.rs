//! Which transactions refusal 3 turns away, and when an entry's condition holds.

use reference::make::Sheets;
use reference::plain::key::Key;
use reference::plain::record::{Image, NOTHING};
use reference::plain::request::{Answer, Request};
use reference::plain::transaction::*;
use reference::plain::ILL_FORMED;

const RECORDS: &str = concat!(
    " 1  1  1     1     1 COMMITTED     2   1      500      250         -     0   0        0        0          0\n",
    " 1  1  1     1     2 COMMITTED     7   0        1        2         -     0   0        0        0          0\n",
    " 1  1  1     1     3  PREPARED     3   2        1        2 COMMITTED     2   1        3        4          0\n",
);
const COORDINATOR: &str =
    "   3 RRRRRRRRR\n   1 COMMITTED\n   2         -\n   3         -\n   4         -\n";

fn sheets() -> Sheets {
    Sheets {
        records: RECORDS.into(),
        coordinator: COORDINATOR.into(),
    }
}

fn key(clustering: u32) -> Key {
    Key::from_numbers([1, 1, 1, 1, clustering])
}

/// Number 3 with a put to the first line and the second only read.
fn good() -> Transaction {
    let records = sheets().store().records;
    let mut transaction = Transaction::begun(3, true);
    transaction.count = 2;
    transaction.entries[0] = Entry::read(&records[0]);
    transaction.entries[0].wrote = 1;
    transaction.entries[1] = Entry::read(&records[1]);
    transaction
}

/// As if an ABSENT line had been read.
fn absent(entry: &mut Entry, version: u32, tx_id: u32) {
    entry.absent = 1;
    entry.seen = Image {
        version,
        tx_id,
        ..NOTHING
    };
}

/// Whether refusal 3 lets the transaction pass, as abort shows: it asks for nothing else than the phase.
fn passes(transaction: Transaction) -> bool {
    sheets().ask(Request::Abort { transaction }) != Err(ILL_FORMED)
}

/// A change to a transaction that is good.
type Change = fn(&mut Transaction);

#[test]
fn what_is_let_pass() {
    let changes: [Change; 24] = [
        |_| {},
        |t| t.number = 1,
        |t| t.serializable = 0,
        |t| t.count = 0,
        |t| t.entries[0].seen.version = 99_998,
        |t| t.entries[1].seen.version = 99_999,
        |t| t.entries[0].seen.tx_id = 0,
        |t| t.entries[0].seen.tx_id = 3,
        |t| t.entries[0].put_2 = 99_999_999,
        // Absence is told apart from version 0, and no line is asked for it.
        |t| absent(&mut t.entries[1], 0, 0),
        |t| absent(&mut t.entries[1], 7, 3),
        |t| absent(&mut t.entries[1], 99_999, 1),
        |t| absent(&mut t.entries[0], 99_998, 1),
        |t| (t.entries[1].seen.column_1, t.entries[1].seen.column_2) = (0, 0),
        |t| t.entries[2].absent = 77,
        // A key need not have a line, but be in range.
        |t| t.entries[1].key = key(4),
        |t| t.entries[0].key.storage = 9,
        // What means nothing isn't judged.
        |t| t.entries[1].put_1 = u32::MAX,
        |t| t.entries[2].key.storage = 77,
        |t| t.entries[2].wrote = 77,
        |t| (t.phase, t.place) = (PREPARE, 0),
        |t| (t.phase, t.place) = (CHECK, 0),
        |t| (t.phase, t.verdict) = (FINISH, COMMITTED),
        |t| (t.phase, t.verdict, t.count) = (DONE, ABORTED, 0),
    ];
    for (i, change) in changes.iter().enumerate() {
        let mut transaction = good();
        change(&mut transaction);
        assert!(passes(transaction), "change {i}");
    }
}

#[test]
fn what_is_turned_away() {
    let changes: [Change; 45] = [
        |t| t.number = 0,
        |t| t.number = 4,
        |t| t.serializable = 2,
        |t| t.phase = 8,
        |t| t.verdict = 3,
        |t| t.count = 9,
        |t| t.count = u32::MAX,
        |t| t.place = 1,
        |t| t.verdict = COMMITTED,
        |t| t.entries[1].key = key(1),
        |t| t.entries[1].key = key(100_000),
        |t| t.entries[1].key.storage = 0,
        |t| t.entries[1].seen.version = 100_000,
        |t| t.entries[1].seen.tx_id = 4,
        |t| t.entries[1].seen.column_1 = 100_000_000,
        |t| t.entries[1].seen.column_2 = 100_000_000,
        |t| t.entries[1].seen.version = 0,
        |t| t.entries[0].seen.version = 0,
        |t| t.entries[0].seen.version = 99_999,
        |t| t.entries[1].absent = 1,
        |t| t.entries[1].absent = 2,
        |t| t.entries[1].absent = u32::MAX,
        |t| absent(&mut t.entries[1], 7, 0),
        |t| absent(&mut t.entries[1], 0, 1),
        |t| absent(&mut t.entries[1], 7, 4),
        |t| absent(&mut t.entries[0], 99_999, 1),
        |t| {
            absent(&mut t.entries[1], 7, 1);
            t.entries[1].seen.column_2 = 1;
        },
        |t| {
            absent(&mut t.entries[1], 0, 0);
            t.entries[1].absent = 0;
        },
        |t| t.entries[0].put_1 = 100_000_000,
        |t| t.entries[0].put_2 = 100_000_000,
        |t| t.entries[0].wrote = 2,
        |t| (t.phase, t.place) = (PREPARE, 1),
        |t| (t.phase, t.entries[0].wrote) = (PREPARE, 0),
        |t| (t.phase, t.verdict) = (PREPARE, COMMITTED),
        |t| (t.phase, t.place) = (CHECK, 1),
        |t| (t.phase, t.serializable) = (CHECK, 0),
        |t| (t.phase, t.entries[1].wrote) = (CHECK, 1),
        |t| (t.phase, t.entries[0].wrote) = (DECIDE, 0),
        |t| (t.phase, t.place) = (WITHDRAW, 1),
        |t| t.phase = FINISH,
        |t| (t.phase, t.verdict) = (FINISH, ABORTED),
        |t| (t.phase, t.verdict, t.place) = (FINISH, COMMITTED, 1),
        |t| (t.phase, t.verdict) = (UNDO, COMMITTED),
        |t| t.phase = DONE,
        |t| (t.phase, t.verdict, t.place) = (DONE, ABORTED, 1),
    ];
    for (i, change) in changes.iter().enumerate() {
        let mut transaction = good();
        change(&mut transaction);
        assert!(!passes(transaction), "change {i}");
    }
}

/// The phase after a check of one entry that was read as this.
fn checked(clustering: u32, version: u32, tx_id: u32) -> u32 {
    let mut transaction = Transaction::begun(3, true).entering(CHECK);
    let mut entry = good().entries[1];
    entry.key = key(clustering);
    entry.seen.version = version;
    entry.seen.tx_id = tx_id;
    transaction.entries[0] = entry;
    transaction.count = 1;
    let answer = sheets().ask(Request::Advance {
        transaction,
        now: 0,
    });
    match answer {
        Ok(Answer::Returned(transaction)) => transaction.phase,
        other => panic!("{other:?}"),
    }
}

#[test]
fn a_condition_asks_for_three_things() {
    // Columns aren't compared: version and TxID tell.
    assert_eq!(checked(1, 2, 1), DONE);
    assert_eq!(checked(1, 3, 1), WITHDRAW);
    assert_eq!(checked(1, 1, 1), WITHDRAW);
    assert_eq!(checked(1, 2, 0), WITHDRAW);
    assert_eq!(checked(1, 2, 2), WITHDRAW);
    // Prepared, even with the version and TxID read.
    assert_eq!(checked(3, 3, 2), WITHDRAW);
    assert_eq!(checked(3, 2, 1), WITHDRAW);
}

#[test]
fn a_condition_fails_without_a_line() {
    assert_eq!(checked(4, 7, 0), WITHDRAW);
}

#[test]
fn finish_and_undo_skip_a_key_without_a_line() {
    for (number, phase, verdict) in [(1, FINISH, COMMITTED), (3, UNDO, ABORTED)] {
        let mut transaction = good().entering(phase).with_verdict(verdict);
        transaction.number = number;
        transaction.entries[0].key = key(4);
        let mut sheets = sheets();
        if phase == UNDO {
            sheets.coordinator = COORDINATOR
                .replace("   3         -", "   3   ABORTED")
                .into();
        }
        let before = sheets.clone();
        let now = 0;
        match sheets.ask(Request::Advance { transaction, now }) {
            Ok(Answer::Returned(returned)) => assert_eq!(returned.phase, DONE),
            other => panic!("{other:?}"),
        }
        assert_eq!(sheets.records, before.records);
        assert_eq!(sheets.coordinator, before.coordinator);
    }
}
