//! Absence told apart from version 0: ABSENT lines that have a version and a TxID, and entries that were read from them.

use reference::make::Sheets;
use reference::plain::key::Key;
use reference::plain::record::State;
use reference::plain::request::{Answer, Request};
use reference::plain::store::Visit;
use reference::plain::transaction::*;
use reference::plain::{NOT_REMOVABLE, VERSION_SPENT};
use reference::replay::laid_out::LaidOut;
use reference::replay::Layout;
use std::mem::{offset_of, size_of};

/// A line whose record was taken away by number 1, one that never had a record, and one of the greatest version.
const GONE: &str = " 1  1  1     1     1    ABSENT     4   1        0        0         -     0   0        0        0          0\n";
const NEVER: &str = " 1  1  1     1     2    ABSENT     0   0        0        0         -     0   0        0        0          0\n";
const SPENT: &str = " 1  1  1     1     3    ABSENT 99999   1        0        0         -     0   0        0        0          0\n";
/// The first as number 2 prepares it, commits it at once, and leaves it.
const PREPARED: &str = " 1  1  1     1     1  PREPARED     5   2        8        9    ABSENT     4   1        0        0       5000\n";
const LEFT: &str = " 1  1  1     1     1 COMMITTED     5   2        8        9         -     0   0        0        0          0\n";

const LAYOUTS: [Layout; 2] = [Layout::Joined, Layout::Two];

fn key(clustering: u32) -> Key {
    Key::from_numbers([1, 1, 1, 1, clustering])
}

/// The three lines under a letter, and three numbers, of which those are issued that the lines name.
fn sheets(layout: Layout, first: &str, letter: &str) -> LaidOut {
    let (issued, letters) = (if first == GONE { 1 } else { 2 }, letter.repeat(9));
    let coordinator =
        format!("{issued:>4} {letters}\n   1 COMMITTED\n   2         -\n   3         -\n");
    LaidOut::of(
        layout,
        Sheets {
            records: format!("{first}{NEVER}{SPENT}").into(),
            coordinator: coordinator.into(),
        },
    )
}

fn first_line(sheets: &LaidOut) -> String {
    String::from_utf8(sheets.joined().records[..108].to_vec()).unwrap()
}

fn returned(sheets: &mut LaidOut, request: Request) -> Transaction {
    let answer = sheets.ask(request).unwrap();
    *answer.returned().unwrap()
}

fn begun(sheets: &mut LaidOut, serializable: bool) -> Transaction {
    returned(sheets, Request::Begin { serializable })
}

/// Reads a line by the call that holds it, with columns that an ABSENT line doesn't have.
fn read(sheets: &mut LaidOut, transaction: Transaction, clustering: u32) -> (Transaction, Reading) {
    let (key, now) = (key(clustering), 0);
    let request = match sheets.layout() {
        Layout::Joined => Request::Read {
            transaction,
            key,
            now,
        },
        Layout::Two => Request::Second {
            transaction,
            key,
            now,
            columns: [1, 2],
        },
    };
    match sheets.ask(request) {
        Ok(Answer::Read(transaction, reading)) => (transaction, reading),
        other => panic!("{other:?}"),
    }
}

fn put(transaction: Transaction, clustering: u32) -> Request {
    Request::Put {
        transaction,
        key: key(clustering),
        columns: [8, 9],
    }
}

fn advance(transaction: Transaction) -> Request {
    Request::Advance {
        transaction,
        now: 5_000,
    }
}

#[test]
fn a_read_holds_the_version_and_answers_absent() {
    for (layout, letter) in [
        (Layout::Joined, "S"),
        (Layout::Two, "S"),
        (Layout::Two, "s"),
    ] {
        let mut now = sheets(layout, GONE, letter);
        let mut order = begun(&mut now, false);
        for (clustering, version, tx_id) in [(1, 4, 1), (2, 0, 0), (3, 99_999, 1)] {
            let (holding, reading) = read(&mut now, order, clustering);
            assert_eq!(reading, Reading::Absent);
            let entry = holding.held()[clustering as usize - 1];
            assert_eq!([entry.absent, entry.wrote], [1, 0]);
            assert_eq!([entry.seen.version, entry.seen.tx_id], [version, tx_id]);
            assert_eq!(entry.seen.columns(), [0, 0]);
            assert_eq!(entry.reading(), Reading::Absent);
            order = holding;
        }
        assert_eq!(now.ask(put(order, 3)), Err(VERSION_SPENT));
        let order = returned(&mut now, put(order, 1));
        assert_eq!(order.held()[0].reading(), Reading::Columns([8, 9]));
    }
}

/// One-phase and both phases: versions count on.
#[test]
fn a_put_counts_on() {
    for layout in LAYOUTS {
        for checked in [false, true] {
            let mut now = sheets(layout, GONE, "S");
            let order = begun(&mut now, checked);
            let (order, _) = read(&mut now, order, 1);
            let mut order = returned(&mut now, put(order, 1));
            let mut lines = Vec::new();
            while order.phase != DONE {
                order = returned(&mut now, advance(order));
                lines.push(first_line(&now));
            }
            let expected: &[&str] = match checked {
                false => &[LEFT],
                true => &[GONE, PREPARED, PREPARED, LEFT],
            };
            assert_eq!(lines, expected);
        }
    }
}

#[test]
fn rolling_back_gives_version_and_tx_id_again() {
    for layout in LAYOUTS {
        let mut now = sheets(layout, PREPARED, "S");
        let visit = Request::Visit {
            key: key(1),
            now: 20_000,
        };
        let answers = [Visit::Again, Visit::Back, Visit::Stays];
        for answer in answers {
            assert_eq!(now.ask(visit), Ok(Answer::Visited(answer)));
        }
        assert_eq!(first_line(&now), GONE);
    }
}

/// Its version tells that something was there: a line that was added anew would begin at 0 again.
#[test]
fn an_absent_line_of_a_version_is_not_removed() {
    for layout in LAYOUTS {
        let mut now = sheets(layout, GONE, "S");
        for clustering in [1, 3] {
            let remove = Request::Remove {
                key: key(clustering),
            };
            assert_eq!(now.ask(remove), Err(NOT_REMOVABLE));
        }
        assert_eq!(now.ask(Request::Remove { key: key(2) }), Ok(Answer::Done));
    }
}

/// What a condition asks of the line (1,1,1,1,1), of version 4 under number 1: not whether it was absent.
#[test]
fn a_condition_asks_for_version_and_tx_id_only() {
    let mut now = sheets(Layout::Joined, GONE, "S");
    let order = begun(&mut now, true);
    let (order, _) = read(&mut now, order, 1);
    for (absent, version, tx_id, phase) in [
        (1, 4, 1, DONE),
        (0, 4, 1, DONE),
        (1, 3, 1, WITHDRAW),
        (1, 4, 2, WITHDRAW),
        (1, 0, 0, WITHDRAW),
        (0, 4, 0, WITHDRAW),
    ] {
        let mut order = order.entering(CHECK);
        let entry = &mut order.entries[0];
        (entry.absent, entry.seen.version, entry.seen.tx_id) = (absent, version, tx_id);
        let after = returned(&mut now.clone(), advance(order));
        assert_eq!(after.phase, phase, "{absent} {version} {tx_id}");
    }
    // The same of a COMMITTED line that is held as absent.
    let mut committed = sheets(Layout::Joined, LEFT, "S");
    let mut order = order.entering(CHECK);
    let entry = &mut order.entries[0];
    (entry.seen.version, entry.seen.tx_id) = (5, 2);
    assert_eq!(returned(&mut committed, advance(order)).phase, DONE);
}

/// Columns are compared besides where the letter is small.
#[test]
fn under_a_small_letter_columns_are_compared() {
    let mut now = sheets(Layout::Two, LEFT, "s");
    let order = begun(&mut now, false);
    let (order, reading) = read(&mut now, order, 1);
    assert_eq!(reading, Reading::Columns([1, 2]));
    let mut order = order.entering(CHECK);
    let entry = &mut order.entries[0];
    (entry.absent, entry.seen.column_1, entry.seen.column_2) = (1, 0, 0);
    assert_eq!(returned(&mut now.clone(), advance(order)).phase, WITHDRAW);
    let entry = &mut order.entries[0];
    (entry.absent, entry.seen.column_1, entry.seen.column_2) = (0, 8, 9);
    assert_eq!(returned(&mut now, advance(order)).phase, DONE);
}

/// The line that is added is of version 0, and a new transaction's entries are all zeros.
#[test]
fn what_is_new_was_never_written() {
    let order = begun(&mut sheets(Layout::Joined, GONE, "S"), false);
    assert!(order.entries.iter().all(|e| e.numbers() == [0; 13]));
    let line = reference::plain::record::Record::absent(key(1));
    assert_eq!((line.state, line.image.version), (State::Absent, 0));
    assert_eq!(Entry::read(&line).absent, 1);
}

/// As a client in C has it.
#[test]
fn absence_stands_behind_the_image() {
    assert_eq!([size_of::<Entry>(), size_of::<Transaction>()], [52, 440]);
    let places = [
        offset_of!(Entry, key),
        offset_of!(Entry, seen),
        offset_of!(Entry, absent),
        offset_of!(Entry, wrote),
        offset_of!(Entry, put_1),
        offset_of!(Entry, put_2),
    ];
    assert_eq!(places, [0, 20, 36, 40, 44, 48]);
    // In a replay it stands before the image.
    let numbers = [1, 2, 3, 4, 5, 6, 7, 8, 9, 10, 11, 12, 13];
    let entry = Entry::from_numbers(numbers);
    assert_eq!([entry.absent, entry.seen.version, entry.wrote], [6, 7, 11]);
    assert_eq!(entry.numbers(), numbers);
}
