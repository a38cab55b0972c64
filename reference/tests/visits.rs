//! Visits and groups: the visiting example, the edges of the clock and the grouping examples of document 01.

use reference::make::Sheets;
use reference::plain::coordinator::{read_sheet, Unit};
use reference::plain::groups::groups;
use reference::plain::key::Key;
use reference::plain::record::Record;
use reference::plain::request::{Answer, Request};
use reference::plain::store::Visit;
use reference::plain::transaction::{Entry, Reading, Transaction};
use reference::plain::BUSY;

const COORDINATOR: &str = "   1 SSSSSSSSS\n   1         -\n";
const ABORTED: &str = "   1 SSSSSSSSS\n   1   ABORTED\n";
const COMMITTED: &str = "   1 SSSSSSSSS\n   1 COMMITTED\n";
const PREPARED: &str = " 1  1  1     1     1  PREPARED     1   1      500      250    ABSENT     0   0        0        0       5000\n";
const ABSENT: &str = " 1  1  1     1     1    ABSENT     0   0        0        0         -     0   0        0        0          0\n";
const FORWARD: &str = " 1  1  1     1     1 COMMITTED     1   1      500      250         -     0   0        0        0          0\n";
/// Prepared over a version, shortly before the clock wraps.
const LATE: &str = " 1  1  1     1     1  PREPARED    10   1      500      250 COMMITTED     9   0       40        3 4294967000\n";
const BACK: &str = " 1  1  1     1     1 COMMITTED     9   0       40        3         -     0   0        0        0          0\n";

const KEY: Key = Key {
    storage: 1,
    namespace: 1,
    table: 1,
    partition: 1,
    clustering: 1,
};

fn sheets(records: &str, coordinator: &str) -> Sheets {
    Sheets {
        records: records.into(),
        coordinator: coordinator.into(),
    }
}

/// The visit's answer and the sheets after it.
fn visit(records: &str, coordinator: &str, now: u32) -> (Result<Answer, u32>, Sheets) {
    let mut sheets = sheets(records, coordinator);
    let answer = sheets.ask(Request::Visit { key: KEY, now });
    (answer, sheets)
}

fn visited(visit: Visit) -> Result<Answer, u32> {
    Ok(Answer::Visited(visit))
}

#[test]
fn the_visiting_example() {
    // Aborting the owner and rolling back are two writes, so two visits.
    let aborted = sheets(PREPARED, ABORTED);
    let first = visit(PREPARED, COORDINATOR, 20_000);
    assert_eq!(first, (visited(Visit::Again), aborted));
    let second = visit(PREPARED, ABORTED, 20_000);
    assert_eq!(second, (visited(Visit::Back), sheets(ABSENT, ABORTED)));
    let third = visit(ABSENT, ABORTED, 20_000);
    assert_eq!(third, (visited(Visit::Stays), sheets(ABSENT, ABORTED)));
}

#[test]
fn rolling_forward_and_back() {
    for now in [5_000, 20_000] {
        let forward = visit(PREPARED, COMMITTED, now);
        assert_eq!(
            forward,
            (visited(Visit::Forward), sheets(FORWARD, COMMITTED))
        );
        let back = visit(LATE, ABORTED, now);
        assert_eq!(back, (visited(Visit::Back), sheets(BACK, ABORTED)));
    }
}

/// What a read of the line answers, and the sheets after it.
fn read(records: &str, coordinator: &str, now: u32) -> (Result<Answer, u32>, Sheets) {
    let mut sheets = sheets(records, coordinator);
    let transaction = Transaction::begun(1, false);
    let answer = sheets.ask(Request::Read {
        transaction,
        key: KEY,
        now,
    });
    (answer, sheets)
}

#[test]
fn the_edges_of_the_clock() {
    for (line, start) in [(PREPARED, 5_000u32), (LATE, 4_294_967_000)] {
        for (elapsed, expired) in [
            (0, false),
            (14_999, false),
            (15_000, true),
            (2_147_483_647, true),
            (2_147_483_648, false),
            (u32::MAX, false),
        ] {
            let now = start.wrapping_add(elapsed);
            let (visited, after_visit) = visit(line, COORDINATOR, now);
            let (reading, after_read) = read(line, COORDINATOR, now);
            let after = if expired { ABORTED } else { COORDINATOR };
            assert_eq!(after_visit, sheets(line, after), "{elapsed}");
            assert_eq!(after_read, sheets(line, after), "{elapsed}");
            if expired {
                let unchanged = Transaction::begun(1, false);
                assert_eq!(visited, Ok(Answer::Visited(Visit::Again)));
                assert_eq!(reading, Ok(Answer::Read(unchanged, Reading::Again)));
            } else {
                assert_eq!((visited, reading), (Err(BUSY), Err(BUSY)));
            }
        }
    }
}

#[test]
fn reading_rolls_the_line_and_holds_what_is_left() {
    for (line, coordinator, after, seen) in [
        (PREPARED, COMMITTED, FORWARD, Reading::Columns([500, 250])),
        (PREPARED, ABORTED, ABSENT, Reading::Absent),
        (LATE, ABORTED, BACK, Reading::Columns([40, 3])),
    ] {
        let (answer, left) = read(line, coordinator, 0);
        assert_eq!(left, sheets(after, coordinator));
        let mut holding = Transaction::begun(1, false);
        holding.count = 1;
        holding.entries[0] = Entry::read(&left.store().records[0]);
        assert_eq!(answer, Ok(Answer::Read(holding, seen)));
    }
}

/// How the puts to these keys fall into groups, all storages having the same letter.
fn grouped(keys: &[[u32; 5]], letter: &str) -> Vec<Vec<[u32; 5]>> {
    let mut transaction = Transaction::begun(1, false);
    for (entry, key) in transaction.entries.iter_mut().zip(keys) {
        *entry = Entry::read(&Record::absent(Key::from_numbers(*key)));
        entry.wrote = 1;
        transaction.count += 1;
    }
    let head = format!("   0 {}\n   1         -\n", letter.repeat(9));
    let units: [Unit; 9] = read_sheet(head.as_bytes()).unwrap().units;
    let numbers = |group: &Vec<Entry>| group.iter().map(|e| e.key.numbers()).collect();
    groups(&transaction, &units).iter().map(numbers).collect()
}

#[test]
fn the_grouping_examples() {
    let one = [2, 1, 1, 7, 1];
    let other = [2, 1, 2, 7, 1];
    for letter in ["R", "P", "T"] {
        // Whatever the order of reading, groups go in rising key order.
        assert_eq!(grouped(&[other, one], letter), [[one], [other]], "{letter}");
    }
    for letter in ["N", "S"] {
        assert_eq!(grouped(&[other, one], letter), [[one, other]], "{letter}");
    }
}

#[test]
fn each_unit_takes_all_the_fields_above_it() {
    // The second key leaves the first one's unit at the field named; the third would share every field below it.
    let first = [3, 4, 5, 6, 7];
    for (field, letter) in ["S", "N", "T", "P", "R"].iter().enumerate() {
        let mut second = first;
        second[field] += 1;
        assert_eq!(grouped(&[first, second], letter), [[first], [second]]);
        let mut inside = first;
        for number in &mut inside[field + 1..] {
            *number += 1;
        }
        let groups = match field {
            4 => vec![vec![first]],
            _ => vec![vec![first, inside]],
        };
        assert_eq!(grouped(&groups.concat(), letter), groups);
    }
}
