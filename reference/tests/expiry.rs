//! When a number has expired: every line that is PREPARED by it, wherever it stands, each by the rule of the clock.

use reference::fast;
use reference::make::expiry::reading_for;
use reference::make::random::Random;
use reference::make::Sheets;
use reference::plain::key::Key;
use reference::plain::request::{Answer, Request};
use reference::plain::store::Visit;
use reference::plain::transaction::{Reading, Transaction};
use reference::plain::visitor::output;
use reference::plain::BUSY;

/// Clocks so far apart leave one reading at which both lines have expired.
const LAST_APART: u32 = 2_147_468_647;

/// A line in a storage of its own, so that no two are of one unit.
fn key(storage: u32) -> Key {
    Key::from_numbers([storage, 1, 1, 0, 0])
}

fn line(storage: u32, rest: &str) -> String {
    format!("{storage:>2}  1  1     0     0{rest}\n")
}

/// A line prepared by a number at this clock, over version 1.
fn prepared(storage: u32, number: u32, clock: u32) -> String {
    let image = format!("     2{number:>4}      500      250");
    let before = " COMMITTED     1   0       40        3";
    line(storage, &format!("  PREPARED{image}{before}{clock:>11}"))
}

/// The same line rolled back, and rolled forward or otherwise committed by a number.
fn back(storage: u32) -> String {
    let image = "     1   0       40        3";
    line(
        storage,
        &format!(" COMMITTED{image}         -     0   0        0        0          0"),
    )
}

fn committed(storage: u32, number: u32) -> String {
    let image = format!("     2{number:>4}      500      250");
    line(
        storage,
        &format!(" COMMITTED{image}         -     0   0        0        0          0"),
    )
}

/// These lines beside the words of three numbers.
fn sheets(lines: &[String], words: [&str; 3]) -> Sheets {
    let [one, two, three] = words;
    let own = format!("   1{one:>10}\n   2{two:>10}\n   3{three:>10}\n");
    Sheets {
        records: lines.concat().into(),
        coordinator: format!("   3 SSSSSSSSS\n{own}").into(),
    }
}

/// Visits the line of a storage by `plain` and by `fast`, which must agree.
fn visit(sheets: &mut Sheets, storage: u32, now: u32) -> Result<Visit, u32> {
    let key = key(storage);
    let mut other = sheets.clone();
    let visited = match sheets.ask(Request::Visit { key, now }) {
        Ok(Answer::Visited(visit)) => Ok(visit),
        Ok(answer) => panic!("{answer:?}"),
        Err(refusal) => Err(refusal),
    };
    let by_fast = fast::visit(&mut other.records, &mut other.coordinator, key, now);
    assert_eq!((by_fast, other), (visited, sheets.clone()));
    visited
}

/// Reads the line of a storage. Whatever is answered here, nothing is held.
fn read(sheets: &mut Sheets, storage: u32, now: u32) -> Result<Reading, u32> {
    let reader = Transaction::begun(3, false);
    let request = Request::Read {
        transaction: reader,
        key: key(storage),
        now,
    };
    match sheets.ask(request)? {
        Answer::Read(transaction, reading) => {
            assert_eq!(transaction, reader);
            Ok(reading)
        }
        answer => panic!("{answer:?}"),
    }
}

/// Asks that visits and reads of these storages' lines give 12 and change nothing.
fn all_busy(first: &Sheets, storages: &[u32], now: u32) {
    for storage in storages {
        let mut sheets = first.clone();
        assert_eq!(visit(&mut sheets, *storage, now), Err(BUSY), "{now}");
        assert_eq!(read(&mut sheets, *storage, now), Err(BUSY), "{now}");
        assert_eq!(sheets, *first);
    }
}

/// Asks that a visit or a read of any of these storages' lines says *again* and writes these words, and nothing else.
fn all_again(first: &Sheets, storages: &[u32], now: u32, words: [&str; 3]) {
    let after = Sheets {
        records: first.records.clone(),
        ..sheets(&[], words)
    };
    for storage in storages {
        let mut visited = first.clone();
        assert_eq!(visit(&mut visited, *storage, now), Ok(Visit::Again));
        assert_eq!(visited, after);
        let mut seen = first.clone();
        assert_eq!(read(&mut seen, *storage, now), Ok(Reading::Again));
        assert_eq!(seen, after);
    }
}

#[test]
fn two_lines_of_one_number() {
    let lines = [prepared(1, 1, 0), prepared(2, 1, 10_000)];
    let mut now = sheets(&lines, ["-", "-", "-"]);
    for early in [15_000, 20_000, 24_999] {
        all_busy(&now, &[1, 2], early);
    }
    for late in [25_000, 2_147_483_647] {
        all_again(&now, &[1, 2], late, ["ABORTED", "-", "-"]);
    }
    // The first line's clock has gone back, the second's hasn't.
    all_busy(&now, &[1, 2], 2_147_483_648);
    // Either line, once the number is aborted, and at any reading.
    assert_eq!(visit(&mut now, 2, 25_000), Ok(Visit::Again));
    assert_eq!(visit(&mut now, 1, 20_000), Ok(Visit::Back));
    assert_eq!(visit(&mut now, 2, 20_000), Ok(Visit::Back));
    assert_eq!(now, sheets(&[back(1), back(2)], ["ABORTED", "-", "-"]));
}

#[test]
fn the_order_of_the_lines_is_of_no_account() {
    let clocks = [0, 10_000, 5_000];
    for turned in 0..3 {
        let clock = |place: usize| clocks[(place + turned) % 3];
        let line = |place: usize| prepared(place as u32 + 1, 1, clock(place));
        let now = sheets(&[line(0), line(1), line(2)], ["-", "-", "-"]);
        all_busy(&now, &[1, 2, 3], 24_999);
        all_again(&now, &[1, 2, 3], 25_000, ["ABORTED", "-", "-"]);
    }
}

#[test]
fn lines_of_another_number_between() {
    let lines = [
        prepared(1, 1, 0),
        prepared(2, 2, 20_000),
        prepared(3, 1, 10_000),
    ];
    let now = sheets(&lines, ["-", "-", "-"]);
    all_busy(&now, &[1, 2, 3], 20_000);
    all_busy(&now, &[2], 25_000);
    all_again(&now, &[1, 3], 25_000, ["ABORTED", "-", "-"]);
    all_again(&now, &[2], 35_000, ["-", "ABORTED", "-"]);
    // The other number expires where this one hasn't.
    let lines = [prepared(1, 1, 10_000), prepared(2, 2, 0), prepared(3, 1, 0)];
    let now = sheets(&lines, ["-", "-", "-"]);
    all_busy(&now, &[1, 3], 20_000);
    all_again(&now, &[2], 20_000, ["-", "ABORTED", "-"]);
}

#[test]
fn lines_that_only_name_the_number() {
    // Committed by the number in one phase, and prepared over what it committed.
    let over = prepared(3, 2, 24_999).replace("     1   0       40", "     1   1       40");
    let lines = [prepared(1, 1, 10_000), committed(2, 1), over];
    let now = sheets(&lines, ["-", "-", "-"]);
    all_again(&now, &[1], 25_000, ["ABORTED", "-", "-"]);
    // A settled line's clock is 0, which would count as gone back here.
    let lines = [prepared(1, 1, 2_147_483_648), committed(2, 1)];
    let now = sheets(&lines, ["-", "-", "-"]);
    all_again(&now, &[1], 2_147_498_648, ["ABORTED", "-", "-"]);
}

#[test]
fn a_decided_owner_is_not_asked() {
    let lines = [prepared(1, 1, 0), prepared(2, 1, 10_000)];
    for now in [0, 10_000, 20_000, 25_000, 2_147_483_648, u32::MAX] {
        for (word, visited, left) in [
            ("COMMITTED", Visit::Forward, committed(1, 1)),
            ("ABORTED", Visit::Back, back(1)),
        ] {
            let words = [word, "-", "-"];
            let mut first = sheets(&lines, words);
            assert_eq!(visit(&mut first, 1, now), Ok(visited));
            assert_eq!(first, sheets(&[left, lines[1].clone()], words));
        }
    }
}

/// Readings on both sides of every edge of two lines.
fn edges(clocks: [u32; 2]) -> Vec<u32> {
    let elapsed = [
        0,
        14_999,
        15_000,
        15_001,
        2_147_483_646,
        2_147_483_647,
        2_147_483_648,
    ];
    let after = |clock: u32| elapsed.map(|elapsed| clock.wrapping_add(elapsed));
    clocks.map(after).concat()
}

#[test]
fn how_far_apart_lines_may_be() {
    for first in [0u32, 5_000, 2_147_483_648, 4_294_967_000] {
        let second = first.wrapping_add(LAST_APART);
        let only = second.wrapping_add(15_000);
        assert_eq!(reading_for(&[first, second]), Some(only));
        let lines = [prepared(1, 1, first), prepared(2, 1, second)];
        let now = sheets(&lines, ["-", "-", "-"]);
        for reading in edges([first, second]) {
            match reading == only {
                true => all_again(&now, &[1, 2], reading, ["ABORTED", "-", "-"]),
                false => all_busy(&now, &[1, 2], reading),
            }
        }
        // One tick more, and there is none.
        let second = second.wrapping_add(1);
        assert_eq!(reading_for(&[first, second]), None);
        let lines = [prepared(1, 1, first), prepared(2, 1, second)];
        let now = sheets(&lines, ["-", "-", "-"]);
        for reading in edges([first, second]) {
            all_busy(&now, &[1, 2], reading);
        }
    }
}

/// Each two of these lines leave a reading, and all three leave none.
#[test]
fn three_lines_around_the_clock() {
    let third = 1_431_655_765;
    let clocks = [0, third, 2 * third];
    for place in 0..3 {
        assert!(reading_for(&[clocks[place], clocks[(place + 1) % 3]]).is_some());
    }
    assert_eq!(reading_for(&clocks), None);
    let line = |place: usize| prepared(place as u32 + 1, 1, clocks[place]);
    let now = sheets(&[line(0), line(1), line(2)], ["-", "-", "-"]);
    for reading in edges([clocks[0], clocks[1]]) {
        all_busy(&now, &[1, 2, 3], reading);
    }
}

/// A reading is found by the first ones of the lines exactly if one is found by the last ones.
#[test]
fn readings_from_either_end() {
    let mut found = [0; 2];
    for seed in 0..20_000 {
        let random = &mut Random::new(seed);
        let clocks = (0..1 + random.below(4)).map(|_| random.draw() as u32);
        let clocks: Vec<u32> = clocks.collect();
        let expired = |now: u32| {
            let mut elapsed = clocks.iter().map(|clock| now.wrapping_sub(*clock));
            elapsed.all(|elapsed| (15_000..=2_147_483_647).contains(&elapsed))
        };
        let mut lasts = clocks.iter().map(|clock| clock.wrapping_add(2_147_483_647));
        let reading = reading_for(&clocks);
        assert_eq!(reading.is_some(), lasts.any(expired), "{clocks:?}");
        assert!(reading.is_none_or(expired));
        found[usize::from(reading.is_some())] += 1;
    }
    assert!(found.iter().all(|count| *count > 1_000), "{found:?}");
}

/// The visiting program's output at this reading.
fn swept(sheets: &Sheets, now: u32) -> String {
    let records = sheets.records.len() / 108;
    let first = format!("{records:>4}   3{now:>11}\n").into_bytes();
    let input = [first, sheets.coordinator.clone(), sheets.records.clone()].concat();
    String::from_utf8(output(&input)).unwrap()
}

#[test]
fn the_visiting_program() {
    let lines = [prepared(1, 1, 0), prepared(2, 2, 0), prepared(3, 1, 10_000)];
    let first = sheets(&lines, ["-", "-", "-"]);
    let printed = |sheets: Sheets| {
        let both = [sheets.coordinator, sheets.records].concat();
        String::from_utf8(both).unwrap()
    };
    assert_eq!(swept(&first, 14_999), printed(first.clone()));
    // The second number has expired, and the first, whose first line has, hasn't.
    let left = [lines[0].clone(), back(2), lines[2].clone()];
    let left = sheets(&left, ["-", "ABORTED", "-"]);
    assert_eq!(swept(&first, 20_000), printed(left));
    let all = sheets(&[back(1), back(2), back(3)], ["ABORTED", "ABORTED", "-"]);
    assert_eq!(swept(&first, 25_000), printed(all));
}
