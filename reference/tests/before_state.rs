//! The before state: which one goes with which state, what writes and follows it, and that sheets without one are refused.

use reference::fast;
use reference::make::old_lines::{narrowed, widened, BOOKKEEPING, FITTING_RECORDS, RECORDS};
use reference::make::random::Random;
use reference::make::sheets::{accepted, of_size, Mix, Size};
use reference::make::spares::spare;
use reference::make::{Sheets, TwoSheets};
use reference::plain;
use reference::plain::key::Key;
use reference::plain::numbers::{numbers_to_records, records_to_numbers};
use reference::plain::request::Request;
use reference::plain::transaction::{Transaction, DECIDE, PREPARE};
use reference::plain::two_sheets;
use reference::replay::laid_out::LaidOut;
use reference::replay::Layout;

const COORDINATOR: &str = "   1 SSSSSSSSS\n   1         -\n   2         -\n";
const KEY: &str = " 1  1  1     1     1";

/// A line by its words, its image, its before image and its clock.
fn line(state: &str, image: &str, before_state: &str, before: &str, clock: u32) -> String {
    format!("{KEY}{state:>10}{image}{before_state:>10}{before}{clock:>11}\n")
}

const NOTHING: &str = "     0   0        0        0";
const ONE: &str = "     1   1      500      250";
const FIVE: &str = "     5   1        0        7";
const FOUR: &str = "     4   0       40        3";

fn sheets(records: &str) -> Sheets {
    Sheets {
        records: records.into(),
        coordinator: COORDINATOR.into(),
    }
}

/// What the check answers, by `fast` and on two sheets too.
fn checked(records: &[u8]) -> u32 {
    let answer = plain::check(records, COORDINATOR.as_bytes());
    assert_eq!(fast::check(records, COORDINATOR.as_bytes()), answer);
    if records.len().is_multiple_of(108) && !records.is_empty() {
        let two = TwoSheets::of(&Sheets {
            records: records.to_vec(),
            coordinator: COORDINATOR.into(),
        });
        let on_two = two_sheets::check(&two.plain, &two.bookkeeping, &two.coordinator);
        assert_eq!(on_two, answer);
    }
    answer
}

/// Each state with each before state, over figures that go with one of them.
#[test]
fn one_before_state_goes_with_each_line() {
    for (state, image, before, clock, fitting) in [
        ("ABSENT", NOTHING, NOTHING, 0, "-"),
        ("COMMITTED", ONE, NOTHING, 0, "-"),
        ("PREPARED", ONE, NOTHING, 0, "ABSENT"),
        ("PREPARED", ONE, NOTHING, 7, "ABSENT"),
        ("PREPARED", FIVE, FOUR, 7, "COMMITTED"),
    ] {
        let words = ["-", "ABSENT", "COMMITTED", "PREPARED", "DELETED", "ABORTED"];
        for word in words.into_iter().chain(["", "0", "absent", "-         "]) {
            let refusal = u32::from(word != fitting);
            let line = line(state, image, word, before, clock);
            assert_eq!(checked(line.as_bytes()), refusal, "{line}");
        }
    }
}

#[test]
fn before_fields_go_with_the_before_state() {
    for (before_state, before, refusal) in [
        ("ABSENT", "     4   0        0        0", 1),
        ("ABSENT", "     4   1        0        0", 0),
        ("ABSENT", "     4   1        1        0", 1),
        ("ABSENT", "     4   1        0        1", 1),
        ("ABSENT", "     3   1        0        0", 1),
        ("COMMITTED", "     4   0        0        0", 0),
        ("COMMITTED", "     3   0        0        0", 1),
    ] {
        let line = line("PREPARED", FIVE, before_state, before, 7);
        assert_eq!(checked(line.as_bytes()), refusal, "{line}");
    }
    let over_nothing = line("PREPARED", ONE, "COMMITTED", NOTHING, 7);
    assert_eq!(checked(over_nothing.as_bytes()), 1);
}

/// What prepare leaves of a line, what the owner's decision makes of it, and the same of two sheets.
#[test]
fn prepare_writes_it_and_rolling_follows_it() {
    for (first, before_state, prepared) in [
        (
            line("ABSENT", NOTHING, "-", NOTHING, 0),
            "ABSENT",
            "     1   2        8        9",
        ),
        (
            line("COMMITTED", FOUR, "-", NOTHING, 0),
            "COMMITTED",
            "     5   2        8        9",
        ),
    ] {
        let before = &first[30..58];
        let pending = line("PREPARED", prepared, before_state, before, 5_000);
        let forward = line("COMMITTED", prepared, "-", NOTHING, 0);
        for layout in [Layout::Joined, Layout::Two] {
            let mut now = LaidOut::of(layout, sheets(&first));
            prepare(&mut now);
            assert_eq!(now.joined().records, pending.as_bytes());
            for (word, expected) in [("COMMITTED", &forward), ("ABORTED", &first)] {
                let mut joined = now.joined();
                joined.coordinator[34..44].copy_from_slice(format!("{word:>10}").as_bytes());
                let mut now = LaidOut::of(layout, joined);
                now.ask(Request::Visit { key: key(), now: 0 }).unwrap();
                assert_eq!(now.joined().records, expected.as_bytes());
            }
        }
    }
}

fn key() -> Key {
    Key::from_numbers([1; 5])
}

/// A checked order puts to the line and prepares it.
fn prepare(sheets: &mut LaidOut) {
    let mut order = Transaction::begun(0, false);
    let mut ask = |make: fn(Transaction) -> Request| {
        let answer = sheets.ask(make(order)).unwrap();
        order = *answer.returned().unwrap();
        order.phase
    };
    ask(|_| Request::Begin { serializable: true });
    ask(|transaction| Request::Read {
        transaction,
        key: key(),
        now: 0,
    });
    ask(|transaction| Request::Put {
        transaction,
        key: key(),
        columns: [8, 9],
    });
    let advance = |transaction| Request::Advance {
        transaction,
        now: 5_000,
    };
    assert_eq!(ask(advance), PREPARE);
    assert_eq!(ask(advance), DECIDE);
}

/// One put in one unit leaves no before state behind.
#[test]
fn one_phase_leaves_none() {
    let mut now = sheets(&line("ABSENT", NOTHING, "-", NOTHING, 0));
    let begin = Request::Begin {
        serializable: false,
    };
    let mut order = *now.ask(begin).unwrap().returned().unwrap();
    for request in [
        |transaction| Request::Read {
            transaction,
            key: key(),
            now: 0,
        },
        |transaction| Request::Put {
            transaction,
            key: key(),
            columns: [8, 9],
        },
        |transaction| Request::Advance {
            transaction,
            now: 0,
        },
    ] {
        order = *now.ask(request(order)).unwrap().returned().unwrap();
    }
    let after = line("COMMITTED", "     1   2        8        9", "-", NOTHING, 0);
    assert_eq!(now.records, after.as_bytes());
}

/// Good sheets but for the width of their lines, most of them of a length that fits.
#[test]
fn lines_without_it_are_refused() {
    assert_eq!(FITTING_RECORDS * 98, 49 * 108);
    for lines in [1, 2, 53, 54, 55, 108, 486, 500] {
        for seed in 0..20 {
            let random = &mut Random::new(seed);
            let size = Size {
                records: lines,
                decisions: 2,
                issued: 1,
            };
            let today = of_size(random, size, Mix::Thirds).records;
            let old = narrowed(&today, RECORDS);
            assert_eq!(old.len(), lines * 98);
            assert_eq!([checked(&today), checked(&old)], [0, 1]);
            // Nothing else is wrong with them.
            assert_eq!(widened(&old, RECORDS).map(|wide| checked(&wide)), Some(0));
        }
    }
    for lines in [1, 54, 108, 500] {
        let spares = spare(98).repeat(lines);
        assert_eq!(checked(&spares), 1, "{lines}");
        assert_eq!(checked(&spare(108).repeat(lines)), 0, "{lines}");
    }
}

#[test]
fn bookkeeping_lines_without_it_are_refused() {
    for seed in 0..2_000 {
        let mut two = TwoSheets::of(&accepted(&mut Random::new(seed)));
        let check =
            |two: &TwoSheets| two_sheets::check(&two.plain, &two.bookkeeping, &two.coordinator);
        assert_eq!(check(&two), 0);
        two.bookkeeping = narrowed(&two.bookkeeping, BOOKKEEPING);
        assert_eq!(check(&two), 1);
        // Nine are as long as eight.
        let old = two.bookkeeping[..80].repeat(9);
        assert_eq!(old.len(), 8 * 90);
        two.bookkeeping = old;
        assert_eq!(check(&two), 1);
    }
}

/// The tenth number, from 0: `-` 0, ABSENT 1, COMMITTED 2.
#[test]
fn in_numbers() {
    for (text, number) in [
        (line("ABSENT", NOTHING, "-", NOTHING, 0), 0),
        (line("COMMITTED", ONE, "-", NOTHING, 0), 0),
        (line("PREPARED", ONE, "ABSENT", NOTHING, 7), 1),
        (line("PREPARED", FIVE, "COMMITTED", FOUR, 7), 2),
    ] {
        let mut row = [77; 16];
        assert_eq!(records_to_numbers(text.as_bytes(), &mut row), 0);
        assert_eq!(row[10], number);
        for other in [0, 1, 2, 3, u32::MAX] {
            row[10] = other;
            let mut target = [b'x'; 108];
            let refusal = numbers_to_records(&row, &mut target);
            assert_eq!(refusal, u32::from(other != number), "{row:?}");
            let written = match refusal {
                0 => text.as_bytes(),
                _ => &[b'x'; 108],
            };
            assert_eq!(target[..], written[..]);
        }
    }
    // Sixteen records of fifteen numbers are as many as fifteen of sixteen.
    let lines: String = (1..=16)
        .map(|k| line("COMMITTED", ONE, "-", NOTHING, 0).replacen("     1", &format!("{k:>6}"), 1))
        .collect();
    let mut numbers = vec![0; 256];
    assert_eq!(records_to_numbers(lines.as_bytes(), &mut numbers), 0);
    let old = numbers
        .chunks(16)
        .flat_map(|row| [&row[..10], &row[11..]].concat());
    let old: Vec<u32> = old.collect();
    assert_eq!(numbers_to_records(&old, &mut [0; 15 * 108]), 1);
}
