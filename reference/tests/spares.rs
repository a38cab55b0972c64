//! Spares: blank lines at the end of a sheet of records count among its lines, and no call takes one for a record. But for adding
//! and removing they stay.

use reference::fast;
use reference::make::history::{Event, History, Rule};
use reference::make::random::Random;
use reference::make::spares::{fill_up, spare};
use reference::make::two_sheets::{letters, BOOKKEEPING_LINE, PLAIN_LINE};
use reference::make::{Sheets, TwoSheets};
use reference::plain;
use reference::plain::key::Key;
use reference::plain::numbers::{numbers_to_records, records_to_numbers};
use reference::plain::rank::Rank;
use reference::plain::request::{Answer, Request};
use reference::plain::transaction::Transaction;
use reference::plain::two_sheets;
use reference::plain::visitor::output;
use reference::replay::laid_out::LaidOut;
use reference::replay::{replay, Layout};

const LINE: usize = 108;
const COORDINATOR: &str = "   1 SSSSSSSSS\n   1         -\n   2         -\n";
const ABSENT: &str = " 1  1  1     1     1    ABSENT     0   0        0        0         -     0   0        0        0          0\n";
const COMMITTED: &str = " 2  1  1     1     1 COMMITTED     3   1      500      250         -     0   0        0        0          0\n";
const PREPARED: &str = " 2  1  1     1     1  PREPARED     1   1      500      250    ABSENT     0   0        0        0       5000\n";
const ROLLED_BACK: &str = " 2  1  1     1     1    ABSENT     0   0        0        0         -     0   0        0        0          0\n";
const KEY: [u32; 5] = [2, 1, 1, 1, 1];

/// So many spares of the joined sheet.
fn spares(count: usize) -> String {
    String::from_utf8(spare(LINE)).unwrap().repeat(count)
}

/// So many COMMITTED lines.
fn committed(count: usize) -> String {
    let line = |k| COMMITTED.replacen("     1     1 ", &format!("     1{k:>6} "), 1);
    (0..count).map(line).collect()
}

/// What the check answers, by `fast` too.
fn checked(records: &[u8]) -> u32 {
    let answer = plain::check(records, COORDINATOR.as_bytes());
    let by_fast = fast::check(records, COORDINATOR.as_bytes());
    assert_eq!(by_fast, answer, "{}", records.escape_ascii());
    answer
}

#[test]
fn spares_stand_last_and_count_among_the_lines() {
    let spare = &spares(1);
    let good = [
        spares(1),
        spares(499),
        spares(500),
        format!("{ABSENT}{spare}"),
        format!("{ABSENT}{COMMITTED}{}", spares(498)),
        format!("{}{spare}", committed(499)),
    ];
    let bad = [
        String::new(),
        spares(501),
        format!("{ABSENT}{COMMITTED}{}", spares(499)),
        format!("{}{spare}", committed(500)),
        format!("{spare}{ABSENT}"),
        format!("{ABSENT}{spare}{COMMITTED}"),
        format!("{ABSENT}{spare}{COMMITTED}{spare}"),
        format!("{}{COMMITTED}", spares(2)),
        format!("{ABSENT}{}", &spare[1..]),
        format!("{ABSENT}{spare} "),
    ];
    for sheet in good {
        assert_eq!(checked(sheet.as_bytes()), 0, "{sheet}");
    }
    for sheet in bad {
        assert_eq!(checked(sheet.as_bytes()), 1, "{sheet}");
    }
}

#[test]
fn a_spare_has_no_other_byte() {
    for above in ["", ABSENT] {
        let good = format!("{above}{}", spares(2)).into_bytes();
        for place in above.len()..good.len() {
            for byte in 0..=255 {
                let mut sheet = good.clone();
                sheet[place] = byte;
                assert_eq!(checked(&sheet), u32::from(sheet != good));
            }
        }
    }
}

#[test]
fn the_coordinator_sheet_is_asked_for_beside_spares_only() {
    let sheet = spares(3);
    for coordinator in ["", "   1 SSSSSSSSS\n   1         -\n   2 COMMITTED\n"] {
        let answer = plain::check(sheet.as_bytes(), coordinator.as_bytes());
        assert_eq!(answer, 2);
        let answer = fast::check(sheet.as_bytes(), coordinator.as_bytes());
        assert_eq!(answer, 2);
    }
}

/// The parts of a record sheet beside the good coordinator sheet.
fn parts(records: &str) -> TwoSheets {
    TwoSheets::of(&Sheets {
        records: records.into(),
        coordinator: COORDINATOR.into(),
    })
}

fn check_two(sheets: &TwoSheets) -> u32 {
    two_sheets::check(&sheets.plain, &sheets.bookkeeping, &sheets.coordinator)
}

/// The plain sheet of one and the bookkeeping sheet of the other.
fn crossed(plain: &str, bookkeeping: &str) -> TwoSheets {
    TwoSheets {
        plain: parts(plain).plain,
        ..parts(bookkeeping)
    }
}

#[test]
fn two_sheets_end_in_as_many_spares() {
    let spare = &spares(1);
    for sheet in [
        spares(1),
        spares(500),
        format!("{ABSENT}{COMMITTED}{spare}"),
    ] {
        let two = parts(&sheet);
        assert_eq!(two.plain.len() / PLAIN_LINE, sheet.len() / LINE);
        assert_eq!(check_two(&two), 0);
    }
    let both = format!("{ABSENT}{COMMITTED}");
    let last = format!("{ABSENT}{spare}");
    let longer = format!("{both}{spare}");
    let differ = [
        // A spare beside a record line.
        (&both, &last),
        (&spares(2), &both),
        // Other numbers of lines, of spares only too.
        (&both, &longer),
        (&spares(2), &spares(3)),
        (&last, &longer),
    ];
    for (one, other) in differ {
        assert_eq!(check_two(&crossed(one, other)), 13, "{one}{other}");
        assert_eq!(check_two(&crossed(other, one)), 13, "{one}{other}");
    }
}

#[test]
fn each_of_two_sheets_has_its_spares_last() {
    let spare = &spares(1);
    let good = format!("{ABSENT}{COMMITTED}");
    let bad = [
        String::new(),
        spares(501),
        format!("{spare}{COMMITTED}"),
        format!("{ABSENT}{COMMITTED}{}", spares(499)),
    ];
    for bad in &bad {
        assert_eq!(check_two(&crossed(bad, &good)), 1, "{bad}");
        assert_eq!(check_two(&crossed(&good, bad)), 1, "{bad}");
        assert_eq!(check_two(&parts(bad)), 1, "{bad}");
    }
    for byte in 0..PLAIN_LINE {
        let mut two = parts(&format!("{ABSENT}{spare}"));
        two.plain[PLAIN_LINE + byte] = b'\t';
        assert_eq!(check_two(&two), 1, "{two}");
    }
    for byte in 0..BOOKKEEPING_LINE {
        let mut two = parts(&format!("{ABSENT}{spare}"));
        two.bookkeeping[BOOKKEEPING_LINE + byte] = b'\t';
        assert_eq!(check_two(&two), 1, "{two}");
    }
}

/// A line ABSENT whose columns aren't 0 breaks a rule of the joined sheet only.
#[test]
fn the_joined_sheet_is_asked_for_only_where_no_spare_differs() {
    let spare = &spares(1);
    let columns = ABSENT.replacen("        0        0", "        0        7", 1);
    assert_eq!(check_two(&crossed(&columns, ABSENT)), 1);
    let longer = format!("{columns}{spare}");
    assert_eq!(check_two(&crossed(&longer, ABSENT)), 13);
    assert_eq!(check_two(&crossed(&longer, &format!("{ABSENT}{spare}"))), 1);
    assert_eq!(
        check_two(&crossed(&longer, &format!("{ABSENT}{COMMITTED}"))),
        13
    );
    // Refusal 2 goes before 13.
    let mut unissued = crossed(&spares(2), COMMITTED);
    unissued.coordinator[3] = b'0';
    assert_eq!(check_two(&unissued), 2);
}

/// The numbers of an accepted sheet.
fn numbers_of(sheet: &str) -> Vec<u32> {
    let mut numbers = vec![77; sheet.len() / LINE * 16];
    assert_eq!(records_to_numbers(sheet.as_bytes(), &mut numbers), 0);
    numbers
}

/// What writing these numbers answers, and the target afterwards.
fn written(numbers: &[u32]) -> (u32, Vec<u8>) {
    let mut target = vec![b'x'; numbers.len() / 16 * LINE];
    (numbers_to_records(numbers, &mut target), target)
}

#[test]
fn a_spare_is_sixteen_zeros_both_ways() {
    for sheet in [
        spares(1),
        spares(500),
        format!("{ABSENT}{COMMITTED}{}", spares(2)),
    ] {
        let numbers = numbers_of(&sheet);
        let rows = numbers.chunks(16).zip(sheet.as_bytes().chunks(LINE));
        for (row, line) in rows {
            assert_eq!(*row == [0; 16], *line == spare(LINE));
        }
        assert_eq!(written(&numbers), (0, sheet.into_bytes()));
    }
}

#[test]
fn numbers_have_their_spares_last_and_whole() {
    let spare = &spares(1);
    let good = numbers_of(&format!("{ABSENT}{COMMITTED}{spare}"));
    let refused = |numbers: &[u32]| {
        let (refusal, target) = written(numbers);
        assert!(refusal == 0 || target.iter().all(|byte| *byte == b'x'));
        refusal
    };
    for place in 0..16 {
        for number in [1, 2, u32::MAX] {
            let mut numbers = good.clone();
            numbers[32 + place] = number;
            assert_eq!(refused(&numbers), 1, "{place}");
        }
    }
    let above = [&[0; 16], &good[..16]].concat();
    let between = [&good[..16], &[0; 16], &good[16..]].concat();
    assert_eq!([refused(&above), refused(&between)], [1, 1]);
    for rows in [0, 501] {
        assert_eq!(refused(&vec![0; rows * 16]), 1);
    }
    let mut many = good.clone();
    many.resize(500 * 16, 0);
    assert_eq!(refused(&many), 0);
    many.resize(501 * 16, 0);
    assert_eq!(refused(&many), 1);
    // The spares count for the target's length.
    let sheet = format!("{ABSENT}{spare}");
    assert_eq!(records_to_numbers(sheet.as_bytes(), &mut [0; 16]), 1);
    assert_eq!(numbers_to_records(&good, &mut [0; 2 * LINE]), 1);
}

#[test]
fn the_visiting_program_passes_spares_over() {
    let (spare, aborted) = (spares(2), COORDINATOR.replacen("      -", "ABORTED", 1));
    let input = format!("   4   2      20000\n{COORDINATOR}{ABSENT}{PREPARED}{spare}");
    let after = format!("{aborted}{ABSENT}{ROLLED_BACK}{spare}");
    assert_eq!(output(input.as_bytes()), after.as_bytes());
    let input = format!("   2   2      20000\n{COORDINATOR}{spare}");
    assert_eq!(output(input.as_bytes()), &input.as_bytes()[20..]);
    let input = format!("   3   2      20000\n{COORDINATOR}{spare}{PREPARED}");
    assert_eq!(output(input.as_bytes()), b"REFUSED  1\n");
}

#[test]
fn look_ups_count_record_lines_only() {
    let sheet = format!("{ABSENT}{COMMITTED}{}", spares(3));
    let two = parts(&sheet);
    let greatest = [9, 99, 99, 99_999, 99_999];
    for (key, below, present) in [(KEY, 1, true), (greatest, 2, false), ([1; 5], 0, true)] {
        let rank = Ok(Rank { below, present });
        assert_eq!(plain::rank(sheet.as_bytes(), key), rank);
        let key = Key::from_numbers(key);
        assert_eq!(two_sheets::rank(&two.plain, &two.bookkeeping, key), rank);
    }
    assert_eq!(plain::line_of(sheet.as_bytes(), KEY), COMMITTED.as_bytes());
    let spares = spares(3);
    let rank = Rank {
        below: 0,
        present: false,
    };
    assert_eq!(plain::rank(spares.as_bytes(), KEY), Ok(rank));
    assert_eq!(plain::rank(spares.as_bytes(), [0; 5]), Err(5));
    assert_eq!(plain::line_of(spares.as_bytes(), KEY), b"");
}

#[test]
fn a_replay_prints_spares() {
    let sheets = format!("{COORDINATOR}{COMMITTED}{}", spares(2));
    let calls =
        "check\nlookup 9 1 1 1 1\nline 2 1 1 1 1\nvisit 1 1 1 1 1 0\nread 0 2 1 1 1 1 0\nsheets\n";
    let input = format!("   3   2\n{sheets}{calls}");
    let answers = format!("ok\nok 1 0\nok {COMMITTED}refused 6\nrefused 3\nsheets\n{sheets}");
    let expected = format!("{answers}sheets\n{sheets}");
    let printed = replay(Layout::Joined, input.as_bytes());
    assert_eq!(String::from_utf8(printed).unwrap(), expected);
}

#[test]
fn calls_on_spares_only() {
    let key = Key::from_numbers(KEY);
    let mut sheets = Sheets {
        records: spares(4).into(),
        coordinator: COORDINATOR.into(),
    };
    let before = sheets.records.clone();
    let begin = Request::Begin {
        serializable: false,
    };
    let transaction = Transaction::begun(2, false);
    assert_eq!(sheets.ask(begin), Ok(Answer::Returned(transaction)));
    let (now, columns) = (0, [0, 0]);
    let read = Request::Read {
        transaction,
        key,
        now,
    };
    let put = Request::Put {
        transaction,
        key,
        columns,
    };
    for request in [Request::Visit { key, now }, read, put] {
        assert_eq!(sheets.ask(request), Err(6));
    }
    let Sheets {
        records,
        coordinator,
    } = &mut sheets;
    assert_eq!(fast::visit(records, coordinator, key, now), Err(6));
    let mut list = [transaction];
    assert_eq!(
        fast::advance_at(&mut list, 0, records, coordinator, now),
        Ok(())
    );
    assert_eq!(sheets.records, before);
}

/// The same call with and without spares: the same answer, and the sheets differ in the spares alone. Where all lines have been
/// removed one spare is kept, since a sheet of no lines is refused.
fn is_as_without(event: &Event, layout: Layout, spares: usize) {
    // These take a spare or make one.
    if let Request::Add { .. } | Request::Remove { .. } = event.request {
        return;
    }
    let mut without = event.before.clone();
    let bare = spare(LINE);
    while without.records.len() > LINE && without.records.ends_with(&bare) {
        without.records.truncate(without.records.len() - LINE);
    }
    let lines = without.records.len() / LINE;
    let mut with = without.clone();
    fill_up(&mut with.records, LINE, lines + spares);
    let mut without = LaidOut::of(layout, without);
    let mut with = LaidOut::of(layout, with);
    assert_eq!(with.ask(event.request), without.ask(event.request));
    let mut filled = without.joined();
    fill_up(&mut filled.records, LINE, lines + spares);
    assert_eq!(with.joined(), filled);
}

#[test]
fn calls_leave_spares_where_they_are() {
    for seed in 0..300 {
        let random = &mut Random::new(seed);
        let layout = random.pick(&[Layout::Joined, Layout::Two]);
        let mut history = History::new(random, Rule::Free);
        letters(random, layout, &mut history.sheets);
        for _ in 0..60 {
            let event = history.step(random);
            is_as_without(&event, layout, 1 + random.below(4));
        }
    }
}
