//! Calls by place: what is asked of one transaction of a lent list, which refusals go first, and that the others stay.

use reference::exported::{by_plain, Call, Lent};
use reference::make::Sheets;
use reference::plain::by_place::*;
use reference::plain::key::Key;
use reference::plain::transaction::*;
use reference::replay::laid_out::LaidOut;
use reference::replay::Layout;

const LAID_OUT: &str =
    " 1  1  1     1     1 COMMITTED     3   0        5        6         -     0   0        0        0          0\n \
     1  1  1     1     2    ABSENT     0   0        0        0         -     0   0        0        0          0\n \
     2  1  1     1     1  PREPARED     1   1      500      250    ABSENT     0   0        0        0       5000\n";

const COORDINATOR: &str = "   1 RRRRRRRRR\n   1         -\n   2         -\n   3         -\n";

fn sheets() -> Sheets {
    Sheets {
        records: LAID_OUT.into(),
        coordinator: COORDINATOR.into(),
    }
}

/// The sheets and a list of so many that differ.
fn lent(length: u32) -> Lent {
    Lent {
        sheets: LaidOut::Joined(sheets()),
        list: list_of(length),
    }
}

/// The same on two sheets under these letters.
fn lent_two(letters: &[u8; 9], length: u32) -> Lent {
    let mut sheets = sheets();
    sheets.coordinator[5..14].copy_from_slice(letters);
    Lent {
        sheets: LaidOut::of(Layout::Two, sheets),
        list: list_of(length),
    }
}

const COMMITTED_KEY: [u32; 5] = [1, 1, 1, 1, 1];
const ABSENT_KEY: [u32; 5] = [1, 1, 1, 1, 2];
const PREPARED_KEY: [u32; 5] = [2, 1, 1, 1, 1];

/// A number in every field, so that one that changes is seen.
fn marked(number: u32) -> Transaction {
    let mut transaction = Transaction::begun(number, true).with_fields([number; 6]);
    transaction.entries.fill(Entry::from_numbers([number; 13]));
    transaction
}

/// A list of so many that differ.
fn list_of(length: u32) -> Vec<Transaction> {
    (100..100 + length).map(marked).collect()
}

fn asked(call: u32, key: [u32; 5], now: u32) -> Asked {
    Asked {
        call,
        key: Key::from_numbers(key),
        columns: [7, 8],
        now,
        limit: 17,
    }
}

/// Makes the call at a place and answers; the others must stay.
fn ask(lent: &mut Lent, place: usize, asked: Asked) -> u64 {
    let before = lent.clone();
    let answer = by_plain(&Call::At { place, asked }, lent);
    if answer >= 1_000 {
        assert_eq!(*lent, before, "a refused call changes nothing");
    }
    let pairs = before.list.iter().zip(&lent.list).enumerate();
    for (other, (one, same)) in pairs.filter(|(other, _)| *other != place) {
        assert_eq!(one, same, "the one at {other} stays");
    }
    answer
}

#[test]
fn a_whole_order() {
    let mut lent = lent(3);
    let answers = [
        (BEGIN, COMMITTED_KEY, 0),
        (READ, COMMITTED_KEY, 1),
        (READ, ABSENT_KEY, 0),
        (PUT, COMMITTED_KEY, 0),
        (PUT, ABSENT_KEY, 0),
        (READ, ABSENT_KEY, 1),
    ];
    for (call, key, answer) in answers {
        assert_eq!(ask(&mut lent, 1, asked(call, key, 0)), answer);
    }
    // Open, two groups to prepare, decide, two to finish.
    for phase in [PREPARE, PREPARE, DECIDE, FINISH, FINISH, DONE] {
        assert_eq!(ask(&mut lent, 1, asked(ADVANCE, COMMITTED_KEY, 9)), 0);
        assert_eq!(lent.list[1].phase, phase);
    }
    assert_eq!(lent.list[1].verdict, COMMITTED);
    assert_eq!(ask(&mut lent, 1, asked(ADVANCE, COMMITTED_KEY, 9)), 1_004);
    let store = lent.sheets.joined().store();
    for (place, version) in [(0, 4), (1, 1)] {
        let image = store.records[place].image;
        assert_eq!((image.version, image.tx_id), (version, 2));
        assert_eq!(image.columns(), [7, 8]);
    }
}

#[test]
fn a_close_answers_how_many_writes_it_made() {
    let order = || {
        let mut lent = lent(3);
        for (call, key) in [
            (BEGIN_CHECKED, COMMITTED_KEY),
            (READ, COMMITTED_KEY),
            (READ, ABSENT_KEY),
            (PUT, COMMITTED_KEY),
            (PUT, ABSENT_KEY),
        ] {
            ask(&mut lent, 2, asked(call, key, 0));
        }
        lent
    };
    let close = |lent: &mut Lent, limit| {
        let asked = Asked {
            limit,
            ..asked(CLOSE, [0; 5], 9)
        };
        ask(lent, 2, asked)
    };
    for (limit, writes, phase) in [
        (0, 0, PREPARE),
        (1, 1, PREPARE),
        (2, 2, DECIDE),
        (3, 3, FINISH),
        (4, 4, FINISH),
        (5, 5, DONE),
        (u32::MAX, 5, DONE),
    ] {
        let mut lent = order();
        assert_eq!(close(&mut lent, limit), writes);
        assert_eq!(lent.list[2].phase, phase);
        // The rest of it, once it is known to go on.
        let rest = match phase {
            DONE => 1_004,
            _ => 5 - writes,
        };
        assert_eq!(close(&mut lent, 17), rest);
        assert_eq!(lent.list[2].phase, DONE);
    }
}

#[test]
fn begin_replaces_what_stands_there() {
    for (call, checked) in [(BEGIN, false), (BEGIN_CHECKED, true)] {
        let mut lent = lent(16);
        assert_eq!(ask(&mut lent, 15, asked(call, [0; 5], 0)), 0);
        assert_eq!(lent.list[15], Transaction::begun(2, checked));
        assert_eq!(ask(&mut lent, 15, asked(call, [0; 5], 0)), 0);
        assert_eq!(lent.list[15], Transaction::begun(3, checked));
        assert_eq!(ask(&mut lent, 15, asked(call, [0; 5], 0)), 1_008);
    }
}

#[test]
fn a_read_of_an_expired_line_holds_nothing() {
    let mut lent = lent(1);
    ask(&mut lent, 0, asked(BEGIN_CHECKED, PREPARED_KEY, 0));
    let begun = lent.list[0];
    let answers = [(19_999, 1_012), (20_000, 2), (20_000, 0)];
    for (now, answer) in answers {
        assert_eq!(lent.list[0], begun);
        assert_eq!(ask(&mut lent, 0, asked(READ, PREPARED_KEY, now)), answer);
    }
    assert_eq!(lent.list[0].count, 1);
}

#[test]
fn abort_turns_the_one_named_to_withdraw() {
    let mut lent = lent(2);
    ask(&mut lent, 0, asked(BEGIN, [0; 5], 0));
    let steps = [(ABORT, WITHDRAW), (ADVANCE, DONE)];
    for (call, phase) in steps {
        assert_eq!(ask(&mut lent, 0, asked(call, [0; 5], 0)), 0);
        assert_eq!(lent.list[0].phase, phase);
    }
    assert_eq!(ask(&mut lent, 0, asked(ABORT, [0; 5], 0)), 1_004);
}

/// Sheets, list, place and number of a call, each good or bad: the sheets go first, then all that is 3.
#[test]
fn the_order_of_refusals() {
    let mut spent = sheets();
    spent.coordinator = "   1 RRRRRRRRR\n   1         -\n".into();
    let layouts = [(Layout::Joined, SECOND), (Layout::Two, CALLS)];
    for (layout, calls) in layouts {
        let good = LaidOut::of(layout, spent.clone());
        for (sheets, refusal) in spoilt(good) {
            for length in [0, 1, 2, 16, 17] {
                for place in [0, 1, 15, 16, 17, 1 << 32, usize::MAX] {
                    for call in (0..=9).chain([256, 65_536, u32::MAX]) {
                        let mut lent = Lent {
                            sheets: sheets.clone(),
                            list: list_of(length),
                        };
                        let no_such = length > 16 || place >= length as usize || call >= calls;
                        let refusal = match refusal {
                            // A begin looks at nothing that stands there; numbers are spent.
                            0 if !no_such && call <= BEGIN_CHECKED => 8,
                            0 => 3,
                            _ => refusal,
                        };
                        let answer = ask(&mut lent, place, asked(call, [0; 5], 0));
                        assert_eq!(answer, 1_000 + refusal, "{length} {place} {call}");
                    }
                }
            }
        }
    }
}

/// The sheets themselves, and with each sheet cut or keys that differ, and which refusal that is.
fn spoilt(good: LaidOut) -> Vec<(LaidOut, u64)> {
    let mut all = vec![(good.clone(), 0)];
    let mut add = |refusal, change: fn(&mut Vec<u8>), sheets: &[usize]| {
        let mut spoilt = good.clone();
        for sheet in sheets {
            change(sheet_of(&mut spoilt, *sheet));
        }
        all.push((spoilt, refusal));
    };
    let cut: fn(&mut Vec<u8>) = |sheet| sheet.truncate(sheet.len() - 1);
    add(2, cut, &[0]);
    add(1, cut, &[1]);
    add(1, cut, &[0, 1]);
    if good.layout() == Layout::Two {
        let other_key: fn(&mut Vec<u8>) = |sheet| sheet[13] = b'0';
        add(1, cut, &[2]);
        add(13, other_key, &[1]);
        add(13, other_key, &[2]);
        add(0, other_key, &[1, 2]);
    }
    all
}

/// The coordinator sheet, and the others in turn.
fn sheet_of(sheets: &mut LaidOut, sheet: usize) -> &mut Vec<u8> {
    match (sheets, sheet) {
        (LaidOut::Joined(sheets), 0) => &mut sheets.coordinator,
        (LaidOut::Joined(sheets), _) => &mut sheets.records,
        (LaidOut::Two(sheets), 0) => &mut sheets.coordinator,
        (LaidOut::Two(sheets), 1) => &mut sheets.plain,
        (LaidOut::Two(sheets), _) => &mut sheets.bookkeeping,
    }
}

/// On two sheets a first call answers the columns and holds nothing, and the second takes what it is told.
#[test]
fn a_read_in_two_calls() {
    let mut lent = lent_two(b"rRRRRRRRR", 2);
    ask(&mut lent, 1, asked(BEGIN, [0; 5], 0));
    let begun = lent.clone();
    let answers = [(COMMITTED_KEY, 500_010_006), (ABSENT_KEY, 10_000)];
    for (key, answer) in answers {
        assert_eq!(ask(&mut lent, 1, asked(READ, key, 0)), answer);
        assert_eq!(lent, begun, "a first call leaves all as it was");
    }
    let answers = [(COMMITTED_KEY, 1), (ABSENT_KEY, 0)];
    for (key, answer) in answers {
        assert_eq!(ask(&mut lent, 1, asked(SECOND, key, 0)), answer);
        assert_eq!(ask(&mut lent, 1, asked(READ, key, 0)), answer, "held now");
    }
    let held = lent.list[1].held();
    assert_eq!(held[0].seen.columns(), [7, 8]);
    assert_eq!(held[1].seen.columns(), [0, 0]);
}

#[test]
fn the_largest_columns_of_a_first_call() {
    let mut sheets = sheets();
    sheets.records[40..58].copy_from_slice(b" 99999999 99999999");
    sheets.coordinator[5] = b's';
    let mut lent = Lent {
        sheets: LaidOut::of(Layout::Two, sheets),
        list: list_of(1),
    };
    ask(&mut lent, 0, asked(BEGIN, [0; 5], 0));
    let answer = ask(&mut lent, 0, asked(READ, COMMITTED_KEY, 0));
    assert_eq!(answer, 10_000 + 9_999_999_999_999_999);
}

/// A first call finds no line busy; the second does, and holds nothing where it says again.
#[test]
fn an_undecided_line_in_two_calls() {
    let mut lent = lent_two(b"RrRRRRRRR", 1);
    ask(&mut lent, 0, asked(BEGIN_CHECKED, [0; 5], 0));
    let begun = lent.list[0];
    let too_large = Asked {
        columns: [0, 100_000_000],
        ..asked(SECOND, PREPARED_KEY, 19_999)
    };
    assert_eq!(ask(&mut lent, 0, too_large), 1_007);
    for (call, now, answer) in [
        (READ, 19_999, 10_000 + 500 * 100_000_000 + 250),
        (SECOND, 19_999, 1_012),
        (SECOND, 20_000, 2),
        (READ, 20_000, 10_000 + 500 * 100_000_000 + 250),
        (SECOND, 20_000, 0),
    ] {
        assert_eq!(lent.list[0], begun);
        assert_eq!(ask(&mut lent, 0, asked(call, PREPARED_KEY, now)), answer);
    }
    assert_eq!(lent.list[0].count, 1);
}

/// Under capitals either call is the whole read, and every other call is that of the joined sheet.
#[test]
fn under_capitals_as_on_the_joined_sheet() {
    let mut joined = lent(2);
    let mut two = lent_two(b"RRRRRRRRR", 2);
    let calls = [
        (BEGIN, COMMITTED_KEY),
        (READ, COMMITTED_KEY),
        (READ, ABSENT_KEY),
        (PUT, COMMITTED_KEY),
        (PUT, ABSENT_KEY),
        (ADVANCE, [0; 5]),
        (CLOSE, [0; 5]),
        (ABORT, [0; 5]),
    ];
    for (call, key) in calls {
        let answer = ask(&mut joined, 0, asked(call, key, 9));
        let as_second = match call {
            READ => SECOND,
            _ => call,
        };
        let mut other = two.clone();
        assert_eq!(ask(&mut other, 0, asked(as_second, key, 9)), answer);
        assert_eq!(ask(&mut two, 0, asked(call, key, 9)), answer);
        assert_eq!(two, other);
        assert_eq!(two.list, joined.list);
        assert_eq!(two.sheets.joined(), joined.sheets.joined());
    }
    assert_eq!(two.list[0].phase, DONE);
}
