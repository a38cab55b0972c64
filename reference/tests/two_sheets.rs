//! Bookkeeping on its own sheet: on capital letters every call is the call on the joined sheet; small letters; refusals.

use reference::make::damage::{damage, COORDINATOR_LINE, RECORD_LINE};
use reference::make::history::{History, Rule};
use reference::make::random::Random;
use reference::make::sheets::accepted;
use reference::make::two_sheets::letters;
use reference::make::{any, Sheets, TwoSheets};
use reference::plain;
use reference::plain::key::Key;
use reference::plain::request::{Answer, Request};
use reference::plain::store::{Store, Visit};
use reference::plain::transaction::*;
use reference::plain::two_sheets;
use reference::replay::Layout;

fn check(sheets: &TwoSheets) -> u32 {
    two_sheets::check(&sheets.plain, &sheets.bookkeeping, &sheets.coordinator)
}

#[test]
fn cut_and_joined_again() {
    for seed in 0..2_000 {
        let random = &mut Random::new(seed);
        let mut sheets = accepted(random);
        letters(random, Layout::Two, &mut sheets);
        let mut two = TwoSheets::of(&sheets);
        assert_eq!(two.joined(), sheets);
        let cut = two.clone();
        let read = Store::read_two(&two.plain, &two.bookkeeping, &two.coordinator);
        assert_eq!(read, Ok(sheets.store()));
        two.plain.fill(b'?');
        two.bookkeeping.fill(b'?');
        two.coordinator.fill(b'?');
        let TwoSheets {
            plain,
            bookkeeping,
            coordinator,
        } = &mut two;
        sheets.store().write_two(plain, bookkeeping, coordinator);
        assert_eq!(two, cut);
    }
}

/// The parts of a sheet are refused as the sheet is, but for a small letter.
#[test]
fn parts_of_one_sheet_are_refused_as_it_is() {
    let mut refused = [0; 3];
    for seed in 0..20_000 {
        let sheets = any(&mut Random::new(seed));
        let whole = sheets.records.len().is_multiple_of(RECORD_LINE);
        let head = sheets.coordinator.len() >= COORDINATOR_LINE;
        if !whole || head && sheets.coordinator[5..14].iter().any(u8::is_ascii_lowercase) {
            continue;
        }
        let refusal = plain::check(&sheets.records, &sheets.coordinator);
        assert_eq!(check(&TwoSheets::of(&sheets)), refusal, "{sheets}");
        refused[refusal as usize] += 1;
    }
    assert!(refused.iter().all(|count| *count > 1_000), "{refused:?}");
}

/// A read by its second call, with any columns.
fn as_second(request: Request) -> Request {
    match request {
        Request::Read {
            transaction,
            key,
            now,
        } => Request::Second {
            transaction,
            key,
            now,
            columns: [u32::MAX, 7],
        },
        other => other,
    }
}

#[test]
fn under_capitals_as_on_the_joined_sheet() {
    for seed in 0..1_000 {
        let random = &mut Random::new(seed);
        let rule = random.pick(&[Rule::Legal, Rule::Free]);
        let mut history = History::new(random, rule);
        for _ in 0..60 {
            let event = history.step(random);
            let mut before = event.before;
            if random.once_in(8) {
                damage(random, &mut before);
            }
            let mut two = TwoSheets::of(&before);
            let small = before.coordinator.iter().any(u8::is_ascii_lowercase);
            if small || two.joined() != before {
                continue;
            }
            let request = event.request;
            let answer = before.ask(request);
            for request in [request, as_second(request)] {
                let mut two = two.clone();
                assert_eq!(two.ask(request), answer, "{request:?}\n{before}");
                assert_eq!(two, TwoSheets::of(&before), "{request:?}");
            }
            two.ask(request).ok();
            look_up_as_joined(random, &two, &before);
        }
    }
}

/// The rank, and the lines that a look-up hands back.
fn look_up_as_joined(random: &mut Random, two: &TwoSheets, joined: &Sheets) {
    let numbers = [
        1,
        1,
        1,
        random.below(3) as u32,
        random.pick(&[0, 1, 99_999]),
    ];
    let key = Key::from_numbers(numbers);
    let rank = plain::rank(&joined.records, numbers);
    assert_eq!(two_sheets::rank(&two.plain, &two.bookkeeping, key), rank);
    let line = |sheet| two_sheets::line_of(&two.plain, &two.bookkeeping, sheet, key);
    let part = plain::line_of(&joined.records, numbers);
    match part.is_empty() {
        true => assert_eq!([line(0), line(1)], [b"", b""]),
        false => {
            assert_eq!(line(0), [&part[..20], &part[40..58], b"\n"].concat());
            assert_eq!(line(1), [&part[..40], &part[58..]].concat());
        }
    }
    assert_eq!([line(2), line(u32::MAX)], [b"", b""]);
}

const PLAIN: &str = " 1  1  1     0     1       40        3\n 2  1  1     0     1        5        6\n 3  1  1     0     1        0        0\n";
const BOOKKEEPING: &str = " 1  1  1     0     1 COMMITTED     4   1         -     0   0        0        0          0\n 2  1  1     0     1 COMMITTED     7   0         -     0   0        0        0          0\n 3  1  1     0     1    ABSENT     0   0         -     0   0        0        0          0\n";
const LINES: &str = "   1         -\n   2         -\n   3         -\n   4         -\n";

/// Lines in three storages under these letters, and four numbers, of which three are issued.
fn sheets(letters: &str) -> TwoSheets {
    TwoSheets {
        plain: PLAIN.into(),
        bookkeeping: BOOKKEEPING.into(),
        coordinator: format!("   3 {letters}\n{LINES}").into(),
    }
}

fn key(storage: u32) -> Key {
    Key::from_numbers([storage, 1, 1, 0, 1])
}

/// The accepted call's transaction.
fn returned(sheets: &mut TwoSheets, request: Request) -> Transaction {
    let answer = sheets.ask(request);
    let answer = answer.unwrap_or_else(|refusal| panic!("{refusal}: {request:?}"));
    *answer.returned().expect("a call that returns one")
}

fn read(sheets: &mut TwoSheets, t: Transaction, storage: u32) -> Result<Reading, u32> {
    let request = Request::Read {
        transaction: t,
        key: key(storage),
        now: 0,
    };
    let before = sheets.clone();
    let Answer::Read(returned, reading) = sheets.ask(request)? else {
        panic!("{request:?}");
    };
    if let Reading::First(_) = reading {
        assert_eq!((returned, &*sheets), (t, &before));
    }
    Ok(reading)
}

fn second(t: Transaction, storage: u32, now: u32, columns: [u32; 2]) -> Request {
    Request::Second {
        transaction: t,
        key: key(storage),
        now,
        columns,
    }
}

fn put(t: Transaction, storage: u32, columns: [u32; 2]) -> Request {
    Request::Put {
        transaction: t,
        key: key(storage),
        columns,
    }
}

fn advance(transaction: Transaction, now: u32) -> Request {
    Request::Advance { transaction, now }
}

fn begun(number: u32) -> Transaction {
    Transaction::begun(number, false)
}

/// What stands in the three lines, as the sheets are printed.
fn text(sheet: &[u8]) -> &str {
    std::str::from_utf8(sheet).expect("text")
}

#[test]
fn what_is_refused() {
    let good = sheets("SSSSSSSSS");
    assert_eq!(check(&good), 0);
    assert_eq!(check(&sheets("srptnSRPT")), 0);
    let joined = good.joined();
    assert_eq!(plain::check(&joined.records, &joined.coordinator), 0);
    let joined = sheets("SSSSSSSSs").joined();
    assert_eq!(plain::check(&joined.records, &joined.coordinator), 2);
    for cut in [0, 1, 38, 40, 3 * 39 - 1] {
        let mut sheets = good.clone();
        sheets.plain.truncate(cut);
        assert_eq!(check(&sheets), 1, "{cut}");
    }
    for cut in [0, 1, 89, 91, 3 * 90 - 1] {
        let mut sheets = good.clone();
        sheets.bookkeeping.truncate(cut);
        assert_eq!(check(&sheets), 1, "{cut}");
    }
}

/// The sheets after a change of each kind, one after another.
fn changed(changes: &[fn(&mut TwoSheets)]) -> u32 {
    let mut sheets = sheets("SSSSSSSSS");
    for change in changes {
        change(&mut sheets);
    }
    check(&sheets)
}

#[test]
fn one_refusal_goes_before_the_other() {
    // Columns of the ABSENT line: only the joined sheet breaks a rule, and only where there is one.
    let columns = |sheets: &mut TwoSheets| sheets.plain[3 * 39 - 2] = b'1';
    let other_key = |sheets: &mut TwoSheets| sheets.plain[2 * 39 + 13] = b'1';
    let falling = |sheets: &mut TwoSheets| sheets.plain[2 * 39 + 1] = b'2';
    let one_less = |sheets: &mut TwoSheets| sheets.plain.truncate(2 * 39);
    let unissued = |sheets: &mut TwoSheets| sheets.coordinator[3] = b'0';
    assert_eq!(changed(&[]), 0);
    assert_eq!(changed(&[columns]), 1);
    assert_eq!(changed(&[other_key]), 13);
    assert_eq!(changed(&[one_less]), 13);
    assert_eq!(changed(&[unissued]), 2);
    assert_eq!(changed(&[columns, other_key]), 13);
    assert_eq!(changed(&[columns, unissued]), 1);
    assert_eq!(changed(&[other_key, unissued]), 2);
    assert_eq!(changed(&[one_less, unissued]), 2);
    assert_eq!(changed(&[falling]), 1);
    assert_eq!(changed(&[falling, unissued]), 1);
}

/// A history that the columns alone give away: what 2 read was never committed, though version and TxID are.
#[test]
fn columns_of_an_aborted_order_are_found_out() {
    let mut now = sheets("sSSSSSSSS");
    let old = now.clone();
    let one = returned(&mut now, second(begun(1), 1, 0, [40, 3]));
    let one = returned(&mut now, put(one, 1, [99, 98]));
    let one = returned(&mut now, advance(one, 0));
    assert_eq!(one.phase, PREPARE, "no one-phase");
    returned(&mut now, advance(one, 0));
    assert_eq!(read(&mut now, begun(2), 1), Ok(Reading::First([99, 98])));
    let visit = Request::Visit {
        key: key(1),
        now: 15_000,
    };
    assert_eq!(now.ask(visit), Ok(Answer::Visited(Visit::Again)));
    let two = returned(&mut now, second(begun(2), 1, 15_000, [99, 98]));
    assert_eq!(
        [&now.plain, &now.bookkeeping],
        [&old.plain, &old.bookkeeping]
    );
    let seen = two.entries[0].seen;
    assert_eq!((seen.version, seen.tx_id, seen.columns()), (4, 1, [99, 98]));
    let two = returned(&mut now, put(two, 1, [7, 7]));
    let two = returned(&mut now, advance(two, 15_000));
    assert_eq!((two.phase, two.place), (PREPARE, 0));
    let two = returned(&mut now, advance(two, 15_000));
    assert_eq!(two.phase, WITHDRAW);
    assert_eq!(
        [&now.plain, &now.bookkeeping],
        [&old.plain, &old.bookkeeping]
    );
}

#[test]
fn the_two_calls_of_a_read() {
    let mut now = sheets("sSsSSSSSS");
    // Busy lines, absent ones and full transactions.
    assert_eq!(read(&mut now, begun(1), 3), Ok(Reading::First([0, 0])));
    assert_eq!(read(&mut now, begun(1), 1), Ok(Reading::First([40, 3])));
    assert_eq!(read(&mut now, begun(1), 2), Ok(Reading::Columns([5, 6])));
    assert_eq!(read(&mut now, begun(1), 4), Err(6));
    assert_eq!(read(&mut now, begun(4), 1), Err(3));
    let answer = |sheets: &mut TwoSheets, request| match sheets.ask(request) {
        Ok(Answer::Read(t, reading)) => Ok((t.entries[0].seen.columns(), reading)),
        Ok(other) => panic!("{other:?}"),
        Err(refusal) => Err(refusal),
    };
    let largest = [99_999_999, 99_999_999];
    let held = answer(&mut now, second(begun(1), 1, 0, largest));
    assert_eq!(held, Ok((largest, Reading::Columns(largest))));
    let absent = answer(&mut now, second(begun(1), 3, 0, [1, 2]));
    assert_eq!(absent, Ok(([0, 0], Reading::Absent)));
    for columns in [[100_000_000, 0], [0, 100_000_000]] {
        assert_eq!(now.ask(second(begun(1), 1, 0, columns)), Err(7));
        assert_eq!(now.ask(second(begun(1), 4, 0, columns)), Err(6));
        let capital = answer(&mut now, second(begun(1), 2, 0, columns));
        assert_eq!(capital, Ok(([5, 6], Reading::Columns([5, 6]))));
        let t = returned(&mut now, second(begun(1), 1, 0, [8, 9]));
        let again = answer(&mut now, second(t, 1, 0, columns));
        assert_eq!(again, Ok(([8, 9], Reading::Columns([8, 9]))));
    }
    assert_eq!(
        read(&mut now, prepared(&mut sheets("sSSSSSSSS"), 1), 2),
        Err(4)
    );
}

/// A transaction in prepare that put to the line of a storage under a small letter.
fn prepared(sheets: &mut TwoSheets, number: u32) -> Transaction {
    let t = returned(sheets, second(begun(number), 1, 0, [40, 3]));
    let t = returned(sheets, put(t, 1, [50, 60]));
    returned(sheets, advance(t, 0))
}

#[test]
fn a_line_that_is_not_free() {
    let mut now = sheets("sSSSSSSSS");
    let one = prepared(&mut now, 1);
    returned(&mut now, advance(one, 0));
    // The first call is never refused with 12, the second is.
    assert_eq!(read(&mut now, begun(2), 1), Ok(Reading::First([50, 60])));
    assert_eq!(now.ask(second(begun(2), 1, 14_999, [50, 60])), Err(12));
    assert_eq!(now.ask(second(begun(2), 1, 0, [100_000_000, 0])), Err(7));
    let again = now.ask(second(begun(2), 1, 15_000, [50, 60]));
    assert_eq!(again, Ok(Answer::Read(begun(2), Reading::Again)));
    assert!(text(&now.coordinator).contains("   1   ABORTED\n"));
    let back = returned(&mut now, second(begun(2), 1, 0, [50, 60]));
    assert_eq!(back.entries[0].seen.columns(), [50, 60]);
    assert_eq!(text(&now.bookkeeping), BOOKKEEPING);
    assert_eq!(text(&now.plain), PLAIN);
}

/// The phases that advances lead through, from open on.
fn phases(sheets: &mut TwoSheets, mut t: Transaction) -> Vec<(u32, u32)> {
    let mut phases = Vec::new();
    while t.phase != DONE {
        t = returned(sheets, advance(t, 0));
        phases.push((t.phase, t.place));
    }
    phases
}

/// Reads these storages, with these columns under small letters, and puts to some.
fn order(sheets: &mut TwoSheets, reads: &[(u32, [u32; 2])], puts: &[u32]) -> Transaction {
    let mut t = begun(2);
    for (storage, columns) in reads {
        t = returned(sheets, second(t, *storage, 0, *columns));
    }
    for storage in puts {
        t = returned(sheets, put(t, *storage, [11, 12]));
    }
    t
}

#[test]
fn steps_under_small_letters() {
    const RIGHT: (u32, [u32; 2]) = (1, [40, 3]);
    const WRONG: (u32, [u32; 2]) = (1, [40, 4]);
    const CAPITAL: (u32, [u32; 2]) = (2, [0, 0]);
    const WAY: [(u32, u32); 3] = [(DECIDE, 0), (FINISH, 0), (DONE, 0)];
    let run = |letters: &str, reads: &[(u32, [u32; 2])], puts: &[u32]| {
        let mut sheets = sheets(letters);
        let order = order(&mut sheets, reads, puts);
        phases(&mut sheets, order)
    };
    let small = "sSSSSSSSS";
    // Capitals alone: one-phase, and what is read is not checked.
    assert_eq!(run("SSSSSSSSS", &[WRONG, CAPITAL], &[2]), [(DONE, 0)]);
    assert_eq!(run(small, &[CAPITAL], &[2]), [(DONE, 0)]);
    assert_eq!(run(small, &[CAPITAL], &[]), [(DONE, 0)]);
    assert_eq!(run(small, &[RIGHT], &[]), [(CHECK, 0), (DONE, 0)]);
    let undone = [(WITHDRAW, 0), (DONE, 0)];
    assert_eq!(run(small, &[WRONG], &[])[1..], undone);
    // A put, and a read beside a put of another storage, each bar one-phase.
    let prepare = [(PREPARE, 0)];
    assert_eq!(run(small, &[RIGHT], &[1]), [&prepare[..], &WAY].concat());
    let check = [(PREPARE, 0), (CHECK, 0)];
    assert_eq!(
        run(small, &[RIGHT, CAPITAL], &[2]),
        [&check[..], &WAY].concat()
    );
    let fails = [(WITHDRAW, 0), (UNDO, 0), (DONE, 0)];
    assert_eq!(run(small, &[WRONG], &[1]), [&prepare[..], &fails].concat());
    assert_eq!(
        run(small, &[WRONG, CAPITAL], &[2]),
        [&check[..], &fails].concat()
    );
    // The place in check counts entries under small letters only.
    let both = [(CHECK, 0), (CHECK, 1), (DONE, 0)];
    let absent = (3, [0, 0]);
    assert_eq!(run("sSsSSSSSS", &[RIGHT, CAPITAL, absent], &[]), both);
}

#[test]
fn well_formed_in_check_by_the_place_alone() {
    let mut now = sheets("sSSSSSSSS");
    let held = order(&mut now, &[(2, [0, 0]), (1, [40, 3])], &[]);
    let step = |sheets: &mut TwoSheets, serializable, place| {
        let t = Transaction {
            serializable,
            place,
            ..held.entering(CHECK)
        };
        sheets
            .ask(advance(t, 0))
            .map(|answer| answer.returned().map(|t| t.phase))
    };
    assert_eq!(step(&mut now, 0, 0), Ok(Some(DONE)));
    assert_eq!(step(&mut now, 0, 1), Err(3));
    assert_eq!(step(&mut now, 1, 0), Ok(Some(CHECK)));
    assert_eq!(step(&mut now, 1, 1), Ok(Some(DONE)));
    assert_eq!(step(&mut now, 1, 2), Err(3));
    let mut capitals = sheets("SSSSSSSSS");
    assert_eq!(step(&mut capitals, 0, 0), Err(3));
}
