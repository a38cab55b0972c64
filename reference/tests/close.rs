//! Closing an order in one call: what it reports, where its limit stops it, and that it is advances one after another.

use reference::make::closes;
use reference::make::random::Random;
use reference::make::sheets::{crowded, spread};
use reference::make::Sheets;
use reference::plain::coordinator::Decision;
use reference::plain::key::Key;
use reference::plain::record::{Record, State};
use reference::plain::request::{Answer, Request};
use reference::plain::transaction::*;
use reference::plain::WRONG_PHASE;
use reference::replay::Layout;

const NOW: u32 = 5_000;

/// So many ABSENT lines, and one number whose own line has this word. The letter is that of every storage.
fn sheets(lines: u32, letter: &str, own: &str) -> Sheets {
    let rest =
        "    ABSENT     0   0        0        0         -     0   0        0        0          0\n";
    let line = |clustering| format!(" 1  1  1     0{clustering:>6}{rest}");
    let records: String = (1..=lines).map(line).collect();
    Sheets {
        records: records.into(),
        coordinator: format!("   1 {}\n   1{own:>10}\n", letter.repeat(9)).into(),
    }
}

fn key(clustering: u32) -> Key {
    Key::from_numbers([1, 1, 1, 0, clustering])
}

/// An order in open that has read so many of the lines and put to the first of them.
fn order(checked: bool, puts: u32, only_read: u32) -> Transaction {
    let mut order = Transaction::begun(1, checked);
    order.count = puts + only_read;
    for (entry, clustering) in order.entries.iter_mut().zip(1..=order.count) {
        *entry = Entry::read(&Record::absent(key(clustering)));
        entry.wrote = u32::from(clustering <= puts);
        [entry.put_1, entry.put_2] = [clustering, 99_999_999];
    }
    order
}

fn closing(transaction: Transaction, limit: u32) -> Request {
    Request::Close {
        transaction,
        now: NOW,
        limit,
    }
}

/// Closes, and answers the transaction and the report.
fn close(sheets: &mut Sheets, transaction: Transaction, limit: u32) -> (Transaction, u32) {
    match sheets.ask(closing(transaction, limit)) {
        Ok(Answer::Closed(transaction, writes)) => (transaction, writes),
        answer => panic!("{answer:?}"),
    }
}

/// Phase, place, verdict and report of a close.
fn closed(sheets: &mut Sheets, transaction: Transaction, limit: u32) -> [u32; 4] {
    let (t, writes) = close(sheets, transaction, limit);
    // The entries and all else stay.
    let kept = Transaction {
        place: t.place,
        ..transaction.entering(t.phase).with_verdict(t.verdict)
    };
    assert_eq!(t, kept);
    [t.phase, t.place, t.verdict, writes]
}

#[test]
fn limit_0_makes_the_steps_that_write_nothing() {
    let first = sheets(3, "R", "-");
    for (order, left) in [
        // Left in open, before the one write that would do it all.
        (order(false, 1, 0), [OPEN, 0, NO_VERDICT, 0]),
        (order(true, 1, 0), [PREPARE, 0, NO_VERDICT, 0]),
        (order(false, 3, 0), [PREPARE, 0, NO_VERDICT, 0]),
        // Nothing is to be written.
        (order(false, 0, 0), [DONE, 0, COMMITTED, 0]),
        (order(true, 0, 0), [DONE, 0, COMMITTED, 0]),
        (order(false, 0, 3), [DONE, 0, COMMITTED, 0]),
        (order(true, 0, 3), [DONE, 0, COMMITTED, 0]),
    ] {
        let mut sheets = first.clone();
        assert_eq!(closed(&mut sheets, order, 0), left);
        assert_eq!(sheets, first);
    }
    // All lines prepared, and two left to check: up to the decision.
    let mut now = sheets(3, "R", "-");
    let (prepared, _) = close(&mut now, order(true, 1, 2), 1);
    let in_check = prepared.entering(CHECK);
    let before = now.clone();
    assert_eq!(closed(&mut now, in_check, 0), [DECIDE, 0, NO_VERDICT, 0]);
    assert_eq!(now, before);
}

#[test]
fn an_order_of_one_put() {
    for (checked, writes, own) in [
        (true, 3, Decision::Committed),
        (false, 1, Decision::Undecided),
    ] {
        for only_read in [0, 1] {
            let mut now = sheets(2, "R", "-");
            let order = order(checked, 1, only_read);
            assert_eq!(closed(&mut now, order, 17), [DONE, 0, COMMITTED, writes]);
            let store = now.store();
            assert_eq!(store.decision(1), own);
            assert_eq!(store.records[0].state, State::Committed);
            assert_eq!(store.records[0].image.columns(), [1, 99_999_999]);
        }
    }
}

/// Each line prepared and finished by itself, and the decision: nothing takes more. In one unit, three writes do it.
#[test]
fn the_greatest_report() {
    for puts in 1..=8 {
        let order = order(true, puts, 0);
        let done = |writes| [DONE, 0, COMMITTED, writes];
        for limit in [2 * puts + 1, 17, 18, u32::MAX] {
            let mut now = sheets(puts, "R", "-");
            assert_eq!(closed(&mut now, order, limit), done(2 * puts + 1));
            let mut now = sheets(puts, "P", "-");
            assert_eq!(closed(&mut now, order, limit), done(3));
        }
        let last = [FINISH, puts - 1, COMMITTED, 2 * puts];
        assert_eq!(
            closed(&mut sheets(puts, "R", "-"), order, 2 * puts),
            last,
            "one write less is not enough"
        );
    }
}

#[test]
fn every_limit_of_the_greatest_order() {
    for limit in 0..=18 {
        let left = match limit {
            0..=7 => [PREPARE, limit, NO_VERDICT, limit],
            8 => [DECIDE, 0, NO_VERDICT, 8],
            9..=16 => [FINISH, limit - 9, COMMITTED, limit],
            _ => [DONE, 0, COMMITTED, 17],
        };
        let mut now = sheets(8, "R", "-");
        assert_eq!(closed(&mut now, order(true, 8, 0), limit), left);
        let store = now.store();
        let states = store.records.iter().map(|record| record.state);
        let states: Vec<State> = states.collect();
        let finished = limit.saturating_sub(9).min(8) as usize;
        let prepared = limit.min(8) as usize;
        assert!(states[..finished].iter().all(|s| *s == State::Committed));
        assert!(states[finished..prepared]
            .iter()
            .all(|s| *s == State::Prepared));
        assert!(states[prepared..].iter().all(|s| *s == State::Absent));
        // One reading of the clock for all.
        let clocks = store.records[finished..prepared].iter();
        assert!(clocks.clone().all(|record| record.prepare_clock == NOW));
    }
}

#[test]
fn an_order_that_was_aborted_beside() {
    // Prepared whole, then undone, since decide finds ABORTED and writes nothing.
    let mut now = sheets(3, "R", "ABORTED");
    assert_eq!(
        closed(&mut now, order(true, 3, 0), 17),
        [DONE, 0, ABORTED, 6]
    );
    assert_eq!(now, sheets(3, "R", "ABORTED"));
    // The last condition fails: two prepared, one ABORTED written, two rolled back, one skipped.
    let mut stale = order(true, 3, 0);
    (stale.entries[2].seen.version, stale.entries[2].absent) = (1, 0);
    let mut now = sheets(3, "R", "-");
    assert_eq!(closed(&mut now, stale, 17), [DONE, 0, ABORTED, 5]);
    assert_eq!(now, sheets(3, "R", "ABORTED"));
    for (limit, left) in [
        (1, [PREPARE, 1, NO_VERDICT, 1]),
        (2, [WITHDRAW, 0, NO_VERDICT, 2]),
        (3, [UNDO, 0, ABORTED, 3]),
        (4, [UNDO, 1, ABORTED, 4]),
        (5, [DONE, 0, ABORTED, 5]),
    ] {
        assert_eq!(closed(&mut sheets(3, "R", "-"), stale, limit), left);
    }
}

#[test]
fn groups_rolled_already_are_not_counted() {
    let undoing = order(true, 3, 0).entering(UNDO).with_verdict(ABORTED);
    let mut now = sheets(3, "R", "ABORTED");
    let before = now.clone();
    assert_eq!(closed(&mut now, undoing, 0), [DONE, 0, ABORTED, 0]);
    assert_eq!(now, before);
    // Two are prepared, and a visitor has undone the first of them.
    let mut now = sheets(3, "R", "-");
    let (half, _) = close(&mut now, order(true, 3, 0), 2);
    let withdrawn = half.entering(WITHDRAW);
    let (undoing, writes) = close(&mut now, withdrawn, 1);
    assert_eq!((undoing.phase, undoing.place, writes), (UNDO, 0, 1));
    now.ask(Request::Visit {
        key: key(1),
        now: NOW,
    })
    .unwrap();
    assert_eq!(
        closed(&mut now.clone(), undoing, 0),
        [UNDO, 1, ABORTED, 0],
        "the first group is passed over"
    );
    assert_eq!(closed(&mut now, undoing, 1), [DONE, 0, ABORTED, 1]);
    assert_eq!(now, sheets(3, "R", "ABORTED"));
}

#[test]
fn an_own_line_that_is_committed_before_finish() {
    let advanced = |transaction, sheets: &Sheets| {
        let advance = Request::Advance {
            transaction,
            now: NOW,
        };
        sheets.clone().ask(advance).is_ok()
    };
    let first = sheets(3, "R", "COMMITTED");
    for checked in [false, true] {
        for (puts, only_read) in [(0, 0), (0, 2), (1, 0), (1, 2), (3, 0)] {
            let open = order(checked, puts, only_read);
            let mut before_finish = vec![open, open.entering(WITHDRAW)];
            if puts > 0 {
                before_finish.extend([open.entering(PREPARE), open.entering(DECIDE)]);
            }
            if checked && only_read > 0 {
                before_finish.push(open.entering(CHECK));
            }
            for transaction in before_finish {
                let decides = matches!(transaction.phase, DECIDE | WITHDRAW);
                assert_eq!(advanced(transaction, &first), !decides);
                for limit in [0, 1, 17, u32::MAX] {
                    let mut now = first.clone();
                    let answer = now.ask(closing(transaction, limit));
                    assert_eq!(answer, Err(WRONG_PHASE), "{transaction:?}");
                    assert_eq!(now, first);
                }
            }
        }
    }
    let finishing = order(true, 3, 0).entering(FINISH).with_verdict(COMMITTED);
    let mut now = first.clone();
    assert_eq!(closed(&mut now, finishing, 0), [DONE, 0, COMMITTED, 0]);
    assert_eq!(now, first);
}

/// The sheets, the transaction and how many have written, after each of the advances up to done.
fn advances(
    mut sheets: Sheets,
    mut transaction: Transaction,
    now: u32,
) -> Vec<(Sheets, Transaction, u32)> {
    let mut states = vec![(sheets.clone(), transaction, 0)];
    let mut writes = 0;
    while transaction.phase != DONE {
        let before = sheets.clone();
        let answer = sheets.ask(Request::Advance { transaction, now });
        let answer = answer.expect("only the first is refused");
        transaction = *answer.returned().expect("an advance returns one");
        writes += u32::from(sheets != before);
        states.push((sheets.clone(), transaction, writes));
    }
    states
}

/// Whether the close is refused as one advance is, or by the own line.
fn refusal(sheets: &Sheets, transaction: Transaction, now: u32) -> Option<u32> {
    let advanced = sheets.clone().ask(Request::Advance { transaction, now });
    let own = |number| sheets.store().decision(number);
    match advanced {
        Err(refusal) => Some(refusal),
        Ok(_) if transaction.phase < FINISH && own(transaction.number) == Decision::Committed => {
            Some(WRONG_PHASE)
        }
        Ok(_) => None,
    }
}

/// For every limit the report, the transaction and the sheets are those of the last state that it allows.
fn agrees(sheets: &Sheets, transaction: Transaction, now: u32) -> u32 {
    let refusal = refusal(sheets, transaction, now);
    let states = match refusal {
        Some(_) => Vec::new(),
        None => advances(sheets.clone(), transaction, now),
    };
    for limit in (0..=18).chain([u32::MAX]) {
        let mut left = sheets.clone();
        let answer = left.ask(Request::Close {
            transaction,
            now,
            limit,
        });
        let Some(refusal) = refusal else {
            let last = states.iter().rfind(|(_, _, writes)| *writes <= limit);
            let (sheets, transaction, writes) = last.expect("none at first");
            assert_eq!(answer, Ok(Answer::Closed(*transaction, *writes)));
            assert_eq!(left, *sheets);
            continue;
        };
        assert_eq!(answer, Err(refusal));
        assert_eq!(left, *sheets);
    }
    states.last().map_or(0, |(_, _, writes)| *writes)
}

#[test]
fn a_close_is_advances_one_after_another() {
    let mut reports = [0; 18];
    for seed in 0..3_000 {
        let random = &mut Random::new(seed);
        let (request, sheets) = match seed % 2 {
            0 => closes::of_order(random, Layout::Joined),
            _ => {
                let sheets = crowded(random);
                (closes::of_forged(random, &sheets), sheets)
            }
        };
        if let Request::Close {
            transaction, now, ..
        } = request
        {
            reports[agrees(&sheets, transaction, now) as usize] += 1;
        }
    }
    assert!(reports[0] > 0 && reports[17] > 0, "{reports:?}");
}

#[test]
fn no_order_takes_more_than_17_writes() {
    for seed in 0..2_000 {
        let random = &mut Random::new(seed);
        let mut sheets = spread(random);
        let order = closes::under_way(random, &mut sheets);
        if let Ok(Answer::Closed(order, writes)) = sheets.ask(closing(order, 17)) {
            assert!(order.phase == DONE && writes <= 17, "seed {seed}");
        }
    }
}
