//! Whole transactions, step by step and byte for byte, and the places where learners go astray.

use reference::make::Sheets;
use reference::plain::key::Key;
use reference::plain::request::{Answer, Request};
use reference::plain::transaction::*;
use reference::plain::WRONG_PHASE;

const ONE: Key = Key {
    storage: 1,
    namespace: 1,
    table: 1,
    partition: 1,
    clustering: 1,
};
const TWO: Key = Key {
    clustering: 2,
    ..ONE
};

/// The first line, and as the first transaction prepares it and leaves it.
const ONE_FIRST: &str = " 1  1  1     1     1 COMMITTED     9   0      500      250         -     0   0        0        0          0\n";
const ONE_PREPARED: &str = " 1  1  1     1     1  PREPARED    10   1      600      240 COMMITTED     9   0      500      250       5000\n";
const ONE_LAST: &str = " 1  1  1     1     1 COMMITTED    10   1      600      240         -     0   0        0        0          0\n";
/// The second line, likewise.
const TWO_FIRST: &str = " 1  1  1     1     2    ABSENT     0   0        0        0         -     0   0        0        0          0\n";
const TWO_PREPARED: &str = " 1  1  1     1     2  PREPARED     1   1        7 99999999    ABSENT     0   0        0        0 4294967295\n";
const TWO_LAST: &str = " 1  1  1     1     2 COMMITTED     1   1        7 99999999         -     0   0        0        0          0\n";
/// The second line as the second transaction leaves it, or prepares it.
const TWO_TAKEN: &str = " 1  1  1     1     2 COMMITTED     1   2        8        9         -     0   0        0        0          0\n";
const TWO_HELD: &str = " 1  1  1     1     2  PREPARED     2   2        8        9 COMMITTED     1   1        7 99999999       5002\n";

/// Two records and two numbers, none issued; the letter is that of every storage.
fn first_sheets(letter: &str) -> Sheets {
    sheets([ONE_FIRST, TWO_FIRST], &coordinator(0, letter, ["-", "-"]))
}

fn sheets(records: [&str; 2], coordinator: &str) -> Sheets {
    Sheets {
        records: records.concat().into(),
        coordinator: coordinator.into(),
    }
}

fn coordinator(issued: u32, letter: &str, [one, two]: [&str; 2]) -> String {
    let letters = letter.repeat(9);
    format!("{issued:>4} {letters}\n   1{one:>10}\n   2{two:>10}\n")
}

/// The transaction that an accepted call returns.
fn returned(sheets: &mut Sheets, request: Request) -> Transaction {
    let answer = sheets.ask(request).unwrap();
    *answer.returned().unwrap()
}

/// A transaction that has read its keys and put its columns, in this order.
fn with_puts(sheets: &mut Sheets, serializable: bool, puts: &[(Key, [u32; 2])]) -> Transaction {
    let mut transaction = returned(sheets, Request::Begin { serializable });
    for (key, columns) in puts {
        let (key, columns) = (*key, *columns);
        transaction = returned(
            sheets,
            Request::Read {
                transaction,
                key,
                now: 0,
            },
        );
        transaction = returned(
            sheets,
            Request::Put {
                transaction,
                key,
                columns,
            },
        );
    }
    transaction
}

/// The first transaction: the second line is read first, but groups go in key order.
const PUTS: [(Key, [u32; 2]); 2] = [(TWO, [7, 99_999_999]), (ONE, [600, 240])];

/// Advances, and asks for phase, place and verdict and for both sheets afterwards.
fn advance(
    sheets: &mut Sheets,
    transaction: &mut Transaction,
    now: u32,
    state: [u32; 3],
    expected: Sheets,
) {
    let request = Request::Advance {
        transaction: *transaction,
        now,
    };
    let after = returned(sheets, request);
    // The entries and all else stay.
    let [phase, place, verdict] = state;
    let kept = Transaction {
        place,
        ..transaction.entering(phase).with_verdict(verdict)
    };
    assert_eq!(after, kept);
    assert_eq!(*sheets, expected, "{sheets}");
    *transaction = after;
}

#[test]
fn a_transaction_is_committed() {
    let mut now = first_sheets("R");
    let mut t = with_puts(&mut now, false, &PUTS);
    let undecided = coordinator(1, "R", ["-", "-"]);
    let committed = coordinator(1, "R", ["COMMITTED", "-"]);
    let first = sheets([ONE_FIRST, TWO_FIRST], &undecided);
    advance(&mut now, &mut t, 4_999, [PREPARE, 0, NO_VERDICT], first);
    let one = sheets([ONE_PREPARED, TWO_FIRST], &undecided);
    advance(&mut now, &mut t, 5_000, [PREPARE, 1, NO_VERDICT], one);
    let both = sheets([ONE_PREPARED, TWO_PREPARED], &undecided);
    advance(&mut now, &mut t, u32::MAX, [DECIDE, 0, NO_VERDICT], both);
    let decided = sheets([ONE_PREPARED, TWO_PREPARED], &committed);
    advance(&mut now, &mut t, 0, [FINISH, 0, COMMITTED], decided);
    let half = sheets([ONE_LAST, TWO_PREPARED], &committed);
    advance(&mut now, &mut t, 0, [FINISH, 1, COMMITTED], half);
    let last = sheets([ONE_LAST, TWO_LAST], &committed);
    advance(&mut now, &mut t, 0, [DONE, 0, COMMITTED], last);
    let again = Request::Advance {
        transaction: t,
        now: 0,
    };
    assert_eq!(now.ask(again), Err(WRONG_PHASE));
}

#[test]
fn a_transaction_is_withdrawn() {
    let mut now = first_sheets("R");
    let mut t = with_puts(&mut now, false, &PUTS);
    let undecided = coordinator(2, "R", ["-", "-"]);
    let aborted = coordinator(2, "R", ["ABORTED", "-"]);
    let first = sheets([ONE_FIRST, TWO_FIRST], &coordinator(1, "R", ["-", "-"]));
    advance(&mut now, &mut t, 4_999, [PREPARE, 0, NO_VERDICT], first);
    // Another transaction takes the second line in one phase; no line of the coordinator's tells.
    let mut other = with_puts(&mut now, false, &[(TWO, [8, 9])]);
    let taken = sheets([ONE_FIRST, TWO_TAKEN], &undecided);
    advance(&mut now, &mut other, 0, [DONE, 0, COMMITTED], taken);
    let one = sheets([ONE_PREPARED, TWO_TAKEN], &undecided);
    advance(
        &mut now,
        &mut t,
        5_000,
        [PREPARE, 1, NO_VERDICT],
        one.clone(),
    );
    advance(&mut now, &mut t, 5_001, [WITHDRAW, 0, NO_VERDICT], one);
    let decided = sheets([ONE_PREPARED, TWO_TAKEN], &aborted);
    advance(&mut now, &mut t, 0, [UNDO, 0, ABORTED], decided);
    let back = sheets([ONE_FIRST, TWO_TAKEN], &aborted);
    advance(&mut now, &mut t, 0, [UNDO, 1, ABORTED], back.clone());
    advance(&mut now, &mut t, 0, [DONE, 0, ABORTED], back);
}

#[test]
fn a_group_is_prepared_whole_or_not_at_all() {
    let mut now = first_sheets("S");
    // A serializable transaction doesn't use one phase, so that its one group is prepared.
    let mut t = with_puts(&mut now, true, &PUTS);
    let mut other = with_puts(&mut now, false, &[(TWO, [8, 9])]);
    let taken = sheets([ONE_FIRST, TWO_TAKEN], &coordinator(2, "S", ["-", "-"]));
    advance(&mut now, &mut other, 0, [DONE, 0, COMMITTED], taken.clone());
    advance(&mut now, &mut t, 0, [PREPARE, 0, NO_VERDICT], taken.clone());
    advance(&mut now, &mut t, 0, [WITHDRAW, 0, NO_VERDICT], taken);
}

#[test]
fn finish_skips_what_another_number_prepared() {
    let committed = coordinator(2, "R", ["COMMITTED", "-"]);
    let mut now = first_sheets("R");
    let mut t = with_puts(&mut now, false, &PUTS);
    t = t.entering(FINISH).with_verdict(COMMITTED);
    // A visitor has finished the second line, and the second transaction has prepared it since.
    now = sheets([ONE_PREPARED, TWO_HELD], &committed);
    let left = sheets([ONE_LAST, TWO_HELD], &committed);
    advance(&mut now, &mut t, 0, [FINISH, 1, COMMITTED], left.clone());
    advance(&mut now, &mut t, 0, [DONE, 0, COMMITTED], left);
}

#[test]
fn reads_see_the_own_puts() {
    let mut now = first_sheets("R");
    let transaction = with_puts(&mut now, false, &PUTS);
    for (key, columns) in PUTS {
        let answer = now.ask(Request::Read {
            transaction,
            key,
            now: 0,
        });
        let reading = Reading::Columns(columns);
        assert_eq!(answer, Ok(Answer::Read(transaction, reading)));
    }
}
