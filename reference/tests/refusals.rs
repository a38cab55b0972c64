//! The lowest refusal that applies is given, whatever else is wrong, and nothing changes.

use reference::make::Sheets;
use reference::plain::key::Key;
use reference::plain::request::Request;
use reference::plain::transaction::*;

/// Nine lines of storage 1: eight to hold, of which the last can have no more versions, and one undecided.
fn sheets() -> Sheets {
    let key = |clustering| format!(" 1  1  1     1{clustering:>6}");
    let line = |clustering, version| {
        let key = key(clustering);
        format!("{key} COMMITTED{version:>6}   0        5        6         -     0   0        0        0          0\n")
    };
    let mut records: String = (1..=7).map(|clustering| line(clustering, 1)).collect();
    records += &line(8, 99_999);
    records += &format!(
        "{}  PREPARED     1   2        5        6    ABSENT     0   0        0        0          0\n",
        key(9)
    );
    let coordinator = "   2 RRRRRRRRR\n   1         -\n   2         -\n   3         -\n";
    Sheets {
        records: records.into(),
        coordinator: coordinator.into(),
    }
}

fn key(clustering: u32) -> Key {
    Key::from_numbers([1, 1, 1, 1, clustering])
}

/// The undecided line, a key without a line and one out of range.
const BUSY: u32 = 9;
const MISSING: u32 = 10;
const BEYOND: u32 = 100_000;

/// A transaction that holds these lines as they are.
fn holding(clusterings: &[u32]) -> Transaction {
    let store = sheets().store();
    let mut transaction = Transaction::begun(1, true);
    for (entry, clustering) in transaction.entries.iter_mut().zip(clusterings) {
        *entry = Entry::read(store.record(&key(*clustering)));
        transaction.count += 1;
    }
    transaction
}

/// What may be wrong with the sheets, and the refusals for it.
fn sheets_with_refusals() -> Vec<(Sheets, Vec<u32>)> {
    let mut cases = Vec::new();
    for (bad_records, bad_coordinator) in
        [(false, false), (true, false), (false, true), (true, true)]
    {
        let mut sheets = sheets();
        let mut refusals = Vec::new();
        if bad_records {
            sheets.records.pop();
            refusals.push(1);
        }
        if bad_coordinator {
            sheets.coordinator.pop();
            refusals.push(2);
        }
        cases.push((sheets, refusals));
    }
    cases
}

/// The transaction as it is, not well formed, in a phase that no call of these is for, or both.
fn transactions_with_refusals(transaction: Transaction) -> Vec<(Transaction, Vec<u32>)> {
    let done = transaction.entering(DONE).with_verdict(COMMITTED);
    let ill = |transaction| Transaction {
        number: 3,
        ..transaction
    };
    vec![
        (transaction, vec![]),
        (ill(transaction), vec![3]),
        (done, vec![4]),
        (ill(done), vec![3, 4]),
    ]
}

/// Asks for the lowest of these refusals beside those of the sheets, or for none.
fn asks_lowest(request: Request, refusals: &[u32]) {
    for (first, of_sheets) in sheets_with_refusals() {
        let all = of_sheets.iter().chain(refusals);
        let lowest = all.min().copied();
        let mut sheets = first.clone();
        let answer = sheets.ask(request);
        assert_eq!(answer.err(), lowest, "{request:?}");
        if lowest.is_some() {
            assert_eq!(sheets, first, "{request:?}");
        }
    }
}

#[test]
fn begin() {
    for serializable in [false, true] {
        asks_lowest(Request::Begin { serializable }, &[]);
    }
    let mut spent = sheets();
    spent.coordinator[3] = b'3';
    let request = Request::Begin { serializable: true };
    assert_eq!(spent.ask(request), Err(8));
    spent.records.pop();
    assert_eq!(spent.ask(request), Err(1));
}

#[test]
fn read() {
    for (held, clustering, of_key) in [
        (&[1, 2][..], 1, &[][..]),
        (&[1, 2], 3, &[]),
        (&[1, 2], BEYOND, &[5]),
        (&[1, 2], MISSING, &[6]),
        (&[1, 2], BUSY, &[12]),
        (&[1, 2, 3, 4, 5, 6, 7, 8], 8, &[]),
        (&[1, 2, 3, 4, 5, 6, 7, 8], BEYOND, &[5, 9]),
        (&[1, 2, 3, 4, 5, 6, 7, 8], MISSING, &[6, 9]),
        (&[1, 2, 3, 4, 5, 6, 7, 8], BUSY, &[9, 12]),
    ] {
        for (transaction, of_transaction) in transactions_with_refusals(holding(held)) {
            let key = key(clustering);
            let request = Request::Read {
                transaction,
                key,
                now: 14_999,
            };
            asks_lowest(request, &[&of_transaction, of_key].concat());
        }
    }
}

#[test]
fn put() {
    for (clustering, of_key) in [
        (1, &[][..]),
        (BEYOND, &[5, 10]),
        (MISSING, &[6, 10]),
        (2, &[10]),
        (BUSY, &[10]),
        (8, &[11]),
    ] {
        for (columns, of_columns) in [
            ([0, 99_999_999], &[][..]),
            ([100_000_000, 0], &[7]),
            ([0, u32::MAX], &[7]),
        ] {
            for (transaction, of_transaction) in transactions_with_refusals(holding(&[1, 8])) {
                let request = Request::Put {
                    transaction,
                    key: key(clustering),
                    columns,
                };
                asks_lowest(request, &[&of_transaction, of_key, of_columns].concat());
            }
        }
    }
}

#[test]
fn advance_abort_and_close() {
    for (transaction, refusals) in transactions_with_refusals(holding(&[1])) {
        for limit in [0, 17] {
            let close = Request::Close {
                transaction,
                now: 0,
                limit,
            };
            asks_lowest(close, &refusals);
        }
        asks_lowest(
            Request::Advance {
                transaction,
                now: 0,
            },
            &refusals,
        );
        asks_lowest(Request::Abort { transaction }, &refusals);
    }
}

#[test]
fn visit() {
    for (clustering, refusals) in [(1, &[][..]), (BEYOND, &[5]), (MISSING, &[6]), (BUSY, &[12])] {
        let key = key(clustering);
        asks_lowest(Request::Visit { key, now: 14_999 }, refusals);
    }
}

#[test]
fn own_lines() {
    let mut held = holding(&[1]);
    held.entries[0].wrote = 1;
    for (phase, verdict, refused) in [
        (OPEN, NO_VERDICT, &[][..]),
        (PREPARE, NO_VERDICT, &[]),
        (DECIDE, NO_VERDICT, &["COMMITTED"]),
        (WITHDRAW, NO_VERDICT, &["COMMITTED"]),
        (FINISH, COMMITTED, &["-", "ABORTED"]),
        (UNDO, ABORTED, &["-", "COMMITTED"]),
    ] {
        let transaction = held.entering(phase).with_verdict(verdict);
        for word in ["-", "COMMITTED", "ABORTED"] {
            let mut sheets = sheets();
            sheets.coordinator[19..29].copy_from_slice(format!("{word:>10}").as_bytes());
            let first = sheets.clone();
            let answer = sheets.ask(Request::Advance {
                transaction,
                now: 0,
            });
            let refusal = refused.contains(&word).then_some(4);
            assert_eq!(answer.err(), refusal, "{phase} {word}");
            // A close minds what it would meet later.
            let close = Request::Close {
                transaction,
                now: 0,
                limit: 17,
            };
            let meets = phase < DECIDE && word == "COMMITTED";
            let answer = first.clone().ask(close);
            assert_eq!(answer.err(), refusal.or(meets.then_some(4)));
        }
    }
}
