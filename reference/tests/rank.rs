//! Where keys stand among the lines, what is told of it, and that all other calls still refuse a key without a line.

use reference::exported::{by_plain, rank_by_plain, Call};
use reference::make::exported::without_list;
use reference::make::random::Random;
use reference::make::sheets::accepted;
use reference::make::spares::is_spare;
use reference::make::{Sheets, TwoSheets};
use reference::plain;
use reference::plain::key::Key;
use reference::plain::rank::Rank;
use reference::plain::request::Request;
use reference::plain::transaction::{Entry, Transaction};
use reference::replay::laid_out::LaidOut;
use reference::replay::Layout;

const RECORDS: &str = concat!(
    " 1  1  1     1     1 COMMITTED     1   0      500      250         -     0   0        0        0          0\n",
    " 1  1  1     1     3 COMMITTED     1   0      500      250         -     0   0        0        0          0\n",
    " 1  1 10     0     0 COMMITTED     1   0      500      250         -     0   0        0        0          0\n",
    " 2  1  1     1     1 COMMITTED     1   0      500      250         -     0   0        0        0          0\n",
);
const COORDINATOR: &str = "   1 RRRRRRRRR\n   1         -\n";

/// Keys without lines, and how many lines have smaller ones.
const MISSING: [([u32; 5], usize); 12] = [
    ([1, 1, 1, 0, 0], 0),
    ([1, 1, 1, 0, 99_999], 0),
    ([1, 1, 1, 1, 0], 0),
    ([1, 1, 1, 1, 2], 1),
    // They share a place.
    ([1, 1, 1, 1, 4], 2),
    ([1, 1, 1, 1, 99_999], 2),
    ([1, 1, 9, 99_999, 99_999], 2),
    ([1, 1, 10, 0, 1], 3),
    ([1, 99, 1, 1, 1], 3),
    ([2, 1, 1, 1, 0], 3),
    ([2, 1, 1, 1, 2], 4),
    ([9, 99, 99, 99_999, 99_999], 4),
];

const OUT_OF_RANGE: [[u32; 5]; 8] = [
    [0, 1, 1, 1, 1],
    [10, 1, 1, 1, 1],
    [1, 0, 1, 1, 1],
    [1, 100, 1, 1, 1],
    [1, 1, 0, 1, 1],
    [1, 1, 100, 1, 1],
    [1, 1, 1, 100_000, 1],
    [1, 1, 1, 1, u32::MAX],
];

fn sheets() -> Sheets {
    Sheets {
        records: RECORDS.into(),
        coordinator: COORDINATOR.into(),
    }
}

fn laid_out() -> [LaidOut; 2] {
    [Layout::Joined, Layout::Two].map(|layout| LaidOut::of(layout, sheets()))
}

fn rank(key: [u32; 5]) -> Result<Rank, u32> {
    let [one, other] = laid_out().map(|sheets| sheets.rank(Key::from_numbers(key)));
    assert_eq!(one, other, "{key:?}");
    one
}

#[test]
fn of_lines_and_of_missing_keys() {
    let lines = sheets().store().records;
    let present = true;
    for (below, line) in lines.iter().enumerate() {
        assert_eq!(rank(line.key.numbers()), Ok(Rank { below, present }));
    }
    let present = false;
    for (key, below) in MISSING {
        assert_eq!(rank(key), Ok(Rank { below, present }), "{key:?}");
    }
    for key in OUT_OF_RANGE {
        assert_eq!(rank(key), Err(5), "{key:?}");
        assert_eq!(plain::rank(&RECORDS.as_bytes()[1..], key), Err(1));
    }
}

/// Keys as a sheet has them, right-justified figures, order as their text does.
#[test]
fn as_the_text_of_a_sheet_orders() {
    for seed in 0..300 {
        let random = &mut Random::new(seed);
        let (sheets, others) = (accepted(random), accepted(random));
        let sheet = &sheets.records;
        let lines = sheet.chunks(108).filter(|line| !is_spare(line));
        let texts: Vec<&[u8]> = lines.map(|line| &line[..20]).collect();
        let lines = [sheets.store().records, others.store().records];
        for line in lines.iter().flat_map(|lines| lines.iter().take(20)) {
            let numbers = line.key.numbers();
            let [s, n, t, p, c] = numbers;
            let text = format!("{s:>2}{n:>3}{t:>3}{p:>6}{c:>6}");
            let text = text.as_bytes();
            let expected = Rank {
                below: texts.iter().filter(|line| **line < text).count(),
                present: texts.contains(&text),
            };
            assert_eq!(plain::rank(sheet, numbers), Ok(expected));
        }
    }
}

/// The calls that name a key, the last on two sheets only.
fn naming(transaction: Transaction, key: Key) -> [Request; 4] {
    let (now, columns) = (0, [0, 0]);
    [
        Request::Visit { key, now },
        Request::Read {
            transaction,
            key,
            now,
        },
        Request::Put {
            transaction,
            key,
            columns,
        },
        Request::Second {
            transaction,
            key,
            now,
            columns,
        },
    ]
}

#[test]
fn all_other_calls_refuse_a_missing_key() {
    for (key, _) in MISSING {
        let key = Key::from_numbers(key);
        // Held or not.
        for transaction in [Transaction::begun(1, false), holding(key)] {
            let [mut joined, mut two] = laid_out();
            let requests = naming(transaction, key);
            for request in &requests[..3] {
                assert_eq!(joined.ask(*request), Err(6), "{request:?}");
            }
            for request in requests {
                assert_eq!(two.ask(request), Err(6), "{request:?}");
            }
        }
    }
}

#[test]
fn a_missing_key_has_no_line_and_no_place() {
    for (key, _) in MISSING {
        let key = Key::from_numbers(key);
        for sheets in laid_out() {
            for sheet in [0, 1] {
                assert_eq!(sheets.line_of(Some(sheet), key), b"");
            }
            let mut lent = without_list(sheets);
            assert_eq!(by_plain(&Call::Lookup { key }, &mut lent), 1_006);
        }
    }
}

/// A transaction that holds the key as if the first line had it.
fn holding(key: Key) -> Transaction {
    let mut transaction = Transaction::begun(1, false);
    let first = Entry::read(&sheets().store().records[0]);
    transaction.entries[0] = Entry { key, ..first };
    transaction.count = 1;
    transaction
}

/// What is answered for C, and the target in place of so many numbers.
fn told(sheets: &LaidOut, key: [u32; 5], length: usize) -> (u32, Vec<u32>) {
    let mut target = vec![77; length];
    let answer = rank_by_plain(sheets, Key::from_numbers(key), &mut target);
    (answer, target)
}

#[test]
fn told_in_two_numbers() {
    for sheets in laid_out() {
        assert_eq!(told(&sheets, [1, 1, 1, 1, 1], 2), (0, vec![0, 1]));
        assert_eq!(told(&sheets, [2, 1, 1, 1, 1], 2), (0, vec![3, 1]));
        for (key, below) in MISSING {
            assert_eq!(told(&sheets, key, 2), (0, vec![below as u32, 0]));
        }
        for length in [0, 1, 3, 4] {
            let refused = (1_001, vec![77; length]);
            assert_eq!(told(&sheets, [1, 1, 1, 1, 1], length), refused);
            assert_eq!(told(&sheets, OUT_OF_RANGE[0], length), refused);
        }
    }
}

/// The length of the target and the sheets go before 13, and that before 5.
#[test]
fn the_order_of_refusals() {
    let two = TwoSheets::of(&sheets());
    let (mut cut, mut differ) = (two.clone(), two.clone());
    cut.plain.pop();
    differ.plain[19] = b'2';
    let mut cut_joined = sheets();
    cut_joined.records.pop();
    let cases = [
        (LaidOut::Joined(sheets()), 1_005),
        (LaidOut::Joined(cut_joined), 1_001),
        (LaidOut::Two(two), 1_005),
        (LaidOut::Two(cut), 1_001),
        (LaidOut::Two(differ), 1_013),
    ];
    for (sheets, refusal) in cases {
        for key in OUT_OF_RANGE {
            assert_eq!(told(&sheets, key, 2), (refusal, vec![77; 2]));
            assert_eq!(told(&sheets, key, 1), (1_001, vec![77]));
        }
        let missing = told(&sheets, [1, 1, 1, 1, 2], 2);
        match refusal {
            1_005 => assert_eq!(missing, (0, vec![1, 0])),
            _ => assert_eq!(missing, (refusal, vec![77; 2])),
        }
    }
}
