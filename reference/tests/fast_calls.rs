//! `fast` answers as `plain` does, and leaves every byte lent as `plain` does.

use reference::exported::{by_fast, by_plain, is_fast, Call, Lent};
use reference::make::exported::{next, without_list};
use reference::make::halfway::{asking, halfway};
use reference::make::history::{History, Rule};
use reference::make::random::Random;
use reference::make::sheets::{crowded, of_size, spread, Mix, Size};
use reference::plain::request::Request;
use reference::replay::laid_out::LaidOut;
use reference::replay::Layout;
use std::collections::BTreeMap;

/// The answer of both.
fn agreed(call: &Call, lent: Lent) -> u64 {
    let mut by_plain_lent = lent.clone();
    let mut by_fast_lent = lent;
    let answer = by_plain(call, &mut by_plain_lent);
    let fast = by_fast(call, &mut by_fast_lent);
    let sheets = &by_fast_lent.sheets;
    assert_eq!(fast, answer, "{call:?}\n{sheets}");
    assert!(by_fast_lent == by_plain_lent, "{call:?}\n{sheets}");
    answer
}

fn name(call: &Call) -> &'static str {
    match call {
        Call::Check => "check",
        Call::Begin => "begin",
        Call::Visit { .. } => "visit",
        Call::At { .. } => "advance",
        Call::Add { .. } => "add",
        Call::Remove { .. } => "remove",
        _ => "not a call of fast",
    }
}

/// What an answer shows: a number given is 0.
fn shown(call: &Call, answer: u64) -> (&'static str, u64) {
    match call {
        Call::Begin if answer < 1_000 => (name(call), 0),
        _ => (name(call), answer),
    }
}

/// The history's next call, or a check where `fast` hasn't it.
fn next_fast(random: &mut Random, history: &mut History) -> (Call, Lent) {
    let (call, lent) = next(random, Layout::Joined, history);
    match is_fast(&call) {
        true => (call, lent),
        false => (Call::Check, lent),
    }
}

#[test]
fn on_histories() {
    let mut seen = BTreeMap::new();
    for seed in 0..800 {
        let random = &mut Random::new(seed);
        let rule = random.pick(&[Rule::Legal, Rule::Free]);
        let mut history = History::new(random, rule);
        for _ in 0..100 {
            let (call, lent) = next_fast(random, &mut history);
            *seen.entry(shown(&call, agreed(&call, lent))).or_insert(0) += 1;
        }
    }
    let expected: &[(&str, &[u64])] = &[
        ("add", &[0, 1, 2, 5, 14, 15]),
        ("advance", &[0, 1_001, 1_002, 1_003, 1_004]),
        ("begin", &[0, 1_001, 1_002, 1_008]),
        ("check", &[0, 1, 2]),
        ("remove", &[0, 1, 2, 5, 6, 16]),
        ("visit", &[0, 1, 2, 3, 1_001, 1_002, 1_005, 1_006, 1_012]),
    ];
    let expected = expected.iter();
    let expected = expected.flat_map(|(name, answers)| answers.iter().map(|n| (*name, *n)));
    let keys: Vec<(&str, u64)> = seen.keys().copied().collect();
    assert_eq!(keys, expected.collect::<Vec<_>>(), "{seen:?}");
}

#[test]
fn on_sheets_of_full_size() {
    let random = &mut Random::new(7);
    let size = Size {
        records: 500,
        decisions: 999,
        issued: 900,
    };
    let sheets = of_size(random, size, Mix::Thirds);
    let mut history = History::on(random, Rule::Free, sheets);
    for _ in 0..1_000 {
        let (call, lent) = next_fast(random, &mut history);
        agreed(&call, lent);
    }
}

/// Where it matters that a number has several lines: *again*, and 12 though the visited line has expired.
#[test]
fn on_orders_half_way() {
    let mut again = 0;
    let mut busy = 0;
    for seed in 0..4_000 {
        let random = &mut Random::new(seed);
        let sheets = match random.once_in(3) {
            true => crowded(random),
            false => {
                let sheets = spread(random);
                halfway(random, sheets)
            }
        };
        let (key, now) = match asking(random, &sheets) {
            Request::Visit { key, now } | Request::Read { key, now, .. } => (key, now),
            request => panic!("{request:?}"),
        };
        let store = sheets.store();
        let line = store.place_of(&key).map(|place| store.records[place]);
        let lent = without_list(LaidOut::Joined(sheets));
        let answer = agreed(&Call::Visit { key, now }, lent);
        again += usize::from(answer == 3);
        busy += usize::from(answer == 1_012 && line.is_ok_and(|line| line.has_expired(now)));
    }
    assert!(again > 500 && busy > 200, "{again} again, {busy} busy");
}
