//! Demand 3 and what holds of every call, on random histories.

use reference::make::arguments::prepared;
use reference::make::closing::close;
use reference::make::expiry::without_reading;
use reference::make::history::{Event, History, Rule};
use reference::make::random::Random;
use reference::make::two_sheets::letters;
use reference::make::Sheets;
use reference::plain::coordinator::Decision;
use reference::plain::groups::share_unit;
use reference::plain::key::Key;
use reference::plain::record::{Record, State};
use reference::plain::request::{Answer, Request};
use reference::plain::store::Store;
use reference::plain::transaction::{Transaction, COMMITTED, DONE, OPEN};
use reference::plain::BUSY;
use reference::replay::Layout;
use reference::sequential_model::SequentialModel;
use std::collections::{BTreeMap, BTreeSet};

const HISTORIES: u64 = 2_000;

/// The keys of the lines that the call wrote. Those that shift by adding or removing one don't count.
fn written(before: &Store, after: &Store) -> Vec<Key> {
    let by_key = |store: &Store| -> BTreeMap<Key, Record> {
        let lines = store.records.iter();
        lines.map(|line| (line.key, *line)).collect()
    };
    let (before, after) = (by_key(before), by_key(after));
    let keys: BTreeSet<Key> = before.keys().chain(after.keys()).copied().collect();
    let changed = keys.into_iter();
    changed
        .filter(|key| before.get(key) != after.get(key))
        .collect()
}

/// What holds of every call: no change by a refusal, else accepted sheets and one write, or in a close one after another.
fn judge(event: &Event, after: &Sheets) {
    let request = &event.request;
    match (&event.answer, request) {
        (Err(_), _) => assert_eq!(event.before, *after, "{request:?}"),
        (Ok(answer), Request::Close { limit, .. }) => {
            let mut writes = writes(event, *limit);
            assert_eq!(writes.last().unwrap_or(&event.before), after);
            writes.insert(0, event.before.clone());
            for pair in writes.windows(2) {
                one_write(request, &pair[0], &pair[1]);
            }
            let Answer::Closed(_, report) = answer else {
                panic!("{answer:?}");
            };
            assert_eq!(*report as usize, writes.len() - 1, "{request:?}");
        }
        _ => one_write(request, &event.before, after),
    }
}

/// The sheets after each write of a close, which is the close with a limit of one more.
fn writes(event: &Event, limit: u32) -> Vec<Sheets> {
    let Request::Close {
        transaction, now, ..
    } = event.request
    else {
        return Vec::new();
    };
    let mut left = Vec::new();
    let mut before = event.before.clone();
    for limit in 1..=limit.min(17) {
        let mut sheets = event.before.clone();
        let request = Request::Close {
            transaction,
            now,
            limit,
        };
        let closed = sheets.ask_either_case(request);
        closed.expect("refused at no limit");
        if sheets == before {
            break;
        }
        before = sheets.clone();
        left.push(sheets);
    }
    left
}

/// One unit or the coordinator sheet is written, or nothing.
fn one_write(request: &Request, before: &Sheets, after: &Sheets) {
    let (before, after) = (before.store(), after.store());
    let lines = written(&before, &after);
    let units = &before.coordinator.units;
    let one_unit = lines.windows(2).all(|k| share_unit(units, &k[0], &k[1]));
    let coordinator_kept = before.coordinator == after.coordinator;
    let one_write = one_unit && (lines.is_empty() || coordinator_kept);
    assert!(one_write, "{request:?}");
}

/// The transaction whose one-phase write this call was, told by the sheets: a line written by an advance in open, or by
/// a close from open to done without a decision.
fn one_phase<'a>(event: &'a Event, after: &Sheets) -> Option<&'a Transaction> {
    let in_lines = event.before.records != after.records;
    let in_coordinator = event.before.coordinator != after.coordinator;
    let to = event.answer.as_ref().ok()?.returned()?;
    match &event.request {
        Request::Advance { transaction, .. } | Request::Close { transaction, .. }
            if transaction.phase == OPEN
                && in_lines
                && !in_coordinator
                && (to.phase, to.verdict) == (DONE, COMMITTED) =>
        {
            Some(transaction)
        }
        _ => None,
    }
}

/// One legal history and its closing visits, held against the sequential model. Answers whether it is one of demand 3's:
/// whether a reading is left for every undecided number. On two sheets letters are small, and its sheets are what they join
/// to.
fn demand_3(layout: Layout, seed: u64) -> bool {
    let mut random = Random::new(seed);
    let mut history = History::new(&mut random, Rule::Legal);
    letters(&mut random, layout, &mut history.sheets);
    let mut model =
        SequentialModel::new(&history.sheets.records).expect("the first sheet is accepted");
    let mut one_phase_numbers = BTreeSet::new();
    // Some stop early, so that most transactions are cut off half-way.
    for _ in 0..random.pick(&[10, 30, 100, 200]) {
        let event = history.step(&mut random);
        judge(&event, &history.sheets);
        model.note(&event.request, &event.answer);
        one_phase_numbers.extend(one_phase(&event, &history.sheets).map(|t| t.number));
    }
    for number in without_reading(&history.sheets.store()) {
        if let Some(event) = history.close_own(&mut random, number) {
            assert!(event.answer.is_ok(), "seed {seed}: {:?}", event.request);
            judge(&event, &history.sheets);
            model.note(&event.request, &event.answer);
        }
    }
    let mut sheets = history.sheets;
    let outside = without_reading(&sheets.store());
    for event in close(&mut random, &mut sheets) {
        let accepted = event.answer.is_ok();
        let busy = !outside.is_empty() && event.answer == Err(BUSY);
        assert!(accepted || busy, "seed {seed}: {:?}", event.request);
        model.note(&event.request, &event.answer);
    }
    let mut last = sheets.store();
    let left = prepared(&last.records).into_iter();
    let left: BTreeSet<u32> = left.map(|line| line.image.tx_id).collect();
    assert_eq!(left, outside, "seed {seed}\n{sheets}");
    roll_back(&mut last);
    let difference = model.difference(&last.records);
    assert_eq!(difference, None, "seed {seed}\n{sheets}");
    for number in model.with_puts() {
        let committed =
            last.decision(number) == Decision::Committed || one_phase_numbers.contains(&number);
        assert_eq!(
            model.is_committed(number),
            committed,
            "seed {seed}: {number}"
        );
    }
    outside.is_empty()
}

/// What is left PREPARED by numbers that no visit decides, which is outside demand 3, as if they were aborted.
fn roll_back(store: &mut Store) {
    for line in &mut store.records {
        if line.state == State::Prepared {
            *line = line.back();
        }
    }
}

#[test]
fn legal_histories_come_to_what_the_model_says() {
    for (layout, histories) in [(Layout::Joined, HISTORIES), (Layout::Two, HISTORIES / 2)] {
        let seeds = 0..histories;
        let outside = seeds.filter(|seed| !demand_3(layout, *seed)).count();
        println!("{outside} of {histories} left a number without a reading");
        assert!((1..histories as usize / 20).contains(&outside));
    }
}

#[test]
fn any_transaction_leaves_accepted_sheets() {
    for seed in 0..HISTORIES {
        let mut random = Random::new(seed);
        let mut history = History::new(&mut random, Rule::Free);
        if seed % 2 == 1 {
            letters(&mut random, Layout::Two, &mut history.sheets);
        }
        for _ in 0..100 {
            let event = history.step(&mut random);
            judge(&event, &history.sheets);
        }
    }
}
