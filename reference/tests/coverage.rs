//! The random histories show every refusal of every call, every step from phase to phase and every answer.

use reference::make::damage::damage;
use reference::make::history::{Event, History, Rule};
use reference::make::random::Random;
use reference::make::Sheets;
use reference::plain;
use reference::plain::request::{Answer, Request};
use reference::plain::transaction::Transaction;
use std::collections::{BTreeMap, BTreeSet};

const HISTORIES: u64 = 2_000;
const CALLS: usize = 120;

const PHASES: [&str; 8] = [
    "open", "prepare", "check", "decide", "withdraw", "finish", "undo", "done",
];
const VERDICTS: [&str; 3] = ["none", "committed", "aborted"];

/// The refusals of each call but 4.
const REFUSALS: [(&str, &[u32]); 9] = [
    ("begin", &[1, 2, 8]),
    ("read", &[1, 2, 3, 5, 6, 9, 12]),
    ("put", &[1, 2, 3, 5, 6, 7, 10, 11]),
    ("advance", &[1, 2, 3]),
    ("abort", &[1, 2, 3]),
    ("close", &[1, 2, 3]),
    ("visit", &[1, 2, 5, 6, 12]),
    ("add", &[1, 2, 5, 14, 15]),
    ("remove", &[1, 2, 5, 6, 16]),
];

/// The first phase from which on refusal 4 is given, up to done.
const WRONG_PHASES: [(&str, usize); 5] = [
    ("read", 1),
    ("put", 1),
    ("advance", 3),
    ("abort", 4),
    ("close", 0),
];

/// The answers, what they write and the steps. Of a close, which may write to both sheets, only where it ends.
const ANSWERS: &str = "
begin: open, none, wrote coordinator
read: Absent, wrote nothing
read: Absent, wrote records
read: Columns, wrote nothing
read: Columns, wrote records
read: Again, wrote coordinator
put: open to open, none, wrote nothing
advance: open to prepare, none, wrote nothing
advance: open to check, none, wrote nothing
advance: open to withdraw, none, wrote nothing
advance: open to done, committed, wrote nothing
advance: open to done, committed, wrote records
advance: prepare to prepare, none, wrote records
advance: prepare to check, none, wrote records
advance: prepare to decide, none, wrote records
advance: prepare to withdraw, none, wrote nothing
advance: check to check, none, wrote nothing
advance: check to decide, none, wrote nothing
advance: check to withdraw, none, wrote nothing
advance: check to done, committed, wrote nothing
advance: decide to finish, committed, wrote coordinator
advance: decide to undo, aborted, wrote nothing
advance: withdraw to undo, aborted, wrote coordinator
advance: withdraw to undo, aborted, wrote nothing
advance: withdraw to done, aborted, wrote coordinator
advance: finish to finish, committed, wrote records
advance: finish to finish, committed, wrote nothing
advance: finish to done, committed, wrote records
advance: finish to done, committed, wrote nothing
advance: undo to undo, aborted, wrote records
advance: undo to undo, aborted, wrote nothing
advance: undo to done, aborted, wrote records
advance: undo to done, aborted, wrote nothing
abort: open to withdraw, none, wrote nothing
abort: prepare to withdraw, none, wrote nothing
abort: check to withdraw, none, wrote nothing
abort: decide to withdraw, none, wrote nothing
close: open to open, none
close: open to prepare, none
close: open to decide, none
close: open to withdraw, none
close: open to finish, committed
close: open to undo, aborted
close: open to done, committed
close: open to done, aborted
close: prepare to prepare, none
close: prepare to decide, none
close: prepare to withdraw, none
close: prepare to finish, committed
close: prepare to undo, aborted
close: prepare to done, committed
close: prepare to done, aborted
close: check to decide, none
close: check to withdraw, none
close: check to finish, committed
close: check to undo, aborted
close: check to done, committed
close: check to done, aborted
close: decide to decide, none
close: decide to finish, committed
close: decide to undo, aborted
close: decide to done, committed
close: decide to done, aborted
close: withdraw to withdraw, none
close: withdraw to undo, aborted
close: withdraw to done, aborted
close: finish to finish, committed
close: finish to done, committed
close: undo to undo, aborted
close: undo to done, aborted
visit: Stays, wrote nothing
visit: Forward, wrote records
visit: Back, wrote records
visit: Again, wrote coordinator
add: Done, wrote records
remove: Done, wrote records
";

/// A number without puts has no prepared lines, so that none but itself aborts it: only made-up states find it so.
const MADE_UP: &str = "advance: withdraw to done, aborted, wrote nothing";

fn expected(rule: Rule) -> BTreeSet<String> {
    let answers = ANSWERS.lines().filter(|line| !line.is_empty());
    let refusals = REFUSALS.iter().flat_map(|(call, numbers)| {
        let numbers = numbers.iter();
        numbers.map(move |number| format!("{call}: refusal {number}"))
    });
    let wrong_phases = WRONG_PHASES.iter().flat_map(|(call, first)| {
        let phases = PHASES[*first..].iter();
        phases.map(move |phase| format!("{call}: refusal 4 in {phase}"))
    });
    let made_up = (rule == Rule::Free).then_some(MADE_UP);
    let answers = answers.chain(made_up).map(String::from);
    answers.chain(refusals).chain(wrong_phases).collect()
}

/// From the phase, if there was one, to that of the transaction returned.
fn step(from: Option<&str>, returned: &Transaction) -> String {
    let from = from.map(|from| format!("{from} to ")).unwrap_or_default();
    let to = PHASES[returned.phase as usize];
    format!("{from}{to}, {}", VERDICTS[returned.verdict as usize])
}

/// What the call shows, in words.
fn shown(event: &Event, after: &Sheets) -> String {
    let call = match event.request {
        Request::Begin { .. } => "begin",
        Request::Read { .. } => "read",
        Request::Second { .. } => "second",
        Request::Put { .. } => "put",
        Request::Advance { .. } => "advance",
        Request::Abort { .. } => "abort",
        Request::Close { .. } => "close",
        Request::Visit { .. } => "visit",
        Request::Add { .. } => "add",
        Request::Remove { .. } => "remove",
    };
    let taken = event.request.taken();
    let phase = taken.map(|t| PHASES.get(t.phase as usize).unwrap_or(&"no phase"));
    let answer = match (&event.answer, phase) {
        (Err(plain::WRONG_PHASE), Some(phase)) => return format!("{call}: refusal 4 in {phase}"),
        (Err(number), _) => return format!("{call}: refusal {number}"),
        (Ok(Answer::Closed(t, _)), from) => {
            return format!("{call}: {}", step(from.copied(), t));
        }
        (Ok(Answer::Returned(t)), from) => step(from.copied(), t),
        (Ok(Answer::Read(_, reading)), _) => format!("{reading:?}"),
        (Ok(Answer::Visited(visit)), _) => format!("{visit:?}"),
        (Ok(Answer::Done), _) => "Done".into(),
    };
    // The values read are of no interest here.
    let answer = answer.split('(').next().unwrap_or_default();
    let records = event.before.records != after.records;
    let coordinator = event.before.coordinator != after.coordinator;
    let wrote = match (records, coordinator) {
        (false, false) => "nothing",
        (true, false) => "records",
        (false, true) => "coordinator",
        (true, true) => "both",
    };
    format!("{call}: {answer}, wrote {wrote}")
}

/// Makes the same call on damaged sheets. Refusals 1 and 2 go before all others.
fn on_damaged(random: &mut Random, event: &Event) -> Option<String> {
    let mut sheets = event.before.clone();
    damage(random, &mut sheets);
    let refusal = plain::check(&sheets.records, &sheets.coordinator);
    if refusal == plain::ACCEPTED {
        return None;
    }
    let event = Event {
        request: event.request,
        before: sheets.clone(),
        answer: sheets.ask(event.request),
    };
    assert_eq!(event.answer, Err(refusal));
    assert_eq!(event.before, sheets);
    Some(shown(&event, &sheets))
}

/// Runs histories of a kind, and asks that they show what is expected and nothing else.
fn shows_all(rule: Rule) {
    let mut counts = BTreeMap::new();
    for seed in 0..HISTORIES {
        let mut random = Random::new(seed);
        let mut history = History::new(&mut random, rule);
        for _ in 0..CALLS {
            let event = history.step(&mut random);
            *counts.entry(shown(&event, &history.sheets)).or_insert(0) += 1;
            if let Some(refusal) = on_damaged(&mut random, &event) {
                *counts.entry(refusal).or_insert(0) += 1;
            }
        }
    }
    println!("{counts:#?}");
    let seen: BTreeSet<String> = counts.into_keys().collect();
    assert_eq!(seen, expected(rule));
}

#[test]
fn legal_histories_show_all() {
    shows_all(Rule::Legal);
}

#[test]
fn free_histories_show_all() {
    shows_all(Rule::Free);
}
