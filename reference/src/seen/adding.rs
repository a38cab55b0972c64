//! What adding and removing have met: where lines came and went, which refusal went before another, and the calls of orders whose
//! keys had no line, or had lost it and got another.

use super::unseen;
use crate::plain::groups::groups;
use crate::plain::key::Key;
use crate::plain::rank::Rank;
use crate::plain::record::{Record, State, MOST_LINES};
use crate::plain::steps::{condition, to_validate};
use crate::plain::store::Store;
use crate::plain::transaction::*;
use crate::plain::{ACCEPTED, KEY_HAS_LINE, KEY_OUT_OF_RANGE, NOT_REMOVABLE, NO_LINE, NO_SPARE};
use crate::replay::laid_out::LaidOut;
use crate::replay::line::Line;
use crate::replay::reply::Reply;
use crate::replay::Layout;
use std::collections::BTreeSet;
use std::fmt;

/// By what it was asked.
pub const ASKED: [&str; 4] = [
    "replay",
    "replay of two sheets",
    "for C",
    "for C on two sheets",
];

#[derive(Clone, Copy)]
pub enum Change {
    Add,
    Remove,
}

#[derive(Clone, Copy)]
enum Kind {
    AddedToSpares,
    AddedFirst,
    AddedBetween,
    AddedLast,
    AddedOverLastSpare,
    AddedToFull,
    AddedToFullWithOne,
    RemovedOnly,
    RemovedFirst,
    RemovedBetween,
    RemovedLast,
    RemovedWithoutSpare,
    RemovedFromFull,
    OutOfRangeWithoutSpare,
    OutOfRange,
    PresentWithoutSpare,
    Present,
    NoSpareInFull,
    NoSpare,
    Missing,
    AbsentOfVersion,
    Committed,
    PreparedOverNothing,
    PreparedOverVersion,
}

/// In the order of the kinds.
const KINDS: [&str; 24] = [
    "added to spares only",
    "added before the first line",
    "added between lines",
    "added behind the last line",
    "added over the last spare",
    "added to 500 lines with spares",
    "added to 500 lines with one spare",
    "removed the only line",
    "removed the first line",
    "removed an inner line",
    "removed the last line",
    "removed where there was no spare",
    "removed from 500 lines",
    "5 of adding, no spare left",
    "5 of removing",
    "14, no spare left",
    "14 beside spares",
    "15 at 500 lines",
    "15 at fewer lines",
    "6 of removing",
    "16 by ABSENT of a version",
    "16 by COMMITTED",
    "16 by PREPARED over nothing",
    "16 by PREPARED over a version",
];

/// What a call came to by keys without a line. The first are met by place too.
#[derive(Clone, Copy)]
enum Step {
    OnePhaseFails,
    PrepareFails,
    CheckFails,
    FinishSkips,
    UndoSkips,
    // By place it isn't followed what was removed when.
    UndoSkipsBesideOther,
    ReadHeld,
    PutHeld,
    OnePhaseFailsGone,
    PrepareFailsGone,
    CheckFailsGone,
    UndoSkipsGone,
    OnePhaseHoldsBack,
    PrepareHoldsBack,
    CheckHoldsBack,
}

/// In the order of the steps.
const STEPS: [&str; 15] = [
    "one-phase fails by a key without a line only",
    "prepare fails by a key without a line only",
    "check fails by a key without a line",
    "finish skips a key without a line",
    "undo skips a key without a line",
    "undo skips a key and rolls another of its group",
    "6 of reading a key held",
    "6 of putting a key held",
    "one-phase fails, removed since it was read",
    "prepare fails, removed since it was read",
    "check fails, removed since it was read",
    "undo skips, removed since it was read",
    "one-phase holds, removed and added again",
    "prepare holds, removed and added again",
    "check holds, removed and added again",
];
/// How many of them are met by place.
const BY_PLACE: usize = Step::UndoSkipsBesideOther as usize;

#[derive(Default)]
pub struct Adding {
    kinds: [[u64; KINDS.len()]; ASKED.len()],
    steps: [[u64; STEPS.len()]; ASKED.len()],
}

/// Keys that slots of a replay held while their lines were removed.
#[derive(Default)]
pub struct Removed(BTreeSet<(usize, Key)>);

impl Removed {
    /// Notes a line, its reply and the slots after it.
    pub fn note(&mut self, line: &Line, reply: &Reply, slots: &[Transaction]) {
        match (line, reply) {
            (Line::Remove { key }, Reply::Done) => {
                let slots = slots.iter().enumerate();
                let holding = slots.filter(|(_, t)| holds(t, key));
                self.0.extend(holding.map(|(slot, _)| (slot, *key)));
            }
            // The slot has another transaction now.
            (Line::Begin { slot, .. }, Reply::Begun(_))
            | (Line::Set { slot, .. } | Line::Entry { slot, .. }, _) => {
                self.0.retain(|(other, _)| other != slot);
            }
            _ => {}
        }
    }

    /// The keys of a slot.
    pub fn of(&self, slot: Option<usize>) -> Vec<Key> {
        let own = self.0.iter().filter(|(other, _)| Some(*other) == slot);
        own.map(|(_, key)| *key).collect()
    }

    pub fn keys(&self) -> impl Iterator<Item = &Key> {
        self.0.iter().map(|(_, key)| key)
    }
}

/// Whether the key is among the entries that count, as far as there are any.
fn holds(t: &Transaction, key: &Key) -> bool {
    let count = MOST_ENTRIES.min(t.count as usize);
    t.entries[..count].iter().any(|entry| entry.key == *key)
}

fn of_add(key: &Key, refusal: u32, store: &Store) -> Vec<Kind> {
    let spares = store.spares();
    let full = store.lines == MOST_LINES;
    match refusal {
        ACCEPTED => {
            let over_last = (spares == 1).then_some(Kind::AddedOverLastSpare);
            let to_full = match spares {
                1 => Kind::AddedToFullWithOne,
                _ => Kind::AddedToFull,
            };
            let kinds = [Some(added_at(key, store)), over_last];
            let kinds = kinds.into_iter().flatten();
            kinds.chain(full.then_some(to_full)).collect()
        }
        KEY_OUT_OF_RANGE if spares == 0 => vec![Kind::OutOfRangeWithoutSpare],
        KEY_HAS_LINE if spares == 0 => vec![Kind::PresentWithoutSpare],
        KEY_HAS_LINE => vec![Kind::Present],
        NO_SPARE if full => vec![Kind::NoSpareInFull],
        NO_SPARE => vec![Kind::NoSpare],
        _ => Vec::new(),
    }
}

fn added_at(key: &Key, store: &Store) -> Kind {
    let below = Rank::among(&store.records, key).map_or(0, |rank| rank.below);
    match store.records.len() {
        0 => Kind::AddedToSpares,
        _ if below == 0 => Kind::AddedFirst,
        lines if below < lines => Kind::AddedBetween,
        _ => Kind::AddedLast,
    }
}

fn of_remove(key: &Key, refusal: u32, store: &Store) -> Vec<Kind> {
    match refusal {
        ACCEPTED => {
            let without = (store.spares() == 0).then_some(Kind::RemovedWithoutSpare);
            let from_full = (store.lines == MOST_LINES).then_some(Kind::RemovedFromFull);
            let kinds = [Some(removed_at(key, store)), without, from_full];
            kinds.into_iter().flatten().collect()
        }
        KEY_OUT_OF_RANGE => vec![Kind::OutOfRange],
        NO_LINE => vec![Kind::Missing],
        NOT_REMOVABLE => vec![not_removed(store.record(key))],
        _ => Vec::new(),
    }
}

fn removed_at(key: &Key, store: &Store) -> Kind {
    let place = store.place_of(key).unwrap_or(0);
    match store.records.len() {
        1 => Kind::RemovedOnly,
        _ if place == 0 => Kind::RemovedFirst,
        lines if place + 1 < lines => Kind::RemovedBetween,
        _ => Kind::RemovedLast,
    }
}

fn not_removed(line: &Record) -> Kind {
    match line.state {
        State::Absent => Kind::AbsentOfVersion,
        State::Committed => Kind::Committed,
        State::Prepared if line.before.version == 0 => Kind::PreparedOverNothing,
        State::Prepared => Kind::PreparedOverVersion,
    }
}

/// The entries that a step has looked at: a group, or the one that was checked.
pub fn looked_at(taken: &Transaction, returned: &Transaction, store: &Store) -> Vec<Entry> {
    let mut groups = groups(taken, &store.coordinator.units);
    let place = taken.place as usize;
    match taken.phase {
        // Leaving open for another phase looks at no line.
        OPEN if groups.len() == 1 && matches!(returned.phase, DONE | WITHDRAW) => groups.remove(0),
        PREPARE | FINISH | UNDO => groups.remove(place),
        CHECK => vec![to_validate(taken, &store.coordinator)[place]],
        _ => Vec::new(),
    }
}

/// What became of a step that looked at a key without a line.
fn of_step(
    taken: &Transaction,
    returned: &Transaction,
    removed: &[Key],
    store: &Store,
) -> Vec<Step> {
    let looked_at = looked_at(taken, returned, store);
    let was_removed = |entry: &&Entry| removed.contains(&entry.key);
    let (there, missing): (Vec<&Entry>, Vec<&Entry>) = looked_at
        .iter()
        .partition(|entry| store.has_line(&entry.key));
    let fails = returned.phase == WITHDRAW;
    let only_missing = there.iter().all(|entry| condition(store, entry));
    let prepared = |entry: &&&Entry| store.record(&entry.key).is_prepared_by(taken.number);
    let gone = missing.iter().copied().any(|entry| was_removed(&entry));
    let back = !fails && there.iter().copied().any(|entry| was_removed(&entry));
    let steps = match (taken.phase, missing.is_empty()) {
        (OPEN, true) => [back.then_some(Step::OnePhaseHoldsBack), None],
        (PREPARE, true) => [back.then_some(Step::PrepareHoldsBack), None],
        (CHECK, true) => [back.then_some(Step::CheckHoldsBack), None],
        (OPEN, false) if only_missing => [
            Some(Step::OnePhaseFails),
            gone.then_some(Step::OnePhaseFailsGone),
        ],
        (PREPARE, false) if only_missing => [
            Some(Step::PrepareFails),
            gone.then_some(Step::PrepareFailsGone),
        ],
        (CHECK, false) => [Some(Step::CheckFails), gone.then_some(Step::CheckFailsGone)],
        (FINISH, false) => [Some(Step::FinishSkips), None],
        (UNDO, false) if there.iter().filter(prepared).count() > 0 => [
            Some(Step::UndoSkipsBesideOther),
            gone.then_some(Step::UndoSkipsGone),
        ],
        (UNDO, false) => [Some(Step::UndoSkips), gone.then_some(Step::UndoSkipsGone)],
        _ => [None, None],
    };
    steps.into_iter().flatten().collect()
}

impl Adding {
    fn count_kinds(&mut self, for_c: bool, layout: Layout, kinds: Vec<Kind>) {
        let row = row(for_c, layout);
        for kind in kinds {
            self.kinds[row][kind as usize] += 1;
        }
    }

    fn count_steps(&mut self, for_c: bool, layout: Layout, steps: Vec<Step>) {
        let row = row(for_c, layout);
        for step in steps {
            self.steps[row][step as usize] += 1;
        }
    }

    /// Notes a line of a replay by the sheets before it, the transaction that it took with the keys that were removed while it
    /// held them, and the reply.
    pub fn note(
        &mut self,
        line: &Line,
        taken: Option<&Transaction>,
        removed: &[Key],
        reply: &Reply,
        before: &LaidOut,
    ) {
        let layout = before.layout();
        let refusal = match reply {
            Reply::Refused(number) => *number,
            _ => ACCEPTED,
        };
        match (line, taken, reply) {
            (Line::Add { key }, ..) => self.note_change(false, Change::Add, key, refusal, before),
            (Line::Remove { key }, ..) => {
                self.note_change(false, Change::Remove, key, refusal, before);
            }
            (_, Some(taken), Reply::Advanced(returned)) => {
                self.note_step(false, taken, returned, removed, before);
            }
            (Line::Read { key, .. }, Some(taken), Reply::Refused(NO_LINE)) if holds(taken, key) => {
                self.count_steps(false, layout, vec![Step::ReadHeld]);
            }
            (Line::Put { key, .. }, Some(taken), Reply::Refused(NO_LINE)) if holds(taken, key) => {
                self.count_steps(false, layout, vec![Step::PutHeld]);
            }
            _ => {}
        }
    }

    /// Notes a call of a function for C.
    pub fn note_for_c(&mut self, change: Change, key: &Key, refusal: u32, before: &LaidOut) {
        self.note_change(true, change, key, refusal, before);
    }

    /// Notes an advance by place.
    pub fn note_by_place(&mut self, taken: &Transaction, returned: &Transaction, before: &LaidOut) {
        self.note_step(true, taken, returned, &[], before);
    }

    fn note_change(
        &mut self,
        for_c: bool,
        change: Change,
        key: &Key,
        refusal: u32,
        before: &LaidOut,
    ) {
        let Some(store) = before.store() else {
            return;
        };
        let kinds = match change {
            Change::Add => of_add(key, refusal, &store),
            Change::Remove => of_remove(key, refusal, &store),
        };
        self.count_kinds(for_c, before.layout(), kinds);
    }

    fn note_step(
        &mut self,
        for_c: bool,
        taken: &Transaction,
        returned: &Transaction,
        removed: &[Key],
        before: &LaidOut,
    ) {
        if taken.count == 0 {
            return;
        }
        if let Some(store) = before.store() {
            let steps = of_step(taken, returned, removed, &store);
            self.count_steps(for_c, before.layout(), steps);
        }
    }

    /// The counts of steps by what they were asked.
    fn step_rows(&self) -> impl Iterator<Item = (&'static str, &[u64])> {
        let rows = ASKED.iter().zip(&self.steps).enumerate();
        rows.map(|(row, (asked, counts))| match row {
            ..2 => (*asked, &counts[..]),
            _ => (*asked, &counts[..BY_PLACE]),
        })
    }

    /// What should have been seen and wasn't.
    pub fn amiss(&self) -> Vec<String> {
        let kinds = ASKED.iter().zip(&self.kinds);
        let kinds = kinds.flat_map(|(asked, counts)| unseen(asked, &KINDS, counts));
        let steps = self.step_rows();
        let steps = steps.flat_map(|(asked, counts)| unseen(asked, &STEPS, counts));
        let amiss = kinds.chain(steps);
        amiss.map(|what| format!("adding, {what}")).collect()
    }
}

/// The place among those who asked.
pub fn row(for_c: bool, layout: Layout) -> usize {
    2 * usize::from(for_c) + usize::from(layout == Layout::Two)
}

impl fmt::Display for Adding {
    fn fmt(&self, out: &mut fmt::Formatter) -> fmt::Result {
        write!(out, "adding and removing: {}", ASKED.join(", "))?;
        let counted = |counts: Vec<u64>| -> String {
            let counts = counts.into_iter();
            counts.map(|count| format!("{count:>8}")).collect()
        };
        for (place, kind) in KINDS.iter().enumerate() {
            let counts = self.kinds.iter().map(|row| row[place]).collect();
            write!(out, "\n{}  {kind}", counted(counts))?;
        }
        for (place, step) in STEPS.iter().enumerate() {
            let counts = self.step_rows().filter_map(|(_, row)| row.get(place));
            write!(out, "\n{:<32}  {step}", counted(counts.copied().collect()))?;
        }
        Ok(())
    }
}
