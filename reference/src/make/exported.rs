//! Exported calls out of random histories or from nowhere, at times on damaged or forged sheets.

use super::adding::{self, add_or_remove};
use super::arguments::{sought_key, target};
use super::closes;
use super::expiry::clock_for_step;
use super::halfway;
use super::history::{Event, History};
use super::lists::{asked, list_of, no_call, other, unused};
use super::random::Random;
use super::requests::{begin, stray};
use super::scripts::damaged_sheets;
use super::sheets::{Mix, Size};
use super::transactions::forged_begun;
use super::two_orders::crossed;
use super::two_sheets::letters;
use super::{any, sheets, Sheets};
use crate::compare::ranked::Ranked;
use crate::exported::{Call, Lent};
use crate::plain::key::Key;
use crate::plain::request::Request;
use crate::plain::store::Store;
use crate::plain::transaction::{Transaction, MOST_LISTED};
use crate::replay::laid_out::LaidOut;
use crate::replay::Layout;

const MANY_LINES: Size = Size {
    records: 500,
    decisions: 1,
    issued: 0,
};

/// The history's next call, by place if it takes a transaction, and what it is lent.
pub fn next(random: &mut Random, layout: Layout, history: &mut History) -> (Call, Lent) {
    let Event {
        request, before, ..
    } = history.step(random);
    let call = exported(random, layout, &request, history.states(), before);
    spoilt(random, 6, call)
}

/// A call with a transaction that was forged for sheets of its own, a close of an order there, among others such, or a call
/// that comes upon an order half-way, or one of an order that has lost a key.
pub fn from_nowhere(random: &mut Random, layout: Layout) -> (Call, Lent) {
    let (request, sheets) = match random.below(12) {
        0 | 1 => closes::of_order(random, layout),
        2 => on_halfway(random, layout),
        3 => too_late(random, layout),
        _ => on_crowded(random, layout),
    };
    let call = exported(random, layout, &request, &[], sheets);
    // There is more to be damaged of two sheets.
    let seldom = match layout {
        Layout::Joined => 24,
        Layout::Two => 6,
    };
    spoilt(random, seldom, call)
}

/// A call on sheets with much in them.
fn on_crowded(random: &mut Random, layout: Layout) -> (Request, Sheets) {
    let mut sheets = sheets::crowded(random);
    letters(random, layout, &mut sheets);
    let store = sheets.store();
    let request = match random.below(15) {
        0 => begin(random),
        14 => Request::Abort {
            transaction: forged_begun(random, &store),
        },
        1..=5 => {
            let transaction = forged_begun(random, &store);
            Request::Advance {
                transaction,
                now: clock_for_step(random, transaction.number, &store.records),
            }
        }
        6 | 7 => closes::of_forged(random, &sheets),
        8 | 9 if layout == Layout::Two => crossed(random, &store),
        _ => stray(random, &[], &store),
    };
    (request, sheets)
}

fn on_halfway(random: &mut Random, layout: Layout) -> (Request, Sheets) {
    let mut sheets = sheets::spread(random);
    letters(random, layout, &mut sheets);
    let sheets = halfway::halfway(random, sheets);
    (halfway::asking(random, &sheets), sheets)
}

/// A step of an order that has lost a key, or any call where none may go.
fn too_late(random: &mut Random, layout: Layout) -> (Request, Sheets) {
    let mut sheets = adding::roomy(random);
    letters(random, layout, &mut sheets);
    let mut before = sheets.clone();
    let calls = adding::too_late(random, &mut sheets);
    let Some((step, others)) = calls.split_last() else {
        return (stray(random, &[], &before.store()), before);
    };
    for call in others {
        // An order may have no other line to prepare.
        before.ask_either_case(*call).ok();
    }
    (*step, before)
}

/// A check of sheets of every kind.
pub fn check(random: &mut Random, layout: Layout) -> (Call, Lent) {
    let sheets = any_sheets(random, layout);
    (Call::Check, without_list(sheets))
}

/// The look-up of a line's place.
pub fn lookup(random: &mut Random, layout: Layout) -> (Call, Lent) {
    let (key, sheets) = sought(random, layout);
    (Call::Lookup { key }, without_list(sheets))
}

/// An adding or a removing, at times on damaged sheets.
pub fn added(random: &mut Random, layout: Layout) -> (Call, Lent) {
    let mut sheets = adding::with_room(random);
    letters(random, layout, &mut sheets);
    let request = add_or_remove(random, &[], &sheets.store());
    let call = exported(random, layout, &request, &[], sheets);
    spoilt(random, 5, call)
}

pub fn rank(random: &mut Random, layout: Layout) -> Ranked {
    let (key, sheets) = sought(random, layout);
    Ranked::new(sheets, key, target(random))
}

/// A key, and sheets of every kind to look it up in. Some have so many lines that a rank takes more than a byte.
fn sought(random: &mut Random, layout: Layout) -> (Key, LaidOut) {
    let sheets = match random.once_in(12) {
        true => sheets::of_size(random, MANY_LINES, Mix::Settled),
        false => accepted(random, layout),
    };
    let records = sheets.store().records;
    match random.once_in(3) {
        true => {
            let key = sought_key(random, 4, &records);
            (key, damaged_sheets(random, layout, sheets))
        }
        false => {
            let key = sought_key(random, 16, &records);
            (key, LaidOut::of(layout, sheets))
        }
    }
}

pub fn without_list(sheets: LaidOut) -> Lent {
    let list = Vec::new();
    Lent { sheets, list }
}

fn accepted(random: &mut Random, layout: Layout) -> Sheets {
    let mut sheets = sheets::accepted(random);
    letters(random, layout, &mut sheets);
    sheets
}

/// Accepted sheets, and more often damaged or forged ones.
fn any_sheets(random: &mut Random, layout: Layout) -> LaidOut {
    if layout == Layout::Joined {
        return LaidOut::Joined(any(random));
    }
    let sheets = accepted(random, layout);
    match random.once_in(4) {
        true => LaidOut::of(layout, sheets),
        false => damaged_sheets(random, layout, sheets),
    }
}

/// The request as a function for C takes it. On the joined sheet begin has one beside that by place.
fn exported(
    random: &mut Random,
    layout: Layout,
    request: &Request,
    others: &[Transaction],
    sheets: Sheets,
) -> (Call, Lent) {
    let store = sheets.store();
    let (list, place) = list_for(random, request, others, &store);
    let call = match request {
        Request::Visit { key, now } => Call::Visit {
            key: *key,
            now: *now,
        },
        Request::Add { key } => Call::Add { key: *key },
        Request::Remove { key } => Call::Remove { key: *key },
        Request::Begin { .. } if layout == Layout::Joined && random.once_in(3) => Call::Begin,
        _ => {
            let asked = asked(random, request, &store.records);
            Call::At { place, asked }
        }
    };
    let sheets = LaidOut::of(layout, sheets);
    (call, Lent { sheets, list })
}

/// A list for the request, and the place that it names. What stands where a begin puts the new one doesn't matter.
fn list_for(
    random: &mut Random,
    request: &Request,
    others: &[Transaction],
    store: &Store,
) -> (Vec<Transaction>, usize) {
    let taken = match request.taken() {
        Some(taken) => *taken,
        None => other(random, Transaction::begun(1, true), others, store),
    };
    list_of(random, taken, others, store)
}

/// The same call, but once in so many times the sheets are damaged or forged, and seldom there is none of its number. Where
/// the sheets go before that it comes more often, and the list is too long at times.
fn spoilt(random: &mut Random, times: usize, (mut call, mut lent): (Call, Lent)) -> (Call, Lent) {
    let layout = lent.sheets.layout();
    let damaged = random.once_in(times);
    if damaged {
        lent.sheets = damaged_sheets(random, layout, lent.sheets.joined());
    }
    if let Call::At { asked, .. } = &mut call {
        match random.below(if damaged { 6 } else { 30 }) {
            0 => *asked = no_call(random, layout, *asked),
            1 if damaged => lent.list.resize(MOST_LISTED + 1, unused()),
            _ => {}
        }
    }
    (call, lent)
}
