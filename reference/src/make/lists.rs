//! Lists of transactions as clients lend them, and what is asked of one of them by its place.

use super::arguments::{any_key, clock, columns, limit};
use super::random::Random;
use super::transactions::forged;
use crate::plain::by_place::{self, Asked};
use crate::plain::record::Record;
use crate::plain::request::Request;
use crate::plain::store::Store;
use crate::plain::transaction::{Transaction, MOST_LISTED};
use crate::replay::Layout;

/// Numbers of no call, some of which would be one if their higher bits were lost. The first is one on two sheets.
const NO_CALL: [u32; 8] = [
    by_place::SECOND,
    by_place::CALLS,
    9,
    256,
    65_538,
    1 << 31,
    u32::MAX - 1,
    u32::MAX,
];

/// A place that no call has used.
pub fn unused() -> Transaction {
    Transaction::begun(0, false)
}

/// A list with this transaction among others of every kind, and its place. The list may be empty or too long, and the
/// place seldom lies beyond it.
pub fn list_of(
    random: &mut Random,
    taken: Transaction,
    others: &[Transaction],
    store: &Store,
) -> (Vec<Transaction>, usize) {
    let length = random.below(MOST_LISTED + 2);
    let other = |_| other(random, taken, others, store);
    let mut list: Vec<Transaction> = (0..length).map(other).collect();
    if length == 0 || random.once_in(16) {
        return (list, beyond(random, length));
    }
    let place = random.below(length);
    list[place] = taken;
    (list, place)
}

/// A place outside a list of this length; one of them would be inside if its higher bits were lost.
pub fn beyond(random: &mut Random, length: usize) -> usize {
    random.pick(&[length, length, length + 1, 1 << 32, usize::MAX])
}

/// One that the call must leave as it is: unused, in the phase that some call left it in, or forged.
pub fn other(
    random: &mut Random,
    taken: Transaction,
    others: &[Transaction],
    store: &Store,
) -> Transaction {
    match random.below(3) {
        0 => unused(),
        1 if !others.is_empty() => random.pick(others),
        _ => forged(random, taken, store),
    }
}

/// What a request asks of the one at a place, as numbers; those that its call doesn't take are any.
pub fn asked(random: &mut Random, request: &Request, records: &[Record]) -> Asked {
    let mut asked = Asked {
        call: number_of(request),
        key: any_key(random, records),
        columns: columns(random, true),
        now: clock(random, records),
        limit: limit(random),
    };
    match *request {
        Request::Read { key, now, .. } => (asked.key, asked.now) = (key, now),
        Request::Second {
            key, now, columns, ..
        } => (asked.key, asked.now, asked.columns) = (key, now, columns),
        Request::Put { key, columns, .. } => (asked.key, asked.columns) = (key, columns),
        Request::Advance { now, .. } => asked.now = now,
        Request::Close { now, limit, .. } => (asked.now, asked.limit) = (now, limit),
        Request::Begin { .. }
        | Request::Abort { .. }
        | Request::Visit { .. }
        | Request::Add { .. }
        | Request::Remove { .. } => {}
    }
    asked
}

/// The number of a request's call; any of one that isn't by place.
fn number_of(request: &Request) -> u32 {
    match request {
        Request::Begin {
            serializable: false,
        } => by_place::BEGIN,
        Request::Begin { serializable: true } => by_place::BEGIN_CHECKED,
        Request::Read { .. } => by_place::READ,
        Request::Put { .. } => by_place::PUT,
        Request::Advance { .. } => by_place::ADVANCE,
        Request::Abort { .. }
        | Request::Visit { .. }
        | Request::Add { .. }
        | Request::Remove { .. } => by_place::ABORT,
        Request::Close { .. } => by_place::CLOSE,
        Request::Second { .. } => by_place::SECOND,
    }
}

/// The same under a number of no call.
pub fn no_call(random: &mut Random, layout: Layout, asked: Asked) -> Asked {
    let numbers = match layout {
        Layout::Joined => &NO_CALL[..],
        Layout::Two => &NO_CALL[1..],
    };
    Asked {
        call: random.pick(numbers),
        ..asked
    }
}
