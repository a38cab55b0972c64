//! The visits that close a history, and before them the closes by clients whose numbers no visit can decide.

use super::arguments::clock;
use super::expiry::expired_reading;
use super::history::Event;
use super::random::Random;
use super::Sheets;
use crate::plain::coordinator::Decision;
use crate::plain::record::{Record, State};
use crate::plain::request::Request;
use crate::plain::store::Store;
use crate::plain::transaction::Transaction;

/// Visits every line two or three times in any order, each time with another reading. At an undecided line's its number has
/// expired, if there is such a reading.
pub fn close(random: &mut Random, sheets: &mut Sheets) -> Vec<Event> {
    let lines = sheets.store().records.len();
    let mut left: Vec<usize> = (0..lines)
        .flat_map(|place| vec![place; 2 + random.below(2)])
        .collect();
    let mut events = Vec::new();
    while !left.is_empty() {
        let place = left.swap_remove(random.below(left.len()));
        let request = visit(random, &sheets.store(), place);
        events.push(Event::make(request, sheets));
    }
    events
}

fn visit(random: &mut Random, store: &Store, place: usize) -> Request {
    let record = &store.records[place];
    let expired = match is_undecided(store, record) {
        true => expired_reading(random, &store.records, record.image.tx_id),
        false => None,
    };
    Request::Visit {
        key: record.key,
        now: expired.unwrap_or_else(|| clock(random, &store.records)),
    }
}

fn is_undecided(store: &Store, record: &Record) -> bool {
    record.state == State::Prepared && store.decision(record.image.tx_id) == Decision::Undecided
}

/// The close by which a client decides its own number. More writes than the limit no order takes.
pub fn own_close(random: &mut Random, transaction: Transaction, records: &[Record]) -> Request {
    Request::Close {
        transaction,
        now: clock(random, records),
        limit: random.pick(&[17, 18, u32::MAX]),
    }
}
