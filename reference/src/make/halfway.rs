//! Sheets with orders that stopped half-way, their lines prepared one by one at clocks of their own, and calls that ask whether
//! such an order has expired.

use super::arguments::{clock_for, prepared};
use super::closes::{advance, after};
use super::expiry::expired_reading;
use super::orders::order;
use super::random::Random;
use super::requests::{read, visit};
use super::Sheets;
use crate::plain::record::Record;
use crate::plain::request::Request;
use crate::plain::transaction::{Transaction, OPEN, PREPARE};

/// These sheets with one or two such orders, or seldom none.
pub fn halfway(random: &mut Random, mut sheets: Sheets) -> Sheets {
    for _ in 0..1 + random.below(2) {
        let mut order = order(random, &sheets.store());
        let lines = 2 + random.below(4);
        for _ in 0..=lines {
            if matches!(order.phase, OPEN | PREPARE) {
                let request = advance(random, order, &sheets.store().records);
                order = after(&request, order, &mut sheets);
            }
        }
    }
    sheets
}

/// A visit or a read of a PREPARED line, near an edge of a line of its number or where the number has expired.
pub fn asking(random: &mut Random, sheets: &Sheets) -> Request {
    let store = sheets.store();
    let records = &store.records;
    let lines = prepared(records);
    if lines.is_empty() {
        return visit(random, records);
    }
    let line = random.pick(&lines);
    let key = line.key;
    let now = reading(random, line, records);
    match random.once_in(2) {
        true => Request::Visit { key, now },
        false => {
            let reader = reader(random, store.coordinator.issued);
            read(random, reader, key, now, &store)
        }
    }
}

fn reading(random: &mut Random, line: &Record, records: &[Record]) -> u32 {
    let expired = match random.once_in(3) {
        true => expired_reading(random, records, line.image.tx_id),
        false => None,
    };
    expired.unwrap_or_else(|| clock_for(random, &line.key, records))
}

/// A transaction that holds nothing yet.
fn reader(random: &mut Random, issued: u32) -> Transaction {
    let number = 1 + random.below(issued as usize) as u32;
    Transaction::begun(number, random.once_in(2))
}
