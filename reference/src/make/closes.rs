//! Closes with limits that matter to them, of orders and of forged transactions.

use super::arguments::{limit, prepared};
use super::expiry::{clock_for_step, expired_reading};
use super::orders::order;
use super::random::Random;
use super::requests::visit;
use super::sheets::spread;
use super::transactions::forged_begun;
use super::two_sheets::letters;
use super::Sheets;
use crate::plain::record::Record;
use crate::plain::request::{Answer, Request};
use crate::plain::transaction::*;
use crate::replay::Layout;

/// Phases for an order that is under way, those more often of which there is more to see.
const WANTED: [u32; 10] = [
    OPEN, OPEN, OPEN, OPEN, PREPARE, CHECK, CHECK, DECIDE, FINISH, UNDO,
];

/// A close that stops before any of its writes, or goes on to the end; seldom with any other limit.
fn close(random: &mut Random, transaction: Transaction, sheets: &Sheets) -> Request {
    let now = clock_for_step(random, transaction.number, &sheets.store().records);
    let close = |limit| Request::Close {
        transaction,
        now,
        limit,
    };
    let writes = match sheets.clone().ask_either_case(close(u32::MAX)) {
        Ok(Answer::Closed(_, writes)) => writes,
        _ => 0,
    };
    close(match random.below(9) {
        0 | 1 => limit(random),
        2 => 0,
        3 => writes.saturating_sub(1),
        4 => writes,
        _ => random.below(writes as usize + 2) as u32,
    })
}

/// A close of a forged transaction.
pub fn of_forged(random: &mut Random, sheets: &Sheets) -> Request {
    let transaction = forged_begun(random, &sheets.store());
    close(random, transaction, sheets)
}

/// What happens to an order: for the most part it is closed; at times it is advanced or aborted, or lines are visited, so
/// that a group of it may be rolled already.
pub fn next(random: &mut Random, transaction: Transaction, sheets: &Sheets) -> Request {
    let records = sheets.store().records;
    match random.below(12) {
        0 => visit(random, &records),
        1 => visit_late(random, &records),
        2 => advance(random, transaction, &records),
        3 => Request::Abort { transaction },
        _ => close(random, transaction, sheets),
    }
}

pub fn advance(random: &mut Random, transaction: Transaction, records: &[Record]) -> Request {
    Request::Advance {
        transaction,
        now: clock_for_step(random, transaction.number, records),
    }
}

/// A visit of a PREPARED line at a reading at which its number has expired, which aborts an undecided order; any visit where
/// there is none.
pub fn visit_late(random: &mut Random, records: &[Record]) -> Request {
    let lines = prepared(records);
    if lines.is_empty() {
        return visit(random, records);
    }
    let line = random.pick(&lines);
    match expired_reading(random, records, line.image.tx_id) {
        Some(now) => Request::Visit { key: line.key, now },
        None => visit(random, records),
    }
}

/// The transaction after the request, the same one where it was refused or is none of its calls.
pub fn after(request: &Request, transaction: Transaction, sheets: &mut Sheets) -> Transaction {
    let answer = sheets.ask_either_case(*request).ok();
    let returned = answer.and_then(|answer| answer.returned().copied());
    returned.unwrap_or(transaction)
}

/// An order that advances have brought to any phase, and to which something else has happened at times.
pub fn under_way(random: &mut Random, sheets: &mut Sheets) -> Transaction {
    let mut order = order(random, &sheets.store());
    let wanted = random.pick(&WANTED);
    // Many an order never comes to the phase wanted, and none takes so many steps.
    for _ in 0..20 {
        if order.phase == wanted && !random.once_in(4) {
            break;
        }
        let request = advance(random, order, &sheets.store().records);
        order = after(&request, order, sheets);
    }
    let request = match random.below(6) {
        0 | 1 => visit_late(random, &sheets.store().records),
        2 => next(random, order, sheets),
        _ => return order,
    };
    after(&request, order, sheets)
}

/// A close of an order on sheets of its own.
pub fn of_order(random: &mut Random, layout: Layout) -> (Request, Sheets) {
    let mut sheets = spread(random);
    letters(random, layout, &mut sheets);
    let order = under_way(random, &mut sheets);
    let request = close(random, order, &sheets);
    (request, sheets)
}
