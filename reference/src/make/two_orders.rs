//! Orders on two sheets from their first read to their end, with other calls between: what was read under a small letter may
//! not be there any more.

use super::arguments::{columns, prepared};
use super::closes::{advance, after, visit_late};
use super::orders::{number, order};
use super::random::Random;
use super::requests::stray;
use super::transactions::{full, other_columns};
use super::Sheets;
use crate::plain::record::Record;
use crate::plain::request::Request;
use crate::plain::steps::to_validate;
use crate::plain::store::Store;
use crate::plain::transaction::{Transaction, CHECK, DONE, PREPARE};

/// The calls of an order, and those that come between, in turn. The sheets are left as the calls leave them.
pub fn calls(random: &mut Random, sheets: &mut Sheets) -> Vec<Request> {
    let number = number(random, &sheets.store());
    let mut run = Run {
        order: Transaction::begun(number, random.once_in(3)),
        calls: Vec::new(),
        sheets,
    };
    for _ in 0..1 + random.below(3) {
        run.read(random);
    }
    if random.once_in(3) {
        run.check_out_of_turn(random);
    }
    run.puts(random);
    if random.once_in(4) {
        run.misremember(random);
    }
    for _ in 0..2 + random.below(8) {
        run.between(random, 8);
        let step = advance(random, run.order, &run.sheets.store().records);
        run.ask(step);
        if run.order.phase == DONE {
            break;
        }
    }
    run.calls
}

struct Run<'a> {
    order: Transaction,
    calls: Vec<Request>,
    sheets: &'a mut Sheets,
}

impl Run<'_> {
    /// Makes a call of the order, or one that is none of its.
    fn ask(&mut self, request: Request) {
        let other = request.taken().is_some_and(|taken| *taken != self.order);
        let returned = after(&request, self.order, self.sheets);
        if !other {
            self.order = returned;
        }
        self.calls.push(request);
    }

    /// Once in so many times another order prepares its first lines, one that has expired is aborted, or anything happens.
    fn between(&mut self, random: &mut Random, times: usize) {
        if !random.once_in(times) {
            return;
        }
        let store = self.sheets.store();
        let request = match random.below(4) {
            0 => {
                let other = order(random, &store).entering(PREPARE);
                advance(random, other, &store.records)
            }
            1 => visit_late(random, &store.records),
            2 => crossed(random, &store),
            _ => stray(random, &[], &store),
        };
        self.ask(request);
    }

    /// Reads a line in one call or two. The second brings the columns that the first found, most often.
    fn read(&mut self, random: &mut Random) {
        let records = self.sheets.store().records;
        if records.is_empty() {
            return;
        }
        let line = random.pick(&records);
        let (key, now) = (line.key, random.figure(0, u32::MAX));
        if !random.once_in(4) {
            self.ask(Request::Read {
                transaction: self.order,
                key,
                now,
            });
        }
        for _ in 0..2 {
            self.between(random, 4);
        }
        let columns = match random.once_in(8) {
            true => columns(random, false),
            false => line.image.columns(),
        };
        self.ask(Request::Second {
            transaction: self.order,
            key,
            now,
            columns,
        });
    }

    /// Puts to some keys, at times to those under capital letters only.
    fn puts(&mut self, random: &mut Random) {
        let coordinator = self.sheets.store().coordinator;
        let capital_only = random.once_in(3);
        for entry in self.order.held().to_vec() {
            let barred = capital_only && coordinator.is_small(entry.key.storage);
            if barred || random.once_in(3) {
                continue;
            }
            self.ask(Request::Put {
                transaction: self.order,
                key: entry.key,
                columns: columns(random, false),
            });
        }
    }

    /// A step of the order as if it were in check already, at any place, often the one after the last.
    fn check_out_of_turn(&mut self, random: &mut Random) {
        let store = self.sheets.store();
        let places = to_validate(&self.order, &store.coordinator).len();
        let place = match random.once_in(2) {
            true => places,
            false => random.below(places + 1),
        };
        let in_check = Transaction {
            place: place as u32,
            ..self.order.entering(CHECK)
        };
        let step = advance(random, in_check, &store.records);
        self.ask(step);
    }

    /// The order holds other columns than it has read, of a line that there is.
    fn misremember(&mut self, random: &mut Random) {
        let count = self.order.count as usize;
        if count > 0 {
            let entry = &mut self.order.entries[random.below(count)];
            other_columns(random, entry);
        }
    }
}

/// A second call of a PREPARED line under a small letter that has just not expired, with a column too large or by one that may
/// hold no more: of several refusals one goes first.
pub fn crossed(random: &mut Random, store: &Store) -> Request {
    let mut lines = prepared(&store.records);
    lines.retain(|line| store.coordinator.is_small(line.key.storage));
    if lines.is_empty() {
        return stray(random, &[], store);
    }
    let line = random.pick(&lines);
    let others = store.records.iter().filter(|other| other.key != line.key);
    let others: Vec<Record> = others.copied().collect();
    let reader = Transaction::begun(number(random, store), false);
    let transaction = match others.is_empty() || random.once_in(2) {
        true => reader,
        false => full(random, reader, &others),
    };
    let (ticks, wrong) = (random.pick(&[0, 14_999]), random.once_in(2));
    Request::Second {
        transaction,
        key: line.key,
        now: line.prepare_clock.wrapping_add(ticks),
        columns: columns(random, wrong),
    }
}
