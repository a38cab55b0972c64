//! Adding and removing: keys for which it goes through or is refused, sheets on which it matters where a line stands and how
//! many spares there are, and orders whose keys come and go between their calls.

use super::arguments::{any_key, close_keys, columns, sought_key};
use super::closes::{advance, after};
use super::damage::RECORD_LINE;
use super::expiry::lines_of;
use super::orders::{number, order};
use super::random::Random;
use super::sheets::{crowded, of_size, spread, with_keys, Mix, Size};
use super::spares::{blank_all, end_in_spares, fill_up};
use super::transactions::number_for;
use super::Sheets;
use crate::plain::groups::{groups, share_unit};
use crate::plain::key::Key;
use crate::plain::record::{Record, State, MOST_LINES};
use crate::plain::request::Request;
use crate::plain::steps::to_validate;
use crate::plain::store::Store;
use crate::plain::transaction::*;

/// Adds a key or removes one. Keys that transactions hold come and go more often than others.
pub fn add_or_remove(random: &mut Random, held: &[Key], store: &Store) -> Request {
    match random.once_in(2) {
        true => Request::Add {
            key: key_to_add(random, held, store),
        },
        false => Request::Remove {
            key: key_to_remove(random, held, store),
        },
    }
}

/// A key without a line, most often.
fn key_to_add(random: &mut Random, held: &[Key], store: &Store) -> Key {
    let missing = held.iter().filter(|key| !store.has_line(key));
    let missing: Vec<Key> = missing.copied().collect();
    match random.below(12) {
        0 | 1 => any_key(random, &store.records),
        2 => sought_key(random, 4, &store.records),
        3..=8 if !missing.is_empty() => random.pick(&missing),
        _ => new_key(random, store),
    }
}

/// The key of an ABSENT line of version 0, most often.
fn key_to_remove(random: &mut Random, held: &[Key], store: &Store) -> Key {
    let removable = removable(&store.records);
    let own: Vec<Key> = removable
        .iter()
        .copied()
        .filter(|k| held.contains(k))
        .collect();
    match random.below(12) {
        0 | 1 => any_key(random, &store.records),
        2 => sought_key(random, 4, &store.records),
        3..=8 if !own.is_empty() => random.pick(&own),
        _ if !removable.is_empty() => random.pick(&removable),
        _ => any_key(random, &store.records),
    }
}

/// The keys of the ABSENT lines of version 0.
fn removable(records: &[Record]) -> Vec<Key> {
    let blank = |line: &&Record| line.state == State::Absent && line.image.version == 0;
    let lines = records.iter().filter(blank);
    lines.map(|line| line.key).collect()
}

/// A key in range that most often has no line: before all others, behind them, or beside one.
fn new_key(random: &mut Random, store: &Store) -> Key {
    let mut tried = (0..4).map(|_| match random.below(8) {
        0 => Key::from_numbers([1, 1, 1, 0, random.below(3) as u32]),
        1 => Key::from_numbers([9, 99, 99, 99_999, 99_999 - random.below(3) as u32]),
        _ => sought_key(random, 16, &store.records),
    });
    let new = tried.find(|key| key.in_range() && !store.has_line(key));
    new.unwrap_or(Key::from_numbers([1; 5]))
}

/// Sheets for adding and removing: most often of some lines and spares; spares only, one line, or seldom 500 lines.
pub fn with_room(random: &mut Random) -> Sheets {
    match random.below(24) {
        0 | 1 => {
            let mut sheets = crowded(random);
            blank_all(&mut sheets.records, RECORD_LINE);
            sheets
        }
        2..=4 => one_line(random),
        5..=7 => full(random),
        8..=14 => {
            let mut sheets = crowded(random);
            end_in_spares(random, 3, &mut sheets);
            sheets
        }
        _ => roomy(random),
    }
}

/// Lines that aren't PREPARED, each a unit of its own or all of a storage together, and at least one spare.
pub fn roomy(random: &mut Random) -> Sheets {
    let mut sheets = spread(random);
    if random.once_in(2) {
        sheets.coordinator[5..14].fill(b'S');
    }
    end_in_spares(random, 1, &mut sheets);
    sheets
}

fn one_line(random: &mut Random) -> Sheets {
    let size = Size {
        records: 1,
        decisions: 2,
        issued: 1,
    };
    let keys = close_keys(random, 1);
    let mut sheets = with_keys(random, &keys, size, Mix::Settled);
    end_in_spares(random, 2, &mut sheets);
    sheets
}

/// As many lines as there may be, with no spare among them, one or many.
pub fn full(random: &mut Random) -> Sheets {
    let spares = random.pick(&[0, 0, 0, 1, 1, 1, 2, 100, 499]);
    let size = Size {
        records: MOST_LINES - spares,
        decisions: 3,
        issued: 2,
    };
    let mut sheets = of_size(random, size, Mix::Settled);
    fill_up(&mut sheets.records, RECORD_LINE, MOST_LINES);
    sheets
}

/// Some calls that add and remove. Without a spare or a line it matters what goes first.
pub fn alone(random: &mut Random, sheets: &mut Sheets) -> Vec<Request> {
    let mut calls = Vec::new();
    for _ in 0..2 + random.below(4) {
        let request = add_or_remove(random, &[], &sheets.store());
        let accepted = sheets.ask_either_case(request).is_ok();
        calls.push(request);
        // What was added goes again at times, so that the only line does too.
        if let (Request::Add { key }, true, true) = (request, accepted, random.once_in(3)) {
            let remove = Request::Remove { key };
            sheets.ask_either_case(remove).expect("it was added");
            calls.push(remove);
        }
    }
    calls
}

/// The calls of an order, and between them those by which its keys come and go. The sheets are left as the calls leave them.
pub fn calls(random: &mut Random, sheets: &mut Sheets) -> Vec<Request> {
    let number = number(random, &sheets.store());
    // It prepares as much as it can and is aborted then, so that there is something to undo.
    let turns_back = random.once_in(3);
    let mut run = Run {
        order: Transaction::begun(number, turns_back || random.once_in(2)),
        calls: Vec::new(),
        sheets,
    };
    let (reads, steps) = match turns_back {
        true => (4, 12),
        false => (1 + random.below(3), 3 + random.below(10)),
    };
    for _ in 0..reads {
        run.read(random);
    }
    run.put(random);
    for _ in 0..steps {
        run.come_and_go(random);
        if turns_back && matches!(run.order.phase, CHECK | DECIDE) {
            let transaction = run.order;
            run.ask(Request::Abort { transaction });
        }
        if run.order.phase == UNDO {
            run.go_after_visit(random);
        }
        let step = advance(random, run.order, &run.sheets.store().records);
        run.ask(step);
        if run.order.phase == DONE {
            break;
        }
    }
    run.calls
}

/// An order loses a key, and makes a step in a phase that looks at that key's line next; no calls where none may go. Before
/// finish and undo the other lines of the group are prepared, so that there is something to roll.
pub fn too_late(random: &mut Random, sheets: &mut Sheets) -> Vec<Request> {
    let store = sheets.store();
    let order = order(random, &store);
    let held = |key: &Key| order.place_of(key).is_some();
    let own = removable(&store.records).into_iter();
    let own: Vec<Key> = own.filter(held).collect();
    if own.is_empty() {
        return Vec::new();
    }
    let key = random.pick(&own);
    let order = looking_at(random, order, &key, &store);
    let mut calls = vec![Request::Remove { key }];
    if matches!(order.phase, FINISH | UNDO) {
        let others = without(order, &key);
        let prepare = others.entering(PREPARE).with_verdict(NO_VERDICT);
        calls.push(advance(
            random,
            at_group_of(prepare, &key, &store),
            &store.records,
        ));
    }
    calls.push(advance(random, order, &store.records));
    for call in &calls {
        after(call, order, sheets);
    }
    calls
}

/// The order as if it had never read the key.
fn without(mut order: Transaction, key: &Key) -> Transaction {
    let others = order.held().iter().filter(|entry| entry.key != *key);
    let others: Vec<Entry> = others.copied().collect();
    order.entries[..others.len()].copy_from_slice(&others);
    order.count = others.len() as u32;
    order
}

/// The order at the place of the group that shares a unit with the key, if there is one.
fn at_group_of(mut order: Transaction, key: &Key, store: &Store) -> Transaction {
    let units = &store.coordinator.units;
    let groups = groups(&order, units);
    let place = groups
        .iter()
        .position(|group| share_unit(units, &group[0].key, key));
    order.place = place.unwrap_or(0) as u32;
    order
}

/// The order in a phase that looks at the key's line next, if it has a put where the phase wants one.
fn looking_at(random: &mut Random, order: Transaction, key: &Key, store: &Store) -> Transaction {
    let phase = random.pick(&[OPEN, PREPARE, CHECK, FINISH, FINISH, UNDO, UNDO]);
    let verdict = match phase {
        FINISH => COMMITTED,
        UNDO => ABORTED,
        _ => NO_VERDICT,
    };
    let number = number_for(random, phase, store);
    let mut order = Transaction {
        number: number.unwrap_or(order.number),
        ..order.entering(phase).with_verdict(verdict)
    };
    match phase {
        OPEN => order,
        CHECK => {
            let entries = to_validate(&order, &store.coordinator);
            let place = entries.iter().position(|entry| entry.key == *key);
            order.place = place.unwrap_or(0) as u32;
            order
        }
        _ => at_group_of(order, key, store),
    }
}

struct Run<'a> {
    order: Transaction,
    calls: Vec<Request>,
    sheets: &'a mut Sheets,
}

impl Run<'_> {
    fn ask(&mut self, request: Request) {
        self.order = after(&request, self.order, self.sheets);
        self.calls.push(request);
    }

    /// The keys that the order holds.
    fn held(&self) -> Vec<Key> {
        self.order.held().iter().map(|entry| entry.key).collect()
    }

    /// Reads a line, one that may be removed most often, in as many calls as it takes. The key may go between them.
    fn read(&mut self, random: &mut Random) {
        let records = self.sheets.store().records;
        let removable = removable(&records);
        let key = match removable.is_empty() || random.once_in(4) {
            true => any_key(random, &records),
            false => random.pick(&removable),
        };
        let (transaction, now) = (self.order, random.figure(0, u32::MAX));
        self.ask(Request::Read {
            transaction,
            key,
            now,
        });
        let is_small = key.in_range() && self.sheets.store().coordinator.is_small(key.storage);
        if is_small && self.order.place_of(&key).is_none() {
            if random.once_in(8) {
                self.ask(Request::Remove { key });
            }
            let line = records.iter().find(|line| line.key == key);
            self.ask(Request::Second {
                transaction,
                key,
                now,
                columns: line.map_or([0, 0], |line| line.image.columns()),
            });
        }
    }

    /// Puts to most keys, which may have gone.
    fn put(&mut self, random: &mut Random) {
        for key in self.held() {
            if random.once_in(4) {
                self.ask(Request::Remove { key });
                self.read_or_add(random, key);
            }
            if !random.once_in(3) {
                let columns = columns(random, false);
                let transaction = self.order;
                self.ask(Request::Put {
                    transaction,
                    key,
                    columns,
                });
            }
        }
    }

    /// A line that the order has prepared is rolled back by a visit and goes, before the order itself undoes it.
    fn go_after_visit(&mut self, random: &mut Random) {
        let records = self.sheets.store().records;
        let own = lines_of(&records, self.order.number);
        if own.is_empty() {
            return;
        }
        let key = random.pick(&own).key;
        self.ask(Request::Visit { key, now: 0 });
        self.ask(Request::Remove { key });
    }

    /// A key of the order goes or comes back, or another key does.
    fn come_and_go(&mut self, random: &mut Random) {
        if random.once_in(2) {
            return;
        }
        let store = self.sheets.store();
        let held = self.held();
        let request = add_or_remove(random, &held, &store);
        self.ask(request);
        if let Request::Remove { key } = request {
            self.read_or_add(random, key);
        }
    }

    /// A key that has gone is read, or comes back at once, or neither.
    fn read_or_add(&mut self, random: &mut Random, key: Key) {
        match random.below(4) {
            0 => {
                let (transaction, now) = (self.order, 0);
                self.ask(Request::Read {
                    transaction,
                    key,
                    now,
                });
            }
            1 | 2 => self.ask(Request::Add { key }),
            _ => {}
        }
    }
}
