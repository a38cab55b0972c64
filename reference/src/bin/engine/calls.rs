//! The exported calls by the engine.

use super::two;
use reference::exported::{Call, Lent};
use reference::make::{Sheets, TwoSheets};
use reference::plain::transaction::Transaction;
use reference::replay::laid_out::LaidOut;

/// Makes the call and answers as it does.
pub fn by_engine(call: &Call, lent: &mut Lent) -> u64 {
    let Lent { sheets, list } = lent;
    match sheets {
        LaidOut::Joined(sheets) => on_joined(call, list, sheets).into(),
        LaidOut::Two(sheets) => on_two(call, list, sheets),
    }
}

fn on_joined(call: &Call, list: &mut [Transaction], sheets: &mut Sheets) -> u32 {
    let (records, coordinator) = (&mut sheets.records, &mut sheets.coordinator);
    match call {
        Call::Check => super::check(records, coordinator),
        Call::Begin => super::begin(records, coordinator),
        Call::Visit { key, now } => super::visit(records, coordinator, *key, *now),
        Call::Add { key } => super::add(records, coordinator, *key),
        Call::Remove { key } => super::remove(records, coordinator, *key),
        Call::At { place, asked } => super::call_at(list, *place, records, coordinator, asked),
        Call::Lookup { key } => super::lookup(records, *key),
        Call::Version => super::version(),
    }
}

fn on_two(call: &Call, list: &mut [Transaction], sheets: &mut TwoSheets) -> u64 {
    match call {
        Call::Check => two::check(sheets).into(),
        Call::Visit { key, now } => two::visit(sheets, *key, *now).into(),
        Call::Add { key } => two::add(sheets, *key).into(),
        Call::Remove { key } => two::remove(sheets, *key).into(),
        Call::At { place, asked } => two::call_at(list, *place, sheets, asked),
        Call::Lookup { key } => two::lookup(sheets, *key).into(),
        Call::Begin | Call::Version => panic!("not a call on two sheets: {call:?}"),
    }
}
