//! The calls that are exported for C: each answers with one number and may change the memory lent. Which function it is goes
//! by the sheets, joined or two; begin has one of its own on the joined sheet only.

use crate::make::Sheets;
use crate::plain::by_place::{self, Asked};
use crate::plain::key::Key;
use crate::plain::rank::tell;
use crate::plain::request::{Answer, Request};
use crate::plain::store::Visit;
use crate::plain::transaction::Transaction;
use crate::plain::written::written;
use crate::replay::laid_out::LaidOut;
use crate::{fast, plain};

/// What a call is lent.
#[derive(Clone, Debug, PartialEq, Eq)]
pub struct Lent {
    pub sheets: LaidOut,
    pub list: Vec<Transaction>,
}

#[derive(Clone, Copy, Debug, PartialEq, Eq)]
pub enum Call {
    Check,
    /// Of a transaction that isn't checked.
    Begin,
    Visit {
        key: Key,
        now: u32,
    },
    Add {
        key: Key,
    },
    Remove {
        key: Key,
    },
    /// Any call of the one at this place of the list.
    At {
        place: usize,
        asked: Asked,
    },
    /// The place of the key's line.
    Lookup {
        key: Key,
    },
    Version,
}

/// The refusal of an answer, 0 of an accepted call. Check, add and remove answer with the refusal itself.
pub fn refusal_of(call: &Call, answer: u64) -> u32 {
    match (call, answer) {
        (Call::Check | Call::Add { .. } | Call::Remove { .. }, refusal) => refusal as u32,
        (Call::Version, _) => 0,
        (_, 1_000..by_place::FIRST) => answer as u32 - 1_000,
        _ => 0,
    }
}

/// 0 of an accepted call, or the refusal.
fn refusal<T>(answer: Result<T, u32>) -> u64 {
    answer.err().unwrap_or(plain::ACCEPTED).into()
}

/// What an accepted call gives, or 1000 and the refusal.
fn number<T: From<u32>>(answer: Result<T, u32>) -> T {
    answer.unwrap_or_else(|refusal| T::from(1_000 + refusal))
}

fn visit_number(visit: Visit) -> u64 {
    match visit {
        Visit::Stays => 0,
        Visit::Forward => 1,
        Visit::Back => 2,
        Visit::Again => 3,
    }
}

/// What a begin or a visit gives: the number issued, or what was done; 0 of add and remove.
fn answer_number(answer: Answer) -> u64 {
    match answer {
        Answer::Visited(visit) => visit_number(visit),
        Answer::Done => 0,
        Answer::Returned(t) | Answer::Read(t, _) | Answer::Closed(t, _) => t.number.into(),
    }
}

pub fn by_plain(call: &Call, lent: &mut Lent) -> u64 {
    let Lent { sheets, list } = lent;
    match *call {
        Call::Check => sheets.check().into(),
        Call::Begin => {
            let begin = Request::Begin {
                serializable: false,
            };
            number(sheets.ask(begin).map(answer_number))
        }
        Call::Visit { key, now } => {
            let visit = Request::Visit { key, now };
            number(sheets.ask(visit).map(answer_number))
        }
        Call::Add { key } => refusal(sheets.ask(Request::Add { key })),
        Call::Remove { key } => refusal(sheets.ask(Request::Remove { key })),
        Call::At { place, asked } => number(sheets.call_at(list, place, &asked)),
        Call::Lookup { key } => number(sheets.lookup(key).map(|place| place as u64)),
        Call::Version => plain::version().into(),
    }
}

/// What a call has written, from the sheets before and after it; `lines` are told which lines.
pub fn written_by_plain(before: &Sheets, after: &Sheets, lines: &mut [u32]) -> u32 {
    let records = [&before.records[..], &after.records[..]];
    let coordinator = [&before.coordinator[..], &after.coordinator[..]];
    number(written(records, coordinator, lines))
}

/// Where the key stands, told in the target.
pub fn rank_by_plain(sheets: &LaidOut, key: Key, target: &mut [u32]) -> u32 {
    number(tell(sheets.rank(key), target).map(|()| 0))
}

/// Whether `fast` has the call: of those by place it has the advance.
pub fn is_fast(call: &Call) -> bool {
    match call {
        Call::Check | Call::Begin | Call::Visit { .. } | Call::Add { .. } | Call::Remove { .. } => {
            true
        }
        Call::At { asked, .. } => asked.call == by_place::ADVANCE,
        Call::Lookup { .. } | Call::Version => false,
    }
}

/// A call that `fast` has, on the joined sheet.
pub fn by_fast(call: &Call, lent: &mut Lent) -> u64 {
    let LaidOut::Joined(sheets) = &mut lent.sheets else {
        panic!("fast has no calls on two sheets");
    };
    let Sheets {
        records,
        coordinator,
    } = sheets;
    match *call {
        Call::Check => fast::check(records, coordinator).into(),
        Call::Begin => number(fast::begin(records, coordinator).map(u64::from)),
        Call::Visit { key, now } => {
            number(fast::visit(records, coordinator, key, now).map(visit_number))
        }
        Call::Add { key } => refusal(fast::add(records, coordinator, key)),
        Call::Remove { key } => refusal(fast::remove(records, coordinator, key)),
        Call::At { place, asked } if asked.call == by_place::ADVANCE => {
            let advanced = fast::advance_at(&mut lent.list, place, records, coordinator, asked.now);
            number(advanced.map(|()| 0))
        }
        _ => panic!("not a call of fast: {call:?}"),
    }
}
