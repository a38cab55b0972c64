//! The calls by place: a client lends its transactions as a list, and what is asked is asked of one of them there.

use super::key::Key;
use super::request::{Answer, Request};
use super::store::Store;
use super::transaction::{Reading, Transaction, MOST_LISTED};
use super::{Layout, ILL_FORMED};

pub const BEGIN: u32 = 0;
pub const BEGIN_CHECKED: u32 = 1;
pub const READ: u32 = 2;
pub const PUT: u32 = 3;
pub const ADVANCE: u32 = 4;
pub const ABORT: u32 = 5;
pub const CLOSE: u32 = 6;
/// The second call of a read, on two sheets only.
pub const SECOND: u32 = 7;
/// From here on a number is that of no call on any sheets.
pub const CALLS: u32 = 8;

/// What the first of two calls of a read answers where both columns are 0.
pub const FIRST: u64 = 10_000;
/// By how much its answer rises with column 1.
pub const COLUMN_1: u64 = 100_000_000;

/// What is asked, as numbers: the number of a call and all that any call takes. Each takes its own.
#[derive(Clone, Copy, Debug, PartialEq, Eq)]
pub struct Asked {
    pub call: u32,
    pub key: Key,
    pub columns: [u32; 2],
    pub now: u32,
    pub limit: u32,
}

impl Asked {
    /// The request that it is to this transaction, if there is such a call.
    pub fn request(&self, layout: Layout, transaction: Transaction) -> Option<Request> {
        let Asked {
            key,
            columns,
            now,
            limit,
            ..
        } = *self;
        Some(match self.call {
            BEGIN => begin(false),
            BEGIN_CHECKED => begin(true),
            READ => Request::Read {
                transaction,
                key,
                now,
            },
            PUT => Request::Put {
                transaction,
                key,
                columns,
            },
            ADVANCE => Request::Advance { transaction, now },
            ABORT => Request::Abort { transaction },
            CLOSE => Request::Close {
                transaction,
                now,
                limit,
            },
            SECOND if layout == Layout::Two => Request::Second {
                transaction,
                key,
                now,
                columns,
            },
            _ => return None,
        })
    }
}

fn begin(serializable: bool) -> Request {
    Request::Begin { serializable }
}

/// The request to the one at this place, if the list is not too long, has the place, and there is such a call.
fn request_at(
    layout: Layout,
    list: &[Transaction],
    place: usize,
    asked: &Asked,
) -> Option<Request> {
    if list.len() > MOST_LISTED {
        return None;
    }
    let named = list.get(place)?;
    asked.request(layout, *named)
}

/// Makes the call of the transaction at this place of a lent list, where what is returned replaces it: what a read came
/// to, how many writes a close made, else 0, or the refusal.
pub fn call_at(
    records: &mut [u8],
    coordinator: &mut [u8],
    list: &mut [Transaction],
    place: usize,
    asked: &Asked,
) -> Result<u64, u32> {
    let mut store = Store::read(records, coordinator)?;
    let answer = call_on(&mut store, Layout::Joined, list, place, asked)?;
    store.write(records, coordinator);
    Ok(answer)
}

/// The same on a plain sheet and a bookkeeping sheet.
pub fn call_at_two(
    plain: &mut [u8],
    bookkeeping: &mut [u8],
    coordinator: &mut [u8],
    list: &mut [Transaction],
    place: usize,
    asked: &Asked,
) -> Result<u64, u32> {
    let mut store = Store::read_two(plain, bookkeeping, coordinator)?;
    let answer = call_on(&mut store, Layout::Two, list, place, asked)?;
    store.write_two(plain, bookkeeping, coordinator);
    Ok(answer)
}

/// The call on the records of accepted sheets.
fn call_on(
    store: &mut Store,
    layout: Layout,
    list: &mut [Transaction],
    place: usize,
    asked: &Asked,
) -> Result<u64, u32> {
    let Some(request) = request_at(layout, list, place, asked) else {
        return Err(ILL_FORMED);
    };
    let answer = request.on(store)?;
    if let Some(returned) = answer.returned() {
        list[place] = *returned;
    }
    Ok(number_of(&answer))
}

fn number_of(answer: &Answer) -> u64 {
    match answer {
        Answer::Read(_, reading) => number_of_reading(reading),
        Answer::Closed(_, writes) => u64::from(*writes),
        Answer::Returned(_) | Answer::Visited(_) | Answer::Done => 0,
    }
}

fn number_of_reading(reading: &Reading) -> u64 {
    match reading {
        Reading::Absent => 0,
        Reading::Columns(_) => 1,
        Reading::Again => 2,
        Reading::First(columns) => {
            let [column_1, column_2] = columns.map(u64::from);
            FIRST + COLUMN_1 * column_1 + column_2
        }
    }
}
