//! The check and the calls that the benchmark times, written for speed, with the answers of `plain`.
//!
//! Every call checks both sheets in one pass, finds lines by halves and writes only the columns that change. Where the spares
//! begin is found from the end, and what is below isn't looked at again.

mod adding;
mod coordinator;
mod held;
mod line;
mod records;
mod search;
mod steps;
mod tables;
mod text;

pub use adding::{add, remove};

use crate::plain::coordinator::Decision;
use crate::plain::key::Key;
use crate::plain::store::Visit;
use crate::plain::transaction::{Transaction, MOST_LISTED};
use crate::plain::{BAD_COORDINATOR, BAD_RECORDS, BUSY, ILL_FORMED, NUMBERS_SPENT};
use coordinator::{decide_on, decision, Accepted, COORDINATOR_LINE};
use held::Held;
use steps::Step;
use tables::LINE;

/// 0 where both sheets are accepted, else the refusal.
pub fn check(records: &[u8], coordinator: &[u8]) -> u32 {
    match accepted(records, coordinator) {
        Ok(_) => 0,
        Err(refusal) => refusal,
    }
}

/// How many record lines there are, and what is known of the coordinator sheet.
fn accepted(records: &[u8], coordinator: &[u8]) -> Result<(usize, Accepted), u32> {
    let Some(named) = records::accepted(records) else {
        return Err(BAD_RECORDS);
    };
    match coordinator::accepted(coordinator) {
        Some(accepted) if named.tx_id <= accepted.issued_text() => Ok((named.lines, accepted)),
        _ => Err(BAD_COORDINATOR),
    }
}

/// The record lines of an accepted sheet.
#[inline(always)]
fn record_lines(records: &mut [u8], count: usize) -> &mut [[u8; LINE]] {
    let (lines, _) = records.as_chunks_mut::<LINE>();
    &mut lines[..count]
}

/// Issues the next number.
pub fn begin(records: &[u8], coordinator: &mut [u8]) -> Result<u32, u32> {
    let (_, Accepted { issued, .. }) = accepted(records, coordinator)?;
    let next = issued + 1;
    if next as usize * COORDINATOR_LINE >= coordinator.len() {
        return Err(NUMBERS_SPENT);
    }
    text::set_figure(&mut coordinator[..4], next);
    Ok(next)
}

/// Lazy recovery of the key's line.
pub fn visit(records: &mut [u8], coordinator: &mut [u8], key: Key, now: u32) -> Result<Visit, u32> {
    let (count, _) = accepted(records, coordinator)?;
    let lines = record_lines(records, count);
    let place = search::find(lines, &key)?;
    let line = &mut lines[place];
    if !line::is_prepared(line) {
        return Ok(Visit::Stays);
    }
    let (decisions, _) = coordinator.as_chunks_mut::<COORDINATOR_LINE>();
    let owner = &mut decisions[line::tx_id(line) as usize];
    match decision(owner) {
        Decision::Committed => {
            line::forward(line);
            Ok(Visit::Forward)
        }
        Decision::Aborted => {
            line::back(line);
            Ok(Visit::Back)
        }
        Decision::Undecided if line::owner_has_expired(lines, place, now) => {
            decide_on(owner, b"   ABORTED");
            Ok(Visit::Again)
        }
        Decision::Undecided => Err(BUSY),
    }
}

/// One step of the transaction at this place of a lent list.
pub fn advance_at(
    list: &mut [Transaction],
    place: usize,
    records: &mut [u8],
    coordinator: &mut [u8],
    now: u32,
) -> Result<(), u32> {
    let (count, accepted) = accepted(records, coordinator)?;
    if list.len() > MOST_LISTED {
        return Err(ILL_FORMED);
    }
    let transaction = list.get_mut(place).ok_or(ILL_FORMED)?;
    let records = record_lines(records, count);
    let held = Held::of(transaction, records, &accepted)?;
    let (coordinator, _) = coordinator.as_chunks_mut::<COORDINATOR_LINE>();
    let mut step = Step {
        records,
        coordinator,
        held: &held,
    };
    step.advance(transaction, now)
}
