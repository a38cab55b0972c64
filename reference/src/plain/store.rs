//! The sheets as records, joined or two: what the calls look at and change.

use super::coordinator::{self, Coordinator, Decision};
use super::key::Key;
use super::rank::Rank;
use super::record::{self, Record, State};
use super::two_sheets;
use super::{require, BAD_COORDINATOR, BAD_RECORDS, BUSY, SHEETS_DIFFER};

#[derive(Clone, Debug, PartialEq, Eq)]
pub struct Store {
    /// The record lines. What the sheet has below them is spares.
    pub records: Vec<Record>,
    /// How many lines the sheet has, spares counted.
    pub lines: usize,
    pub coordinator: Coordinator,
}

/// What a visit found and did.
#[derive(Clone, Copy, Debug, PartialEq, Eq)]
pub enum Visit {
    /// The line is not PREPARED.
    Stays,
    Forward,
    Back,
    /// The owner was undecided and expired, and is aborted now; the line is as it was.
    Again,
}

impl Store {
    /// The records of two accepted sheets, or refusal 1 or 2.
    pub fn read(records: &[u8], coordinator: &[u8]) -> Result<Store, u32> {
        let store = Store::read_either_case(records, coordinator)?;
        require(!store.coordinator.has_small(), BAD_COORDINATOR)?;
        Ok(store)
    }

    /// The same with small letters, as two sheets join to it.
    pub fn read_either_case(records: &[u8], coordinator: &[u8]) -> Result<Store, u32> {
        let lines = records.len() / record::LINE;
        let records = record::read_sheet(records).ok_or(BAD_RECORDS)?;
        Store::with(records, lines, coordinator)
    }

    /// These records of so many lines and the coordinator's of a sheet, or refusal 2.
    fn with(records: Vec<Record>, lines: usize, coordinator: &[u8]) -> Result<Store, u32> {
        let coordinator = coordinator::read_either_case(coordinator);
        let coordinator = coordinator.ok_or(BAD_COORDINATOR)?;
        let store = Store {
            records,
            lines,
            coordinator,
        };
        require(store.names_issued_only(), BAD_COORDINATOR)?;
        Ok(store)
    }

    /// The joined records of two accepted sheets and the coordinator's, or refusal 1, 2 or 13. Where the sheets don't join,
    /// the numbers that the bookkeeping sheet names are asked for all the same.
    pub fn read_two(plain: &[u8], bookkeeping: &[u8], coordinator: &[u8]) -> Result<Store, u32> {
        let lines = plain.len() / two_sheets::PLAIN_LINE;
        let (records, join) = two_sheets::read(plain, bookkeeping).ok_or(BAD_RECORDS)?;
        let store = Store::with(records, lines, coordinator)?;
        require(join, SHEETS_DIFFER)?;
        Ok(store)
    }

    /// The before TxID counts too: rolling back would put it in the TxID's place.
    fn names_issued_only(&self) -> bool {
        let issued = self.coordinator.issued;
        let fits = |r: &Record| r.image.tx_id <= issued && r.before.tx_id <= issued;
        self.records.iter().all(fits)
    }

    /// Writes both sheets whole. Accepted sheets have one text, so that nothing but the changes is changed.
    pub fn write(&self, records: &mut [u8], coordinator: &mut [u8]) {
        record::write_sheet(records, &self.records);
        coordinator::write_sheet(coordinator, &self.coordinator);
    }

    /// The same with the records as two sheets.
    pub fn write_two(&self, plain: &mut [u8], bookkeeping: &mut [u8], coordinator: &mut [u8]) {
        two_sheets::write(plain, bookkeeping, &self.records);
        coordinator::write_sheet(coordinator, &self.coordinator);
    }

    /// How many spares the sheet has.
    pub fn spares(&self) -> usize {
        self.lines - self.records.len()
    }

    /// The place of the key's line, or refusal 5 or 6.
    pub fn place_of(&self, key: &Key) -> Result<usize, u32> {
        Rank::among(&self.records, key)?.place()
    }

    /// Whether the key has a line.
    pub fn has_line(&self, key: &Key) -> bool {
        self.place_of(key).is_ok()
    }

    /// The line of a key that has one.
    pub fn record(&self, key: &Key) -> &Record {
        let place = self.place_of(key).expect("the key has a line");
        &self.records[place]
    }

    /// Replaces the line that has the record's key.
    pub fn replace(&mut self, record: Record) {
        let place = self.place_of(&record.key).expect("the key has a line");
        self.records[place] = record;
    }

    /// The decision of an issued number.
    pub fn decision(&self, number: u32) -> Decision {
        self.coordinator.decisions[number as usize - 1]
    }

    pub fn decide(&mut self, number: u32, decision: Decision) {
        self.coordinator.decisions[number as usize - 1] = decision;
    }

    /// Whether a number has expired at this reading of the clock: every line of the sheet that is PREPARED by it has. So an
    /// order whose first lines are old stays alive while its last ones are still going in.
    pub fn has_expired(&self, number: u32, now: u32) -> bool {
        let lines = self.records.iter();
        let mut own = lines.filter(|line| line.is_prepared_by(number));
        own.all(|line| line.has_expired(now))
    }

    /// Lazy recovery of one line: refusal 12, or at most one write. Expiry is asked of an undecided owner only.
    pub fn visit(&mut self, place: usize, now: u32) -> Result<Visit, u32> {
        let record = self.records[place];
        if record.state != State::Prepared {
            return Ok(Visit::Stays);
        }
        let owner = record.image.tx_id;
        match self.decision(owner) {
            Decision::Committed => {
                self.records[place] = record.forward();
                Ok(Visit::Forward)
            }
            Decision::Aborted => {
                self.records[place] = record.back();
                Ok(Visit::Back)
            }
            Decision::Undecided if self.has_expired(owner, now) => {
                self.decide(owner, Decision::Aborted);
                Ok(Visit::Again)
            }
            Decision::Undecided => Err(BUSY),
        }
    }
}
