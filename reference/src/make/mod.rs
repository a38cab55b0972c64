//! Sheets to try the checks on, accepted, damaged and forged, and histories of calls: the same for the same seed.

pub mod absence;
pub mod adding;
pub mod arguments;
pub mod bad_lines;
pub mod clients;
pub mod closes;
pub mod closing;
pub mod conversions;
pub mod damage;
pub mod expiry;
pub mod exported;
pub mod exports;
pub mod forge;
pub mod halfway;
pub mod history;
pub mod lists;
pub mod old_lines;
pub mod orders;
pub mod random;
pub mod requests;
pub mod script;
pub mod scripts;
pub mod sheets;
pub mod spares;
pub mod transactions;
pub mod two_damage;
pub mod two_orders;
pub mod two_sheets;
pub mod visits;
pub mod written;

use crate::plain::request::{Answer, Request};
use crate::plain::store::Store;
use random::Random;
use std::fmt;
pub use two_sheets::TwoSheets;

/// What a check is called with.
#[derive(Clone, Debug, PartialEq, Eq)]
pub struct Sheets {
    pub records: Vec<u8>,
    pub coordinator: Vec<u8>,
}

/// One input of any kind: a quarter accepted, an eighth forged, the rest damaged in one place or a few.
pub fn any(random: &mut Random) -> Sheets {
    let mut sheets = sheets::accepted(random);
    match random.below(8) {
        0 | 1 => {}
        2 => forge::forge(random, &mut sheets),
        3 => {
            for _ in 0..2 + random.below(3) {
                damage::damage(random, &mut sheets);
            }
        }
        _ => damage::damage(random, &mut sheets),
    }
    sheets
}

impl Sheets {
    /// Makes every line a unit of its own, so that orders have as many groups as puts.
    pub fn part_units(&mut self) {
        self.coordinator[5..14].fill(b'R');
    }

    /// Makes a call on these sheets.
    pub fn ask(&mut self, request: Request) -> Result<Answer, u32> {
        request.make(&mut self.records, &mut self.coordinator)
    }

    /// The same where two sheets may join to these, so that letters may be small.
    pub fn ask_either_case(&mut self, request: Request) -> Result<Answer, u32> {
        let mut store = Store::read_either_case(&self.records, &self.coordinator)?;
        let answer = request.on(&mut store)?;
        store.write(&mut self.records, &mut self.coordinator);
        Ok(answer)
    }

    /// The records of accepted sheets, or of what two accepted sheets join to.
    pub fn store(&self) -> Store {
        let store = Store::read_either_case(&self.records, &self.coordinator);
        store.unwrap_or_else(|refusal| panic!("refusal {refusal}\n{self}"))
    }
}

impl fmt::Display for Sheets {
    fn fmt(&self, out: &mut fmt::Formatter) -> fmt::Result {
        write_visibly(out, "record sheet", &self.records)?;
        write_visibly(out, "coordinator sheet", &self.coordinator)
    }
}

/// A sheet whole, with every byte visible.
fn write_visibly(out: &mut fmt::Formatter, name: &str, sheet: &[u8]) -> fmt::Result {
    writeln!(out, "{name}, {} bytes:", sheet.len())?;
    for line in sheet.split_inclusive(|b| *b == b'\n') {
        writeln!(out, "{}", line.escape_ascii())?;
    }
    Ok(())
}
