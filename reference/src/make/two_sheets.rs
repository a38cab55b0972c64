//! Two sheets cut from a joined one, column by column and not by `plain`, and joined again; and small letters.

use super::damage::{COORDINATOR_LINE, RECORD_LINE};
use super::random::Random;
use super::{write_visibly, Sheets};
use crate::plain::request::{Answer, Request};
use crate::replay::Layout;
use std::fmt;

/// Bytes of a line of each sheet, LF counted.
pub const PLAIN_LINE: usize = 39;
pub const BOOKKEEPING_LINE: usize = 90;

/// What a call on two sheets is called with.
#[derive(Clone, Debug, PartialEq, Eq)]
pub struct TwoSheets {
    pub plain: Vec<u8>,
    pub bookkeeping: Vec<u8>,
    pub coordinator: Vec<u8>,
}

impl TwoSheets {
    /// The parts of a joined sheet, accepted or not; of a line's part at its end nothing is kept.
    pub fn of(sheets: &Sheets) -> TwoSheets {
        let mut plain = Vec::new();
        let mut bookkeeping = Vec::new();
        for line in sheets.records.chunks_exact(RECORD_LINE) {
            plain.extend([&line[..20], &line[40..58], &line[107..]].concat());
            bookkeeping.extend([&line[..40], &line[58..]].concat());
        }
        TwoSheets {
            plain,
            bookkeeping,
            coordinator: sheets.coordinator.clone(),
        }
    }

    /// The joined sheet of sheets with the same keys.
    pub fn joined(&self) -> Sheets {
        let plain = self.plain.chunks_exact(PLAIN_LINE);
        let lines = plain.zip(self.bookkeeping.chunks_exact(BOOKKEEPING_LINE));
        let line =
            |(plain, rest): (&[u8], &[u8])| [&rest[..40], &plain[20..38], &rest[40..]].concat();
        Sheets {
            records: lines.flat_map(line).collect(),
            coordinator: self.coordinator.clone(),
        }
    }

    /// Makes a call on these sheets.
    pub fn ask(&mut self, request: Request) -> Result<Answer, u32> {
        request.make_on_two(
            &mut self.plain,
            &mut self.bookkeeping,
            &mut self.coordinator,
        )
    }

    /// Leaves the part of a line at each sheet's end away. There is always a head, good or not.
    pub fn cut_to_lines(&mut self) {
        cut(&mut self.plain, PLAIN_LINE);
        cut(&mut self.bookkeeping, BOOKKEEPING_LINE);
        cut(&mut self.coordinator, COORDINATOR_LINE);
        if self.coordinator.is_empty() {
            self.coordinator.resize(COORDINATOR_LINE, b'\n');
        }
    }
}

impl fmt::Display for TwoSheets {
    fn fmt(&self, out: &mut fmt::Formatter) -> fmt::Result {
        write_visibly(out, "plain sheet", &self.plain)?;
        write_visibly(out, "bookkeeping sheet", &self.bookkeeping)?;
        write_visibly(out, "coordinator sheet", &self.coordinator)
    }
}

fn cut(sheet: &mut Vec<u8>, line: usize) {
    sheet.truncate(sheet.len() / line * line);
}

/// For two sheets letters become small: most often about half of them, at times all or none.
pub fn letters(random: &mut Random, layout: Layout, sheets: &mut Sheets) {
    if layout == Layout::Joined || random.once_in(8) {
        return;
    }
    let seldom = random.pick(&[1, 2, 2, 3]);
    for letter in &mut sheets.coordinator[5..14] {
        if random.once_in(seldom) {
            letter.make_ascii_lowercase();
        }
    }
}
