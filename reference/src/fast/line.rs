//! A record line read and written in place: only the columns that change.

use super::tables::LINE;
use super::text::{add_one, figure, set_figure};
use crate::plain::transaction::Entry;
use crate::plain::writes::EXPIRED;

/// The columns from the state word on of a line to which nothing was ever written.
pub const ABSENT: &[u8; 87] =
    b"    ABSENT     0   0        0        0         -     0   0        0        0          0";
/// The before state, the before fields and the clock of a settled line.
const SETTLED: &[u8; 49] = b"         -     0   0        0        0          0";

/// The words' fifth columns are A, M and E.
#[inline(always)]
pub fn is_prepared(line: &[u8; LINE]) -> bool {
    line[24] == b'E'
}

/// Whether a line that is good is ABSENT of version 0.
#[inline(always)]
pub fn is_blank(line: &[u8; LINE]) -> bool {
    line[24] == b'A' && line[35] == b'0' && line[34] == b' '
}

#[inline(always)]
pub fn tx_id(line: &[u8; LINE]) -> u32 {
    figure(&line[36..40])
}

/// The four columns of the TxID, to be compared unread.
#[inline(always)]
fn tx_id_text(line: &[u8; LINE]) -> [u8; 4] {
    line[36..40].try_into().unwrap()
}

/// Whether every line has expired that is PREPARED under the TxID of the one at this place. Of most lines the TxID is another,
/// which settles them without a look at the state, and a clock is read only where both fit.
pub fn owner_has_expired(lines: &[[u8; LINE]], place: usize, now: u32) -> bool {
    let owner = tx_id_text(&lines[place]);
    let own = |line: &&[u8; LINE]| tx_id_text(line) == owner && is_prepared(line);
    lines.iter().filter(own).all(|line| has_expired(line, now))
}

/// Whether a prepared line has expired at this reading of the clock.
fn has_expired(line: &[u8; LINE], now: u32) -> bool {
    // Ten digits are enough for a clock, the first column being blank.
    EXPIRED.contains(&now.wrapping_sub(figure(&line[97..107])))
}

/// Whether the line is still as the entry has read it.
#[inline]
pub fn is_as_read(line: &[u8; LINE], entry: &Entry) -> bool {
    !is_prepared(line)
        && tx_id(line) == entry.seen.tx_id
        && figure(&line[30..36]) == entry.seen.version
}

/// The put of an entry as the line's image, under this number.
#[inline]
fn put(line: &mut [u8; LINE], number: u32, entry: &Entry) {
    add_one(&mut line[30..36]);
    set_figure(&mut line[36..40], number);
    set_figure(&mut line[40..49], entry.put_1);
    set_figure(&mut line[49..58], entry.put_2);
}

/// A settled line with a put committed at once.
pub fn commit(line: &mut [u8; LINE], number: u32, entry: &Entry) {
    line[20..30].copy_from_slice(b" COMMITTED");
    put(line, number, entry);
}

/// A settled line with a put prepared.
pub fn prepare(line: &mut [u8; LINE], number: u32, entry: &Entry, now: u32) {
    // The before fields are set as the line's own, their words too.
    line.copy_within(20..58, 58);
    line[20..30].copy_from_slice(b"  PREPARED");
    put(line, number, entry);
    set_figure(&mut line[96..107], now);
}

/// A prepared line rolled forward.
pub fn forward(line: &mut [u8; LINE]) {
    line[20..30].copy_from_slice(b" COMMITTED");
    line[58..107].copy_from_slice(SETTLED);
}

/// A prepared line rolled back.
pub fn back(line: &mut [u8; LINE]) {
    line.copy_within(58..96, 20);
    line[58..107].copy_from_slice(SETTLED);
}
