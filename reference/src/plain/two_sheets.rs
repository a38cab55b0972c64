//! Bookkeeping on a sheet of its own: the plain sheet has key, column 1 and column 2, the bookkeeping sheet key and the rest.
//! Both have the same keys in the same order and as many spares, so that they join to one record sheet.

use super::field::{read_figure, write_figure, write_word};
use super::key::Key;
use super::rank::Rank;
use super::record::{self, Before, Image, Record, State};
use super::spares::{above_spares, is_spare_line, write_spare_line};
use super::store::Store;
use super::{require, ACCEPTED, BAD_RECORDS, SHEETS_DIFFER};

/// Bytes of a line of each sheet, LF counted.
pub const PLAIN_LINE: usize = 39;
pub const BOOKKEEPING_LINE: usize = 90;

/// The sheets by the numbers that name them.
pub const PLAIN: u32 = 0;
pub const BOOKKEEPING: u32 = 1;

/// A line of the plain sheet.
pub struct PlainLine {
    pub key: Key,
    pub columns: [u32; 2],
}

fn read_plain_line(line: &[u8]) -> Option<PlainLine> {
    let columns = [read_figure(&line[20..29])?, read_figure(&line[29..38])?];
    let read = PlainLine {
        key: record::read_key(&line[0..20])?,
        columns,
    };
    (line[38] == b'\n').then_some(read)
}

/// A line of the bookkeeping sheet as a record whose columns are 0: a rule that doesn't speak of them holds of the line
/// exactly if it holds of that record.
fn read_bookkeeping_line(line: &[u8]) -> Option<Record> {
    let image = Image {
        version: read_figure(&line[30..36])?,
        tx_id: read_figure(&line[36..40])?,
        column_1: 0,
        column_2: 0,
    };
    let read = Record {
        key: record::read_key(&line[0..20])?,
        state: State::read(&line[20..30])?,
        image,
        before_state: Before::read(&line[40..50])?,
        before: record::read_image(&line[50..78])?,
        prepare_clock: read_figure(&line[78..89])?,
    };
    (line[89] == b'\n').then_some(read)
}

/// The lines of a plain sheet that refusal 1 lets pass alone, its spares left away.
pub fn read_plain(sheet: &[u8]) -> Option<Vec<PlainLine>> {
    let lines = above_spares(sheet, PLAIN_LINE, is_spare_line)?;
    let lines: Option<Vec<PlainLine>> = lines.into_iter().map(read_plain_line).collect();
    let lines = lines?;
    let in_range = |line: &PlainLine| line.key.in_range() && record::columns_in_range(line.columns);
    let rising = lines.windows(2).all(|pair| pair[0].key < pair[1].key);
    (rising && lines.iter().all(in_range)).then_some(lines)
}

/// The lines of a bookkeeping sheet that refusal 1 lets pass alone, its spares left away.
pub fn read_bookkeeping(sheet: &[u8]) -> Option<Vec<Record>> {
    let lines = above_spares(sheet, BOOKKEEPING_LINE, is_spare_line)?;
    let records: Option<Vec<Record>> = lines.into_iter().map(read_bookkeeping_line).collect();
    records.filter(|records| record::keep_rules(records))
}

/// Whether the sheets have as many lines, spares counted.
fn are_as_long(plain: &[u8], bookkeeping: &[u8]) -> bool {
    plain.len() / PLAIN_LINE == bookkeeping.len() / BOOKKEEPING_LINE
}

/// Whether the sheets have as many record lines and the same keys. In sheets as long this leaves no spare beside a record line.
fn have_same_keys(plain: &[PlainLine], bookkeeping: &[Record]) -> bool {
    let pairs = plain.iter().zip(bookkeeping);
    let mut same = pairs.map(|(line, record)| line.key == record.key);
    plain.len() == bookkeeping.len() && same.all(|same| same)
}

fn with_columns(record: &Record, columns: [u32; 2]) -> Record {
    let mut record = *record;
    [record.image.column_1, record.image.column_2] = columns;
    record
}

/// What refusal 1 lets pass: the joined records and true, or those of the bookkeeping sheet alone and false, where the
/// sheets don't join.
pub fn read(plain: &[u8], bookkeeping: &[u8]) -> Option<(Vec<Record>, bool)> {
    let as_long = are_as_long(plain, bookkeeping);
    let plain = read_plain(plain)?;
    let bookkeeping = read_bookkeeping(bookkeeping)?;
    if !as_long || !have_same_keys(&plain, &bookkeeping) {
        return Some((bookkeeping, false));
    }
    let pairs = bookkeeping.iter().zip(&plain);
    let joined: Vec<Record> = pairs
        .map(|(record, line)| with_columns(record, line.columns))
        .collect();
    record::keep_rules(&joined).then_some((joined, true))
}

fn write_plain_line(line: &mut [u8], record: &Record) {
    record::write_key(&mut line[0..20], &record.key);
    write_figure(&mut line[20..29], record.image.column_1);
    write_figure(&mut line[29..38], record.image.column_2);
    line[38] = b'\n';
}

fn write_bookkeeping_line(line: &mut [u8], record: &Record) {
    record::write_key(&mut line[0..20], &record.key);
    write_word(&mut line[20..30], record.state.word());
    write_figure(&mut line[30..36], record.image.version);
    write_figure(&mut line[36..40], record.image.tx_id);
    write_word(&mut line[40..50], record.before_state.word());
    record::write_image(&mut line[50..78], &record.before);
    write_figure(&mut line[78..89], record.prepare_clock);
    line[89] = b'\n';
}

/// Writes records that keep the rules to two sheets of at least as many lines, and spares below them.
pub fn write(plain: &mut [u8], bookkeeping: &mut [u8], records: &[Record]) {
    let (lines, spares) = plain.split_at_mut(records.len() * PLAIN_LINE);
    for (line, record) in lines.chunks_mut(PLAIN_LINE).zip(records) {
        write_plain_line(line, record);
    }
    spares.chunks_mut(PLAIN_LINE).for_each(write_spare_line);
    let (lines, spares) = bookkeeping.split_at_mut(records.len() * BOOKKEEPING_LINE);
    for (line, record) in lines.chunks_mut(BOOKKEEPING_LINE).zip(records) {
        write_bookkeeping_line(line, record);
    }
    spares
        .chunks_mut(BOOKKEEPING_LINE)
        .for_each(write_spare_line);
}

/// 0 where the sheets are accepted, else the refusal.
pub fn check(plain: &[u8], bookkeeping: &[u8], coordinator: &[u8]) -> u32 {
    match Store::read_two(plain, bookkeeping, coordinator) {
        Ok(_) => ACCEPTED,
        Err(refusal) => refusal,
    }
}

/// Where the key stands in either sheet, or refusal 1, 13 or 5.
pub fn rank(plain: &[u8], bookkeeping: &[u8], key: Key) -> Result<Rank, u32> {
    let (records, join) = read(plain, bookkeeping).ok_or(BAD_RECORDS)?;
    require(join, SHEETS_DIFFER)?;
    Rank::among(&records, &key)
}

/// The key's line as a part of the sheet that is named, LF counted; an empty part where the rank is refused, the key has no
/// line or no sheet has that number.
pub fn line_of<'a>(plain: &'a [u8], bookkeeping: &'a [u8], sheet: u32, key: Key) -> &'a [u8] {
    let place = rank(plain, bookkeeping, key).and_then(|rank| rank.place());
    let Ok(place) = place else {
        return &[];
    };
    match sheet {
        PLAIN => &plain[place * PLAIN_LINE..][..PLAIN_LINE],
        BOOKKEEPING => &bookkeeping[place * BOOKKEEPING_LINE..][..BOOKKEEPING_LINE],
        _ => &[],
    }
}
