//! One thing wrong with sheets that were accepted. At times the damage does none: the check decides.

use super::absence;
use super::old_lines::{self, old_records, Width};
use super::random::Random;
use super::sheets::{self, Mix, Size};
use super::spares::{is_spare, misplace};
use super::Sheets;

pub const RECORD_LINE: usize = 108;
pub const COORDINATOR_LINE: usize = 15;

/// A figure of the record line: its first column, the column after it, its range.
struct Figure {
    start: usize,
    end: usize,
    least: u64,
    most: u64,
}

const fn figure(start: usize, end: usize, least: u64, most: u64) -> Figure {
    Figure {
        start,
        end,
        least,
        most,
    }
}

const FIGURES: [Figure; 14] = [
    figure(0, 2, 1, 9),
    figure(2, 5, 1, 99),
    figure(5, 8, 1, 99),
    figure(8, 14, 0, 99_999),
    figure(14, 20, 0, 99_999),
    VERSION,
    TX_ID,
    figure(40, 49, 0, 99_999_999),
    figure(49, 58, 0, 99_999_999),
    BEFORE_VERSION,
    BEFORE_TX_ID,
    figure(78, 87, 0, 99_999_999),
    figure(87, 96, 0, 99_999_999),
    CLOCK,
];

const VERSION: Figure = figure(30, 36, 0, 99_999);
const TX_ID: Figure = figure(36, 40, 0, 999);
const BEFORE_VERSION: Figure = figure(68, 74, 0, 99_999);
const BEFORE_TX_ID: Figure = figure(74, 78, 0, 999);
const CLOCK: Figure = figure(96, 107, 0, 4_294_967_295);

/// Bytes that a rule names, and bytes beside them.
pub const TELLING: &[u8] =
    b" 0123456789/:-!,\n\t\0\x0f\x10\x1f\x7f\x80\xb0\xffABCDEMNOPRSTabcdemnoprst";

/// Words for a sheet of records or of decisions, and words for neither.
const WORDS: [[u8; 10]; 16] = [
    *b"    ABSENT",
    *b" COMMITTED",
    *b"  PREPARED",
    *b"   ABORTED",
    *b"         -",
    *b"COMMITTED ",
    *b"PREPARED  ",
    *b"-         ",
    *b" committed",
    *b"  Prepared",
    *b"   DELETED",
    *b"  OMMITTED",
    *b" COMMORTED",
    *b" COBORTED\n",
    *b"  PABSENT ",
    *b"          ",
];

/// Words set as others are that no before state has.
const SET: [[u8; 10]; 4] = [
    *b"  PREPARED",
    *b"   DELETED",
    *b"   ABORTED",
    *b"          ",
];

/// Damages one of the sheets, or what ties them.
pub fn damage(random: &mut Random, sheets: &mut Sheets) {
    if sheets.records.len() < RECORD_LINE || sheets.coordinator.len() < 2 * COORDINATOR_LINE {
        return; // An earlier damage left nothing to work on.
    }
    match random.below(42) {
        0..=2 => any_byte(random, &mut sheets.records),
        3 => any_byte(random, &mut sheets.coordinator),
        4 => length(random, &mut sheets.records, RECORD_LINE),
        5 => length(random, &mut sheets.coordinator, COORDINATOR_LINE),
        6..=8 => figure_text(random, &mut sheets.records),
        9..=14 => figure_value(random, &mut sheets.records),
        15 | 16 => key_order(random, &mut sheets.records),
        17..=19 => state_word(random, &mut sheets.records),
        20 => state_rule(random, &mut sheets.records),
        21..=23 => lone_field(random, &mut sheets.records),
        24 => line_end(random, &mut sheets.records, RECORD_LINE),
        25 => line_end(random, &mut sheets.coordinator, COORDINATOR_LINE),
        26 | 27 => tx_id(random, sheets),
        28 | 29 => head(random, &mut sheets.coordinator),
        30 => decision(random, &mut sheets.coordinator),
        31 => above_the_count(random, &mut sheets.coordinator),
        32..=34 => misplace(random, &mut sheets.records, RECORD_LINE),
        35..=37 => before_state(random, &mut sheets.records, old_lines::RECORDS),
        38 => *sheets = old_records(random),
        39 | 40 => absence::spoil(random, &mut sheets.records, old_lines::RECORDS),
        _ => size(random, sheets),
    }
}

/// Damages the coordinator sheet, or names a number that it hasn't issued.
pub fn damage_coordinator(random: &mut Random, sheets: &mut Sheets) {
    match random.below(6) {
        0 => any_byte(random, &mut sheets.coordinator),
        1 => decision(random, &mut sheets.coordinator),
        2 => above_the_count(random, &mut sheets.coordinator),
        3 => head(random, &mut sheets.coordinator),
        _ => tx_id(random, sheets),
    }
}

/// The first byte of a random whole line.
fn some_start(random: &mut Random, sheet: &[u8], line: usize) -> usize {
    random.below(sheet.len() / line) * line
}

fn some_line<'a>(random: &mut Random, sheet: &'a mut [u8], line: usize) -> &'a mut [u8] {
    let start = some_start(random, sheet, line);
    &mut sheet[start..start + line]
}

/// The same of a line that is PREPARED, if there is one.
fn prepared_line<'a>(random: &mut Random, sheet: &'a mut [u8], line: usize) -> &'a mut [u8] {
    let lines = sheet.chunks_exact(line).enumerate();
    let prepared = lines.filter(|(_, line)| line[20..30] == *b"  PREPARED");
    let places: Vec<usize> = prepared.map(|(place, _)| place).collect();
    match places.is_empty() {
        true => some_line(random, sheet, line),
        false => &mut sheet[random.pick(&places) * line..][..line],
    }
}

/// Sets a figure; one too wide loses its first digits.
pub fn set_figure(columns: &mut [u8], value: u64) {
    let text = format!("{value:>20}").into_bytes();
    columns.copy_from_slice(&text[20 - columns.len()..]);
}

fn figure_of(columns: &[u8]) -> u64 {
    let digits = columns.iter().filter(|b| b.is_ascii_digit());
    digits.fold(0, |value, b| value * 10 + u64::from(b - b'0'))
}

fn any_byte(random: &mut Random, sheet: &mut [u8]) {
    let place = random.below(sheet.len());
    sheet[place] = match random.below(4) {
        0 => random.draw() as u8,
        1 => sheet[place] ^ (1 << random.below(8)),
        _ => random.pick(TELLING),
    };
}

/// A byte or a line too many or too few.
fn length(random: &mut Random, sheet: &mut Vec<u8>, line: usize) {
    let start = some_start(random, sheet, line);
    match random.below(7) {
        0 => sheet.truncate(sheet.len() - 1),
        1 => sheet.push(b'\n'),
        2 => sheet.truncate(start),
        3 => sheet.truncate(random.below(sheet.len())),
        4 => drop(sheet.drain(start..start + line)),
        5 => sheet.extend_from_within(start..start + line),
        _ => drop(sheet.remove(random.below(sheet.len()))),
    }
}

/// A figure not set as the paper asks.
fn figure_text(random: &mut Random, sheet: &mut [u8]) {
    let line = some_line(random, sheet, RECORD_LINE);
    let figure = &FIGURES[random.below(FIGURES.len())];
    let columns = &mut line[figure.start..figure.end];
    let blanks = columns.iter().take_while(|b| **b == b' ').count();
    let last = columns.len() - 1;
    match random.below(8) {
        0 => columns[blanks.saturating_sub(1)] = b'0',
        1 => columns[..blanks].fill(b'0'),
        2 => columns.fill(b' '),
        3 => columns.rotate_left(1),
        4 => columns[(blanks + 1).min(last)] = b' ',
        5 => columns[blanks.min(last)] = b'0',
        6 => columns[blanks.saturating_sub(1)] = random.pick(b"-+.,_"),
        _ => columns[..blanks].fill(random.pick(b"\t\0\xa0")),
    }
}

/// A figure at an end of its range or past it.
fn figure_value(random: &mut Random, sheet: &mut [u8]) {
    let line = some_line(random, sheet, RECORD_LINE);
    let figure = &FIGURES[random.below(FIGURES.len())];
    let columns = &mut line[figure.start..figure.end];
    let widest = 10u64.pow(columns.len() as u32) - 1;
    let value = match random.below(9) {
        0 => 0,
        1 => figure.least,
        2 => figure.most,
        3 | 7 | 8 => figure.most + 1,
        4 => widest,
        5 => figure.most + random.draw() % (widest - figure.most) + 1,
        _ => random.draw() % (widest + 1),
    };
    set_figure(columns, value);
}

/// Keys that are equal, out of order, or merely close.
fn key_order(random: &mut Random, sheet: &mut [u8]) {
    let one = some_start(random, sheet, RECORD_LINE);
    let other = some_start(random, sheet, RECORD_LINE);
    match random.below(4) {
        0 => sheet.copy_within(one..one + 20, other),
        1 => swap(sheet, one, other, RECORD_LINE),
        2 => swap(sheet, one, other, 20),
        _ => {
            let figure = &FIGURES[random.below(5)];
            let from = one + figure.start..one + figure.end;
            sheet.copy_within(from, other + figure.start);
        }
    }
}

/// Changes the places of two parts of the same length.
fn swap(sheet: &mut [u8], one: usize, other: usize, length: usize) {
    for i in 0..length {
        sheet.swap(one + i, other + i);
    }
}

/// Another word for the state or for what the line was before.
fn state_word(random: &mut Random, sheet: &mut [u8]) {
    let line = prepared_line(random, sheet, RECORD_LINE);
    let word = match random.once_in(2) {
        true => &mut line[20..30],
        false => &mut line[58..68],
    };
    match random.below(8) {
        0 => word.make_ascii_lowercase(),
        1 => word.rotate_left(word.iter().take_while(|b| **b == b' ').count()),
        2 => word[0] = random.pick(TELLING),
        3 => word.copy_from_slice(&random.pick(&WORDS)),
        _ => word.copy_from_slice(&random.pick(&SET)),
    }
}

/// Another before state, whatever the state is and the before fields are; at times a word that is none.
pub fn before_state(random: &mut Random, sheet: &mut [u8], width: Width) {
    if sheet.len() < width.line {
        return;
    }
    let line = match random.once_in(3) {
        true => prepared_line(random, sheet, width.line),
        false => some_line(random, sheet, width.line),
    };
    let word = &mut line[width.before_state..][..10];
    let mut others = vec![*b"         -", *b"    ABSENT", *b" COMMITTED"];
    others.retain(|other| word != *other);
    let other = match random.once_in(3) {
        true => random.pick(&SET),
        false => random.pick(&others),
    };
    word.copy_from_slice(&other);
}

/// A line that ends in another byte.
fn line_end(random: &mut Random, sheet: &mut [u8], line: usize) {
    some_line(random, sheet, line)[line - 1] = random.pick(TELLING);
}

/// A line that its state's rule turns away, most often.
fn state_rule(random: &mut Random, sheet: &mut [u8]) {
    let line = some_line(random, sheet, RECORD_LINE);
    let before = figure_of(&line[BEFORE_VERSION.start..BEFORE_VERSION.end]);
    let step = random.pick(&[0, 1, 2, 10, 11, 101]);
    let (figure, value) = match random.below(8) {
        0 => (&VERSION, before + step),
        1 => (&VERSION, before.saturating_sub(step)),
        2 => (&BEFORE_VERSION, before + step),
        3 => (&BEFORE_VERSION, 0),
        4 => (&TX_ID, 0),
        5 => (&BEFORE_TX_ID, step),
        6 => (&CLOCK, step),
        _ => (&FIGURES[5 + random.below(9)], random.draw() % 3),
    };
    set_figure(&mut line[figure.start..figure.end], value);
}

/// The least line of a state, with one field more than it may have or one less.
fn lone_field(random: &mut Random, sheet: &mut [u8]) {
    let line = some_line(random, sheet, RECORD_LINE);
    let (words, figures) = random.pick(&[
        ([b"    ABSENT", b"         -"], [0, 0, 0, 0]),
        ([b"    ABSENT", b"         -"], [1, 1, 0, 0]),
        ([b" COMMITTED", b"         -"], [1, 0, 0, 0]),
        ([b"  PREPARED", b"    ABSENT"], [1, 1, 0, 0]),
        ([b"  PREPARED", b"    ABSENT"], [2, 1, 1, 1]),
        ([b"  PREPARED", b" COMMITTED"], [2, 1, 1, 0]),
    ]);
    line[20..30].copy_from_slice(words[0]);
    line[58..68].copy_from_slice(words[1]);
    for figure in &FIGURES[5..] {
        set_figure(&mut line[figure.start..figure.end], 0);
    }
    let set = [VERSION, TX_ID, BEFORE_VERSION, BEFORE_TX_ID];
    for (figure, value) in set.iter().zip(figures) {
        set_figure(&mut line[figure.start..figure.end], value);
    }
    let figure = &FIGURES[5 + random.below(9)];
    let columns = &mut line[figure.start..figure.end];
    let changed = 1 - figure_of(columns).min(1);
    set_figure(columns, changed);
}

/// A TxID near the issued count, in the line or in its before fields.
fn tx_id(random: &mut Random, sheets: &mut Sheets) {
    let issued = figure_of(&sheets.coordinator[0..4]);
    let figure = random.pick(&[&TX_ID, &BEFORE_TX_ID]);
    // A before TxID may stand in a PREPARED line only, and a spare has none.
    let may_have = |line: &&mut [u8]| match figure.start == TX_ID.start {
        true => !is_spare(line),
        false => line[20..30] == *b"  PREPARED",
    };
    let lines = sheets.records.chunks_exact_mut(RECORD_LINE);
    let mut lines: Vec<&mut [u8]> = lines.filter(may_have).collect();
    if lines.is_empty() {
        return;
    }
    let place = random.below(lines.len());
    let line = &mut lines[place];
    let value = random.pick(&[issued, issued + 1, issued + 1, issued + 10, 999]);
    set_figure(&mut line[figure.start..figure.end], value);
}

/// A head that does not go with the lines, or is not set as the paper asks.
fn head(random: &mut Random, sheet: &mut [u8]) {
    let lines = (sheet.len() / COORDINATOR_LINE - 1) as u64;
    let issued = figure_of(&sheet[0..4]);
    let place = match random.below(4) {
        0 => 4 + random.below(11),
        // The space, the first letter, the last and the LF.
        _ => random.pick(&[4, 5, 13, 14]),
    };
    match random.below(8) {
        0 => set_figure(&mut sheet[0..4], lines + 1),
        1 => set_figure(&mut sheet[0..4], issued.saturating_sub(1)),
        2 => set_figure(&mut sheet[0..4], random.draw() % 2_000),
        3 => {
            sheet[0..4].copy_from_slice(random.pick(&[b"   -", b"    ", b"0001", b" 00 ", b"1   "]))
        }
        4 => sheet[place] = sheet[place].to_ascii_lowercase(),
        6 => sheet[place] = sheet[place].wrapping_add(random.pick(&[1, 255])),
        5 => sheet[place] = random.pick(b"RPTNSrptnsABCMOQU "),
        _ => sheet[place] = random.pick(TELLING),
    }
}

/// A line of the coordinator with another word or number.
fn decision(random: &mut Random, sheet: &mut [u8]) {
    let lines = &mut sheet[COORDINATOR_LINE..];
    let other = some_start(random, lines, COORDINATOR_LINE);
    let one = some_start(random, lines, COORDINATOR_LINE);
    let number = figure_of(&lines[one..one + 4]);
    match random.below(5) {
        0 | 1 => lines[one + 4..one + 14].copy_from_slice(&random.pick(&WORDS)),
        2 => set_figure(&mut lines[one..one + 4], number + 1),
        3 => swap(lines, one, other, COORDINATOR_LINE),
        _ => lines.copy_within(other..other + COORDINATOR_LINE, one),
    }
}

/// A decision of a number that isn't issued.
fn above_the_count(random: &mut Random, sheet: &mut [u8]) {
    let issued = figure_of(&sheet[0..4]) as usize;
    let lines = sheet.len() / COORDINATOR_LINE - 1;
    if issued < lines {
        let above = lines - issued;
        let any = random.below(above);
        let k = 1 + issued + random.pick(&[0, above - 1, any]);
        let word = random.pick(&[b" COMMITTED", b"   ABORTED"]);
        sheet[k * COORDINATOR_LINE + 4..][..10].copy_from_slice(word);
    }
}

/// Good lines, but none, or more than a sheet may have.
fn size(random: &mut Random, sheets: &mut Sheets) {
    let mut size = Size {
        records: 2,
        decisions: 3,
        issued: 2,
    };
    match random.below(40) {
        0 => size.records = 501 + random.below(2),
        1 => size.decisions = 1_000 + random.below(2),
        2..=12 => size.records = 0,
        13..=24 => size.decisions = 0,
        25..=32 => return sheets.coordinator.clear(),
        _ => return sheets.records.clear(),
    }
    size.issued = random.below(size.decisions.min(2) + 1);
    *sheets = sheets::of_size(random, size, Mix::Thirds);
}
