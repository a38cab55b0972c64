//! Inputs of the visiting program, good ones and damaged ones.

use super::absence;
use super::arguments::clock;
use super::damage::{before_state, TELLING};
use super::halfway::halfway;
use super::old_lines::{self, old_records};
use super::random::Random;
use super::sheets::{accepted, crowded, of_size, spread, Mix, Size};
use super::spares::fill_up;
use super::{any, Sheets};
use crate::compare::Case;
use crate::plain::{coordinator, record};
use crate::seen::Seen;

/// Bytes of the first line, LF counted.
const FIRST_LINE: usize = 20;

/// Inputs of every kind, as cases of the comparison.
pub fn cases(random: &mut Random, seen: &mut Seen) -> Vec<Case> {
    let case = |_| {
        let case = Case::visit(input(random));
        seen.note_visits(&case);
        case
    };
    (0..30).map(case).collect()
}

fn input(random: &mut Random) -> Vec<u8> {
    match random.below(11) {
        0..=2 | 8 => {
            let sheets = match random.below(6) {
                0 | 1 => accepted(random),
                2 => {
                    let sheets = spread(random);
                    halfway(random, sheets)
                }
                _ => crowded(random),
            };
            let clock = clock(random, &sheets.store().records);
            text(&sheets, clock.into())
        }
        3 => too_many_lines(random),
        4 => {
            let sheets = match random.once_in(2) {
                true => accepted(random),
                false => any(random),
            };
            text(&sheets, random.pick(&[0, 4_294_967_295, 4_294_967_296]))
        }
        5 => text(&any(random), random.draw() % 4_294_967_296),
        9 | 10 => text(&of_another_form(random), 20_000),
        _ => {
            let sheets = accepted(random);
            damaged_text(random, text(&sheets, 20_000))
        }
    }
}

/// A line's before state is any, or no line has one, or an absence is of another form.
fn of_another_form(random: &mut Random) -> Sheets {
    let mut sheets = crowded(random);
    match random.below(6) {
        0 => return old_records(random),
        1 | 2 => absence::spoil(random, &mut sheets.records, old_lines::RECORDS),
        _ => before_state(random, &mut sheets.records, old_lines::RECORDS),
    }
    sheets
}

/// A first line that fits, as far as the sheets have whole lines, and both sheets.
fn text(sheets: &Sheets, clock: u64) -> Vec<u8> {
    let records = sheets.records.len() / record::LINE;
    let decisions = (sheets.coordinator.len() / coordinator::LINE).saturating_sub(1);
    let first = format!("{records:>4}{decisions:>4}{clock:>11}\n").into_bytes();
    [first, sheets.coordinator.clone(), sheets.records.clone()].concat()
}

/// More lines than a sheet may have, or none, that fit the input; at times most of them are spares.
fn too_many_lines(random: &mut Random) -> Vec<u8> {
    if random.once_in(3) {
        let mut sheets = crowded(random);
        let lines = random.pick(&[499, 500, 500, 501]);
        fill_up(&mut sheets.records, record::LINE, lines);
        return text(&sheets, 0);
    }
    let size = Size {
        records: random.pick(&[0, 1, 2, 500, 501, 1_200]),
        decisions: random.pick(&[0, 1, 999, 1_000, 1_500, 9_999]),
        issued: 0,
    };
    text(&of_size(random, size, Mix::Settled), 0)
}

/// The first line or the length changed.
fn damaged_text(random: &mut Random, mut text: Vec<u8>) -> Vec<u8> {
    let place = match random.once_in(4) {
        true => FIRST_LINE - 1,
        false => random.below(FIRST_LINE),
    };
    match random.below(8) {
        0..=2 => text[place] = random.pick(TELLING),
        3 => drop(text.remove(place)),
        4 => text.push(random.pick(b"\n 0")),
        5 => text.truncate(random.below(text.len())),
        6 => text.truncate(random.below(FIRST_LINE + 1)),
        _ => {
            let width = random.pick(&[0, 4, 8]);
            text[width..width + 4].copy_from_slice(random.pick(&[b"0001", b"1   ", b"   0"]));
        }
    }
    text
}
