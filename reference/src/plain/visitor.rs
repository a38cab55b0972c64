//! The visiting program, from its whole input to its whole output.

use super::field::{read_figure, write_figure};
use super::record::LINE;
use super::store::Store;
use super::{BAD_RECORDS, BUSY};

/// Bytes of the first line, LF counted.
const FIRST: usize = 20;
/// Bytes of a coordinator line, LF counted.
const COORDINATOR_LINE: usize = 15;

/// The coordinator sheet, the record sheet and the clock of an input whose first line fits it.
pub fn parts(input: &[u8]) -> Option<(Vec<u8>, Vec<u8>, u32)> {
    if input.len() < FIRST || input[FIRST - 1] != b'\n' {
        return None;
    }
    let (first, sheets) = input.split_at(FIRST);
    let lines = read_figure(&first[0..4])? as usize;
    let decisions = read_figure(&first[4..8])? as usize;
    let clock = read_figure(&first[8..19])?;
    let coordinator = COORDINATOR_LINE * (decisions + 1);
    if sheets.len() != coordinator + LINE * lines {
        return None;
    }
    let (coordinator, records) = sheets.split_at(coordinator);
    Some((coordinator.to_vec(), records.to_vec(), clock))
}

/// All record lines visited in order, then all again, passing over 12. Spares stay.
fn visited_twice(
    mut coordinator: Vec<u8>,
    mut records: Vec<u8>,
    clock: u32,
) -> Result<Vec<u8>, u32> {
    let mut store = Store::read(&records, &coordinator)?;
    let lines = store.records.len();
    for place in (0..lines).chain(0..lines) {
        match store.visit(place, clock) {
            Ok(_) | Err(BUSY) => {}
            Err(refusal) => return Err(refusal),
        }
    }
    store.write(&mut records, &mut coordinator);
    Ok([coordinator, records].concat())
}

/// What the program prints for an input.
pub fn output(input: &[u8]) -> Vec<u8> {
    let printed = match parts(input) {
        Some((coordinator, records, clock)) => visited_twice(coordinator, records, clock),
        None => Err(BAD_RECORDS),
    };
    printed.unwrap_or_else(|refusal| {
        let mut line = b"REFUSED   \n".to_vec();
        write_figure(&mut line[7..10], refusal);
        line
    })
}
