//! Accepted sheets of every size, written by the standard library's formatting and not by `plain`.

use super::arguments::close_keys;
use super::damage::RECORD_LINE;
use super::expiry::apart;
use super::random::Random;
use super::spares::{end_in_any_spares, end_in_spares, is_spare};
use super::Sheets;
use std::collections::BTreeSet;

/// The states that a sheet's lines may take.
#[derive(Clone, Copy)]
pub enum Mix {
    Committed,
    Prepared,
    /// ABSENT or COMMITTED, half each.
    Settled,
    /// About a third each of ABSENT, COMMITTED and PREPARED.
    Thirds,
}

/// How large the sheets are to be, and how far the numbers are issued.
#[derive(Clone, Copy)]
pub struct Size {
    pub records: usize,
    pub decisions: usize,
    pub issued: usize,
}

/// Sheets of a random size, small ones more often; some end in spares, and seldom all lines are.
pub fn accepted(random: &mut Random) -> Sheets {
    let records = size(random, 500);
    let decisions = size(random, 999);
    let issued = match random.below(4) {
        0 => decisions,
        _ => random.below(decisions + 1),
    };
    let mix = random.pick(&[Mix::Committed, Mix::Prepared, Mix::Thirds, Mix::Thirds]);
    let size = Size {
        records,
        decisions,
        issued,
    };
    let mut sheets = of_size(random, size, mix);
    end_in_any_spares(random, 5, &mut sheets);
    sheets
}

fn size(random: &mut Random, most: usize) -> usize {
    match random.below(200) {
        0 => most,
        1 => 1 + random.below(most),
        2..=20 => 1 + random.below(40),
        _ => 1 + random.below(6),
    }
}

/// Small sheets in which units, states, owners and decisions of every kind lie close together.
pub fn crowded(random: &mut Random) -> Sheets {
    let decisions = 1 + random.below(6);
    let size = Size {
        records: random.pick(&[3, 4, 6, 9, 12]),
        decisions,
        issued: 1 + random.below(decisions),
    };
    let mix = random.pick(&[Mix::Prepared, Mix::Thirds, Mix::Thirds, Mix::Settled]);
    let keys = close_keys(random, size.records);
    let mut sheets = with_keys(random, &keys, size, mix);
    end_in_any_spares(random, 5, &mut sheets);
    sheets
}

/// The same with lines in several storages, so that an order holds keys under different letters.
pub fn of_several_storages(random: &mut Random) -> Sheets {
    loop {
        let sheets = crowded(random);
        let lines = sheets.records.chunks(RECORD_LINE);
        let lines = lines.filter(|line| !is_spare(line));
        let storages: BTreeSet<&[u8]> = lines.map(|line| &line[..2]).collect();
        if storages.len() > 1 {
            return sheets;
        }
    }
}

/// Small sheets without PREPARED lines, each line mostly a unit of its own: room for orders of many groups.
pub fn spread(random: &mut Random) -> Sheets {
    // So many numbers that some are undecided, most often.
    let decisions = 6 + random.below(4);
    let size = Size {
        records: 8 + random.below(5),
        decisions,
        issued: decisions - random.below(2),
    };
    let keys = close_keys(random, size.records);
    let mut sheets = with_keys(random, &keys, size, Mix::Settled);
    if !random.once_in(6) {
        sheets.part_units();
    }
    end_in_spares(random, 5, &mut sheets);
    sheets
}

/// Sheets of the size asked for. Beyond 500 or 999 lines they keep every rule but that one.
pub fn of_size(random: &mut Random, size: Size, mix: Mix) -> Sheets {
    let keys = keys(random, size.records);
    with_keys(random, &keys, size, mix)
}

/// Sheets whose record lines have these keys.
pub fn with_keys(random: &mut Random, keys: &BTreeSet<[u32; 5]>, size: Size, mix: Mix) -> Sheets {
    Sheets {
        records: record_sheet(random, keys, size.issued, mix),
        coordinator: coordinator_sheet(random, size),
    }
}

fn record_sheet(
    random: &mut Random,
    keys: &BTreeSet<[u32; 5]>,
    issued: usize,
    mix: Mix,
) -> Vec<u8> {
    let mut text = String::with_capacity(keys.len() * RECORD_LINE);
    // In half the sheets clocks lie near one another, so that of a number's lines some have expired and some haven't.
    let near = random.figure(0, u32::MAX);
    let near = random.once_in(2).then_some(near);
    for key in keys {
        let [storage, namespace, table, partition, clustering] = key;
        let rest = after_key(random, issued as u32, mix, near);
        let key = format!("{storage:>2}{namespace:>3}{table:>3}{partition:>6}{clustering:>6}");
        text += &format!("{key}{rest}\n");
    }
    text.into_bytes()
}

/// As many rising keys as asked for. Each field's range is narrow or wide, so that neighbours differ in any field.
fn keys(random: &mut Random, count: usize) -> BTreeSet<[u32; 5]> {
    let storage = random.pick(&[1, 2, 9]);
    let namespace = random.pick(&[1, 3, 12, 99]);
    let table = random.pick(&[1, 3, 12, 99]);
    let partition = random.pick(&[0, 2, 11, 1_002, 99_999]);
    let clustering = random.pick(&[2_000, 99_999]);
    let mut keys = BTreeSet::new();
    while keys.len() < count {
        keys.insert([
            random.figure(1, storage),
            random.figure(1, namespace),
            random.figure(1, table),
            random.figure(0, partition),
            random.figure(0, clustering),
        ]);
    }
    keys
}

/// A line's fields from the state word on, prepared near this clock if one is told.
fn after_key(random: &mut Random, issued: u32, mix: Mix, near: Option<u32>) -> String {
    let state = match mix {
        Mix::Committed => 1,
        Mix::Prepared => 2,
        Mix::Settled => random.below(2),
        Mix::Thirds => random.below(3),
    };
    match state {
        0 => settled("ABSENT", absence(random, issued)),
        2 if issued > 0 => prepared(random, issued, near),
        // Without an issued number no line can be PREPARED.
        _ => settled("COMMITTED", image(random, issued)),
    }
}

fn settled(state: &str, image: [u32; 4]) -> String {
    fields(state, image, "-", [0; 4], 0)
}

fn prepared(random: &mut Random, issued: u32, near: Option<u32>) -> String {
    let (before_state, mut before) = match random.once_in(3) {
        true => ("ABSENT", absence(random, issued)),
        false => ("COMMITTED", image(random, issued)),
    };
    before[0] = before[0].min(99_998);
    let mut image = image(random, issued);
    image[0] = before[0] + 1;
    image[1] = random.figure(1, issued);
    let clock = match near {
        Some(near) => near.wrapping_add(apart(random)),
        None if random.once_in(8) => 4_294_967_000 + random.below(296) as u32,
        None => random.figure(0, u32::MAX),
    };
    fields("PREPARED", image, before_state, before, clock)
}

/// Of a line without columns: version and TxID are 0 or from 1.
fn absence(random: &mut Random, issued: u32) -> [u32; 4] {
    match issued > 0 && random.once_in(2) {
        true => [
            random.figure(1, 99_999),
            random.figure(1, issued.min(999)),
            0,
            0,
        ],
        false => [0; 4],
    }
}

/// Version from 1, TxID, column 1, column 2.
fn image(random: &mut Random, issued: u32) -> [u32; 4] {
    [
        random.figure(1, 99_999),
        random.figure(0, issued.min(999)),
        random.figure(0, 99_999_999),
        random.figure(0, 99_999_999),
    ]
}

fn fields(
    state: &str,
    image: [u32; 4],
    before_state: &str,
    before: [u32; 4],
    clock: u32,
) -> String {
    let image = image_text(image);
    let before = image_text(before);
    format!("{state:>10}{image}{before_state:>10}{before}{clock:>11}")
}

fn image_text([version, tx_id, column_1, column_2]: [u32; 4]) -> String {
    format!("{version:>6}{tx_id:>4}{column_1:>9}{column_2:>9}")
}

fn coordinator_sheet(random: &mut Random, size: Size) -> Vec<u8> {
    let mut text = format!("{:>4} ", size.issued);
    for _ in 0..9 {
        text.push(random.pick(&['R', 'P', 'T', 'N', 'S']));
    }
    text.push('\n');
    for k in 1..=size.decisions {
        let word = match k <= size.issued {
            true => random.pick(&["-", "COMMITTED", "ABORTED"]),
            false => "-",
        };
        text += &format!("{k:>4}{word:>10}\n");
    }
    text.into_bytes()
}
