//! The coordinator sheet: its head line and the decision of each number.

use super::field::{is_word, read_figure, write_figure, write_word};

/// Bytes of a coordinator line, LF counted.
pub const LINE: usize = 15;
/// The most lines after the head.
pub const MOST_LINES: usize = 999;

/// What the letter of a storage says of its atomicity unit.
#[derive(Clone, Copy, Debug, PartialEq, Eq)]
pub enum Unit {
    Record,
    Partition,
    Table,
    Namespace,
    Storage,
}

#[derive(Clone, Copy, Debug, PartialEq, Eq)]
pub enum Decision {
    Undecided,
    Committed,
    Aborted,
}

#[derive(Clone, Debug, PartialEq, Eq)]
pub struct Coordinator {
    pub issued: u32,
    /// One for each storage from 1 to 9.
    pub units: [Unit; 9],
    /// Which storages have a small letter: they can't be read consistently. On two sheets only.
    pub small: [bool; 9],
    /// The decision of number k at place k - 1.
    pub decisions: Vec<Decision>,
}

const LETTERS: [(Unit, u8); 5] = [
    (Unit::Record, b'R'),
    (Unit::Partition, b'P'),
    (Unit::Table, b'T'),
    (Unit::Namespace, b'N'),
    (Unit::Storage, b'S'),
];

const WORDS: [(Decision, &str); 3] = [
    (Decision::Undecided, "-"),
    (Decision::Committed, "COMMITTED"),
    (Decision::Aborted, "ABORTED"),
];

impl Coordinator {
    /// Whether the coordinator may stand in a sheet.
    pub fn keeps_rules(&self) -> bool {
        let count = (1..=MOST_LINES).contains(&self.decisions.len());
        let issued = self.issued as usize;
        count
            && issued <= self.decisions.len()
            && self
                .decisions
                .iter()
                .skip(issued)
                .all(|d| *d == Decision::Undecided)
    }

    /// Whether the letter of a storage from 1 to 9 is a small one.
    pub fn is_small(&self, storage: u32) -> bool {
        self.small[storage as usize - 1]
    }

    pub fn has_small(&self) -> bool {
        self.small.contains(&true)
    }
}

fn read_unit(letter: u8) -> Option<Unit> {
    let found = LETTERS.iter().find(|pair| pair.1 == letter);
    found.map(|pair| pair.0)
}

fn write_unit(unit: Unit, small: bool) -> u8 {
    let letter = LETTERS.iter().find(|pair| pair.0 == unit).unwrap().1;
    match small {
        true => letter.to_ascii_lowercase(),
        false => letter,
    }
}

fn read_decision(columns: &[u8]) -> Option<Decision> {
    let found = WORDS.iter().find(|pair| is_word(columns, pair.1));
    found.map(|pair| pair.0)
}

fn decision_word(decision: Decision) -> &'static str {
    WORDS.iter().find(|pair| pair.0 == decision).unwrap().1
}

/// The nine letters, a small one as its capital.
fn read_units(letters: &[u8]) -> Option<[Unit; 9]> {
    let letters = letters.to_ascii_uppercase();
    let units: Option<Vec<Unit>> = letters.iter().map(|b| read_unit(*b)).collect();
    units?.try_into().ok()
}

fn are_small(letters: &[u8]) -> [bool; 9] {
    std::array::from_fn(|i| letters[i].is_ascii_lowercase())
}

/// A coordinator without its decisions.
fn read_head(line: &[u8]) -> Option<Coordinator> {
    if line[4] != b' ' || line[14] != b'\n' {
        return None;
    }
    Some(Coordinator {
        issued: read_figure(&line[0..4])?,
        units: read_units(&line[5..14])?,
        small: are_small(&line[5..14]),
        decisions: Vec::new(),
    })
}

/// The decision of a line that bears the number k.
fn read_line(line: &[u8], k: u32) -> Option<Decision> {
    if read_figure(&line[0..4])? != k || line[14] != b'\n' {
        return None;
    }
    read_decision(&line[4..14])
}

/// The coordinator of a sheet that keeps the rules beside a joined sheet; which TxIDs the records name is not looked at.
pub fn read_sheet(sheet: &[u8]) -> Option<Coordinator> {
    read_either_case(sheet).filter(|coordinator| !coordinator.has_small())
}

/// The same beside two sheets, where letters may be small.
pub fn read_either_case(sheet: &[u8]) -> Option<Coordinator> {
    if sheet.is_empty() || !sheet.len().is_multiple_of(LINE) {
        return None;
    }
    let (head, lines) = sheet.split_at(LINE);
    let head = read_head(head)?;
    let numbered = lines.chunks(LINE).zip(1..);
    let decisions: Option<Vec<Decision>> = numbered.map(|(line, k)| read_line(line, k)).collect();
    let coordinator = Coordinator {
        decisions: decisions?,
        ..head
    };
    coordinator.keeps_rules().then_some(coordinator)
}

/// Writes a coordinator that keeps the rules, head and lines, to a sheet of just that length.
pub fn write_sheet(sheet: &mut [u8], coordinator: &Coordinator) {
    let (head, lines) = sheet.split_at_mut(LINE);
    write_figure(&mut head[0..4], coordinator.issued);
    head[4] = b' ';
    let units = coordinator.units.into_iter().zip(coordinator.small);
    for (letter, (unit, small)) in head[5..14].iter_mut().zip(units) {
        *letter = write_unit(unit, small);
    }
    head[14] = b'\n';
    for (i, line) in lines.chunks_mut(LINE).enumerate() {
        write_figure(&mut line[0..4], i as u32 + 1);
        write_word(&mut line[4..14], decision_word(coordinator.decisions[i]));
        line[14] = b'\n';
    }
}
