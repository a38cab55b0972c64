//! The coordinator sheet, held line by line against the text that it would have if nothing were decided.

use crate::plain::coordinator::Decision;

const LINE: usize = 15;
/// Bytes of a coordinator line.
pub const COORDINATOR_LINE: usize = LINE;
const MOST_LINES: usize = 999;

/// The lines 1 to 999, all undecided.
static UNDECIDED: [[u8; LINE]; MOST_LINES] = undecided();

const fn undecided() -> [[u8; LINE]; MOST_LINES] {
    let mut lines = [*b"              \n"; MOST_LINES];
    let mut i = 0;
    while i < MOST_LINES {
        lines[i][13] = b'-';
        let mut figure = i + 1;
        let mut column = 4;
        while figure > 0 {
            column -= 1;
            lines[i][column] = b'0' + (figure % 10) as u8;
            figure /= 10;
        }
        i += 1;
    }
    lines
}

/// What the calls need to know of an accepted sheet.
pub struct Accepted {
    pub issued: u32,
    head: [u8; LINE],
}

impl Accepted {
    /// The issued count in its four columns as one number.
    #[inline(always)]
    pub fn issued_text(&self) -> u32 {
        let head = &self.head;
        u32::from_be_bytes([head[0], head[1], head[2], head[3]])
    }

    /// How many key fields agree within a unit of this storage.
    #[inline(always)]
    pub fn fields(&self, storage: u32) -> usize {
        match self.head[4 + storage as usize] {
            b'R' => 5,
            b'P' => 4,
            b'T' => 3,
            b'N' => 2,
            b'S' => 1,
            // No letter of an accepted sheet.
            _ => 1,
        }
    }
}

/// The sheet's issued count and units, or nothing if it breaks a rule.
pub fn accepted(sheet: &[u8]) -> Option<Accepted> {
    let (lines, rest) = sheet.as_chunks::<LINE>();
    let (head, lines) = lines.split_first()?;
    if !rest.is_empty() || lines.is_empty() || lines.len() > MOST_LINES {
        return None;
    }
    let issued = count(head)?;
    if issued > lines.len() {
        return None;
    }
    let (below, above) = lines.split_at(issued);
    let undecided = UNDECIDED[issued..lines.len()].as_flattened();
    let good = units_fit(head) && decisions_fit(below) && above.as_flattened() == undecided;
    good.then_some(Accepted {
        issued: issued as u32,
        head: *head,
    })
}

/// The decision of an accepted line, told by its word's sixth column: a blank, I or O.
#[inline(always)]
pub fn decision(line: &[u8; LINE]) -> Decision {
    match line[9] {
        b'I' => Decision::Committed,
        b'O' => Decision::Aborted,
        _ => Decision::Undecided,
    }
}

#[inline(always)]
pub fn decide_on(line: &mut [u8; LINE], word: &[u8; 10]) {
    line[4..14].copy_from_slice(word);
}

/// The figure in the head's first columns, if it is 0 to 999.
fn count(head: &[u8; LINE]) -> Option<usize> {
    let columns = &head[..4];
    let digits = columns.iter().map(|byte| usize::from(byte & 15));
    let figure = digits.fold(0, |figure, digit| 10 * figure + digit);
    let well_set = match figure {
        0 => columns == b"   0",
        1..=MOST_LINES => *columns == UNDECIDED[figure - 1][..4],
        _ => false,
    };
    well_set.then_some(figure)
}

fn units_fit(head: &[u8; LINE]) -> bool {
    let letters = head[5..14].iter();
    let capitals = letters.fold(true, |all, letter| all & b"RPTNS".contains(letter));
    capitals && head[4] == b' ' && head[14] == b'\n'
}

/// What a word does to an undecided line's first eight bytes, and the last eight of its own line; byte 7 is in both.
#[derive(Clone, Copy)]
struct Word {
    change: u64,
    end: u64,
}

/// By the two low bits of the word's sixth column: a blank, I, nothing, O.
const WORDS: [Word; 4] = [
    word(b"             -\n"),
    word(b"     COMMITTED\n"),
    word(b"             -\n"),
    word(b"       ABORTED\n"),
];

const fn word(line: &[u8; LINE]) -> Word {
    Word {
        change: start(line) ^ start(b"             -\n"),
        end: end(line),
    }
}

#[inline(always)]
const fn start(line: &[u8; LINE]) -> u64 {
    match line.first_chunk() {
        Some(bytes) => u64::from_ne_bytes(*bytes),
        None => unreachable!(),
    }
}

#[inline(always)]
const fn end(line: &[u8; LINE]) -> u64 {
    match line.last_chunk() {
        Some(bytes) => u64::from_ne_bytes(*bytes),
        None => unreachable!(),
    }
}

/// Whether the lines are those of the first numbers, each with any of the three words.
fn decisions_fit(lines: &[[u8; LINE]]) -> bool {
    let mut bad = 0;
    for (line, undecided) in lines.iter().zip(&UNDECIDED) {
        let word = WORDS[usize::from(line[9] & 3)];
        bad |= start(line) ^ start(undecided) ^ word.change;
        bad |= end(line) ^ word.end;
    }
    bad == 0
}
