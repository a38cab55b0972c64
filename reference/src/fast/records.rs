//! The record sheet in one pass that leaves no line early: what is wrong anywhere is gathered and asked for at the end.

use super::tables::{
    kind, Places, ABSENT, FIRST, KINDS, LINE, PLACES, PREPARED, PREPARED_OVER_ABSENT,
};

const MOST_LINES: usize = 500;
/// Bytes judged at a time.
const LANES: usize = 16;

/// A spare, compared as a whole.
pub const SPARE: [u8; LINE] = {
    let mut line = [b' '; LINE];
    line[LINE - 1] = b'\n';
    line
};

/// What the calls need to know of an accepted sheet.
pub struct Accepted {
    /// How many record lines there are. Below them are spares.
    pub lines: usize,
    /// The greatest TxID named, in its four columns as one number.
    pub tx_id: u32,
}

/// What is known of the sheet, or nothing if it breaks a rule. Figures well set in as many columns order as their bytes do, so
/// keys, TxIDs and clocks are compared unread.
pub fn accepted(sheet: &[u8]) -> Option<Accepted> {
    let (lines, rest) = sheet.as_chunks::<LINE>();
    if !rest.is_empty() || lines.is_empty() || lines.len() > MOST_LINES {
        return None;
    }
    let lines = above_spares(lines);
    let tx_id = greatest_tx_id(lines)?;
    Some(Accepted {
        lines: lines.len(),
        tx_id,
    })
}

/// The lines up to the last that is no spare. A spare among them is judged as a record line, and no kind of line is blank.
#[inline(always)]
fn above_spares(lines: &[[u8; LINE]]) -> &[[u8; LINE]] {
    let last = lines.iter().rposition(|line| *line != SPARE);
    &lines[..last.map_or(0, |last| last + 1)]
}

/// The greatest TxID that record lines name, or nothing if they break a rule.
#[inline(always)]
fn greatest_tx_id(lines: &[[u8; LINE]]) -> Option<u32> {
    let mut found = Findings {
        rising: true,
        ..Findings::default()
    };
    let mut last = KeyText(0, 0);
    for line in lines {
        let key = KeyText::of(line);
        found.add(line);
        found.rising &= last.is_below(key);
        last = key;
    }
    let good = found.none() && storages_fit(lines) && clocks_fit(lines, found.clock);
    good.then_some(found.tx_id)
}

/// What the lines so far have shown.
#[derive(Default)]
struct Findings {
    /// Not 0 in some lane if a byte may not stand at its place.
    bad: [u8; LANES],
    /// Not 0 if a version does not follow its before version.
    leaps: u64,
    /// Whether a version or a TxID is 0 where the other isn't.
    apart: bool,
    /// Whether each key is above the one before it.
    rising: bool,
    tx_id: u32,
    /// The greatest clock without its last two columns.
    clock: u64,
}

impl Findings {
    #[inline(always)]
    fn add(&mut self, line: &[u8; LINE]) {
        let kind = kind(line);
        judge(&mut self.bad, line, &KINDS[kind]);
        // Worked out for every line: a branch that depends on the state is often guessed wrong.
        let over_absent = kind == PREPARED_OVER_ABSENT;
        self.leaps |= leap(line) * u64::from(over_absent | (kind == PREPARED));
        self.apart |= (kind == ABSENT) & zeros_differ(line, 30);
        self.apart |= over_absent & zeros_differ(line, 68);
        self.tx_id = self.tx_id.max(half(line, 36)).max(half(line, 74));
        self.clock = self.clock.max(word(line, 97));
    }

    fn none(&self) -> bool {
        let bad = self.bad.iter().fold(0, |all, lane| all | lane);
        bad == 0 && self.leaps == 0 && !self.apart && self.rising
    }
}

/// Eight bytes as one number.
#[inline(always)]
fn word(line: &[u8; LINE], at: usize) -> u64 {
    u64::from_be_bytes(line[at..at + 8].try_into().unwrap())
}

/// Four bytes as one number.
#[inline(always)]
fn half(line: &[u8; LINE], at: usize) -> u32 {
    u32::from_be_bytes(line[at..at + 4].try_into().unwrap())
}

/// The 20 bytes of a key.
#[derive(Clone, Copy, PartialEq, Eq, PartialOrd, Ord)]
pub struct KeyText(u128, u32);

impl KeyText {
    #[inline(always)]
    pub fn of(line: &[u8; LINE]) -> KeyText {
        let first = line[..16].try_into().unwrap();
        KeyText(u128::from_be_bytes(first), half(line, 16))
    }

    /// Without a branch. The sum can only wrap for bytes that are bad at their places.
    #[inline(always)]
    fn is_below(self, other: KeyText) -> bool {
        self.0 < other.0.wrapping_add(u128::from(self.1 < other.1))
    }
}

/// Where the lanes start. The last ones judge some bytes a second time, so that none are left over.
const STARTS: [usize; 7] = [0, 16, 32, 48, 64, 80, PLACES - LANES];

/// Judges each byte by its place. Lanes of 16 bytes become one register, and no lane waits for another.
#[inline(always)]
fn judge(bad: &mut [u8; LANES], line: &[u8; LINE], places: &Places) {
    for start in STARTS {
        for (lane, bad) in bad.iter_mut().enumerate() {
            let i = start + lane;
            let byte = line[FIRST + i];
            let open = mask(line[FIRST + i - 1] == places.open[i]);
            let also = mask(byte == places.also[i]);
            // Adding the mask takes one from the span.
            let span = places.span[i].wrapping_add(open);
            let beyond = places.top[i].wrapping_sub(byte).saturating_sub(span);
            *bad |= beyond & !(open & also);
        }
    }
}

#[inline(always)]
fn mask(holds: bool) -> u8 {
    if holds {
        0xff
    } else {
        0
    }
}

/// The digits of a version's six columns.
const DIGITS: u64 = 0x0f0f_0f0f_0f0f;

/// Whether of the version in these columns and the TxID behind it only one is 0.
#[inline(always)]
fn zeros_differ(line: &[u8; LINE], at: usize) -> bool {
    let no_version = word(line, at - 2) & DIGITS == 0;
    let no_tx_id = half(line, at + 6) & DIGITS as u32 == 0;
    no_version != no_tx_id
}

/// 0 if the version is the before version + 1. Each digit has a byte; 0xf6 more in each lets a carry run through nines.
#[inline(always)]
fn leap(line: &[u8; LINE]) -> u64 {
    let version = word(line, 28) & DIGITS;
    let before = word(line, 66) & DIGITS;
    let raised = before + 0xf6f6_f6f6_f6f6 + 1;
    // The bytes that no carry has left still have the 0xf6.
    let kept = (raised >> 4) & 0x0101_0101_0101;
    (raised - kept * 0xf6) ^ version
}

/// Keys rise, so the first line and the last show bytes 0 and 1 of all.
fn storages_fit(lines: &[[u8; LINE]]) -> bool {
    match (lines.first(), lines.last()) {
        (Some(first), Some(last)) => first[..FIRST] >= b" 1"[..] && last[..FIRST] <= b" 9"[..],
        _ => true,
    }
}

/// Whether no clock is above 4294967295. Only clocks that begin like that number need a second look.
fn clocks_fit(lines: &[[u8; LINE]], greatest: u64) -> bool {
    let limit = u64::from_be_bytes(*b"42949672");
    let fits = |line: &[u8; LINE]| word(line, 97) < limit || [line[105], line[106]] <= *b"95";
    greatest < limit || (greatest == limit && lines.iter().all(fits))
}
