//! The record sheet: its lines, the rules of each state and the order of keys.

use super::field::{read_figure, write_figure, write_word};
use super::key::Key;
use super::spares::{above_spares, is_spare_line, write_spare_line};
pub use super::words::{Before, State};

/// Bytes of a record line, LF counted.
pub const LINE: usize = 108;
/// The most lines a record sheet may have, spares counted.
pub const MOST_LINES: usize = 500;

/// What a line says of its record at one version; the before fields are a second image.
#[derive(Clone, Copy, Debug, PartialEq, Eq)]
#[repr(C)]
pub struct Image {
    pub version: u32,
    pub tx_id: u32,
    pub column_1: u32,
    pub column_2: u32,
}

#[derive(Clone, Copy, Debug, PartialEq, Eq)]
pub struct Record {
    pub key: Key,
    pub state: State,
    pub image: Image,
    pub before_state: Before,
    pub before: Image,
    pub prepare_clock: u32,
}

/// The image whose fields are all 0.
pub const NOTHING: Image = Image {
    version: 0,
    tx_id: 0,
    column_1: 0,
    column_2: 0,
};

/// The greatest version.
pub const MOST_VERSION: u32 = 99_999;

/// Whether both columns are in their range.
pub fn columns_in_range(columns: [u32; 2]) -> bool {
    columns.iter().all(|column| *column <= 99_999_999)
}

impl Image {
    pub fn columns(&self) -> [u32; 2] {
        [self.column_1, self.column_2]
    }

    /// Whether an ABSENT line may have this image, or come back to it: there are no columns, and a version only where a number
    /// has written it.
    pub fn is_absence(&self) -> bool {
        (self.version >= 1) == (self.tx_id >= 1) && self.columns() == [0, 0]
    }

    pub fn in_range(&self) -> bool {
        self.version <= MOST_VERSION && self.tx_id <= 999 && columns_in_range(self.columns())
    }
}

impl Record {
    /// The line of a key under which nothing was ever written. A key without a line counts as this one.
    pub fn absent(key: Key) -> Record {
        Record {
            key,
            state: State::Absent,
            image: NOTHING,
            before_state: Before::Nothing,
            before: NOTHING,
            prepare_clock: 0,
        }
    }

    /// Whether the line could stand alone in a sheet: its ranges and the rule of its state.
    pub fn keeps_rules(&self) -> bool {
        self.in_range() && self.keeps_state_rule()
    }

    /// Every u32 is in the prepare clock's range.
    fn in_range(&self) -> bool {
        self.key.in_range() && self.image.in_range() && self.before.in_range()
    }

    fn keeps_state_rule(&self) -> bool {
        match self.state {
            State::Absent => self.image.is_absence() && self.is_unprepared(),
            State::Committed => self.image.version >= 1 && self.is_unprepared(),
            State::Prepared => {
                self.image.tx_id >= 1
                    && self.image.version == self.before.version + 1
                    && self.before_fits()
            }
        }
    }

    /// Whether there is nothing that only a prepared line has.
    fn is_unprepared(&self) -> bool {
        self.before_state == Before::Nothing && self.before == NOTHING && self.prepare_clock == 0
    }

    /// Whether a prepared line can come back to what its before fields say.
    fn before_fits(&self) -> bool {
        match self.before_state {
            Before::Nothing => false,
            Before::Absent => self.before.is_absence(),
            Before::Committed => self.before.version >= 1,
        }
    }
}

pub(super) fn read_key(columns: &[u8]) -> Option<Key> {
    Some(Key {
        storage: read_figure(&columns[0..2])?,
        namespace: read_figure(&columns[2..5])?,
        table: read_figure(&columns[5..8])?,
        partition: read_figure(&columns[8..14])?,
        clustering: read_figure(&columns[14..20])?,
    })
}

pub(super) fn read_image(columns: &[u8]) -> Option<Image> {
    Some(Image {
        version: read_figure(&columns[0..6])?,
        tx_id: read_figure(&columns[6..10])?,
        column_1: read_figure(&columns[10..19])?,
        column_2: read_figure(&columns[19..28])?,
    })
}

/// The fields of one line of 108 bytes, if each is well set; ranges and rules are not looked at.
fn read_line(line: &[u8]) -> Option<Record> {
    if line[107] != b'\n' {
        return None;
    }
    Some(Record {
        key: read_key(&line[0..20])?,
        state: State::read(&line[20..30])?,
        image: read_image(&line[30..58])?,
        before_state: Before::read(&line[58..68])?,
        before: read_image(&line[68..96])?,
        prepare_clock: read_figure(&line[96..107])?,
    })
}

/// Whether these records may stand in a sheet, in this order. None may too: then all lines are spares.
pub fn keep_rules(records: &[Record]) -> bool {
    let rising = records.windows(2).all(|pair| pair[0].key < pair[1].key);
    rising && records.iter().all(Record::keeps_rules)
}

/// The records of a sheet that refusal 1 lets pass. Its other lines are spares.
pub fn read_sheet(sheet: &[u8]) -> Option<Vec<Record>> {
    let lines = above_spares(sheet, LINE, is_spare_line)?;
    let records: Option<Vec<Record>> = lines.into_iter().map(read_line).collect();
    records.filter(|r| keep_rules(r))
}

pub(super) fn write_key(columns: &mut [u8], key: &Key) {
    write_figure(&mut columns[0..2], key.storage);
    write_figure(&mut columns[2..5], key.namespace);
    write_figure(&mut columns[5..8], key.table);
    write_figure(&mut columns[8..14], key.partition);
    write_figure(&mut columns[14..20], key.clustering);
}

pub(super) fn write_image(columns: &mut [u8], image: &Image) {
    write_figure(&mut columns[0..6], image.version);
    write_figure(&mut columns[6..10], image.tx_id);
    write_figure(&mut columns[10..19], image.column_1);
    write_figure(&mut columns[19..28], image.column_2);
}

/// Writes a record that keeps the rules as one line of 108 bytes.
fn write_line(line: &mut [u8], record: &Record) {
    write_key(&mut line[0..20], &record.key);
    write_word(&mut line[20..30], record.state.word());
    write_image(&mut line[30..58], &record.image);
    write_word(&mut line[58..68], record.before_state.word());
    write_image(&mut line[68..96], &record.before);
    write_figure(&mut line[96..107], record.prepare_clock);
    line[107] = b'\n';
}

/// Writes records that keep the rules to a sheet of at least as many lines, and spares below them.
pub fn write_sheet(sheet: &mut [u8], records: &[Record]) {
    let (lines, spares) = sheet.split_at_mut(records.len() * LINE);
    for (line, record) in lines.chunks_mut(LINE).zip(records) {
        write_line(line, record);
    }
    spares.chunks_mut(LINE).for_each(write_spare_line);
}
