//! The line of a key, by halves: keys rise down the sheet, and their text orders as they do.

use super::records::KeyText;
use super::tables::LINE;
use super::text::set_figure;
use crate::plain::key::Key;
use crate::plain::{KEY_OUT_OF_RANGE, NO_LINE};

/// The place of the key's line, or refusal 5 or 6.
#[inline]
pub fn find(lines: &[[u8; LINE]], key: &Key) -> Result<usize, u32> {
    rank(lines, key)?.map_err(|_| NO_LINE)
}

/// The same, or else the place in which a line of the key would stand; or refusal 5.
#[inline]
pub fn rank(lines: &[[u8; LINE]], key: &Key) -> Result<Result<usize, usize>, u32> {
    if !key.in_range() {
        return Err(KEY_OUT_OF_RANGE);
    }
    let sought = text(key);
    Ok(lines.binary_search_by(|line| KeyText::of(line).cmp(&sought)))
}

/// The key as a line would hold it.
#[inline(always)]
fn text(key: &Key) -> KeyText {
    let mut line = [b' '; LINE];
    write_key(&mut line, key);
    KeyText::of(&line)
}

#[inline(always)]
pub fn write_key(line: &mut [u8; LINE], key: &Key) {
    set_figure(&mut line[0..2], key.storage);
    set_figure(&mut line[2..5], key.namespace);
    set_figure(&mut line[5..8], key.table);
    set_figure(&mut line[8..14], key.partition);
    set_figure(&mut line[14..20], key.clustering);
}
