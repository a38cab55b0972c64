//! Figures in their columns. Those read are known to be well set.

/// The figure in columns that are well set: a blank counts as 0.
#[inline(always)]
pub fn figure(columns: &[u8]) -> u32 {
    let digits = columns.iter().map(|byte| u32::from(byte & 15));
    digits.fold(0, |figure, digit| figure * 10 + digit)
}

/// Sets the figure in these columns, which must be wide enough for it.
#[inline(always)]
pub fn set_figure(columns: &mut [u8], mut value: u32) {
    let (last, rest) = columns.split_last_mut().expect("a figure has columns");
    *last = b'0' + (value % 10) as u8;
    for column in rest.iter_mut().rev() {
        value /= 10;
        *column = match value {
            0 => b' ',
            _ => b'0' + (value % 10) as u8,
        };
    }
}

/// Raises a figure by one; it has a column left for the carry.
#[inline(always)]
pub fn add_one(columns: &mut [u8]) {
    for column in columns.iter_mut().rev() {
        if *column != b'9' {
            *column = (*column | b'0') + 1;
            return;
        }
        *column = b'0';
    }
}
