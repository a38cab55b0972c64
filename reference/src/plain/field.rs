//! One field: a figure or a word, right-justified in its columns.

/// The figure in these columns, if it is set as the paper asks and a u32 holds it.
pub fn read_figure(columns: &[u8]) -> Option<u32> {
    let blanks = columns.iter().take_while(|b| **b == b' ').count();
    let digits = &columns[blanks..];
    let leading_zero = digits.len() > 1 && digits[0] == b'0';
    if digits.is_empty() || leading_zero {
        return None;
    }
    let mut value: u32 = 0;
    for digit in digits {
        if !digit.is_ascii_digit() {
            return None;
        }
        value = value
            .checked_mul(10)?
            .checked_add(u32::from(digit - b'0'))?;
    }
    Some(value)
}

/// Sets the figure in these columns, which must be wide enough for it.
pub fn write_figure(columns: &mut [u8], value: u32) {
    write_word(columns, &value.to_string());
}

/// Whether these columns hold the word and nothing else.
pub fn is_word(columns: &[u8], word: &str) -> bool {
    let blanks = columns.len() - word.len();
    columns[..blanks].iter().all(|b| *b == b' ') && &columns[blanks..] == word.as_bytes()
}

/// Sets the word in these columns, which must be wide enough for it.
pub fn write_word(columns: &mut [u8], word: &str) {
    let blanks = columns.len() - word.len();
    columns[..blanks].fill(b' ');
    columns[blanks..].copy_from_slice(word.as_bytes());
}
