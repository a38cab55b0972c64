//! What may stand at each place of a record line, for each kind of line.

/// Bytes of a record line.
pub const LINE: usize = 108;
/// Bytes 0 and 1, a blank and the storage, are judged apart: 106 places are left.
pub const FIRST: usize = 2;
pub const PLACES: usize = LINE - FIRST;

/// A byte is judged with its left neighbour by four numbers of its place. It is good if it lies from `top - span` to
/// `top`, where `span` is one less if the neighbour is `open`, or if the neighbour is `open` and the byte is `also`.
#[repr(align(16))]
pub struct Places {
    pub top: [u8; PLACES],
    pub span: [u8; PLACES],
    pub open: [u8; PLACES],
    pub also: [u8; PLACES],
}

/// No place allows this byte, so a neighbour that is this byte is bad itself.
const NEVER: u8 = 0xff;

/// The kinds of line in text. `.` is a column of a figure before its last, `d` its last, `n` the last of a figure that
/// isn't 0, and any other byte stands for itself.
#[rustfmt::skip]
mod text {
    pub const ABSENT: &[u8; super::LINE] =
        b" n .n .n ....d ....d    ABSENT ....d ..d        0        0         -     0   0        0        0          0\n";
    pub const COMMITTED: &[u8; super::LINE] =
        b" n .n .n ....d ....d COMMITTED ....n ..d .......d .......d         -     0   0        0        0          0\n";
    pub const PREPARED_OVER_ABSENT: &[u8; super::LINE] =
        b" n .n .n ....d ....d  PREPARED ....n ..n .......d .......d    ABSENT ....d ..d        0        0 .........d\n";
    pub const PREPARED: &[u8; super::LINE] =
        b" n .n .n ....d ....d  PREPARED ....n ..n .......d .......d COMMITTED ....n ..d .......d .......d .........d\n";
}

/// By `kind`. No good line comes upon the two left over, nor upon the second ABSENT or COMMITTED.
pub static KINDS: [Places; 8] = [
    places(text::ABSENT),
    places(text::ABSENT),
    places(text::PREPARED_OVER_ABSENT),
    places(text::PREPARED),
    places(text::ABSENT),
    places(text::ABSENT),
    places(text::COMMITTED),
    places(text::COMMITTED),
];

/// The kinds in which TxID and version are both 0 or neither, of the line or of its before image.
pub const ABSENT: usize = 0;
pub const PREPARED_OVER_ABSENT: usize = 2;
/// The other kind whose version must follow its before version.
pub const PREPARED: usize = 3;

/// The kind that a line is of if it is good: its word's fifth column is A, E or M, and that of its before state M or not.
#[inline(always)]
pub fn kind(line: &[u8; LINE]) -> usize {
    usize::from(line[24] & 0b1100) / 2 + usize::from(line[62] == b'M')
}

/// Top, span, open and also of the place that a byte of the text describes.
const fn place(text: u8) -> [u8; 4] {
    match text {
        b'.' => [b'9', 9, b' ', b' '],
        b'd' => [b'9', 9, NEVER, b'9'],
        b'n' => [b'9', 9, b' ', b'9'],
        fixed => [fixed, 0, NEVER, fixed],
    }
}

const fn places(text: &[u8; LINE]) -> Places {
    let mut places = Places {
        top: [0; PLACES],
        span: [0; PLACES],
        open: [0; PLACES],
        also: [0; PLACES],
    };
    let mut i = 0;
    while i < PLACES {
        let [top, span, open, also] = place(text[FIRST + i]);
        places.top[i] = top;
        places.span[i] = span;
        places.open[i] = open;
        places.also[i] = also;
        i += 1;
    }
    places
}
