//! A history of calls as text: the sheets, then one call a line, answered line by line. Each layout has its replay program.
//!
//! The input is a line with the numbers of lines, 4 columns each, the sheets, which may be damaged, and the calls. A replay of
//! joined sheets tells record lines and coordinator lines without head, and has the coordinator sheet and the record sheet.
//! One of two sheets tells the lines of the plain sheet, of the bookkeeping sheet and of the coordinator's without head,
//! and has the coordinator sheet, the plain sheet and the bookkeeping sheet. The output has a line for each call, and the
//! line `sheets` and the sheets in the same order where a line asks for them and at the end.

pub mod laid_out;
pub mod line;
pub mod reply;
pub mod state;

pub use crate::plain::Layout;

use laid_out::parts;
use line::Line;
use reply::Reply;
use state::ReplayState;

/// The most bytes that an input may have.
pub const MOST_BYTES: usize = 500_000;

/// The whole output for an input.
pub fn replay(layout: Layout, input: &[u8]) -> Vec<u8> {
    let Some((sheets, calls)) = parts(layout, input) else {
        return b"bad input\n".to_vec();
    };
    let mut state = ReplayState::new(sheets);
    let mut output = Vec::new();
    for line in lines(calls) {
        output.extend(reply(&mut state, line).printed());
    }
    output.extend(state.sheets.printed());
    output
}

/// What one line of the calls is answered.
pub fn reply(state: &mut ReplayState, line: &[u8]) -> Reply {
    match Line::parse(state.sheets.layout(), line) {
        Some(line) => state.make(&line),
        None => Reply::BadLine,
    }
}

/// Each line of an input's calls with what is printed for it; none of a bad input.
pub fn answers(layout: Layout, input: &[u8]) -> Vec<(&[u8], Vec<u8>)> {
    let Some((sheets, calls)) = parts(layout, input) else {
        return Vec::new();
    };
    let mut state = ReplayState::new(sheets);
    let mut answer = |line| reply(&mut state, line).printed();
    lines(calls).map(|line| (line, answer(line))).collect()
}

/// The lines without their LF, which the last one may lack.
fn lines(calls: &[u8]) -> impl Iterator<Item = &[u8]> {
    let lines = calls.split_inclusive(|byte| *byte == b'\n');
    lines.map(|line| line.strip_suffix(b"\n").unwrap_or(line))
}
