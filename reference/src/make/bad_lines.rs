//! Lines and inputs of another form than a replay wants. At times the change does none: the parser decides.

use super::damage::TELLING;
use super::random::Random;
use crate::replay::{Layout, MOST_BYTES};

/// Words that are no number of the range wanted, or only just one.
const WORDS: [&str; 18] = [
    "",
    "00",
    "01",
    "+1",
    "-1",
    "1.0",
    "1e3",
    "0x1",
    "16",
    "8",
    "2",
    "4294967295",
    "4294967296",
    "42949672950",
    "18446744073709551616",
    "99999999999999999999999999999999999999999",
    "begin",
    "\u{663}",
];

/// What is added to a line; the last is a number more.
const ENDS: [&str; 7] = [" ", "\r", "\t", "\0", ",", "1", " 0"];

/// A good line changed in one place.
pub fn bad_line(random: &mut Random, good: &str) -> Vec<u8> {
    let mut line = good.as_bytes().to_vec();
    let place = random.below(line.len());
    match random.below(10) {
        0 => line[place] = random.pick(TELLING),
        1 => line.insert(place, random.pick(TELLING)),
        2 => drop(line.remove(place)),
        3 => line.truncate(place),
        4 => line.extend(random.pick(&ENDS).bytes()),
        5 => line.insert(0, b' '),
        6 => line.resize(line.len() + random.pick(&[1, 100, 5_000]), b'7'),
        // Two spaces for one.
        7 if line.contains(&b' ') => {
            let place = line.iter().rposition(|byte| *byte == b' ');
            line.insert(place.unwrap_or(0), b' ');
        }
        _ => return other_word(random, good),
    }
    line
}

fn other_word(random: &mut Random, good: &str) -> Vec<u8> {
    let mut words: Vec<&str> = good.split(' ').collect();
    // The second word is a slot or a key's storage.
    let place = match random.once_in(2) {
        true => 1.min(words.len() - 1),
        false => random.below(words.len()),
    };
    match random.below(4) {
        0 => words.insert(place, random.pick(&WORDS)),
        1 => drop(words.remove(place)),
        _ => words[place] = random.pick(&WORDS),
    }
    words.join(" ").into_bytes()
}

/// An input whose first line or length is changed, or any byte.
pub fn bad_input(random: &mut Random, layout: Layout, mut input: Vec<u8>) -> Vec<u8> {
    let first_line = match layout {
        Layout::Joined => 9,
        Layout::Two => 13,
    };
    let place = match random.once_in(4) {
        true => first_line - 1,
        false => random.below(first_line),
    };
    match random.below(9) {
        0 | 1 => input[place] = random.pick(TELLING),
        2 => input.insert(place, random.pick(TELLING)),
        3 => drop(input.remove(place)),
        4 => input.truncate(random.below(input.len())),
        5 => input.truncate(random.below(first_line + 1)),
        6 | 7 => too_long(random, &mut input),
        _ => {
            let place = random.below(input.len());
            input[place] = random.pick(TELLING);
        }
    }
    input
}

/// As long as an input may be, or a little longer. An accepted one has a last line of many bytes.
fn too_long(random: &mut Random, input: &mut Vec<u8>) {
    let length = MOST_BYTES - 1 + random.below(3);
    input.resize(length.max(input.len()), b'9');
}
