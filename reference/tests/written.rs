//! What a call has written, told from the sheets before and after it.

use reference::exported::written_by_plain;
use reference::make::Sheets;

/// Lines of one letter each, and a coordinator sheet of any bytes.
fn sheets(lines: &str, coordinator: &str) -> Sheets {
    let lines = lines.bytes().flat_map(|letter| [letter; 108]);
    Sheets {
        records: lines.collect(),
        coordinator: coordinator.into(),
    }
}

/// The answer, and the lines told in place of two numbers.
fn told(before: &Sheets, after: &Sheets) -> (u32, [u32; 2]) {
    let mut lines = [77, 88];
    let answer = written_by_plain(before, after, &mut lines);
    (answer, lines)
}

#[test]
fn what_differs() {
    let before = sheets("abcde", "xyz");
    let expected = [
        ("abcde", "xyz", 0, [0, 0]),
        ("abcde", "xyy", 1, [0, 0]),
        ("Abcde", "xyz", 2, [0, 1]),
        ("abcdE", "xyz", 2, [4, 1]),
        ("abCDe", "xyz", 2, [2, 2]),
        ("aBcDe", "xyz", 2, [1, 3]),
        ("AbcdE", "zyz", 3, [0, 5]),
    ];
    for (lines, coordinator, answer, places) in expected {
        let after = sheets(lines, coordinator);
        assert_eq!(told(&before, &after), (answer, places));
        assert_eq!(told(&after, &before), (answer, places));
    }
}

#[test]
fn one_byte_is_enough() {
    let before = sheets("abc", "xyz");
    for place in 0..3 * 108 {
        let mut after = before.clone();
        after.records[place] ^= 1;
        assert_eq!(told(&before, &after), (2, [place as u32 / 108, 1]));
    }
    for place in 0..3 {
        let mut after = before.clone();
        after.coordinator[place] ^= 1;
        assert_eq!(told(&before, &after), (1, [0, 0]));
    }
}

#[test]
fn empty_sheets_are_equal() {
    let empty = sheets("", "");
    assert_eq!(told(&empty, &empty), (0, [0, 0]));
}

#[test]
fn refused_lengths_leave_the_lines() {
    let before = sheets("ab", "xyz");
    let other_length = sheets("abc", "xyz");
    let other_coordinator = sheets("ab", "xy");
    let both = sheets("a", "xyzz");
    let mut part = before.clone();
    part.records.pop();
    for (one, other, refusal) in [
        (&before, &other_length, 1),
        (&before, &part, 1),
        (&part, &part, 1),
        (&before, &both, 1),
        (&before, &other_coordinator, 2),
    ] {
        assert_eq!(told(one, other), (1_000 + refusal, [77, 88]));
        assert_eq!(told(other, one), (1_000 + refusal, [77, 88]));
    }
}

#[test]
fn two_lines_are_told() {
    let (before, after) = (sheets("ab", "xyz"), sheets("aB", "xyz"));
    for length in [0, 1, 3, 4] {
        let mut lines = vec![77; length];
        assert_eq!(written_by_plain(&before, &after, &mut lines), 1_001);
        assert_eq!(lines, vec![77; length]);
    }
}
