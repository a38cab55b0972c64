//! Cases taken from document 01 and its readings, judged by both checks.

use reference::{fast, plain};

/// The visiting program's example.
const HEAD: &str = "   1 SSSSSSSSS\n";
const UNDECIDED: &str = "   1         -\n";
const PREPARED: &str = " 1  1  1     1     1  PREPARED     1   1      500      250    ABSENT     0   0        0        0       5000\n";
const ABORTED: &str = "   1   ABORTED\n";
const ABSENT: &str = " 1  1  1     1     1    ABSENT     0   0        0        0         -     0   0        0        0          0\n";
const COMMITTED: &str = " 1  1  1     1     1 COMMITTED     1   0      500      250         -     0   0        0        0          0\n";
const LATER: &str = " 1  1  1     1     1  PREPARED 99999   1 99999999        0 COMMITTED 99998   1        0 99999999 4294967295\n";

fn check(records: &str, coordinator: &str) -> u32 {
    let refusal = plain::check(records.as_bytes(), coordinator.as_bytes());
    let fast = fast::check(records.as_bytes(), coordinator.as_bytes());
    assert_eq!(refusal, fast, "{records}{coordinator}");
    refusal
}

/// The answer for one record line beside the example's coordinator.
fn check_line(line: &str) -> u32 {
    check(line, &format!("{HEAD}{UNDECIDED}"))
}

/// The answer for a coordinator beside a line that names no TxID.
fn check_coordinator(sheet: &str) -> u32 {
    check(ABSENT, sheet)
}

/// The line with other text from a column on.
fn with(line: &str, column: usize, text: &str) -> String {
    format!("{}{text}{}", &line[..column], &line[column + text.len()..])
}

#[test]
fn the_visiting_example_is_accepted_before_and_after() {
    assert_eq!(check(PREPARED, &format!("{HEAD}{UNDECIDED}")), 0);
    assert_eq!(check(ABSENT, &format!("{HEAD}{ABORTED}")), 0);
}

#[test]
fn lines_of_each_state_are_accepted() {
    for line in [ABSENT, COMMITTED, PREPARED, LATER] {
        assert_eq!(check_line(line), 0, "{line}");
    }
}

#[test]
fn lengths() {
    assert_eq!(check_line(&PREPARED[..107]), 1);
    assert_eq!(check_line(""), 1);
    assert_eq!(check_line(&format!("{PREPARED}\n")), 1);
    assert_eq!(check_coordinator(""), 2);
    assert_eq!(check_coordinator("   0 SSSSSSSSS\n"), 2);
    assert_eq!(check_coordinator(&format!("{HEAD}{UNDECIDED}\n")), 2);
    assert_eq!(check_coordinator(&format!("{HEAD}{}", &UNDECIDED[..14])), 2);
    // A bad record sheet goes first.
    assert_eq!(check("", ""), 1);
}

fn record_lines(count: usize) -> String {
    let line = |i| with(COMMITTED, 14, &format!("{i:>6}"));
    (0..count).map(line).collect()
}

fn coordinator_lines(issued: usize, count: usize) -> String {
    let line = |k| format!("{k:>4}         -\n");
    let lines: String = (1..=count).map(line).collect();
    format!("{issued:>4} RPTNSRPTN\n{lines}")
}

#[test]
fn numbers_of_lines() {
    let coordinator = coordinator_lines(0, 1);
    assert_eq!(check(&record_lines(500), &coordinator), 0);
    assert_eq!(check(&record_lines(501), &coordinator), 1);
    assert_eq!(check_coordinator(&coordinator_lines(999, 999)), 0);
    assert_eq!(check_coordinator(&coordinator_lines(999, 1000)), 2);
    assert_eq!(check_coordinator(&coordinator_lines(1000, 1000)), 2);
}

#[test]
fn the_issued_count() {
    assert_eq!(check_coordinator(&coordinator_lines(5, 4)), 2);
    assert_eq!(check_coordinator(&coordinator_lines(4, 4)), 0);
    assert_eq!(check_coordinator(&coordinator_lines(0, 4)), 0);
    let decided = "   1 SSSSSSSSS\n   1 COMMITTED\n   2   ABORTED\n";
    assert_eq!(check_coordinator(decided), 2);
    assert_eq!(check_coordinator(&with(decided, 0, "   2")), 0);
    for count in ["  01", "    ", "1   ", "   -", "0000", "1   "] {
        assert_eq!(check_coordinator(&with(decided, 0, count)), 2, "{count}");
    }
}

#[test]
fn unissued_numbers() {
    let none = "   0 SSSSSSSSS\n   1         -\n";
    assert_eq!(check(PREPARED, none), 2);
    assert_eq!(check(&with(COMMITTED, 36, "   1"), none), 2);
    assert_eq!(check(COMMITTED, none), 0);
    // The before TxID counts too.
    assert_eq!(check_line(&with(LATER, 74, "   2")), 2);
    assert_eq!(check_line(&with(LATER, 36, "   2")), 2);
    assert_eq!(check_line(&with(LATER, 74, "   0")), 0);
}

#[test]
fn coordinator_lines_are_set_as_asked() {
    let sheet = "   3 RPTNSRPTN\n   1 COMMITTED\n   2   ABORTED\n   3         -\n";
    assert_eq!(check_coordinator(sheet), 0);
    for (column, text) in [
        (4, "R"),
        (5, "r"),
        (13, "A"),
        (14, " "),
        (15, "   2"),
        (15, "0001"),
        (19, "COMMITTED "),
        (19, "  PREPARED"),
        (34, "    ABSENT"),
        (34, "   aborted"),
        (34, "   DBORTED"),
        (49, "-         "),
        (49, "          "),
        (59, "\r"),
    ] {
        assert_eq!(check_coordinator(&with(sheet, column, text)), 2, "{text}");
    }
}

#[test]
fn ranges() {
    for (column, text, refusal) in [
        (0, " 0", 1),
        (0, "10", 1),
        (0, " 9", 0),
        (2, "100", 1),
        (2, " 99", 0),
        (2, "  0", 1),
        (5, "  0", 1),
        (5, "999", 1),
        (8, "100000", 1),
        (8, " 99999", 0),
        (14, "     0", 0),
        (14, "999999", 1),
        (30, "100000", 1),
        (36, "1000", 1),
        (40, "100000000", 1),
        (49, " 99999999", 0),
    ] {
        assert_eq!(
            check_line(&with(COMMITTED, column, text)),
            refusal,
            "{text}"
        );
    }
}

#[test]
fn figures_are_set_as_asked() {
    for text in [
        "      ", "    05", "5     ", "   5 5", "    -5", "    +5", "   5.0", "000005",
    ] {
        assert_eq!(check_line(&with(COMMITTED, 14, text)), 1, "{text}");
        assert_eq!(check_line(&with(COMMITTED, 30, text)), 1, "{text}");
    }
    for text in ["\t    5", "     \u{1}", "     :", "     /"] {
        assert_eq!(check_line(&with(COMMITTED, 14, text)), 1, "{text}");
    }
}

#[test]
fn state_words() {
    for word in [
        "COMMITTED ",
        "committed ",
        "   ABORTED",
        "         -",
        "   DELETED",
        "          ",
    ] {
        assert_eq!(check_line(&with(COMMITTED, 20, word)), 1, "{word}");
    }
}

#[test]
fn rules_of_the_states() {
    // ABSENT: version and TxID each 0 or each at least 1, columns, before fields and clock 0.
    for column in [35, 39, 48, 57, 73, 77, 86, 95, 106] {
        assert_eq!(check_line(&with(ABSENT, column, "1")), 1, "{column}");
    }
    let written = with(&with(ABSENT, 35, "7"), 39, "1");
    assert_eq!(check_line(&written), 0);
    for column in [48, 57, 73, 77, 86, 95, 106] {
        assert_eq!(check_line(&with(&written, column, "1")), 1, "{column}");
    }
    // COMMITTED: version at least 1, before fields and clock 0.
    assert_eq!(check_line(&with(COMMITTED, 35, "0")), 1);
    assert_eq!(check_line(&with(COMMITTED, 48, "00")), 1);
    for column in [73, 77, 86, 95, 106] {
        assert_eq!(check_line(&with(COMMITTED, column, "1")), 1, "{column}");
    }
    // PREPARED: TxID at least 1, version = before version + 1.
    assert_eq!(check_line(&with(PREPARED, 39, "0")), 1);
    assert_eq!(check_line(&with(PREPARED, 35, "2")), 1);
    assert_eq!(check_line(&with(PREPARED, 35, "0")), 1);
    assert_eq!(check_line(&with(LATER, 30, " 99998")), 1);
    assert_eq!(check_line(&with(LATER, 68, " 99999")), 1);
    // Over ABSENT before version and TxID are each 0 or each at least 1, and the before columns 0.
    for column in [77, 86, 95] {
        assert_eq!(check_line(&with(PREPARED, column, "1")), 1, "{column}");
    }
    let over = with(&with(PREPARED, 35, "8"), 73, "7");
    assert_eq!(check_line(&over), 1);
    let over = with(&over, 77, "1");
    assert_eq!(check_line(&over), 0);
    for column in [86, 95] {
        assert_eq!(check_line(&with(&over, column, "1")), 1, "{column}");
    }
}

#[test]
fn versions_of_other_widths() {
    for (version, before, refusal) in [
        ("    10", "     9", 0),
        ("   100", "    99", 0),
        ("  1000", "   999", 0),
        (" 10000", "  9999", 0),
        (" 12350", " 12349", 0),
        ("     2", "     1", 0),
        ("    10", "    10", 1),
        ("    20", "     9", 1),
        ("     9", "    10", 1),
        ("     1", "     9", 1),
        ("100000", " 99999", 1),
    ] {
        let line = with(&with(LATER, 30, version), 68, before);
        assert_eq!(check_line(&line), refusal, "{version} {before}");
    }
}

#[test]
fn the_prepare_clock() {
    for (clock, refusal) in [
        ("          0", 0),
        (" 4294967295", 0),
        (" 4294967296", 1),
        (" 4294967300", 1),
        (" 4294967199", 0),
        (" 4294968000", 1),
        (" 5000000000", 1),
        ("10000000000", 1),
        ("99999999999", 1),
        ("  999999999", 0),
        ("           ", 1),
    ] {
        assert_eq!(check_line(&with(PREPARED, 96, clock)), refusal, "{clock}");
    }
}

#[test]
fn keys_rise_strictly() {
    let sheet =
        |one: &str, other: &str| check_line(&(with(ABSENT, 0, one) + &with(ABSENT, 0, other)));
    let low = " 1  1  1     1     1";
    for (high, refusal) in [
        (" 1  1  1     1     1", 1),
        (" 1  1  1     1     2", 0),
        (" 1  1  1     1    10", 0),
        (" 1  1  1     2     0", 0),
        (" 1  1  1    10     0", 0),
        (" 1  1  2     0     0", 0),
        (" 1  2  1     0     0", 0),
        (" 1 10  1     0     0", 0),
        (" 2  1  1     0     0", 0),
        (" 1  1  1     0     2", 1),
    ] {
        assert_eq!(sheet(low, high), refusal, "{high}");
        assert_eq!(sheet(high, low), u32::from(high >= low), "{high}");
    }
}
