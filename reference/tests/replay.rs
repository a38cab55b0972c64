//! The replay and the visiting program as text, and the scripts that the comparison makes.

use reference::make::random::Random;
use reference::make::script::Script;
use reference::make::scripts::{damaged, free, legal, Extent};
use reference::plain::key::Key;
use reference::plain::visitor::output;
use reference::replay::line::Line;
use reference::replay::{self, Layout};
use reference::seen::Seen;

const COORDINATOR: &str = "   0 SSSSSSSSS\n   1         -\n   2         -\n";
const ABSENT: &str = " 1  1  1     1     1    ABSENT     0   0        0        0         -     0   0        0        0          0\n";
const COMMITTED: &str = " 1  1  1     1     1 COMMITTED     1   1      500      250         -     0   0        0        0          0\n";

/// The replay of joined sheets.
fn replay(input: &[u8]) -> Vec<u8> {
    replay::replay(Layout::Joined, input)
}

/// The output for these calls, before the sheets, and both sheets.
fn replayed(calls: &str) -> (String, String) {
    let input = format!("   1   2\n{COORDINATOR}{ABSENT}{calls}");
    let output = String::from_utf8(replay(input.as_bytes())).unwrap();
    let (answers, sheets) = output.split_once("sheets\n").unwrap();
    (answers.into(), sheets.into())
}

#[test]
fn a_transaction_is_answered_line_by_line() {
    let calls = "check\nbegin 3 0\nread 3 1 1 1 1 1 7\nput 3 1 1 1 1 1 500 250\nread 3 1 1 1 1 1 7\nshow 3\n\
                 advance 3 9\nadvance 3 9\nabort 3\nvisit 1 1 1 1 1 0\nlookup 1 1 1 1 1\nlookup 1 1 1 1 2\n";
    let answers =
        "ok\nok 1\nok absent\nok\nok columns 500 250\nok 1 0 0 0 0 1 1 1 1 1 1 1 0 0 0 0 1 500 250\n\
                   ok 7 0 1\nrefused 4\nrefused 4\nok stays\nok 0 1\nok 1 0\n";
    let sheets = format!("{}{COMMITTED}", COORDINATOR.replacen('0', "1", 1));
    assert_eq!(replayed(calls), (answers.into(), sheets));
}

#[test]
fn a_close_prints_its_writes_first() {
    let calls = "begin 3 1\nread 3 1 1 1 1 1 7\nput 3 1 1 1 1 1 500 250\nclose 3 9 0\nclose 3 9 1\nclose 3 9 1\n\
                 close 3 9 4294967295\nclose 3 9 17\nbegin 0 0\nclose 0 0 0\n";
    let answers =
        "ok 1\nok absent\nok\nok 0 1 0 0\nok 1 3 0 0\nok 1 5 0 1\nok 1 7 0 1\nrefused 4\nok 2\nok 0 7 0 1\n";
    let coordinator = "   2 SSSSSSSSS\n   1 COMMITTED\n   2         -\n";
    let sheets = format!("{coordinator}{COMMITTED}");
    assert_eq!(replayed(calls), (answers.into(), sheets));
}

#[test]
fn a_key_s_line_is_handed_back_or_nothing() {
    let calls = "line 1 1 1 1 1\nline 1 1 1 1 2\nline 0 1 1 1 1\nline 1 1 1 1\n";
    let answers = format!("ok {ABSENT}ok\nok\nbad line\n");
    assert_eq!(replayed(calls).0, answers);
    // A bad coordinator sheet is of no account, a bad record sheet is.
    let good = format!("   1   2\n{COORDINATOR}{ABSENT}line 1 1 1 1 1\n");
    let handed = |input: &str| {
        let output = String::from_utf8(replay(input.as_bytes())).unwrap();
        output.starts_with(&format!("ok {ABSENT}"))
    };
    assert!(handed(&good));
    assert!(handed(&good.replacen("SSSSSSSSS", "SSSSSSSS?", 1)));
    assert!(!handed(&good.replacen("ABSENT", "absent", 1)));
}

#[test]
fn sheets_are_printed_where_they_are_asked_for() {
    let at_first = format!("sheets\n{COORDINATOR}{ABSENT}");
    let begun = at_first.replacen('0', "1", 1);
    let calls = "sheets\nbegin 0 0\nsheets\nsheets 0\n";
    let input = format!("   1   2\n{COORDINATOR}{ABSENT}{calls}");
    let output = String::from_utf8(replay(input.as_bytes())).unwrap();
    assert_eq!(output, format!("{at_first}ok 1\n{begun}bad line\n{begun}"));
    // Damaged ones too, byte for byte.
    let damaged = [COORDINATOR.as_bytes(), &[255; 108]].concat();
    let input = [b"   1   2\n", &damaged[..], b"sheets"].concat();
    let printed = [b"sheets\n", &damaged[..]].concat();
    assert_eq!(replay(&input), printed.repeat(2));
}

#[test]
fn transactions_are_forged_field_by_field() {
    let calls =
        "begin 0 1\nset 0 1 1 6 0 2 1\nentry 0 0 1 1 1 1 1 1 0 0 0 0 1 5 6\nshow 0\nadvance 0 0\n\
                 set 15 4294967295 2 3 4 5 9\nshow 15";
    let answers = "ok 1\nok\nok\nok 1 1 6 0 2 1 1 1 1 1 1 1 0 0 0 0 1 5 6\nrefused 4\nok\n";
    let zeros = " 0".repeat(104);
    let answers = format!("{answers}ok 4294967295 2 3 4 5 9{zeros}\n");
    assert_eq!(replayed(calls).0, answers);
}

#[test]
fn begin_clears_its_slot_and_a_refused_call_leaves_it() {
    let calls = "begin 0 1\nset 0 7 1 6 0 2 1\nentry 0 7 1 1 1 1 1 1 0 0 0 0 1 5 6\nbegin 0 0\nset 0 9 9 9 9 9 8\n\
                 begin 0 0\nshow 0\n";
    let zeros = " 0".repeat(104);
    let answers = format!("ok 1\nok\nok\nok 2\nok\nrefused 8\nok 9 9 9 9 9 8{zeros}\n");
    assert_eq!(replayed(calls).0, answers);
}

#[test]
fn lines_of_another_form_are_bad_lines() {
    let bad = [
        "",
        " ",
        "check ",
        " check",
        "Check",
        "sheets ",
        "sheets 1",
        "begin 0",
        "begin 0 2",
        "begin 16 0",
        "begin 00 0",
        "begin  0 0",
        "begin 0 0 ",
        "begin 0 +1",
        "advance 0 4294967296",
        "advance 0 99999999999999999999999",
        "close 0 1",
        "close 0 1 2 3",
        "close 16 1 2",
        "close 0 4294967296 17",
        "close 0 0 4294967296",
        "entry 0 8 1 1 1 1 1 1 0 0 0 0 1 5 6",
        "entry 0 0 1 1 1 1 1 1 0 0 0 0 1 5",
        "entry 0 0 1 1 1 1 1 1 0 0 0 0 1 5 6 7",
        "set 0 1 1 1 1 1",
        "visit 1 1 1 1 1",
        "lookup 1 1 1 1 1 1",
        "show 0\r",
    ];
    for line in bad {
        assert_eq!(replayed(&format!("{line}\n")).0, "bad line\n", "{line:?}");
    }
    assert_eq!(replayed("").0, "");
    assert_eq!(replayed("\ncheck").0, "bad line\nok\n");
}

#[test]
fn inputs_that_are_no_replay() {
    let good = format!("   1   2\n{COORDINATOR}{ABSENT}");
    for input in [
        "",
        "   1   2",
        "   1   2\n",
        "0001   2\n",
        &good[1..],
        &good[..good.len() - 1],
        &good.replacen('2', "3", 1),
        &good.replacen('\n', " ", 1),
        &format!("{good}{}", "\n".repeat(500_000)),
    ] {
        assert_eq!(replay(input.as_bytes()), b"bad input\n", "{input:.40}");
    }
}

#[test]
fn two_sheets_are_read_in_two_calls() {
    let coordinator = "   0 sSSSSSSSS\n   1         -\n   2         -\n";
    let plain = " 1  1  1     1     1       40        3\n";
    let bookkeeping =
        " 1  1  1     1     1 COMMITTED     4   0         -     0   0        0        0          0\n";
    let calls = "begin 3 0\nread 3 1 1 1 1 1 7\nsecond 3 1 1 1 1 1 7 40 4\nread 3 1 1 1 1 1 7\nshow 3\nadvance 3 0\nadvance 3 0\n\
                 lookup 1 1 1 1 1\nlookup 1 1 1 1 0\nlookup 1 1 1 1 100000\nline 1 1 1 1 1\nsheets\n\
                 line 0 1 1 1 1 1\nline 1 1 1 1 1 1\nline 2 1 1 1 1 1\nline 0 1 1 1 1 2\n";
    let input = format!("   1   1   2\n{coordinator}{plain}{bookkeeping}{calls}");
    let output = replay::replay(Layout::Two, input.as_bytes());
    let coordinator = coordinator.replacen('0', "1", 1);
    let sheets = format!("sheets\n{coordinator}{plain}{bookkeeping}");
    let answers = format!(
        "ok 1\nok first 40 3\nok columns 40 4\nok columns 40 4\nok 1 0 0 0 0 1 1 1 1 1 1 0 4 0 40 4 0 0 0\nok 2 0 0\nok 4 0 0\n\
         ok 0 1\nok 0 0\nrefused 5\nbad line\n{sheets}ok {plain}ok {bookkeeping}ok\nok\n{sheets}"
    );
    assert_eq!(String::from_utf8(output).unwrap(), answers);
    // Each sheet is as long as the first line tells.
    let good = input.split("begin").next().unwrap();
    let is_bad = |input: &str| replay::replay(Layout::Two, input.as_bytes()) == b"bad input\n";
    assert!(!is_bad(good));
    for first in [
        "   2   1   2",
        "   1   2   2",
        "   1   1   3",
        "   1   1  02",
    ] {
        assert!(is_bad(&good.replacen("   1   1   2", first, 1)), "{first}");
    }
    for input in ["", "   1   1   2\n", &good[1..], &good[..good.len() - 1]] {
        assert!(is_bad(input), "{input}");
    }
    assert!(is_bad(&good.replacen('\n', " ", 1)));
    assert!(is_bad(&format!("{good}{}", "\n".repeat(500_000))));
}

#[test]
fn the_visiting_program() {
    let coordinator = "   1 SSSSSSSSS\n   1         -\n";
    let prepared = " 1  1  1     1     1  PREPARED     1   1      500      250    ABSENT     0   0        0        0       5000\n";
    let visited = |first: &str, coordinator: &str| {
        let input = format!("{first}\n{coordinator}{prepared}");
        String::from_utf8(output(input.as_bytes())).unwrap()
    };
    let aborted = format!("{}{ABSENT}", coordinator.replace("      -", "ABORTED"));
    assert_eq!(visited("   1   1      20000", coordinator), aborted);
    // Busy at both visits.
    let same = format!("{coordinator}{prepared}");
    assert_eq!(visited("   1   1      19999", coordinator), same);
    for first in [
        "   1   1 4294967296",
        "   1   1     020000",
        "   1   2      20000",
        "   1   1      2000",
    ] {
        assert_eq!(visited(first, coordinator), "REFUSED  1\n", "{first}");
    }
    let refused = visited("   1   1      20000", &coordinator.replacen('1', "0", 1));
    assert_eq!(refused, "REFUSED  2\n");
    // A head alone.
    assert_eq!(
        visited("   1   0      20000", &coordinator[..15]),
        "REFUSED  2\n"
    );
}

#[test]
fn scripts_expect_what_a_replay_answers() {
    for layout in [Layout::Joined, Layout::Two] {
        let mut seen = Seen::default();
        let holds = |script: Script| {
            assert_eq!(replay::replay(layout, &script.input), script.expected());
        };
        for seed in 0..60 {
            let random = &mut Random::new(seed);
            holds(legal(random, &mut seen, layout, Extent::Small).unwrap());
            holds(free(random, &mut seen, layout, Extent::Small));
            holds(damaged(random, &mut seen, layout));
        }
        let random = &mut Random::new(60);
        holds(legal(random, &mut seen, layout, Extent::Long).unwrap());
        assert!(seen.calls() > 10_000, "{seen}");
    }
}

#[test]
fn a_line_is_read_as_it_is_written() {
    let key = Key::from_numbers([1, 2, 3, 4, u32::MAX]);
    let numbers = [0, 1, 2, 3, 4, 5, 6, 7, 8, 9, 10, 11, u32::MAX];
    let fields = [0, 1, 10, 99, 100, u32::MAX];
    for line in [
        Line::Check,
        Line::Begin {
            slot: 15,
            serializable: true,
        },
        Line::Read {
            slot: 0,
            key,
            now: 5,
        },
        Line::Put {
            slot: 9,
            key,
            columns: [7, 0],
        },
        Line::Advance { slot: 10, now: 0 },
        Line::Abort { slot: 1 },
        Line::Close {
            slot: 12,
            now: 7,
            limit: u32::MAX,
        },
        Line::Visit { key, now: 6 },
        Line::Lookup { key },
        Line::LineOf { sheet: None, key },
        Line::Sheets,
        Line::Show { slot: 2 },
        Line::Set { slot: 3, fields },
        Line::Entry {
            slot: 4,
            place: 7,
            numbers,
        },
    ] {
        let text = line.to_string();
        for layout in [Layout::Joined, Layout::Two] {
            let parsed = Line::parse(layout, text.as_bytes());
            let known = !matches!(line, Line::LineOf { .. }) || layout == Layout::Joined;
            assert_eq!(parsed, known.then_some(line));
        }
    }
}

#[test]
fn a_line_of_two_sheets_is_read_as_it_is_written() {
    let key = Key::from_numbers([1, 2, 3, 4, u32::MAX]);
    for line in [
        Line::Second {
            slot: 15,
            key,
            now: 5,
            columns: [0, u32::MAX],
        },
        Line::LineOf {
            sheet: Some(1),
            key,
        },
    ] {
        let text = line.to_string();
        assert_eq!(Line::parse(Layout::Two, text.as_bytes()), Some(line));
        assert_eq!(Line::parse(Layout::Joined, text.as_bytes()), None);
    }
}
