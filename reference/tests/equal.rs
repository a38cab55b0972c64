//! `fast::check` answers as `plain::check` does.

use reference::make::random::Random;
use reference::make::sheets::accepted;
use reference::make::{any, Sheets};
use reference::{fast, plain};

/// The answer of both.
fn agreed(records: &[u8], coordinator: &[u8]) -> u32 {
    let answer = plain::check(records, coordinator);
    if fast::check(records, coordinator) != answer {
        let sheets = Sheets {
            records: records.to_vec(),
            coordinator: coordinator.to_vec(),
        };
        panic!("plain answers {answer}, fast does not\n{sheets}");
    }
    answer
}

#[test]
fn on_generated_sheets() {
    let mut random = Random::new(1);
    let mut answers = [0; 3];
    for _ in 0..150_000 {
        let sheets = any(&mut random);
        answers[agreed(&sheets.records, &sheets.coordinator) as usize] += 1;
    }
    // The sheets would show little if most were refused alike.
    assert!(answers.iter().all(|count| *count > 15_000), "{answers:?}");
}

#[test]
fn on_accepted_sheets() {
    let mut random = Random::new(2);
    for _ in 0..10_000 {
        let sheets = accepted(&mut random);
        assert_eq!(agreed(&sheets.records, &sheets.coordinator), 0);
    }
}

/// Lines of every kind, their figures narrow, wide and of several widths.
const LINES: [&[u8; 108]; 10] = [
    b" 1  1  1     0     0    ABSENT     0   0        0        0         -     0   0        0        0          0\n",
    b" 1  1  1     0     0 COMMITTED     1   0        0        0         -     0   0        0        0          0\n",
    b" 9 99 99 99999 99999 COMMITTED 99999 999 99999999 99999999         -     0   0        0        0          0\n",
    b" 5 10  7   100 20304  PREPARED     1   1      500    10000    ABSENT     0   0        0        0 4294967295\n",
    b" 5 10  7   100 20304  PREPARED    10  12      500    10000 COMMITTED     9   0     3000        7       5000\n",
    b" 5 10  7   100 20304  PREPARED 99999 999 99999999 99999999 COMMITTED 99998 999 99999999 99999999 4294967295\n",
    b" 5 10  7   100 20304  PREPARED     2   1        0        0 COMMITTED     1   0        0        0          0\n",
    b" 1  1  1     0     0    ABSENT     1   1        0        0         -     0   0        0        0          0\n",
    b" 9 99 99 99999 99999    ABSENT 99999 999        0        0         -     0   0        0        0          0\n",
    b" 5 10  7   100 20304  PREPARED    10  12      500    10000    ABSENT     9 100        0        0       5000\n",
];

const COORDINATOR: &[u8] = b"   3 RPTNSRPTN\n   1 COMMITTED\n   2   ABORTED\n   3         -\n";

/// A coordinator of 999 lines, so that every TxID is issued.
fn all_issued() -> Vec<u8> {
    let line = |k| format!("{k:>4}         -\n");
    let lines: String = (1..=999).map(line).collect();
    format!(" 999 RPTNSRPTN\n{lines}").into_bytes()
}

#[test]
fn on_every_byte_at_every_place() {
    let coordinator = all_issued();
    for line in LINES {
        // Refusal 1 goes first, so a coordinator refused at once is enough for most.
        assert_eq!(agreed(line, &coordinator), 0);
        for place in 0..108 {
            for byte in 0..=255 {
                let mut line = *line;
                line[place] = byte;
                agreed(&line, b"");
            }
        }
    }
    for place in 0..COORDINATOR.len() {
        for byte in 0..=255 {
            let mut sheet = COORDINATOR.to_vec();
            sheet[place] = byte;
            agreed(LINES[0], &sheet);
        }
    }
}

/// Bytes that some place allows, and some that none does.
const TELLING: &[u8] = b" 0123459/:!\nACDEMOPRT-\0\x10\x80\xff";

#[test]
fn on_two_neighbouring_bytes() {
    for line in LINES {
        for place in 0..107 {
            for (one, other) in TELLING
                .iter()
                .flat_map(|a| TELLING.iter().map(move |b| (*a, *b)))
            {
                let mut line = *line;
                line[place..place + 2].copy_from_slice(&[one, other]);
                agreed(&line, b"");
            }
        }
    }
}

#[test]
fn on_every_version() {
    // Over COMMITTED and over ABSENT.
    for line in [LINES[5], LINES[9]] {
        let mut line = *line;
        for before in 0..=99_999u32 {
            line[68..74].copy_from_slice(format!("{before:>6}").as_bytes());
            for version in [before, before + 1, before + 2, before + 11, before / 10] {
                line[30..36].copy_from_slice(format!("{version:>6}").as_bytes());
                agreed(&line, b"");
            }
        }
    }
}

/// Each of both 0, and from 1: in an ABSENT line, and before one that is prepared over ABSENT.
#[test]
fn on_versions_beside_tx_ids() {
    let figures = [0, 1, 9, 10, 99, 100, 999, 1_000, 10_000, 99_998, 99_999];
    for (line, start) in [(LINES[7], 30), (LINES[9], 68)] {
        for version in figures {
            for tx_id in figures.into_iter().filter(|tx_id| *tx_id <= 999) {
                let mut line = *line;
                let text = format!("{version:>6}{tx_id:>4}");
                line[start..start + 10].copy_from_slice(text.as_bytes());
                if start == 68 {
                    line[30..36].copy_from_slice(format!("{:>6}", version + 1).as_bytes());
                }
                let refused = (version == 0) != (tx_id == 0) || version == 99_999 && start == 68;
                let answer = agreed(&line, &all_issued());
                assert_eq!(answer, u32::from(refused), "{}", line.escape_ascii());
            }
        }
    }
}

#[test]
fn on_clocks_near_the_limit() {
    let mut line = *LINES[5];
    for clock in (4_294_960_000u64..4_294_980_000).chain((0..99).map(|i| 101_010_101 * i)) {
        line[96..107].copy_from_slice(format!("{clock:>11}").as_bytes());
        agreed(&line, b"");
    }
}

#[test]
fn on_every_issued_count() {
    let decided = String::from_utf8(all_issued()).unwrap();
    let decided = decided.replace("        -", "COMMITTED").into_bytes();
    for sheet in [all_issued(), decided] {
        for lines in [1, 9, 10, 99, 100, 500, 998, 999] {
            let mut sheet = sheet[..15 + 15 * lines].to_vec();
            for count in 0..1_100 {
                sheet[..4].copy_from_slice(format!("{count:>4}").as_bytes());
                agreed(LINES[0], &sheet);
            }
        }
    }
}

#[test]
fn on_every_tx_id_beside_some_counts() {
    let mut sheet = all_issued();
    for count in [0, 1, 8, 9, 10, 11, 99, 100, 101, 555, 998, 999] {
        sheet[..4].copy_from_slice(format!("{count:>4}").as_bytes());
        for tx_id in 0..=999 {
            let text = format!("{tx_id:>4}");
            let mut line = *LINES[1];
            line[36..40].copy_from_slice(text.as_bytes());
            assert_eq!(agreed(&line, &sheet), if tx_id > count { 2 } else { 0 });
            let mut line = *LINES[6];
            line[74..78].copy_from_slice(text.as_bytes());
            agreed(&line, &sheet);
        }
    }
}

#[test]
fn on_pairs_of_keys() {
    let figures = [0, 1, 2, 9, 10, 11, 19, 20, 99];
    let mut keys = Vec::new();
    for storage in [1, 2, 9] {
        for namespace in [1, 9, 10, 99] {
            for table in [1, 10] {
                let partitions = figures.iter().map(|p| (*p, 5));
                let clusterings = figures.iter().map(|c| (10, *c));
                for (partition, clustering) in partitions.chain(clusterings) {
                    keys.push([
                        storage,
                        namespace,
                        table,
                        partition * 1_001,
                        clustering * 1_001,
                    ]);
                }
            }
        }
    }
    for one in &keys {
        for other in &keys {
            let sheet: Vec<u8> = [one, other].into_iter().flat_map(line_with).collect();
            let answer = agreed(&sheet, COORDINATOR);
            assert_eq!(answer, u32::from(one >= other), "{one:?} {other:?}");
        }
    }
}

fn line_with([storage, namespace, table, partition, clustering]: &[u32; 5]) -> [u8; 108] {
    let key = format!("{storage:>2}{namespace:>3}{table:>3}{partition:>6}{clustering:>6}");
    let mut line = *LINES[0];
    line[..20].copy_from_slice(key.as_bytes());
    line
}
