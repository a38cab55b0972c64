//! Adding and removing: cases worked by hand from the paper, the order of the refusals, and orders whose keys come and go, on
//! both layouts.

use reference::exported::{by_fast, by_plain, Call};
use reference::make::adding::{add_or_remove, with_room};
use reference::make::exported::without_list;
use reference::make::random::Random;
use reference::make::spares::spare;
use reference::make::two_sheets::letters;
use reference::make::{Sheets, TwoSheets};
use reference::plain::key::Key;
use reference::plain::request::{Answer, Request};
use reference::plain::transaction::*;
use reference::replay::laid_out::LaidOut;
use reference::replay::{replay, Layout};
use reference::sequential_model::SequentialModel;

const LINE: usize = 108;
const COORDINATOR: &str = "   2 RRRRRRRRR\n   1         -\n   2         -\n   3         -\n";
/// The lines of keys (1,1,1,1,1), (1,1,1,1,3), (1,1,1,2,0) and (2,1,1,0,0), and some beside them.
const ONE: &str = " 1  1  1     1     1 COMMITTED     1   0      500      250         -     0   0        0        0          0\n";
const THREE: &str = " 1  1  1     1     3    ABSENT     0   0        0        0         -     0   0        0        0          0\n";
const NEXT: &str = " 1  1  1     2     0  PREPARED     1   1      500      250    ABSENT     0   0        0        0       5000\n";
const LAST: &str = " 2  1  1     0     0  PREPARED     8   1      500      250 COMMITTED     7   0        1        2       5000\n";
const NEW_FIRST: &str = " 1  1  1     0 99999    ABSENT     0   0        0        0         -     0   0        0        0          0\n";
const NEW_TWO: &str = " 1  1  1     1     2    ABSENT     0   0        0        0         -     0   0        0        0          0\n";
const NEW_FOUR: &str = " 1  1  1     1     4    ABSENT     0   0        0        0         -     0   0        0        0          0\n";
const NEW_LAST: &str = " 9 99 99 99999 99999    ABSENT     0   0        0        0         -     0   0        0        0          0\n";

const FIRST_KEY: [u32; 5] = [1, 1, 1, 0, 99_999];
const ONE_KEY: [u32; 5] = [1, 1, 1, 1, 1];
const TWO_KEY: [u32; 5] = [1, 1, 1, 1, 2];
const THREE_KEY: [u32; 5] = [1, 1, 1, 1, 3];
const FOUR_KEY: [u32; 5] = [1, 1, 1, 1, 4];
const NEXT_KEY: [u32; 5] = [1, 1, 1, 2, 0];
const OLD_LAST_KEY: [u32; 5] = [2, 1, 1, 0, 0];
const LAST_KEY: [u32; 5] = [9, 99, 99, 99_999, 99_999];

const OUT_OF_RANGE: [[u32; 5]; 8] = [
    [0, 1, 1, 1, 1],
    [10, 1, 1, 1, 1],
    [1, 0, 1, 1, 1],
    [1, 100, 1, 1, 1],
    [1, 1, 0, 1, 1],
    [1, 1, 100, 1, 1],
    [1, 1, 1, 100_000, 1],
    [1, 1, 1, 1, u32::MAX],
];

const LAYOUTS: [Layout; 2] = [Layout::Joined, Layout::Two];

fn add(key: [u32; 5]) -> Request {
    let key = Key::from_numbers(key);
    Request::Add { key }
}

fn remove(key: [u32; 5]) -> Request {
    let key = Key::from_numbers(key);
    Request::Remove { key }
}

/// The request as a function for C.
fn exported(request: Request) -> Call {
    match request {
        Request::Add { key } => Call::Add { key },
        Request::Remove { key } => Call::Remove { key },
        _ => panic!("{request:?}"),
    }
}

fn spares(count: usize) -> String {
    String::from_utf8(spare(LINE)).unwrap().repeat(count)
}

fn sheets(records: &str) -> Sheets {
    Sheets {
        records: records.into(),
        coordinator: COORDINATOR.into(),
    }
}

/// What the call answers on these sheets, as a request and for C, and the sheets afterwards. A refused one leaves all as it was.
fn made(request: Request, before: &LaidOut) -> (u32, LaidOut) {
    let mut after = before.clone();
    let answer = match after.ask(request) {
        Ok(answer) => {
            assert_eq!(answer, Answer::Done);
            0
        }
        Err(refusal) => {
            assert_eq!(after, *before, "{request:?}");
            refusal
        }
    };
    let mut lent = without_list(before.clone());
    let for_c = by_plain(&exported(request), &mut lent);
    assert_eq!((for_c, &lent.sheets), (answer.into(), &after));
    if before.layout() == Layout::Joined {
        let mut lent = without_list(before.clone());
        let fast = by_fast(&exported(request), &mut lent);
        assert_eq!((fast, &lent.sheets), (answer.into(), &after));
    }
    (answer, after)
}

/// The record sheet after a call that is accepted on both layouts.
fn after(request: Request, records: &str) -> String {
    let [one, other] = LAYOUTS.map(|layout| {
        let (answer, after) = made(request, &LaidOut::of(layout, sheets(records)));
        assert_eq!(answer, 0, "{request:?}");
        let after = after.joined();
        assert_eq!(after.coordinator, COORDINATOR.as_bytes());
        String::from_utf8(after.records).unwrap()
    });
    assert_eq!(one, other);
    one
}

/// The refusal of a call on both layouts.
fn refused(request: Request, records: &str) -> u32 {
    let [one, other] = LAYOUTS.map(|layout| {
        let (answer, _) = made(request, &LaidOut::of(layout, sheets(records)));
        answer
    });
    assert_eq!(one, other);
    one
}

#[test]
fn a_line_is_added_in_key_order() {
    let lines = format!("{ONE}{THREE}{NEXT}{LAST}");
    let cases = [
        (FIRST_KEY, format!("{NEW_FIRST}{ONE}{THREE}{NEXT}{LAST}")),
        (TWO_KEY, format!("{ONE}{NEW_TWO}{THREE}{NEXT}{LAST}")),
        (FOUR_KEY, format!("{ONE}{THREE}{NEW_FOUR}{NEXT}{LAST}")),
        (LAST_KEY, format!("{ONE}{THREE}{NEXT}{LAST}{NEW_LAST}")),
    ];
    for (key, expected) in cases {
        for left in [0, 1, 5] {
            let before = format!("{lines}{}", spares(left + 1));
            let expected = format!("{expected}{}", spares(left));
            assert_eq!(after(add(key), &before), expected);
        }
    }
    // Where all lines are spares, the first of them is used.
    let expected = format!("{NEW_TWO}{}", spares(2));
    assert_eq!(after(add(TWO_KEY), &spares(3)), expected);
    assert_eq!(after(add(TWO_KEY), &spares(1)), NEW_TWO);
}

#[test]
fn a_line_is_removed_and_a_spare_comes_last() {
    let cases = [
        (FIRST_KEY, format!("{ONE}{THREE}{NEXT}{LAST}{NEW_LAST}")),
        (THREE_KEY, format!("{NEW_FIRST}{ONE}{NEXT}{LAST}{NEW_LAST}")),
        (LAST_KEY, format!("{NEW_FIRST}{ONE}{THREE}{NEXT}{LAST}")),
    ];
    let lines = format!("{NEW_FIRST}{ONE}{THREE}{NEXT}{LAST}{NEW_LAST}");
    for (key, expected) in cases {
        for left in [0, 1, 5] {
            let before = format!("{lines}{}", spares(left));
            let expected = format!("{expected}{}", spares(left + 1));
            assert_eq!(after(remove(key), &before), expected);
        }
    }
    // The only line.
    assert_eq!(after(remove(THREE_KEY), THREE), spares(1));
    let before = format!("{THREE}{}", spares(4));
    assert_eq!(after(remove(THREE_KEY), &before), spares(5));
}

/// So many ABSENT lines, of clusterings 0, 2, 4 and so on.
fn absent(count: usize) -> String {
    let line = |k| THREE.replacen("     1     3 ", &format!("     1{:>6} ", 2 * k), 1);
    (0..count).map(line).collect()
}

#[test]
fn five_hundred_lines_with_no_spare_one_and_many() {
    for (lines, spare_lines) in [(500, 0), (499, 1), (498, 2), (1, 499)] {
        let lines = absent(lines);
        let before = format!("{lines}{}", spares(spare_lines));
        assert_eq!(before.len(), 500 * LINE);
        for key in [[1, 1, 1, 0, 0], [1, 1, 1, 1, 1], [9, 1, 1, 0, 0]] {
            if spare_lines == 0 {
                assert_eq!(refused(add(key), &before), 15);
                continue;
            }
            let added = after(add(key), &before);
            assert_eq!(added.len(), before.len());
            assert_eq!(after(remove(key), &added), before);
        }
        // The first line goes, and those below shift up.
        let removed = after(remove([1, 1, 1, 1, 0]), &before);
        assert_eq!(removed, format!("{}{}", &before[LINE..], spares(1)));
    }
}

#[test]
fn the_order_of_adding_s_refusals() {
    let full = format!("{ONE}{THREE}{NEXT}{LAST}");
    let roomy = format!("{full}{}", spares(1));
    // 15, and 14 before it.
    assert_eq!(refused(add(TWO_KEY), &full), 15);
    for key in [ONE_KEY, THREE_KEY, NEXT_KEY, OLD_LAST_KEY] {
        assert_eq!(refused(add(key), &full), 14);
        assert_eq!(refused(add(key), &roomy), 14);
    }
    // 5 before both. 6 isn't for adding.
    for key in OUT_OF_RANGE {
        assert_eq!(refused(add(key), &full), 5);
        assert_eq!(refused(add(key), &roomy), 5);
        assert_eq!(refused(add(key), &spares(1)), 5);
    }
}

#[test]
fn the_order_of_removing_s_refusals() {
    let lines = format!("{ONE}{THREE}{NEXT}{LAST}{}", spares(1));
    // COMMITTED, PREPARED over nothing, PREPARED over a version.
    for key in [ONE_KEY, NEXT_KEY, OLD_LAST_KEY] {
        assert_eq!(refused(remove(key), &lines), 16);
    }
    for key in [FIRST_KEY, TWO_KEY, FOUR_KEY, LAST_KEY] {
        assert_eq!(refused(remove(key), &lines), 6);
        assert_eq!(refused(remove(key), &spares(2)), 6);
    }
    for key in OUT_OF_RANGE {
        assert_eq!(refused(remove(key), &lines), 5);
        assert_eq!(refused(remove(key), &spares(2)), 5);
    }
}

/// 1, 2 and 13 go before what has to do with the key.
#[test]
fn the_sheets_go_first() {
    let good = sheets(&format!("{ONE}{THREE}{}", spares(1)));
    let two = TwoSheets::of(&good);
    let mut cut = good.clone();
    cut.records.pop();
    let mut misplaced = good.clone();
    misplaced.records.extend(LAST.as_bytes());
    let mut unissued = good.clone();
    unissued
        .records
        .splice(..LINE, ONE.replacen("   0", "   3", 1).bytes());
    let mut small = good.clone();
    small.coordinator[5] = b'r';
    let mut differ = two.clone();
    differ.plain[19] = b'2';
    let mut spare_beside_line = two.clone();
    spare_beside_line.plain[39..78].copy_from_slice(&spare(39));
    let mut longer = two.clone();
    longer.bookkeeping.extend(spare(90));
    // On two sheets 2 goes before 13.
    let mut both = longer.clone();
    both.coordinator.pop();
    let cases = [
        (LaidOut::Joined(cut), 1),
        (LaidOut::Joined(misplaced.clone()), 1),
        (LaidOut::Two(TwoSheets::of(&misplaced)), 1),
        (LaidOut::Joined(unissued.clone()), 2),
        (LaidOut::Two(TwoSheets::of(&unissued)), 2),
        (LaidOut::Joined(small), 2),
        (LaidOut::Two(differ), 13),
        (LaidOut::Two(spare_beside_line), 13),
        (LaidOut::Two(longer), 13),
        (LaidOut::Two(both), 2),
    ];
    for (before, refusal) in &cases {
        for key in [TWO_KEY, ONE_KEY, THREE_KEY, OUT_OF_RANGE[0]] {
            assert_eq!(made(add(key), before).0, *refusal);
            assert_eq!(made(remove(key), before).0, *refusal);
        }
    }
}

/// Small letters are of no account to adding and removing.
#[test]
fn under_small_letters() {
    let mut before = sheets(&format!("{ONE}{THREE}{}", spares(1)));
    before.coordinator[5..14].make_ascii_lowercase();
    let before = LaidOut::of(Layout::Two, before);
    let (answer, added) = made(add(TWO_KEY), &before);
    assert_eq!(answer, 0);
    let joined = added.joined();
    let expected = format!("{ONE}{NEW_TWO}{THREE}");
    assert_eq!(joined.records, expected.as_bytes());
    assert_eq!(made(remove(TWO_KEY), &added), (0, before));
}

/// A line of the plain sheet that is added has columns 0, one of the bookkeeping sheet the rest.
#[test]
fn both_of_two_sheets_change_alike() {
    let before = sheets(&format!("{ONE}{}", spares(1)));
    let (_, LaidOut::Two(after)) = made(add(TWO_KEY), &LaidOut::of(Layout::Two, before)) else {
        panic!("another layout");
    };
    let plain = b" 1  1  1     1     2        0        0\n";
    let bookkeeping =
        b" 1  1  1     1     2    ABSENT     0   0         -     0   0        0        0          0\n";
    assert_eq!(after.plain[39..], plain[..]);
    assert_eq!(after.bookkeeping[90..], bookkeeping[..]);
}

#[test]
fn removing_what_was_added_gives_the_sheet_back() {
    let mut added = 0;
    for seed in 0..2_000 {
        let random = &mut Random::new(seed);
        let layout = random.pick(&LAYOUTS);
        let mut sheets = with_room(random);
        letters(random, layout, &mut sheets);
        let request = add_or_remove(random, &[], &sheets.store());
        let before = LaidOut::of(layout, sheets);
        let (answer, after) = made(request, &before);
        if let (Request::Add { key }, 0) = (request, answer) {
            assert_eq!(made(Request::Remove { key }, &after), (0, before));
            added += 1;
        } else if let (Request::Remove { key }, 0) = (request, answer) {
            assert_eq!(made(Request::Add { key }, &after), (0, before));
        }
    }
    assert!(added > 300, "{added}");
}

#[test]
fn replays_print_ok_or_the_refusal() {
    let (one, other) = (spares(1), spares(2));
    let calls = "add 1 1 1 1 2\nadd 1 1 1 1 2\nadd 1 1 1 1 4\nadd 1 1 1 1 5\nadd 0 1 1 1 5\n\
                 remove 1 1 1 1 4\nremove 1 1 1 1 4\nremove 1 1 1 1 1\nremove 1 1 1 1 100000\n";
    let bad = "add\nadd 1 1 1 1\nadd 1 1 1 1 5 0\nadd 1 1 1 1 05\nadd  1 1 1 1 5\nadd 1 1 1 1 5 \nAdd 1 1 1 1 5\n\
               remove\nremove 1 1 1 1\nremove 0 1 1 1 1 2\nremove 1 1 1 1 4294967296\nremoved 1 1 1 1 2\n";
    let answers =
        "ok\nrefused 14\nok\nrefused 15\nrefused 5\nok\nrefused 6\nrefused 16\nrefused 5\n";
    let answers = format!("{answers}{}", "bad line\n".repeat(12));
    let before = sheets(&format!("{ONE}{THREE}{other}"));
    let after = sheets(&format!("{ONE}{NEW_TWO}{THREE}{one}"));
    for layout in LAYOUTS {
        let input = LaidOut::of(layout, before.clone()).input();
        let input = [input, format!("{calls}{bad}").into_bytes()].concat();
        let left = LaidOut::of(layout, after.clone()).printed();
        let expected = [answers.clone().into_bytes(), left].concat();
        assert_eq!(replay(layout, &input), expected);
    }
}

/// Sheets on which an order makes its calls, and the sequential model, which is told of each.
struct Run {
    sheets: LaidOut,
    model: SequentialModel,
    order: Transaction,
}

impl Run {
    /// An order that has begun and read keys (1,1,1,1,1) and (1,1,1,1,3), and put to the latter unless it is only checked.
    fn new(layout: Layout, letter: u8, checked: bool, puts: bool) -> Run {
        let mut sheets = sheets(&format!("{ONE}{THREE}{}", spares(1)));
        sheets.coordinator[5..14].fill(letter);
        let mut run = Run {
            model: SequentialModel::new(&sheets.records).unwrap(),
            sheets: LaidOut::of(layout, sheets),
            order: Transaction::begun(0, false),
        };
        run.ask(Request::Begin {
            serializable: checked,
        });
        for (key, columns) in [(ONE_KEY, [500, 250]), (THREE_KEY, [0, 0])] {
            let (transaction, key, now) = (run.order, Key::from_numbers(key), 0);
            let read = Request::Read {
                transaction,
                key,
                now,
            };
            run.ask(read);
            if letter.is_ascii_lowercase() {
                run.ask(Request::Second {
                    transaction,
                    key,
                    now,
                    columns,
                });
            }
        }
        if puts {
            run.put(THREE_KEY);
        }
        run
    }

    /// Makes a call that is accepted.
    fn ask(&mut self, request: Request) {
        let answer = self.sheets.ask(request);
        self.model.note(&request, &answer);
        let answer = answer.unwrap_or_else(|refusal| panic!("{refusal}: {request:?}"));
        if let Some(returned) = answer.returned() {
            self.order = *returned;
        }
    }

    fn put(&mut self, key: [u32; 5]) {
        let (transaction, key) = (self.order, Key::from_numbers(key));
        let columns = [7, 8];
        self.ask(Request::Put {
            transaction,
            key,
            columns,
        });
    }

    /// Advances to done, and answers the phases on the way.
    fn advance_to_done(&mut self) -> Vec<u32> {
        let mut phases = Vec::new();
        while self.order.phase != DONE {
            let transaction = self.order;
            self.ask(Request::Advance {
                transaction,
                now: 5_000,
            });
            phases.push(self.order.phase);
        }
        phases
    }

    /// Visits every line at a reading at which all numbers have expired, twice, and holds the sheet against the model.
    fn recovers(&mut self) {
        for _ in 0..2 {
            for line in self.sheets.joined().store().records {
                let (key, now) = (line.key, 30_000);
                self.ask(Request::Visit { key, now });
            }
        }
        let last = self.sheets.joined().store();
        assert_eq!(self.model.difference(&last.records), None);
    }

    fn has_line(&self, key: [u32; 5]) -> bool {
        let store = self.sheets.joined().store();
        store.has_line(&Key::from_numbers(key))
    }
}

/// Each layout with a letter that it may have, small ones among them.
const LETTERS: [(Layout, u8); 4] = [
    (Layout::Joined, b'R'),
    (Layout::Joined, b'S'),
    (Layout::Two, b'S'),
    (Layout::Two, b's'),
];

#[test]
fn removed_and_added_again_the_condition_holds() {
    for (layout, letter) in LETTERS {
        for (checked, puts) in [(false, true), (true, true), (true, false)] {
            let mut run = Run::new(layout, letter, checked, puts);
            run.ask(remove(THREE_KEY));
            run.ask(add(THREE_KEY));
            run.advance_to_done();
            assert_eq!(run.order.verdict, COMMITTED);
            run.recovers();
        }
    }
}

#[test]
fn removed_only_the_condition_fails() {
    for (layout, letter) in LETTERS {
        for (checked, puts) in [(false, true), (true, true), (true, false)] {
            let mut run = Run::new(layout, letter, checked, puts);
            run.ask(remove(THREE_KEY));
            let phases = run.advance_to_done();
            assert!(phases.contains(&WITHDRAW), "{phases:?}");
            // An order with puts skips the key as it undoes.
            assert_eq!(phases.contains(&UNDO), puts, "{phases:?}");
            assert_eq!(run.order.verdict, ABORTED);
            assert!(!run.has_line(THREE_KEY));
            run.recovers();
        }
    }
}

/// What is PREPARED can't be removed, so that between prepare and finish no key of the order goes; after a visit that rolls
/// it back it may, and undo skips it.
#[test]
fn removed_between_prepare_and_undo() {
    for (layout, letter) in LETTERS {
        let mut run = Run::new(layout, letter, true, true);
        while run.order.phase != CHECK {
            let (transaction, now) = (run.order, 5_000);
            run.ask(Request::Advance { transaction, now });
        }
        assert_eq!(made(remove(THREE_KEY), &run.sheets).0, 16);
        let transaction = run.order;
        run.ask(Request::Abort { transaction });
        let (transaction, now) = (run.order, 5_000);
        run.ask(Request::Advance { transaction, now });
        assert_eq!(run.order.phase, UNDO);
        let key = Key::from_numbers(THREE_KEY);
        run.ask(Request::Visit { key, now });
        run.ask(remove(THREE_KEY));
        assert_eq!(run.advance_to_done(), [DONE]);
        run.recovers();
    }
}

/// An order that stops after prepare is aborted by visits, and its line may go then and come back.
#[test]
fn removed_after_a_client_has_stopped() {
    for (layout, letter) in LETTERS {
        let mut run = Run::new(layout, letter, true, true);
        while run.order.phase != CHECK {
            let (transaction, now) = (run.order, 5_000);
            run.ask(Request::Advance { transaction, now });
        }
        run.recovers();
        run.ask(remove(THREE_KEY));
        run.recovers();
        run.ask(add(THREE_KEY));
        run.recovers();
        // The client wakes up, and finds itself aborted.
        run.advance_to_done();
        assert_eq!(run.order.verdict, ABORTED);
        run.recovers();
    }
}

#[test]
fn a_held_key_that_has_gone_is_neither_read_nor_put() {
    for (layout, letter) in LETTERS {
        let mut run = Run::new(layout, letter, false, true);
        run.ask(remove(THREE_KEY));
        let (transaction, key, now) = (run.order, Key::from_numbers(THREE_KEY), 0);
        let columns = [1, 1];
        let read = Request::Read {
            transaction,
            key,
            now,
        };
        let put = Request::Put {
            transaction,
            key,
            columns,
        };
        for request in [read, put] {
            assert_eq!(run.sheets.clone().ask(request), Err(6));
        }
        if layout == Layout::Two {
            let second = Request::Second {
                transaction,
                key,
                now,
                columns,
            };
            assert_eq!(run.sheets.clone().ask(second), Err(6));
        }
    }
}

/// A key that is added is read as absent, put and committed: version 1, as if its line had always been there.
#[test]
fn an_added_key_takes_orders() {
    for (layout, letter) in LETTERS {
        let mut run = Run::new(layout, letter, false, true);
        run.ask(add(TWO_KEY));
        let (transaction, key, now) = (run.order, Key::from_numbers(TWO_KEY), 0);
        let columns = [0, 0];
        run.ask(match letter.is_ascii_lowercase() {
            true => Request::Second {
                transaction,
                key,
                now,
                columns,
            },
            false => Request::Read {
                transaction,
                key,
                now,
            },
        });
        run.put(TWO_KEY);
        run.advance_to_done();
        assert_eq!(run.order.verdict, COMMITTED);
        let line = *run.sheets.joined().store().record(&key);
        assert_eq!(line.image.version, 1);
        assert_eq!(line.image.columns(), [7, 8]);
        // What holds a version isn't removed any more.
        assert_eq!(made(remove(TWO_KEY), &run.sheets).0, 16);
        run.recovers();
    }
}

/// A group goes whole or not at all, though its other keys have lines.
#[test]
fn a_group_with_a_key_that_has_gone_writes_nothing() {
    for (layout, letter) in LETTERS {
        let mut run = Run::new(layout, letter, false, true);
        run.put(ONE_KEY);
        run.ask(remove(THREE_KEY));
        let before = run.sheets.joined().records;
        run.advance_to_done();
        assert_eq!(run.order.verdict, ABORTED);
        assert_eq!(run.sheets.joined().records, before);
        run.recovers();
    }
}

/// The model counts a key without a line as ABSENT of version 0, on either side, and nothing else so.
#[test]
fn the_model_compares_every_key_of_either() {
    let lines = |text: &str| sheets(text).store().records;
    let model = SequentialModel::new(format!("{ONE}{THREE}").as_bytes()).unwrap();
    assert_eq!(model.difference(&lines(ONE)), None);
    let with_two = format!("{ONE}{NEW_TWO}");
    assert_eq!(model.difference(&lines(&with_two)), None);
    let one = Key::from_numbers(ONE_KEY);
    assert_eq!(model.difference(&lines(THREE)), Some(one));
    assert_eq!(model.difference(&lines(&spares(1))), Some(one));
    let next = format!("{ONE}{NEXT}");
    let next_key = Key::from_numbers(NEXT_KEY);
    assert_eq!(model.difference(&lines(&next)), Some(next_key));
}
