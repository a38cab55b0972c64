//! Calls of the functions for C, as cases of the comparison.

use super::any;
use super::conversions::conversion;
use super::exported::{added, check, from_nowhere, lookup, next, rank, without_list};
use super::history::{History, Rule};
use super::random::Random;
use super::sheets::{of_size, Mix, Size};
use super::two_sheets::letters;
use super::written::unlike;
use crate::compare::Case;
use crate::exported::{Call, Lent};
use crate::replay::laid_out::LaidOut;
use crate::replay::Layout;
use crate::seen::Seen;

const FULL: Size = Size {
    records: 500,
    decisions: 999,
    issued: 950,
};

/// Calls from nowhere, the calls of a history, checks of sheets of every kind, look-ups, adding and removing, and what has a
/// function for the joined sheet only: sheets to numbers and back, what was written, and the version.
pub fn cases(random: &mut Random, seen: &mut Seen, layout: Layout) -> Vec<Case> {
    let mut cases = by_place(random, layout, 250, 150);
    cases.extend((0..300).map(|_| case(check(random, layout))));
    cases.extend(looked_up(random, layout));
    cases.extend((0..80).map(|_| case(added(random, layout))));
    if layout == Layout::Joined {
        cases.extend((0..250).map(|_| {
            let (conversion, lent) = conversion(random);
            Case::convert(conversion, lent)
        }));
        cases.extend(told(random));
    }
    noted(cases, seen)
}

/// Calls by place, for the most part.
pub fn cases_by_place(random: &mut Random, seen: &mut Seen, layout: Layout) -> Vec<Case> {
    let mut cases = by_place(random, layout, 900, 200);
    cases.extend(looked_up(random, layout));
    cases.extend((0..40).map(|_| case(added(random, layout))));
    if layout == Layout::Joined {
        cases.extend(told(random));
    }
    noted(cases, seen)
}

/// Look-ups of places and of ranks.
fn looked_up(random: &mut Random, layout: Layout) -> Vec<Case> {
    let places = (0..25).map(|_| case(lookup(random, layout)));
    let mut cases: Vec<Case> = places.collect();
    cases.extend((0..25).map(|_| Case::Rank(rank(random, layout))));
    cases
}

/// Sheets before and after, and the version.
fn told(random: &mut Random) -> Vec<Case> {
    let sheets = LaidOut::Joined(any(random));
    let mut cases = vec![Case::call(Call::Version, without_list(sheets))];
    cases.extend((0..50).map(|_| {
        let (before, after, lines) = unlike(random);
        Case::written(before, after, lines)
    }));
    cases
}

/// So many calls from nowhere, and a history of so many calls, or seldom of a few on sheets of full size, which take the most
/// time. All but visits and some begins are by place.
fn by_place(
    random: &mut Random,
    layout: Layout,
    from_elsewhere: usize,
    in_history: usize,
) -> Vec<Case> {
    let calls = (0..from_elsewhere).map(|_| case(from_nowhere(random, layout)));
    let mut cases: Vec<Case> = calls.collect();
    let rule = random.pick(&[Rule::Legal, Rule::Free]);
    let (mut history, calls) = match random.once_in(8) {
        true => {
            let sheets = of_size(random, FULL, Mix::Settled);
            (History::on(random, rule, sheets), 40)
        }
        false => (History::new(random, rule), in_history),
    };
    letters(random, layout, &mut history.sheets);
    cases.extend((0..calls).map(|_| case(next(random, layout, &mut history))));
    cases
}

fn case((call, lent): (Call, Lent)) -> Case {
    Case::call(call, lent)
}

fn noted(cases: Vec<Case>, seen: &mut Seen) -> Vec<Case> {
    for case in &cases {
        seen.note_exported(case);
    }
    cases
}
