//! The rounds of the comparison see every refusal of every call and every step, and `plain` holds against its own cases.

use reference::compare::rounds::Tally;
use reference::compare::{Case, Subject};
use reference::conversions::{self, Conversion};
use reference::exported::{self, Call, Lent};
use reference::make::Sheets;
use reference::plain::key::Key;
use reference::plain::visitor;
use reference::replay::laid_out::LaidOut;
use reference::replay::{replay, Layout};

struct Plain;

impl Subject for Plain {
    fn replay(&self, layout: Layout, input: &[u8]) -> Result<Vec<u8>, String> {
        Ok(replay(layout, input))
    }

    fn visitor(&self, input: &[u8]) -> Result<Vec<u8>, String> {
        Ok(visitor::output(input))
    }

    fn call(&self, call: &Call, lent: &mut Lent) -> u64 {
        exported::by_plain(call, lent)
    }

    fn convert(&self, conversion: Conversion, lent: &mut conversions::Lent) -> u32 {
        conversions::by_plain(conversion, lent)
    }

    fn written(&self, before: &Sheets, after: &Sheets, lines: &mut [u32]) -> u32 {
        exported::written_by_plain(before, after, lines)
    }

    fn rank(&self, sheets: &LaidOut, key: Key, target: &mut [u32]) -> u32 {
        exported::rank_by_plain(sheets, key, target)
    }
}

#[test]
fn rounds_show_all() {
    let mut tally = Tally::default();
    for seed in 0..476 {
        tally.round(seed).expect("the sequential model's sheet");
    }
    println!("{}", tally.seen);
    assert_eq!(tally.seen.amiss(), Vec::<String>::new());
}

/// Rounds of every kind, and of calls by place, large ones among them.
#[test]
fn plain_holds() {
    let mut tally = Tally::default();
    for seed in (193..238).chain(1150..1190) {
        let cases = tally.round(seed).expect("the sequential model's sheet");
        assert!(cases.iter().all(|case| case.holds(&Plain)), "seed {seed}");
        let calls: u64 = cases.iter().map(Case::calls).sum();
        assert!(calls > 0 || tally.bad_inputs > 0, "seed {seed}");
    }
}
