//! One round of the comparison. Its seed alone tells which cases it has.

use super::Case;
use crate::make::bad_lines::bad_input;
use crate::make::clients::clients;
use crate::make::random::Random;
use crate::make::script::Script;
use crate::make::scripts::{
    added, closed, crowded, damaged, free, halfway, legal, read_in_two, Extent,
};
use crate::make::{exports, visits};
use crate::replay::Layout::{self, Joined, Two};
use crate::seen::Seen;

/// Seeds that many apart make rounds of the same kind. Such a row of rounds is a cycle.
const KINDS: u64 = 238;
/// Rounds with small histories and few calls, two of each kind, come before six large ones, which take the most time.
const SMALL: u64 = 232;
/// Of so many cycles the first four are of every kind, and the rest of calls by place, which take the least time.
const CYCLES: u64 = 12;
const OF_EVERY_KIND: u64 = 4;

/// What the rounds so far have made.
#[derive(Default)]
pub struct Tally {
    pub seen: Seen,
    pub histories: u64,
    pub bad_inputs: u64,
}

impl Tally {
    /// The cases of one round, or how `plain` departs from the sequential model in one of them.
    pub fn round(&mut self, seed: u64) -> Result<Vec<Case>, String> {
        let random = &mut Random::new(seed);
        match seed / KINDS % CYCLES < OF_EVERY_KIND {
            true => self.of_every_kind(random, seed),
            false => self.by_place(random, seed),
        }
    }

    fn of_every_kind(&mut self, random: &mut Random, seed: u64) -> Result<Vec<Case>, String> {
        // Small ones first: they show a difference in the fewest lines. They are mixed, so that each kind comes early.
        let kind = match seed % KINDS {
            small @ 0..SMALL => small * 37 % 116,
            large => large - SMALL + 116,
        };
        match kind {
            0..16 => self.legal(random, Joined, Extent::Small),
            16..24 => self.free(random, Joined, Extent::Small),
            24..32 => Ok(self.crowded(random, Joined)),
            32..40 => Ok(exports::cases(random, &mut self.seen, Joined)),
            40..48 => Ok(self.damaged(random, Joined)),
            48..52 => Ok(self.bad_inputs(random, Joined)),
            52..60 => Ok(visits::cases(random, &mut self.seen)),
            60..68 => self.clients(random, Joined, Extent::Small),
            68..116 => self.on_two(random, kind - 68),
            116 => self.legal(random, Joined, large(seed)),
            117 => self.free(random, Joined, large(seed)),
            118 => self.legal(random, Joined, Extent::Long),
            119 if cycle_of_four(seed) == 1 => self.clients(random, Joined, Extent::Long),
            119 => self.free(random, Joined, Extent::Long),
            120 => self.legal(random, Two, Extent::Long),
            _ => self.free(random, Two, large(seed)),
        }
    }

    /// A small one on two sheets.
    fn on_two(&mut self, random: &mut Random, kind: u64) -> Result<Vec<Case>, String> {
        match kind {
            0..8 => self.legal(random, Two, Extent::Small),
            8..14 => self.free(random, Two, Extent::Small),
            14..24 => Ok(self.crowded(random, Two)),
            24..32 => Ok(self.damaged(random, Two)),
            32..34 => Ok(self.bad_inputs(random, Two)),
            34..42 => Ok(exports::cases(random, &mut self.seen, Two)),
            _ => self.clients(random, Two, Extent::Small),
        }
    }

    fn by_place(&mut self, random: &mut Random, seed: u64) -> Result<Vec<Case>, String> {
        let layout = random.pick(&[Joined, Two]);
        match seed % KINDS {
            small @ 0..SMALL if small % 2 == 0 => {
                Ok(exports::cases_by_place(random, &mut self.seen, layout))
            }
            0..SMALL => self.clients(random, layout, Extent::Small),
            SMALL => self.clients(random, layout, Extent::Wide),
            _ => self.clients(random, layout, Extent::Long),
        }
    }

    /// A large one, or some small ones.
    fn clients(
        &mut self,
        random: &mut Random,
        layout: Layout,
        extent: Extent,
    ) -> Result<Vec<Case>, String> {
        let histories = match extent {
            Extent::Small => 3,
            Extent::Long | Extent::Wide => 1,
        };
        let mut case = || clients(random, &mut self.seen, layout, extent).map(Case::Clients);
        (0..histories).map(|_| case()).collect()
    }

    fn legal(
        &mut self,
        random: &mut Random,
        layout: Layout,
        extent: Extent,
    ) -> Result<Vec<Case>, String> {
        let script = legal(random, &mut self.seen, layout, extent)?;
        Ok(vec![self.replay(random, script)])
    }

    fn free(
        &mut self,
        random: &mut Random,
        layout: Layout,
        extent: Extent,
    ) -> Result<Vec<Case>, String> {
        let script = free(random, &mut self.seen, layout, extent);
        Ok(vec![self.replay(random, script)])
    }

    fn crowded(&mut self, random: &mut Random, layout: Layout) -> Vec<Case> {
        let mut case = || {
            let script = match random.below(9) {
                7 | 8 => added(random, &mut self.seen, layout),
                0 | 3 | 4 if layout == Two => read_in_two(random, &mut self.seen),
                0 => halfway(random, &mut self.seen, layout),
                1..=3 => closed(random, &mut self.seen, layout),
                _ => crowded(random, &mut self.seen, layout),
            };
            self.replay(random, script)
        };
        (0..28).map(|_| case()).collect()
    }

    fn damaged(&mut self, random: &mut Random, layout: Layout) -> Vec<Case> {
        let mut case = || {
            let script = damaged(random, &mut self.seen, layout);
            self.replay(random, script)
        };
        let scripts = match layout {
            Joined => 24,
            Two => 40,
        };
        (0..scripts).map(|_| case()).collect()
    }

    /// A script as an input, at times without the last LF.
    fn replay(&mut self, random: &mut Random, script: Script) -> Case {
        self.histories += 1;
        let layout = script.layout();
        let expected = script.expected();
        let mut input = script.input;
        if random.once_in(4) && input.ends_with(b"\n") {
            input.pop();
        }
        Case::Replay {
            layout,
            input,
            expected,
            calls: script.calls,
        }
    }

    fn bad_inputs(&mut self, random: &mut Random, layout: Layout) -> Vec<Case> {
        let mut case = || {
            self.bad_inputs += 1;
            // These calls count only where they are made, in a good input.
            let script = damaged(random, &mut Seen::default(), layout);
            Case::bad_input(layout, bad_input(random, layout, script.input))
        };
        (0..25).map(|_| case()).collect()
    }
}

fn cycle_of_four(seed: u64) -> u64 {
    seed / KINDS % 4
}

/// Wide sheets once in four times: a call on them takes the longest by far.
fn large(seed: u64) -> Extent {
    match cycle_of_four(seed) {
        0 => Extent::Wide,
        _ => Extent::Long,
    }
}
