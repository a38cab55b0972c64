//! Scripts of several kinds: demand 3's lists with the sequential model, lists of any calls, orders closed write by write,
//! orders that stopped half-way or whose keys come and go, and calls on damaged sheets.

use super::absence;
use super::adding;
use super::arguments::{any_key, clock, key_of, limit, sought_key};
use super::bad_lines::bad_line;
use super::closes;
use super::closing::close;
use super::damage::{before_state, damage};
use super::expiry::{without_reading, Stop};
use super::forge::forge;
use super::halfway;
use super::history::{Event, History, Rule};
use super::old_lines;
use super::orders;
use super::random::Random;
use super::requests::{begin, stray};
use super::script::Script;
use super::sheets::{self, accepted, of_size, Mix, Size};
use super::spares::end_in_spares;
use super::two_damage::damaged_two;
use super::two_orders;
use super::two_sheets::letters;
use super::Sheets;
use crate::plain::record::Record;
use crate::replay::laid_out::LaidOut;
use crate::replay::line::{Line, SLOTS};
use crate::replay::Layout;
use crate::seen::Seen;
use crate::sequential_model::SequentialModel;

/// How long a history is, and how large its sheets are.
#[derive(Clone, Copy)]
pub enum Extent {
    /// Few keys, so that clients meet; some stop early, so that most transactions are cut off half-way.
    Small,
    /// Few keys, and so many calls that every number is issued.
    Long,
    /// Sheets of nearly full size.
    Wide,
}

/// A history of this extent, and how many calls it is to have.
pub fn history(random: &mut Random, rule: Rule, extent: Extent) -> (History, usize) {
    let mix = match rule {
        Rule::Legal => Mix::Settled,
        Rule::Free => Mix::Thirds,
    };
    match extent {
        Extent::Small => {
            let calls = random.pick(&[10, 30, 100, 200, 400]);
            (History::new(random, rule), calls)
        }
        Extent::Long => {
            let size = sizes(random, 12, 999);
            (large(random, rule, size, mix), 3_000)
        }
        Extent::Wide => {
            let size = sizes(random, 500, 999);
            (large(random, rule, size, mix), 300)
        }
    }
}

fn large(random: &mut Random, rule: Rule, size: Size, mix: Mix) -> History {
    let mut sheets = of_size(random, size, mix);
    end_in_spares(random, 2, &mut sheets);
    History::on(random, rule, sheets)
}

/// Nearly as many lines as told.
fn sizes(random: &mut Random, records: usize, decisions: usize) -> Size {
    let fewer = random.pick(&[0, 0, 1, 5]);
    Size {
        records: records - fewer,
        decisions: decisions - fewer,
        issued: random.below(decisions / 2),
    }
}

/// A legal history, closed by visits, or how it departs from the sequential model.
pub fn legal(
    random: &mut Random,
    seen: &mut Seen,
    layout: Layout,
    extent: Extent,
) -> Result<Script, String> {
    let (mut history, calls) = history(random, Rule::Legal, extent);
    letters(random, layout, &mut history.sheets);
    let first = history.sheets.store();
    let mut list = LegalList::new(layout, history);
    list.steps(random, seen, calls);
    let inside = list.close(random, seen);
    let LegalList {
        mut script, model, ..
    } = list;
    let joined = script.joined();
    if inside {
        if let Some(key) = model.difference(&joined.store().records) {
            return Err(format!(
                "not the sequential model's line of {key:?}\n{joined}"
            ));
        }
        seen.lists
            .note_keys(&first, &joined.store(), &script.removed);
    }
    script.show_all(seen, random.once_in(3));
    Ok(script)
}

/// A legal history, its script and the sequential model, which are told of each call.
struct LegalList {
    history: History,
    script: Script,
    model: SequentialModel,
}

impl LegalList {
    fn new(layout: Layout, history: History) -> LegalList {
        let records = &history.sheets.records;
        LegalList {
            script: Script::new(layout, &history.sheets),
            model: SequentialModel::new(records).expect("the first sheet is accepted"),
            history,
        }
    }

    fn tell(&mut self, seen: &mut Seen, event: &Event) {
        self.model.note(&event.request, &event.answer);
        self.script.ask(seen, &event.request);
    }

    /// So many calls, or fewer where there is no room or it is to stop early.
    fn steps(&mut self, random: &mut Random, seen: &mut Seen, calls: usize) {
        let stop = Stop::new(random, calls);
        for call in 0..calls {
            let store = self.history.sheets.store();
            if stop.is_before(call, &store) || !self.script.has_room() {
                break;
            }
            let event = self.history.step(random);
            beside(random, seen, &mut self.script, &self.history);
            self.tell(seen, &event);
        }
    }

    /// The closing visits. Numbers that they can't decide are closed by their own clients first; answers whether that leaves
    /// none, so that the list is one of demand 3's.
    fn close(&mut self, random: &mut Random, seen: &mut Seen) -> bool {
        let left = without_reading(&self.history.sheets.store());
        for number in &left {
            if let Some(event) = self.history.close_own(random, *number) {
                self.tell(seen, &event);
            }
        }
        let outside = without_reading(&self.history.sheets.store());
        seen.lists.note(&left, &outside);
        for event in close(random, &mut self.history.sheets) {
            self.tell(seen, &event);
        }
        outside.is_empty()
    }
}

/// A history of any calls from any sheets.
pub fn free(random: &mut Random, seen: &mut Seen, layout: Layout, extent: Extent) -> Script {
    let (mut history, calls) = history(random, Rule::Free, extent);
    letters(random, layout, &mut history.sheets);
    let mut script = Script::new(layout, &history.sheets);
    for _ in 0..calls {
        if !script.has_room() {
            break;
        }
        let event = history.step(random);
        beside(random, seen, &mut script, &history);
        script.ask(seen, &event.request);
    }
    script.show_all(seen, random.once_in(3));
    script
}

/// A few calls from nowhere on small sheets with much in them.
pub fn crowded(random: &mut Random, seen: &mut Seen, layout: Layout) -> Script {
    let mut sheets = sheets::crowded(random);
    letters(random, layout, &mut sheets);
    let mut script = Script::new(layout, &sheets);
    for _ in 0..16 {
        let sheets = script.joined();
        let request = match random.once_in(6) {
            true => closes::of_forged(random, &sheets),
            false => stray(random, &[], &sheets.store()),
        };
        script.ask(seen, &request);
    }
    for _ in 0..4 {
        let slot = random.below(SLOTS);
        any_line(random, seen, &mut script, &Line::Show { slot });
    }
    script.show_all(seen, random.once_in(3));
    script
}

/// Orders whose keys come and go, or only that, on sheets of every kind.
pub fn added(random: &mut Random, seen: &mut Seen, layout: Layout) -> Script {
    let with_orders = random.once_in(2);
    let mut sheets = match with_orders {
        true => adding::roomy(random),
        false => adding::with_room(random),
    };
    if random.once_in(2) {
        letters(random, layout, &mut sheets);
    }
    let mut script = Script::new(layout, &sheets);
    for _ in 0..3 {
        let requests = match with_orders {
            true => adding::calls(random, &mut sheets),
            false => adding::alone(random, &mut sheets),
        };
        for request in requests {
            script.ask(seen, &request);
        }
        if with_orders {
            for request in adding::too_late(random, &mut sheets) {
                script.ask(seen, &request);
            }
        }
    }
    script.show_all(seen, false);
    script
}

/// Orders of many groups, each closed by some writes at a time, with other calls between. The first is under way already.
pub fn closed(random: &mut Random, seen: &mut Seen, layout: Layout) -> Script {
    let mut sheets = sheets::spread(random);
    letters(random, layout, &mut sheets);
    let mut order = closes::under_way(random, &mut sheets);
    let mut script = Script::new(layout, &sheets);
    for _ in 0..2 {
        for _ in 0..random.pick(&[1, 2, 4]) {
            let request = closes::next(random, order, &sheets);
            order = closes::after(&request, order, &mut sheets);
            script.ask(seen, &request);
        }
        order = orders::order(random, &sheets.store());
    }
    script.show_all(seen, random.once_in(3));
    script
}

/// Visits and reads of orders that stopped half-way.
pub fn halfway(random: &mut Random, seen: &mut Seen, layout: Layout) -> Script {
    let mut sheets = sheets::spread(random);
    letters(random, layout, &mut sheets);
    let mut script = Script::new(layout, &halfway::halfway(random, sheets));
    for _ in 0..8 {
        let request = halfway::asking(random, &script.joined());
        script.ask(seen, &request);
    }
    script.show_all(seen, false);
    script
}

/// Orders on two sheets, read in two calls where that is needed.
pub fn read_in_two(random: &mut Random, seen: &mut Seen) -> Script {
    let mut sheets = sheets::of_several_storages(random);
    letters(random, Layout::Two, &mut sheets);
    let mut script = Script::new(Layout::Two, &sheets);
    for _ in 0..3 {
        for request in two_orders::calls(random, &mut sheets) {
            script.ask(seen, &request);
        }
    }
    script.show_all(seen, false);
    script
}

/// Lines beside the history's own that write no sheet.
fn beside(random: &mut Random, seen: &mut Seen, script: &mut Script, history: &History) {
    let slot = random.below(SLOTS);
    let line = match random.below(40) {
        0 => Line::Check,
        1..=3 => looked_up(random, 16, script.layout(), &history.sheets.store().records),
        4..=12 => Line::Show { slot },
        13 => {
            let (now, limit) = (0, limit(random));
            let good = random.pick(&[
                Line::Advance { slot, now },
                Line::Close { slot, now, limit },
            ]);
            return unfit(random, seen, script, &good);
        }
        14 => Line::Sheets,
        16 | 17 => {
            let key = any_key(random, &history.sheets.store().records);
            let good = random.pick(&[Line::Add { key }, Line::Remove { key }]);
            return unfit(random, seen, script, &good);
        }
        15 => {
            let line = foreign(random, script.layout(), &history.sheets.store().records);
            return script.say(seen, line.to_string().as_bytes());
        }
        _ => return,
    };
    if random.once_in(8) {
        return unfit(random, seen, script, &line);
    }
    script.add(seen, line);
}

/// Where a key stands, or its line on a sheet, seldom on one that there isn't.
fn looked_up(random: &mut Random, times: usize, layout: Layout, records: &[Record]) -> Line {
    let key = sought_key(random, times, records);
    if random.once_in(2) {
        return Line::Lookup { key };
    }
    let sheet = match layout {
        Layout::Joined => None,
        Layout::Two => Some(random.pick(&[0, 0, 1, 1, 2, u32::MAX])),
    };
    Line::LineOf { sheet, key }
}

/// A line that only the other layout's replay knows.
fn foreign(random: &mut Random, layout: Layout, records: &[Record]) -> Line {
    let key = any_key(random, records);
    match layout {
        Layout::Joined if random.once_in(2) => Line::Second {
            slot: random.below(SLOTS),
            key,
            now: clock(random, records),
            columns: [0, 0],
        },
        Layout::Joined => Line::LineOf {
            sheet: Some(0),
            key,
        },
        Layout::Two => Line::LineOf { sheet: None, key },
    }
}

/// A line changed so that it is no call; if it still is one, it is left out, since the history doesn't know of it.
fn unfit(random: &mut Random, seen: &mut Seen, script: &mut Script, good: &Line) {
    let line = bad_line(random, &good.to_string());
    let splits = line.contains(&b'\n');
    if !splits && Line::parse(script.layout(), &line).is_none() {
        script.say(seen, &line);
    }
}

/// Calls of every kind on sheets that are damaged or forged, and lines of any form. They are few, since there is much that can
/// be damaged, and more of it on two sheets.
pub fn damaged(random: &mut Random, seen: &mut Seen, layout: Layout) -> Script {
    let mut sheets = accepted(random);
    letters(random, layout, &mut sheets);
    let store = sheets.store();
    let records = &store.records;
    let mut script = Script::on(damaged_sheets(random, layout, sheets));
    let calls = match layout {
        Layout::Joined => 5,
        Layout::Two => 4,
    };
    for _ in 0..calls {
        let slot = random.below(SLOTS);
        let key = any_key(random, records);
        let now = clock(random, records);
        let limit = limit(random);
        match random.below(14) {
            0 => script.add(seen, random.pick(&[Line::Check, Line::Sheets])),
            1 => script.add(seen, looked_up(random, 4, layout, records)),
            2 => script.add(seen, Line::Visit { key, now }),
            3 => script.ask(seen, &begin(random)),
            4 => any_line(random, seen, &mut script, &Line::Read { slot, key, now }),
            5 => any_line(random, seen, &mut script, &Line::Abort { slot }),
            6 => any_line(random, seen, &mut script, &Line::Sheets),
            7 => any_line(random, seen, &mut script, &Line::Close { slot, now, limit }),
            8 => {
                let key = key_of(random, 4, records);
                script.add(
                    seen,
                    random.pick(&[Line::Add { key }, Line::Remove { key }]),
                );
            }
            9 => {
                let line = random.pick(&[Line::Add { key }, Line::Remove { key }]);
                any_line(random, seen, &mut script, &line);
            }
            _ => script.ask(seen, &stray(random, &[], &store)),
        }
    }
    match layout {
        Layout::Joined => script.show_all(seen, false),
        Layout::Two => script.add(seen, Line::Check),
    }
    script
}

/// Accepted sheets with something wrong.
pub fn damaged_sheets(random: &mut Random, layout: Layout, sheets: Sheets) -> LaidOut {
    match layout {
        Layout::Joined => LaidOut::Joined(damaged_or_forged(random, sheets)),
        Layout::Two => LaidOut::Two(damaged_two(random, &sheets)),
    }
}

pub fn damaged_or_forged(random: &mut Random, mut sheets: Sheets) -> Sheets {
    match random.below(6) {
        0 => forge(random, &mut sheets),
        1 => before_state(random, &mut sheets.records, old_lines::RECORDS),
        2 => absence::spoil(random, &mut sheets.records, old_lines::RECORDS),
        _ => damage(random, &mut sheets),
    }
    sheets
}

/// A line changed in any way, good or bad.
fn any_line(random: &mut Random, seen: &mut Seen, script: &mut Script, good: &Line) {
    let line = bad_line(random, &good.to_string());
    for part in line.split(|byte| *byte == b'\n') {
        script.say(seen, part);
    }
}
