//! What a comparison has seen: every refusal of every call, every step from phase to phase, every report of a close, where
//! keys stood, which sheets had spares, what else stood in their lines, what was absent, where lines were added and removed, and
//! where it mattered that a number has several lines, counted.

mod absence;
mod absent_entries;
mod adding;
mod answers;
mod before_states;
mod by_place;
mod clients;
mod closes;
mod expiry;
mod lines_met;
mod lists;
mod ranks;
mod rows;
mod spares;
mod steps;
mod table;
mod two_kinds;
mod two_sheets;

use crate::compare::ranked::Ranked;
use crate::compare::Case;
use crate::conversions::{self, Conversion};
use crate::exported::{refusal_of, Call, Lent};
use crate::plain::by_place::ADVANCE;
use crate::plain::key::Key;
use crate::plain::request::Request;
use crate::plain::transaction::Transaction;
use crate::plain::{visitor, ACCEPTED};
use crate::replay::laid_out::LaidOut;
use crate::replay::line::Line;
use crate::replay::reply::Reply;
use crate::replay::Layout;
pub use absent_entries::Called;
pub use adding::Removed;

use absent_entries::AbsentEntries;
use adding::{Adding, Change};
use answers::{count, Answers, Row};
use by_place::ByPlace;
use clients::Clients;
use closes::Closes;
use expiry::{Expiry, Found};
use lines_met::LinesMet;
use lists::Lists;
use ranks::Ranks;
use spares::{Spares, FOR_C, ON_VISITS, REPLAY, TO_NUMBERS};
use std::fmt;
use steps::{Steps, ADVANCES};
use two_sheets::OnTwoSheets;

/// The calls of a replay.
const LINES: &[Row] = &[
    ("check", &[0, 1, 2]),
    ("begin", &[0, 1, 2, 8]),
    ("read", &[0, 1, 2, 3, 4, 5, 6, 9, 12]),
    ("put", &[0, 1, 2, 3, 4, 5, 6, 7, 10, 11]),
    ("advance", &[0, 1, 2, 3, 4]),
    ("abort", &[0, 1, 2, 3, 4]),
    ("close", &[0, 1, 2, 3, 4]),
    ("visit", &[0, 1, 2, 5, 6, 12]),
    ("lookup", &[0, 1, 5]),
    ("line", &[0]),
    ("add", &[0, 1, 2, 5, 14, 15]),
    ("remove", &[0, 1, 2, 5, 6, 16]),
];

/// The functions for C but those by place.
const EXPORTED: &[Row] = &[
    ("check", &[0, 1, 2]),
    ("visit", &[0, 1, 2, 5, 6, 12]),
    ("lookup", &[0, 1, 5, 6]),
    ("rank", &[0, 1, 5]),
    ("add", &[0, 1, 2, 5, 14, 15]),
    ("remove", &[0, 1, 2, 5, 6, 16]),
    ("begin", &[0, 1, 2, 8]),
    ("version", &[0]),
    ("read_records", &[0, 1]),
    ("write_records", &[0, 1]),
    ("read_coordinator", &[0, 1, 2]),
    ("write_coordinator", &[0, 1, 2]),
    ("written", &[0, 1, 2]),
];
const RANK: usize = 3;
const WRITTEN: usize = 12;

/// The same on two sheets, as far as they have them.
const EXPORTED_ON_TWO: &[Row] = &[
    ("check", &[0, 1, 2, 13]),
    ("visit", &[0, 1, 2, 13, 5, 6, 12]),
    ("lookup", &[0, 1, 13, 5, 6]),
    ("rank", &[0, 1, 13, 5]),
    ("add", &[0, 1, 2, 13, 5, 14, 15]),
    ("remove", &[0, 1, 2, 13, 5, 6, 16]),
];

const VISITOR: &[Row] = &[("visiting program", &[0, 1, 2])];

/// What is told of the sheets before and after a call.
const CHANGES: [&str; 4] = ["nothing", "coordinator", "records", "both"];

pub struct Seen {
    lines: Answers,
    exported: Answers,
    exported_on_two: Answers,
    by_place: ByPlace,
    by_place_on_two: ByPlace,
    visitor: Answers,
    steps: Steps,
    closes: Closes,
    ranks: Ranks,
    spares: Spares,
    lines_met: LinesMet,
    absent_entries: AbsentEntries,
    adding: Adding,
    changes: [u64; 4],
    /// How often it was told beside a call what it has written. It isn't counted as a call.
    pub told_beside: u64,
    pub clients: Clients,
    pub lists: Lists,
    expiry: Expiry,
    two_sheets: OnTwoSheets,
    /// Lines that show, forge or have another form.
    pub other_lines: u64,
}

impl Default for Seen {
    fn default() -> Seen {
        Seen {
            lines: Answers::new(LINES),
            exported: Answers::new(EXPORTED),
            exported_on_two: Answers::new(EXPORTED_ON_TWO),
            by_place: ByPlace::new(Layout::Joined),
            by_place_on_two: ByPlace::new(Layout::Two),
            visitor: Answers::new(VISITOR),
            steps: Steps::new("step to", &ADVANCES),
            closes: Closes::default(),
            ranks: Ranks::default(),
            spares: Spares::default(),
            lines_met: LinesMet::default(),
            absent_entries: AbsentEntries::default(),
            adding: Adding::default(),
            changes: [0; 4],
            told_beside: 0,
            clients: Clients::default(),
            lists: Lists::default(),
            expiry: Expiry::default(),
            two_sheets: OnTwoSheets::default(),
            other_lines: 0,
        }
    }
}

/// Whether a line of a replay is a call.
pub fn is_call(layout: Layout, line: &[u8]) -> bool {
    Line::parse(layout, line)
        .as_ref()
        .and_then(call_of)
        .is_some()
}

/// The place of a line's call in its table. Only the table of two sheets has the second call of a read.
fn call_of(line: &Line) -> Option<usize> {
    Some(match line {
        Line::Check => 0,
        Line::Begin { .. } => 1,
        Line::Read { .. } => 2,
        Line::Put { .. } => 3,
        Line::Advance { .. } => 4,
        Line::Abort { .. } => 5,
        Line::Close { .. } => 6,
        Line::Visit { .. } => 7,
        Line::Lookup { .. } => 8,
        Line::LineOf { .. } => 9,
        Line::Add { .. } => 10,
        Line::Remove { .. } => 11,
        Line::Second { .. } => 12,
        Line::Show { .. } | Line::Set { .. } | Line::Entry { .. } | Line::Sheets => return None,
    })
}

fn conversion_of(conversion: Conversion) -> usize {
    match conversion {
        Conversion::ReadRecords => 8,
        Conversion::WriteRecords => 9,
        Conversion::ReadCoordinator => 10,
        Conversion::WriteCoordinator => 11,
    }
}

impl Seen {
    /// Notes the reply to a line, the transaction that its call took, which of its keys were removed while it held them, and
    /// the sheets before it; answers whether it is a call.
    pub fn note(
        &mut self,
        line: Option<&Line>,
        taken: Option<&Transaction>,
        removed: &[Key],
        reply: &Reply,
        before: &LaidOut,
    ) -> bool {
        let Some((line, call)) = line.and_then(|line| Some((line, call_of(line)?))) else {
            self.other_lines += 1;
            return false;
        };
        let refusal = match reply {
            Reply::Refused(number) => *number,
            _ => 0,
        };
        self.ranks.note(reply, before);
        self.adding.note(line, taken, removed, reply, before);
        // A line handed back, or none, tells no refusal.
        if !matches!(line, Line::LineOf { .. }) {
            self.spares.note(REPLAY, refusal, before);
            self.lines_met.note(rows::REPLAY, refusal, before);
        }
        let sheets = match before {
            LaidOut::Joined(sheets) => sheets,
            LaidOut::Two(_) => {
                self.two_sheets.note(call, refusal);
                self.two_sheets.note_kinds(line, taken, reply, before);
                return true;
            }
        };
        self.lines.note(call, refusal);
        let found = Found::in_replay(line, reply);
        self.expiry.note(found, &sheets.records);
        match (line, taken, reply) {
            (_, Some(taken), Reply::Advanced(returned)) => self.steps.note(taken, returned),
            (Line::Close { limit, .. }, Some(taken), Reply::Closed(returned, writes)) => {
                self.closes.note(*limit, *writes, taken, returned);
            }
            _ => {}
        }
        true
    }

    /// Notes a line's request and its answer, and the sheets before it.
    pub fn note_request(&mut self, called: &Called, before: &LaidOut) {
        self.absent_entries.note(false, called, before);
    }

    /// The same of a function for C.
    fn note_request_for_c(
        &mut self,
        call: &Call,
        refusal: u32,
        before: &LaidOut,
        lists: [&[Transaction]; 2],
    ) {
        let (request, returned) = match *call {
            Call::Visit { key, now } => (Some(Request::Visit { key, now }), None),
            Call::At { place, asked } => {
                let [taken, returned] = lists.map(|list| list.get(place));
                let request = taken.and_then(|taken| asked.request(before.layout(), *taken));
                (request, returned)
            }
            _ => (None, None),
        };
        if let Some(request) = &request {
            let answer = match refusal {
                ACCEPTED => Ok(returned),
                _ => Err(refusal),
            };
            self.absent_entries
                .note(true, &Called { request, answer }, before);
        }
    }

    /// Notes a case of the functions for C.
    pub fn note_exported(&mut self, case: &Case) {
        match case {
            Case::Call {
                call,
                lent,
                answer,
                after,
            } => self.note_call(call, &lent.sheets, &lent.list, *answer, after),
            Case::Convert {
                conversion,
                lent,
                answer,
                ..
            } => {
                self.exported.note(conversion_of(*conversion), *answer);
                self.note_conversion(*conversion, lent, *answer);
            }
            Case::Written { answer, .. } => {
                self.exported.note(WRITTEN, answer.saturating_sub(1_000));
                self.note_change(*answer);
            }
            Case::Rank(ranked) => self.note_rank(ranked),
            _ => {}
        }
    }

    /// Notes what stood in records that were converted, by the length of the target too.
    fn note_conversion(&mut self, conversion: Conversion, lent: &conversions::Lent, answer: u32) {
        let lines = &mut self.lines_met;
        match conversion {
            Conversion::ReadRecords => {
                self.spares.note_joined(TO_NUMBERS, answer, &lent.sheet);
                lines.note_records(rows::TO_NUMBERS, answer, &lent.sheet);
            }
            Conversion::WriteRecords => lines.note_numbers(answer, &lent.numbers),
            Conversion::ReadCoordinator | Conversion::WriteCoordinator => {}
        }
    }

    fn note_rank(&mut self, ranked: &Ranked) {
        self.ranks.note_for_c(ranked);
        let exported = match ranked.sheets.layout() {
            Layout::Joined => &mut self.exported,
            Layout::Two => &mut self.exported_on_two,
        };
        exported.note(RANK, ranked.answer.saturating_sub(1_000));
    }

    /// Notes a call of a function for C, the sheets and the list before it, and what it was lent afterwards.
    pub fn note_call(
        &mut self,
        call: &Call,
        sheets: &LaidOut,
        before: &[Transaction],
        answer: u64,
        lent: &Lent,
    ) {
        let refusal = refusal_of(call, answer);
        self.note_request_for_c(call, refusal, sheets, [before, &lent.list]);
        let (exported, by_place) = match &lent.sheets {
            LaidOut::Joined(sheets) => {
                let found = Found::for_c(call, answer);
                self.expiry.note(found, &sheets.records);
                (&mut self.exported, &mut self.by_place)
            }
            LaidOut::Two(_) => (&mut self.exported_on_two, &mut self.by_place_on_two),
        };
        if *call != Call::Version {
            self.spares.note(FOR_C, refusal, &lent.sheets);
            self.lines_met.note(rows::FOR_C, refusal, &lent.sheets);
        }
        match call {
            Call::Check => exported.note(0, refusal),
            Call::Visit { .. } => exported.note(1, refusal),
            Call::Lookup { .. } => exported.note(2, refusal),
            Call::Add { key } => {
                exported.note(4, refusal);
                self.adding.note_for_c(Change::Add, key, refusal, sheets);
            }
            Call::Remove { key } => {
                exported.note(5, refusal);
                self.adding.note_for_c(Change::Remove, key, refusal, sheets);
            }
            Call::Begin => exported.note(6, refusal),
            Call::Version => exported.note(7, refusal),
            Call::At { place, asked } => {
                by_place.note(asked, refusal);
                if refusal == 0 {
                    let (taken, returned) = (&before[*place], &lent.list[*place]);
                    by_place.note_accepted(asked, answer, taken, returned);
                    if asked.call == ADVANCE {
                        self.adding.note_by_place(taken, returned, sheets);
                    }
                }
            }
        }
    }

    /// Notes what was told beside a call.
    pub fn note_written_beside(&mut self, answer: u32) {
        self.told_beside += 1;
        self.note_change(answer);
    }

    fn note_change(&mut self, answer: u32) {
        if let Some(count) = self.changes.get_mut(answer as usize) {
            *count += 1;
        }
    }

    /// Notes an input of the visiting program.
    pub fn note_visits(&mut self, case: &Case) {
        if let Case::Visit { input, expected } = case {
            self.expiry.note_visits(input, expected);
            let refusal = match expected.as_slice() {
                b"REFUSED  1\n" => 1,
                b"REFUSED  2\n" => 2,
                _ => 0,
            };
            self.visitor.note(0, refusal);
            if let Some((_, records, _)) = visitor::parts(input) {
                self.spares.note_joined(ON_VISITS, refusal, &records);
                self.lines_met
                    .note_records(rows::ON_VISITS, refusal, &records);
            }
        }
    }

    /// The calls noted, of every kind.
    pub fn calls(&self) -> u64 {
        self.lines.total() + self.two_sheets.total() + self.exported_calls() + self.visitor_inputs()
    }

    pub fn calls_on_two_sheets(&self) -> u64 {
        self.two_sheets.total() + self.exported_calls_on_two_sheets()
    }

    pub fn exported_calls(&self) -> u64 {
        self.exported.total() + self.by_place.total() + self.exported_calls_on_two_sheets()
    }

    pub fn exported_calls_on_two_sheets(&self) -> u64 {
        self.exported_on_two.total() + self.by_place_on_two.total()
    }

    pub fn calls_by_place(&self) -> u64 {
        self.by_place.total() + self.by_place_on_two.total()
    }

    pub fn visitor_inputs(&self) -> u64 {
        self.visitor.total()
    }

    /// What should have been seen and wasn't, or was seen and shouldn't have been.
    pub fn amiss(&self) -> Vec<String> {
        let answers = [&self.lines, &self.exported, &self.visitor];
        let mut amiss: Vec<String> = answers.into_iter().flat_map(Answers::amiss).collect();
        amiss.extend(self.steps.amiss("advance"));
        amiss.extend(self.closes.amiss("close"));
        amiss.extend(self.ranks.amiss());
        amiss.extend(self.spares.amiss());
        amiss.extend(self.lines_met.amiss());
        amiss.extend(self.absent_entries.amiss());
        amiss.extend(self.adding.amiss());
        amiss.extend(self.by_place.amiss());
        amiss.extend(unseen("written", &CHANGES, &self.changes));
        amiss.extend(self.expiry.amiss());
        amiss.extend(self.lists.amiss());
        amiss.extend(on_two(self.two_sheets.amiss()));
        amiss.extend(on_two(self.exported_on_two.amiss()));
        amiss.extend(on_two(self.by_place_on_two.amiss()));
        amiss
    }
}

fn on_two(amiss: Vec<String>) -> impl Iterator<Item = String> {
    let on_two = amiss.into_iter();
    on_two.map(|what| format!("two sheets, {what}"))
}

/// The names of what was never counted.
fn unseen<'a>(
    call: &'a str,
    names: &'a [&str],
    counts: &'a [u64],
) -> impl Iterator<Item = String> + 'a {
    let unseen = names.iter().zip(counts).filter(|(_, count)| **count == 0);
    unseen.map(move |(name, _)| format!("{call}: {name}"))
}

/// Each count after its name.
fn named(names: &[&str], counts: &[u64]) -> String {
    let named = names.iter().zip(counts);
    let named: Vec<String> = named
        .map(|(name, count)| format!("{name} {count}"))
        .collect();
    named.join(", ")
}

impl fmt::Display for Seen {
    /// The answers of each call in a replay, the steps from phase to phase, how closes ended, where keys stood, which sheets
    /// had spares, what stood in their lines, what was absent, what was added and removed, the same of the functions for C, the
    /// answers of the visiting program, where several lines of a number mattered, and the same on two sheets.
    fn fmt(&self, out: &mut fmt::Formatter) -> fmt::Result {
        writeln!(out, "{}\n\n{}\n", self.lines, self.steps)?;
        writeln!(
            out,
            "{}\n\n{}\n\n{}\n\n{}\n\n{}\n\n{}\n",
            self.closes, self.ranks, self.spares, self.lines_met, self.absent_entries, self.adding
        )?;
        writeln!(out, "for C\n{}\n", self.exported)?;
        writeln!(out, "for C, by place\n{}", self.by_place)?;
        writeln!(out, "written: {}", named(&CHANGES, &self.changes))?;
        writeln!(out, "{}\n{}\n", self.clients, self.lists)?;
        writeln!(out, "{}\n\n{}\n", self.visitor, self.expiry)?;
        writeln!(out, "on two sheets\n{}\n", self.two_sheets)?;
        writeln!(out, "on two sheets for C\n{}\n", self.exported_on_two)?;
        let by_place = &self.by_place_on_two;
        write!(out, "on two sheets for C, by place\n{by_place}")
    }
}
