//! A history as the text of a replay, with the answers that are expected.

use crate::make::Sheets;
use crate::plain::request::Request;
use crate::plain::transaction::{Transaction, MOST_ENTRIES};
use crate::plain::{coordinator, record};
use crate::replay::laid_out::LaidOut;
use crate::replay::line::{Line, SLOTS};
use crate::replay::reply::Reply;
use crate::replay::{self, state::ReplayState, Layout, MOST_BYTES};
use crate::seen::{Called, Removed, Seen};

/// Slots from here on are for forged transactions, those below for begun ones.
const FORGED: usize = 12;

pub struct Script {
    pub state: ReplayState,
    pub input: Vec<u8>,
    /// How many lines are calls.
    pub calls: u64,
    answers: Vec<u8>,
    /// Keys that slots held while they were removed.
    pub removed: Removed,
    begun: usize,
    forged: usize,
}

impl Script {
    /// A script on these sheets, or on the two that they join.
    pub fn new(layout: Layout, sheets: &Sheets) -> Script {
        Script::on(LaidOut::of(layout, sheets.clone()))
    }

    /// A script on these sheets, cut to whole lines.
    pub fn on(mut sheets: LaidOut) -> Script {
        match &mut sheets {
            LaidOut::Joined(sheets) => cut_to_lines(sheets),
            LaidOut::Two(sheets) => sheets.cut_to_lines(),
        }
        Script {
            input: sheets.input(),
            state: ReplayState::new(sheets),
            calls: 0,
            answers: Vec::new(),
            removed: Removed::default(),
            begun: 0,
            forged: 0,
        }
    }

    /// The whole output expected.
    pub fn expected(&self) -> Vec<u8> {
        [self.answers.clone(), self.state.sheets.printed()].concat()
    }

    pub fn layout(&self) -> Layout {
        self.state.sheets.layout()
    }

    /// The sheets as they stand, joined.
    pub fn joined(&self) -> Sheets {
        self.state.sheets.joined()
    }

    /// Whether there is room for more calls, and for those that close the history.
    pub fn has_room(&self) -> bool {
        self.input.len() < MOST_BYTES - 100_000
    }

    /// Adds a line of any form, without its LF.
    pub fn say(&mut self, seen: &mut Seen, text: &[u8]) {
        let line = Line::parse(self.layout(), text);
        let before = self.state.sheets.clone();
        let request = line.and_then(|line| self.state.request(&line));
        let taken = request.as_ref().and_then(|(_, request)| request.taken());
        let slot = request.as_ref().and_then(|(slot, _)| *slot);
        let reply = replay::reply(&mut self.state, text);
        let removed = self.removed.of(slot);
        if let Some((_, request)) = &request {
            let answer = match reply {
                Reply::Refused(refusal) => Err(refusal),
                _ => Ok(slot.map(|slot| &self.state.slots[slot])),
            };
            seen.note_request(&Called { request, answer }, &before);
        }
        self.calls += u64::from(seen.note(line.as_ref(), taken, &removed, &reply, &before));
        if let Some(line) = &line {
            self.removed.note(line, &reply, &self.state.slots);
        }
        self.input.extend(text);
        self.input.push(b'\n');
        self.answers.extend(reply.printed());
    }

    pub fn add(&mut self, seen: &mut Seen, line: Line) {
        self.say(seen, line.to_string().as_bytes());
    }

    /// Adds a call. A transaction that no slot has is forged first.
    pub fn ask(&mut self, seen: &mut Seen, request: &Request) {
        let slot = match request.taken() {
            Some(taken) => self.slot_of(seen, taken),
            None => 0,
        };
        let line = match *request {
            Request::Begin { serializable } => Line::Begin {
                slot: self.next_begun(),
                serializable,
            },
            Request::Read { key, now, .. } => Line::Read { slot, key, now },
            Request::Second {
                key, now, columns, ..
            } => Line::Second {
                slot,
                key,
                now,
                columns,
            },
            Request::Put { key, columns, .. } => Line::Put { slot, key, columns },
            Request::Advance { now, .. } => Line::Advance { slot, now },
            Request::Abort { .. } => Line::Abort { slot },
            Request::Close { now, limit, .. } => Line::Close { slot, now, limit },
            Request::Visit { key, now } => Line::Visit { key, now },
            Request::Add { key } => Line::Add { key },
            Request::Remove { key } => Line::Remove { key },
        };
        self.add(seen, line);
    }

    /// A slot for a new transaction. What it held is dropped, as by a client that stops.
    fn next_begun(&mut self) -> usize {
        self.begun += 1;
        self.begun % FORGED
    }

    fn slot_of(&mut self, seen: &mut Seen, transaction: &Transaction) -> usize {
        let slots = &self.state.slots;
        if let Some(slot) = slots.iter().position(|held| held == transaction) {
            return slot;
        }
        self.forged += 1;
        let slot = FORGED + self.forged % (SLOTS - FORGED);
        self.forge(seen, slot, transaction);
        slot
    }

    /// Makes the slot hold this transaction, entries that mean nothing too.
    fn forge(&mut self, seen: &mut Seen, slot: usize, transaction: &Transaction) {
        let fields = transaction.fields();
        self.add(seen, Line::Set { slot, fields });
        for place in 0..MOST_ENTRIES {
            let entry = transaction.entries[place];
            if self.state.slots[slot].entries[place] != entry {
                let numbers = entry.numbers();
                self.add(
                    seen,
                    Line::Entry {
                        slot,
                        place,
                        numbers,
                    },
                );
            }
        }
    }

    /// Shows every slot, entries past the count too where they are wanted.
    pub fn show_all(&mut self, seen: &mut Seen, whole: bool) {
        for slot in 0..SLOTS {
            self.add(seen, Line::Show { slot });
            if whole {
                let mut fields = self.state.slots[slot].fields();
                fields[5] = MOST_ENTRIES as u32;
                self.add(seen, Line::Set { slot, fields });
                self.add(seen, Line::Show { slot });
            }
        }
    }
}

/// Leaves the part of a line at each sheet's end away. There is always a head, good or not.
fn cut_to_lines(sheets: &mut Sheets) {
    let Sheets {
        records,
        coordinator,
    } = sheets;
    records.truncate(records.len() / record::LINE * record::LINE);
    coordinator.truncate(coordinator.len() / coordinator::LINE * coordinator::LINE);
    if coordinator.is_empty() {
        coordinator.resize(coordinator::LINE, b'\n');
    }
}
