//! Random histories: several clients that take turns on the same sheets, stop at any time and send strange requests.

use super::adding::add_or_remove;
use super::arguments::close_keys;
use super::closing::own_close;
use super::random::Random;
use super::requests::{begin, stray, Client};
use super::sheets::{with_keys, Mix, Size};
use super::spares::end_in_spares;
use super::Sheets;
use crate::plain::key::Key;
use crate::plain::request::{Answer, Request};
use crate::plain::transaction::{Reading, Transaction, DONE, OPEN};

/// Which calls stand in a history.
#[derive(Clone, Copy, PartialEq, Eq)]
pub enum Rule {
    /// From sheets without PREPARED lines, and an accepted call takes a state that may be handed on: demand 3's lists.
    Legal,
    /// From any sheets, with any transaction.
    Free,
}

/// One call of a history, and the sheets before it.
pub struct Event {
    pub request: Request,
    pub answer: Result<Answer, u32>,
    pub before: Sheets,
}

impl Event {
    /// Makes the call on the sheets.
    pub fn make(request: Request, sheets: &mut Sheets) -> Event {
        let before = sheets.clone();
        Event {
            request,
            answer: sheets.ask_either_case(request),
            before,
        }
    }
}

pub struct History {
    pub sheets: Sheets,
    rule: Rule,
    /// None for a client without a transaction.
    clients: Vec<Option<Client>>,
    /// Every state that was returned once.
    old: Vec<Transaction>,
}

impl History {
    pub fn new(random: &mut Random, rule: Rule) -> History {
        let records = random.pick(&[3, 3, 4, 5, 6, 8, 10, 12, 12]);
        let issued = random.below(4);
        let decisions = issued + random.pick(&[1, 10, 60, 60, 60]);
        let size = Size {
            records,
            decisions,
            issued,
        };
        let mix = match rule {
            Rule::Legal => Mix::Settled,
            Rule::Free => random.pick(&[Mix::Settled, Mix::Thirds]),
        };
        let keys = close_keys(random, records);
        let mut sheets = with_keys(random, &keys, size, mix);
        if random.once_in(3) {
            sheets.part_units();
        }
        end_in_spares(random, 2, &mut sheets);
        History::on(random, rule, sheets)
    }

    /// A history on accepted sheets, without PREPARED lines if it is to be a legal one.
    pub fn on(random: &mut Random, rule: Rule, sheets: Sheets) -> History {
        History {
            sheets,
            rule,
            clients: vec![None; 2 + random.below(4)],
            old: Vec::new(),
        }
    }

    /// States that calls returned, the last ones last.
    pub fn states(&self) -> &[Transaction] {
        &self.old
    }

    /// The keys that clients at work hold.
    fn held(&self) -> Vec<Key> {
        let clients = self.clients.iter().flatten();
        let transactions = clients.map(|client| &client.transaction);
        let at_work = transactions.filter(|t| t.phase != DONE);
        let held = at_work.flat_map(|t| t.held());
        held.map(|entry| entry.key).collect()
    }

    /// Makes the next call that the rule allows.
    pub fn step(&mut self, random: &mut Random) -> Event {
        loop {
            let request = self.request(random);
            let mut sheets = self.sheets.clone();
            let event = Event::make(request, &mut sheets);
            if let Ok(answer) = event.answer {
                if !self.allows(&request) {
                    continue;
                }
                self.hand_on(random, &request, &answer);
            }
            self.sheets = sheets;
            return event;
        }
    }

    /// The close of this number by the client that still holds its state, if there is one. Of a legal history.
    pub fn close_own(&mut self, random: &mut Random, number: u32) -> Option<Event> {
        let mut held = self.clients.iter().flatten();
        let own = held.find(|client| client.transaction.number == number)?;
        let request = own_close(random, own.transaction, &self.sheets.store().records);
        let event = Event::make(request, &mut self.sheets);
        if let Ok(answer) = &event.answer {
            self.hand_on(random, &request, answer);
        }
        Some(event)
    }

    /// Whether the call may stand in the history if it is accepted.
    fn allows(&self, request: &Request) -> bool {
        match (self.rule, request.taken()) {
            (Rule::Legal, Some(taken)) => self.holder(taken).is_some(),
            _ => true,
        }
    }

    /// The client that holds this state.
    fn holder(&self, transaction: &Transaction) -> Option<usize> {
        let holds = |c: &Option<Client>| c.is_some_and(|c| c.transaction == *transaction);
        self.clients.iter().position(holds)
    }

    /// Gives the state that an accepted call returned to the client that handed in the one before, or to an idle one.
    fn hand_on(&mut self, random: &mut Random, request: &Request, answer: &Answer) {
        let Some(returned) = answer.returned() else {
            return;
        };
        self.old.push(*returned);
        if let Some(place) = request.taken().and_then(|taken| self.holder(taken)) {
            let client = self.clients[place].as_mut().expect("a holder");
            client.transaction = *returned;
            if let (Request::Read { key, .. }, Answer::Read(_, Reading::First(columns))) =
                (request, answer)
            {
                client.first = Some((*key, *columns));
            }
        } else if let Some(idle) = self.clients.iter_mut().find(|c| c.is_none()) {
            *idle = Some(Client::new(random, *returned));
        }
    }

    fn request(&mut self, random: &mut Random) -> Request {
        let store = self.sheets.store();
        if random.once_in(10) {
            return add_or_remove(random, &self.held(), &store);
        }
        let place = random.below(self.clients.len());
        // In a free history most calls come from nowhere: each tries a state that clients seldom reach.
        let strays = match self.rule {
            Rule::Legal => 6,
            Rule::Free => 2,
        };
        match self.clients[place] {
            Some(client) if !random.once_in(strays) => {
                if stops(random, client.transaction.phase) {
                    self.clients[place] = None;
                    return begin(random);
                }
                client.request(random, &store)
            }
            None if random.once_in(2) => begin(random),
            _ => stray(random, &self.old, &store),
        }
    }
}

/// Whether the client stops for ever, so that nobody hands its state on. Between the writes it matters most.
fn stops(random: &mut Random, phase: u32) -> bool {
    random.once_in(match phase {
        OPEN => 60,
        DONE => 2,
        _ => 12,
    })
}
