//! Histories of clients that keep lists of transactions: calls by place, crashes that lose a list, and closing visits. On two
//! sheets a client keeps beside its list what the first call of a read was answered.

use super::adding::add_or_remove;
use super::arguments::close_keys;
use super::closing::{close, own_close};
use super::expiry::{without_reading, Stop};
use super::history::Rule;
use super::lists::{asked, beyond, no_call, unused};
use super::random::Random;
use super::requests::{begin, Client};
use super::scripts::{history, Extent};
use super::sheets::{with_keys, Mix, Size};
use super::spares::end_in_spares;
use super::two_sheets::letters;
use super::Sheets;
use crate::compare::clients::{ClientHistory, Expected, Turn, Written};
use crate::exported::{by_plain, refusal_of, written_by_plain, Call, Lent};
use crate::plain::by_place::{Asked, COLUMN_1, FIRST};
use crate::plain::key::Key;
use crate::plain::request::{Answer, Request};
use crate::plain::store::Store;
use crate::plain::transaction::{Transaction, DONE};
use crate::replay::laid_out::LaidOut;
use crate::replay::Layout;
use crate::seen::Seen;
use crate::sequential_model::SequentialModel;
use std::collections::BTreeMap;
use std::sync::Arc;

/// How many keys a transaction reads before it advances, by its number.
const APPETITES: [u32; 9] = [0, 1, 1, 2, 2, 3, 3, 4, 9];

/// The key of a read that takes a second call, and the columns that its first was answered.
type First = (Key, [u32; 2]);

struct Clients {
    lists: Vec<Vec<Transaction>>,
    /// What a first call was answered, by client and place.
    firsts: BTreeMap<(usize, usize), First>,
    sheets: Arc<LaidOut>,
    /// What the sheets say.
    store: Store,
    model: SequentialModel,
    turns: Vec<Turn>,
}

/// A history, closed by visits, or how it departs from the sequential model.
pub fn clients(
    random: &mut Random,
    seen: &mut Seen,
    layout: Layout,
    extent: Extent,
) -> Result<ClientHistory, String> {
    let (mut sheets, calls) = first(random, extent);
    letters(random, layout, &mut sheets);
    let mut clients = Clients::new(random, layout, &sheets);
    let lengths = clients.lists.iter().map(Vec::len).collect();
    clients.turns(random, seen, calls);
    let inside = clients.close(random, seen);
    seen.clients.note(layout, &clients.model);
    let difference = clients.model.difference(&clients.store.records);
    if let (true, Some(key)) = (inside, difference) {
        let sheets = &clients.sheets;
        return Err(format!(
            "not the sequential model's line of {key:?}\n{sheets}"
        ));
    }
    Ok(ClientHistory {
        sheets: LaidOut::of(layout, sheets),
        lengths,
        turns: clients.turns,
    })
}

/// Sheets without PREPARED lines, and how many calls there are to be. Numbers are seldom spent before.
fn first(random: &mut Random, extent: Extent) -> (Sheets, usize) {
    let Extent::Small = extent else {
        let (history, calls) = history(random, Rule::Legal, extent);
        return (history.sheets, calls);
    };
    let calls = random.pick(&[30, 100, 200, 400]);
    let issued = random.below(4);
    let size = Size {
        records: random.pick(&[3, 3, 4, 5, 6, 8, 10, 12, 12]),
        decisions: issued + calls / random.pick(&[4, 4, 4, 4, 4, 4, 20]),
        issued,
    };
    let keys = close_keys(random, size.records);
    let mut sheets = with_keys(random, &keys, size, Mix::Settled);
    if random.once_in(3) {
        sheets.part_units();
    }
    end_in_spares(random, 2, &mut sheets);
    (sheets, calls)
}

impl Clients {
    fn new(random: &mut Random, layout: Layout, sheets: &Sheets) -> Clients {
        let list = |_| vec![unused(); random.pick(&[1, 2, 2, 3, 5, 16])];
        let lists: Vec<Vec<Transaction>> = (0..4).map(list).collect();
        Clients {
            lists,
            firsts: BTreeMap::new(),
            sheets: Arc::new(LaidOut::of(layout, sheets.clone())),
            store: sheets.store(),
            model: SequentialModel::new(&sheets.records).expect("the first sheet is accepted"),
            turns: Vec::new(),
        }
    }

    /// So many turns, or fewer where it is to stop early.
    fn turns(&mut self, random: &mut Random, seen: &mut Seen, calls: usize) {
        let stop = Stop::new(random, calls);
        for call in 0..calls {
            if stop.is_before(call, &self.store) {
                break;
            }
            self.turn(random, seen);
        }
    }

    /// The next call of some client, or a crash.
    fn turn(&mut self, random: &mut Random, seen: &mut Seen) {
        let client = random.below(self.lists.len());
        if random.once_in(40) {
            seen.clients.crashes += 1;
            self.lists[client].fill(unused());
            self.firsts.retain(|(other, _), _| *other != client);
            return self.turns.push(Turn::Crash { client });
        }
        if random.once_in(10) {
            let call = match add_or_remove(random, &self.held(), &self.store) {
                Request::Add { key } => Call::Add { key },
                Request::Remove { key } => Call::Remove { key },
                request => panic!("{request:?}"),
            };
            return self.make(seen, client, call);
        }
        let list = &self.lists[client];
        let place = some_place(random, list.len());
        let named = list.get(place).copied().unwrap_or(unused());
        let first = self.firsts.get(&(client, place)).copied();
        let request = request(random, named, first, &self.store);
        let mut asked = asked(random, &request, &self.store.records);
        if random.once_in(60) {
            asked = no_call(random, self.sheets.layout(), asked);
        }
        self.make(seen, client, Call::At { place, asked });
    }

    /// The keys that the lists' transactions hold.
    fn held(&self) -> Vec<Key> {
        let at_work = self.lists.iter().flatten().filter(|t| t.phase != DONE);
        let held = at_work.flat_map(|t| t.held());
        held.map(|entry| entry.key).collect()
    }

    /// The close of this number in the list that still has it, if there is one.
    fn close_own(&mut self, random: &mut Random, seen: &mut Seen, number: u32) {
        let places = |list: &Vec<Transaction>| list.iter().position(|t| t.number == number);
        let mut held = self.lists.iter().map(places).enumerate();
        if let Some((client, place)) = held.find_map(|(client, place)| Some((client, place?))) {
            let records = &self.store.records;
            let request = own_close(random, self.lists[client][place], records);
            let asked = asked(random, &request, records);
            self.make(seen, client, Call::At { place, asked });
        }
    }

    /// Visits to every line, by no client: the lists stay. Numbers that no visit can decide are closed in their own lists
    /// first; answers whether that leaves none.
    fn close(&mut self, random: &mut Random, seen: &mut Seen) -> bool {
        let left = without_reading(&self.store);
        for number in &left {
            self.close_own(random, seen, *number);
        }
        let outside = without_reading(&self.store);
        seen.lists.note(&left, &outside);
        for event in close(random, &mut self.sheets.joined()) {
            if let Request::Visit { key, now } = event.request {
                self.make(seen, 0, Call::Visit { key, now });
            }
        }
        outside.is_empty()
    }

    /// Makes the call by `plain`, and keeps what is expected of it.
    fn make(&mut self, seen: &mut Seen, client: usize, call: Call) {
        let before = self.lists[client].clone();
        let mut lent = Lent {
            sheets: self.sheets.as_ref().clone(),
            list: before.clone(),
        };
        let answer = by_plain(&call, &mut lent);
        seen.note_call(&call, &self.sheets, &before, answer, &lent);
        let Lent { sheets, list } = lent;
        let written = Written::told(&self.sheets, &sheets, written_by_plain);
        if let Some(written) = written {
            seen.note_written_beside(written.answer);
        }
        if let (Call::At { place, asked }, 0) = (call, refusal_of(&call, answer)) {
            self.note(&asked, &before[place], &list[place]);
            self.keep_first((client, place), &asked, answer);
        }
        self.keep(sheets);
        self.lists[client].clone_from(&list);
        self.turns.push(Turn::Call(Expected {
            client,
            call,
            answer,
            list,
            sheets: self.sheets.clone(),
            written,
        }));
    }

    /// Goes on with these sheets, or with the same ones where nothing was written.
    fn keep(&mut self, sheets: LaidOut) {
        if *self.sheets != sheets {
            self.store = sheets.store().expect("a call leaves accepted sheets");
            self.sheets = Arc::new(sheets);
        }
    }

    /// Tells the model of an accepted call by place. Of the others it needn't know.
    fn note(&mut self, asked: &Asked, taken: &Transaction, returned: &Transaction) {
        let request = asked.request(self.sheets.layout(), *taken);
        let request = request.expect("it was accepted");
        self.model.note(&request, &Ok(Answer::Returned(*returned)));
    }

    /// Keeps what a first call was answered until another call there is accepted.
    fn keep_first(&mut self, place: (usize, usize), asked: &Asked, answer: u64) {
        match answer.checked_sub(FIRST) {
            Some(columns) => {
                let columns = [columns / COLUMN_1, columns % COLUMN_1];
                let columns = columns.map(|column| column as u32);
                self.firsts.insert(place, (asked.key, columns));
            }
            None => {
                self.firsts.remove(&place);
            }
        }
    }
}

/// Mostly one of the first, so that few are at work at a time and orders come to an end; seldom one beyond the list.
fn some_place(random: &mut Random, length: usize) -> usize {
    match random.below(24) {
        0 => beyond(random, length),
        1..=3 => random.below(length),
        _ => random.below(length.min(2)),
    }
}

/// The next request to the one named. One that is done or unused gives way to a new one, and at times another does.
fn request(
    random: &mut Random,
    named: Transaction,
    first: Option<First>,
    store: &Store,
) -> Request {
    let is_over = named.number == 0 || named.phase == DONE;
    if is_over && !random.once_in(6) || random.once_in(80) {
        return begin(random);
    }
    let client = Client {
        transaction: named,
        appetite: APPETITES[named.number as usize % APPETITES.len()],
        thorough: named.number.is_multiple_of(2),
        first,
    };
    client.request(random, store)
}
