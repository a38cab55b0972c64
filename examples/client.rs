//! The walk of client.c in Rust, with the archive and the standard library only. From the root of the repository:
//! rustc --edition 2021 -L target/staticlib -l static=c_api -o target/client_rs examples/client.rs

#[derive(Clone, Copy, Default)]
#[repr(C)]
struct Entry {
    key: [u32; 5],
    version: u32,
    txid: u32,
    seen: [u32; 2],
    absent: u32,
    wrote: u32,
    put: [u32; 2],
}

#[derive(Clone, Copy, Default)]
#[repr(C)]
struct Transaction {
    number: u32,
    serializable: u32,
    phase: u32,
    place: u32,
    verdict: u32,
    count: u32,
    entries: [Entry; 8],
}

#[rustfmt::skip]
extern "C" {
    fn rapyheo_version() -> u32;
    fn rapyheo_check(records: *const u8, records_length: usize, coordinator: *const u8, coordinator_length: usize) -> u32;
    fn rapyheo_call_at(list: *mut Transaction, list_length: usize, place: usize, records: *mut u8, records_length: usize, coordinator: *mut u8, coordinator_length: usize,
        call: u32, storage: u32, name_space: u32, table: u32, partition: u32, clustering: u32, column1: u32, column2: u32, clock: u32, limit: u32) -> u32;
    fn rapyheo_visit(records: *mut u8, records_length: usize, coordinator: *mut u8, coordinator_length: usize,
        storage: u32, name_space: u32, table: u32, partition: u32, clustering: u32, clock: u32) -> u32;
    fn rapyheo_lookup(records: *const u8, records_length: usize, storage: u32, name_space: u32, table: u32, partition: u32, clustering: u32) -> u32;
    fn rapyheo_written(records_before: *const u8, records_before_length: usize, records: *const u8, records_length: usize,
        coordinator_before: *const u8, coordinator_before_length: usize, coordinator: *const u8, coordinator_length: usize, lines: *mut u32, lines_length: usize) -> u32;
    fn rapyheo_read_records(records: *const u8, records_length: usize, numbers: *mut u32, numbers_length: usize) -> u32;
    fn rapyheo_write_records(numbers: *const u32, numbers_length: usize, records: *mut u8, records_length: usize) -> u32;
    fn rapyheo_read_coordinator(coordinator: *const u8, coordinator_length: usize, numbers: *mut u32, numbers_length: usize) -> u32;
    fn rapyheo_write_coordinator(numbers: *const u32, numbers_length: usize, coordinator: *mut u8, coordinator_length: usize) -> u32;
}

const PHASES: [&str; 8] = ["open", "prepare", "check", "decide", "withdraw", "finish", "undo", "done"];
const VERDICTS: [&str; 3] = ["none", "committed", "aborted"];
const VISITS: [&str; 4] = ["stays", "forward", "back", "again"];

const RECORDS: &[u8; 324] = b"\
\x201  1  1     1     1 COMMITTED     1   0      500      250         -     0   0        0        0          0
 2  1  1     1     1 COMMITTED     4   0      900        0         -     0   0        0        0          0
 2  1  1     1     2    ABSENT     0   0        0        0         -     0   0        0        0          0
";
const COORDINATOR: &[u8; 120] = b"\
\x20  0 SSSSSSSSS
   1         -
   2         -
   3         -
   4         -
   5         -
   6         -
   7         -
";

/// What is asked by place, with the numbers that it needs.
#[derive(Clone, Copy)]
enum Ask {
    Begin(bool),
    Read([u32; 5], u32),
    Put([u32; 5], [u32; 2]),
    Advance(u32),
    Abort,
    /// At a clock reading and with a limit.
    Close(u32, u32),
}

/// The sheets, and the client's own transactions, which only calls change.
#[derive(Clone, Copy)]
struct Desk {
    list: [Transaction; 2],
    records: [u8; 324],
    coordinator: [u8; 120],
}

fn key(name: &str) -> [u32; 5] {
    match name {
        "stock" => [1, 1, 1, 1, 1],
        "account" => [2, 1, 1, 1, 1],
        "note" => [2, 1, 1, 1, 2],
        _ => [2, 1, 1, 1, 3],
    }
}

/// Those of the table that the walk meets.
fn refusal_text(refusal: u32) -> &'static str {
    match refusal {
        4 => "the call is not for this phase, or the own coordinator line forbids the step",
        6 => "no line has the key",
        7 => "a put column is over 99999999",
        8 => "every number of the coordinator sheet is issued",
        10 => "the key is not held: read it before the put",
        12 => "the line is undecided, and not every line of its owner has expired",
        _ => "another refusal",
    }
}

fn text(bytes: &[u8]) -> &str {
    std::str::from_utf8(bytes).expect("a sheet is ASCII")
}

// SAFETY, for all calls here: each slice is lent as its first element and its length, lives as long as the call, and overlaps no other.
impl Desk {
    fn call_at(&mut self, place: usize, ask: Ask) -> u32 {
        let (call, k, c, clock, limit) = match ask {
            Ask::Begin(checked) => (u32::from(checked), [0; 5], [0; 2], 0, 0),
            Ask::Read(key, clock) => (2, key, [0; 2], clock, 0),
            Ask::Put(key, columns) => (3, key, columns, 0, 0),
            Ask::Advance(clock) => (4, [0; 5], [0; 2], clock, 0),
            Ask::Abort => (5, [0; 5], [0; 2], 0, 0),
            Ask::Close(clock, limit) => (6, [0; 5], [0; 2], clock, limit),
        };
        let Desk { list, records: r, coordinator: d } = self;
        unsafe {
            rapyheo_call_at(
                list.as_mut_ptr(), list.len(), place, r.as_mut_ptr(), r.len(), d.as_mut_ptr(), d.len(), call, k[0], k[1], k[2], k[3], k[4], c[0], c[1], clock, limit,
            )
        }
    }

    /// What differs from the sheets as they were before.
    fn written(&self, before: &Desk) -> String {
        let (r, d, old, mut lines) = (&self.records, &self.coordinator, before, [0u32; 2]);
        let wrote = unsafe {
            rapyheo_written(
                old.records.as_ptr(), old.records.len(), r.as_ptr(), r.len(), old.coordinator.as_ptr(), old.coordinator.len(), d.as_ptr(), d.len(),
                lines.as_mut_ptr(), lines.len(),
            )
        };
        let (first, end) = (lines[0] as usize, (lines[0] + lines[1]) as usize);
        match wrote {
            0 => "; wrote nothing\n".to_string(),
            1 => format!("; wrote the coordinator sheet\n{}", text(d)),
            _ => format!("; wrote lines {} to {}\n{}", first, end - 1, text(&r[108 * first..108 * end])),
        }
    }

    fn say(&self, words: &str, answer: u32, before: &Desk, answered: String) {
        let refusal = answer.wrapping_sub(1000);
        let reply = if answer > 1000 { format!("refused {}, {}", refusal, refusal_text(refusal)) } else { answered };
        print!("{words}: {reply}{}", self.written(before));
    }

    fn step(&self, place: usize) -> String {
        let order = &self.list[place];
        format!("{}, place {}, verdict {}", PHASES[order.phase as usize], order.place, VERDICTS[order.verdict as usize])
    }

    fn begin(&mut self, place: usize, checked: bool) {
        let before = *self;
        let answer = self.call_at(place, Ask::Begin(checked));
        self.say(if checked { "begin checked" } else { "begin" }, answer, &before, format!("number {}", self.list[place].number));
    }

    /// The columns of a key that the order holds, as last put, else as read.
    fn held(&self, place: usize, key: [u32; 5]) -> [u32; 2] {
        let order = &self.list[place];
        let entry = order.entries[..order.count as usize].iter().find(|entry| entry.key == key);
        entry.map_or([0; 2], |entry| if entry.wrote == 1 { entry.put } else { entry.seen })
    }

    fn read(&mut self, place: usize, name: &str, clock: u32) {
        let before = *self;
        let answer = self.call_at(place, Ask::Read(key(name), clock));
        let [column1, column2] = self.held(place, key(name));
        let answered = match answer {
            0 => "absent".to_string(),
            1 => format!("columns {column1} {column2}"),
            _ => "again".to_string(),
        };
        self.say(&format!("read {name} at {clock}"), answer, &before, answered);
    }

    fn put(&mut self, place: usize, name: &str, columns: [u32; 2]) {
        let before = *self;
        let answer = self.call_at(place, Ask::Put(key(name), columns));
        self.say(&format!("put {name} {} {}", columns[0], columns[1]), answer, &before, "held".to_string());
    }

    fn advance(&mut self, place: usize, clock: u32) {
        let before = *self;
        let answer = self.call_at(place, Ask::Advance(clock));
        self.say(&format!("advance at {clock}"), answer, &before, self.step(place));
    }

    fn close(&mut self, place: usize, clock: u32, limit: u32) {
        let before = *self;
        let answer = self.call_at(place, Ask::Close(clock, limit));
        self.say(&format!("close at {clock}, limit {limit}"), answer, &before, format!("{answer} written, {}", self.step(place)));
    }

    fn abort(&mut self, place: usize) {
        let before = *self;
        let answer = self.call_at(place, Ask::Abort);
        self.say("abort", answer, &before, self.step(place));
    }

    fn visit(&mut self, name: &str, clock: u32) {
        let (before, k) = (*self, key(name));
        let (r, d) = (&mut self.records, &mut self.coordinator);
        let answer = unsafe { rapyheo_visit(r.as_mut_ptr(), r.len(), d.as_mut_ptr(), d.len(), k[0], k[1], k[2], k[3], k[4], clock) };
        let reply = VISITS.get(answer as usize).unwrap_or(&"");
        self.say(&format!("visit {name} at {clock}"), answer, &before, reply.to_string());
    }

    fn die(&mut self) {
        self.list = Default::default();
        println!("the client dies, and its list with it");
    }

    fn show(&self) {
        let (r, d) = (&self.records, &self.coordinator);
        let check = unsafe { rapyheo_check(r.as_ptr(), r.len(), d.as_ptr(), d.len()) };
        println!("version {} with header 30000, check {check}", unsafe { rapyheo_version() });
        print!("{}{}", text(d), text(r));
    }

    fn two_phases(&mut self) {
        println!("\nan order over two stores");
        self.begin(0, false);
        for name in ["stock", "account", "note"] {
            self.read(0, name, 1000);
        }
        self.put(0, "stock", [499, 250]);
        self.put(0, "account", [950, 0]);
        self.put(0, "note", [1, 1]);
        for clock in 1001..1007 {
            self.advance(0, clock);
        }
    }

    fn one_phase(&mut self) {
        println!("\nan order over one store");
        self.begin(0, false);
        self.read(0, "account", 2000);
        self.put(0, "account", [1000, 0]);
        self.read(0, "account", 2000);
        self.advance(0, 2001);
    }

    fn write_by_write(&mut self) {
        println!("\nan order over two stores, closed write by write");
        self.begin(0, false);
        self.read(0, "stock", 2500);
        self.read(0, "account", 2500);
        self.put(0, "stock", [498, 250]);
        self.put(0, "account", [1050, 0]);
        for clock in 2501..2506 {
            self.close(0, clock, 1);
        }
    }

    fn given_up(&mut self) {
        println!("\nrefused calls, and an order that is given up");
        self.begin(1, false);
        self.put(1, "stock", [1, 1]);
        self.read(1, "nothing", 3000);
        self.read(1, "stock", 3000);
        self.put(1, "stock", [100000000, 0]);
        self.put(1, "stock", [497, 250]);
        self.abort(1);
        for clock in [3001, 3001, 3002] {
            self.advance(1, clock);
        }
    }

    fn dies_undecided(&mut self) {
        println!("\na client that dies between its two prepares");
        self.begin(0, false);
        self.read(0, "stock", 4000);
        self.read(0, "account", 4000);
        self.put(0, "stock", [497, 250]);
        self.put(0, "account", [1100, 0]);
        self.advance(0, 4001);
        self.advance(0, 4002);
        self.die();
        for clock in [19001, 19002, 19003] {
            self.visit("stock", clock);
        }
        self.visit("account", 19004);
    }

    fn dies_decided(&mut self) {
        println!("\na client that dies after its decision");
        self.begin(0, true);
        for name in ["stock", "note", "account"] {
            self.read(0, name, 20000);
        }
        self.put(0, "stock", [497, 250]);
        self.put(0, "account", [1100, 0]);
        for clock in 20001..20006 {
            self.advance(0, clock);
        }
        self.die();
        self.visit("account", 20010);
        self.begin(0, false);
        self.read(0, "stock", 20011);
        self.advance(0, 20012);
        self.begin(0, false);
    }

    fn as_numbers(&self) {
        let (mut other, k) = (Desk { list: self.list, records: [0; 324], coordinator: [0; 120] }, key("note"));
        let (r, d, mut rows, mut decisions) = (&self.records, &self.coordinator, [0u32; 48], [0u32; 17]);
        let line = unsafe { rapyheo_lookup(r.as_ptr(), r.len(), k[0], k[1], k[2], k[3], k[4]) } as usize;
        let (first, second) = unsafe {
            (
                rapyheo_read_records(r.as_ptr(), r.len(), rows.as_mut_ptr(), rows.len()),
                rapyheo_read_coordinator(d.as_ptr(), d.len(), decisions.as_mut_ptr(), decisions.len()),
            )
        };
        println!("\nsheets as numbers\nnote is line {line}, both sheets to numbers: {first} {second}");
        for numbers in [&rows[16 * line..16 * line + 16], &decisions] {
            println!("{}", numbers.iter().map(|n| format!(" {n}")).collect::<String>());
        }
        let (r, d) = (&mut other.records, &mut other.coordinator);
        let (first, second) = unsafe {
            (
                rapyheo_write_records(rows.as_ptr(), rows.len(), r.as_mut_ptr(), r.len()),
                rapyheo_write_coordinator(decisions.as_ptr(), decisions.len(), d.as_mut_ptr(), d.len()),
            )
        };
        print!("numbers to other sheets: {first} {second}{}", self.written(&other));
    }
}

fn main() {
    let mut desk = Desk { list: Default::default(), records: *RECORDS, coordinator: *COORDINATOR };
    println!("at first");
    desk.show();
    desk.two_phases();
    desk.one_phase();
    desk.write_by_write();
    desk.given_up();
    desk.dies_undecided();
    desk.dies_decided();
    desk.as_numbers();
    println!("\nat the end");
    desk.show();
}
