//! Fixed histories for what random ones meet too rarely: the example, the largest output, full queues, all asleep,
//! grabs of a whole queue in order, exceptions to every mix of listeners, client ids, the longest texts, names whose
//! order is easily mistaken, and hubs of other names.
#![forbid(unsafe_code)]

mod hubs;
mod texts;

use crate::event::Event;
use crate::handle::{self, Handle};
use crate::histories::{request, SUBMISSIONS};
use crate::hub::LAP;
use crate::server::{Server, CONNECTIONS, FUNCTIONS, JOBS};
use crate::text::Text;

pub struct Script {
    pub name: &'static str,
    /// The hub's name and the last serial of the table that it starts from, which is a fresh one otherwise.
    pub hub: &'static [u8],
    pub last_serial: u32,
    pub events: Vec<Event>,
}

impl Script {
    /// A script on the hub of document 01's cases, from this last serial on.
    fn of_lap(name: &'static str, last_serial: u32, events: Vec<Event>) -> Self {
        Script { name, hub: LAP, last_serial, events }
    }

    /// What a description of a difference calls it.
    pub fn title(&self) -> String {
        format!("script '{}' on the hub {}", self.name, self.hub.escape_ascii())
    }

    /// The state that it starts from.
    pub fn start(&self) -> Server {
        Server { hub: Text::new(self.hub), last_serial: self.last_serial, ..Server::new() }
    }
}

pub fn all() -> Vec<Script> {
    let mut scripts = of_lap();
    scripts.extend(texts::all());
    scripts.extend(hubs::all());
    scripts
}

fn of_lap() -> Vec<Script> {
    vec![
        example(),
        largest_output(),
        largest_assignment(),
        refusals_of_new_jobs(),
        all_asleep(),
        holder_of_all_leaves(),
        client_of_all_leaves(),
        sizes(),
        priorities(),
        exceptions(),
    ]
}

fn packet(connection: usize, kind: u32, arguments: &[&[u8]]) -> Event {
    Event::Packet(connection as u32, request(kind, arguments))
}

/// The handle of this serial on the hub of document 01's cases.
fn handle(serial: u32) -> Handle {
    handle::print(LAP, serial)
}

fn open_all() -> Vec<Event> {
    (0..CONNECTIONS as u32).map(Event::Open).collect()
}

fn function(number: usize) -> Vec<u8> {
    format!("function-{}", number % FUNCTIONS).into_bytes()
}

/// Document 000's example as document 01 has it.
fn example() -> Script {
    let events = vec![
        Event::Open(1),
        Event::Open(0),
        packet(1, 1, &[b"reverse"]),
        packet(1, 9, &[]),
        packet(1, 4, &[]),
        packet(0, 7, &[b"reverse", b"", b"test"]),
        packet(1, 9, &[]),
        packet(1, 13, &[b"H:lap:1", b"tset"]),
    ];
    Script::of_lap("example", 0, events)
}

/// The largest worker packet to 16 listeners: 16,592 bytes, of each type that carries data.
fn largest_output() -> Script {
    let mut events = open_all();
    events.push(packet(3, 1, &[b"f"]));
    for (serial, kind) in [(1, 28), (1, 29), (1, 13), (2, 25)] {
        for connection in 0..CONNECTIONS {
            events.push(packet(connection, 26, &[b"exceptions"]));
            events.push(packet(connection, 7, &[b"f", b"u", b"w"]));
        }
        events.push(packet(3, 9, &[]));
        events.push(packet(3, kind, &[handle(serial).bytes(), &[0xee; 1_024 - 8]]));
    }
    Script::of_lap("largest output", 0, events)
}

/// An assignment of 1,041 bytes: the longest handle, and a submission of 1,024 bytes.
fn largest_assignment() -> Script {
    let mut events = open_all();
    for unique in [0, 1, 64] {
        events.push(packet(0, 1, &[&[b'f'; 32]]));
        events.push(packet(0, 7, &[&[b'f'; 32], &vec![b'u'; unique], &vec![0; 1_022 - 32 - unique]]));
        events.push(packet(0, if unique == 1 { 9 } else { 30 }, &[]));
    }
    Script::of_lap("largest assignment", u32::MAX - 3, events)
}

/// 16 functions, 32 jobs and the last serial at once: 11 before 12 before 13, and joins through all of them.
fn refusals_of_new_jobs() -> Script {
    let mut events = open_all();
    for place in 0..JOBS {
        events.push(packet(0, 7, &[&function(place), format!("{place}").as_bytes(), b"w"]));
    }
    let tries = |events: &mut Vec<Event>| {
        events.push(packet(2, 7, &[b"unknown", b"u", b"w"]));
        events.push(packet(2, 1, &[b"unknown"]));
        events.push(packet(2, 7, &[&function(0), b"", b"w"]));
        events.push(packet(2, 18, &[&function(3), b"u", b"w"]));
        events.push(packet(2, 7, &[&function(5), b"5", b"w"]));
        events.push(packet(2, 34, &[&function(6), b"6", b"w"]));
    };
    tries(&mut events);
    // One job ends: a place is free, and its function is still named by another job.
    events.push(packet(1, 1, &[&function(0)]));
    events.push(packet(1, 9, &[]));
    events.push(packet(1, 14, &[handle(u32::MAX - 31).bytes()]));
    tries(&mut events);
    // The second job of the function ends too: after CANT_DO a function place is free.
    events.push(packet(1, 9, &[]));
    events.push(packet(1, 14, &[handle(u32::MAX - 15).bytes()]));
    events.push(packet(1, 2, &[&function(0)]));
    events.push(packet(2, 7, &[b"unknown", b"u", b"w"]));
    events.push(packet(2, 1, &[b"unknown"]));
    tries(&mut events);
    Script::of_lap("refusals of new jobs", u32::MAX - 32, events)
}

/// 16 sleepers woken by a submission, then 15 of them by a close.
fn all_asleep() -> Script {
    let mut events = open_all();
    let sleep = |events: &mut Vec<Event>| {
        for connection in 0..CONNECTIONS {
            events.push(packet(connection, 1, &[b"f"]));
            events.push(packet(connection, 4, &[]));
        }
    };
    sleep(&mut events);
    events.push(packet(7, 18, &[b"f", b"u", b"w"]));
    events.push(packet(9, 30, &[]));
    sleep(&mut events);
    events.push(packet(9, 12, &[b"H:lap:1", b"0000000001", b"9999999999"]));
    events.push(packet(4, 15, &[b"H:lap:1"]));
    events.push(Event::Close(9));
    events.push(packet(4, 15, &[b"H:lap:1"]));
    Script::of_lap("all asleep", 0, events)
}

/// One connection holds 32 jobs and leaves: those that are wanted return, the others are dropped.
fn holder_of_all_leaves() -> Script {
    let mut events = open_all();
    for place in 0..JOBS {
        events.push(packet(0, 1, &[&function(place)]));
        events.push(packet(15, 1, &[&function(place)]));
        let kind = [7, 18, 33, 32][place / 3 % 4];
        events.push(packet(place % 3, kind, &[&function(place), b"", &vec![place as u8; 31 * place]]));
        events.push(packet(0, 9, &[]));
        events.push(packet(0, 12, &[handle(place as u32 + 1).bytes(), b"12", b"345"]));
    }
    events.push(packet(15, 4, &[]));
    events.push(Event::Close(1));
    events.push(Event::Close(0));
    events.extend((0..JOBS).map(|_| packet(15, 30, &[])));
    Script::of_lap("holder of all jobs leaves", 0, events)
}

/// One connection waits for 32 jobs over 16 functions and leaves: everything is forgotten.
fn client_of_all_leaves() -> Script {
    let mut events = open_all();
    for place in 0..JOBS {
        events.push(packet(6, 7, &[&function(place), b"", &[0xff; 900]]));
    }
    events.push(Event::Close(6));
    events.push(Event::Open(6));
    events.push(packet(6, 7, &[b"again", b"", b""]));
    Script::of_lap("client of all jobs leaves", 0, events)
}

/// Arguments at their limits and one byte beyond them.
fn sizes() -> Script {
    let mut events = open_all();
    for length in [0, 1, 2, 31, 32, 33, 62, 63, 64, 65] {
        let bytes = vec![b'1'; length];
        for kind in [1, 2, 14, 15, 26] {
            events.push(packet(0, kind, &[&bytes]));
        }
        for kind in [13, 25, 28, 29] {
            events.push(packet(0, kind, &[&bytes, b""]));
            events.push(packet(0, kind, &[&bytes]));
        }
        events.push(packet(0, 7, &[&bytes, b"", b""]));
        events.push(packet(0, 18, &[b"f", &bytes, b""]));
        events.push(packet(0, 12, &[&bytes, b"1", b"1"]));
    }
    for length in [0, 1, 9, 10, 11] {
        events.push(packet(0, 12, &[b"H:lap:1", &vec![b'9'; length], b"1"]));
        events.push(packet(0, 12, &[b"H:lap:1", b"1", &vec![b'9'; length]]));
    }
    for length in [0, 1, 1_023, 1_024, 1_025, 1_036] {
        events.push(packet(0, 16, &[&vec![0; length]]));
    }
    Script::of_lap("sizes", 0, events)
}

/// Connection 1 can do `f`, connection 2 can do `g`, and connection 3 nothing. A grab gives the highest priority, then
/// the lowest serial, wherever the jobs stand and whoever could do a better one.
fn priorities() -> Script {
    let mut events = open_all();
    let submit = |kind: u32, function: &[u8]| packet(0, kind, &[function, b"", b"w"]);
    let grab = |worker: usize| packet(worker, 9, &[]);
    events.extend([packet(1, 1, &[b"f"]), packet(2, 1, &[b"g"]), grab(1)]);
    // A high job after a normal one; then both are held, and nothing is queued.
    events.extend([submit(7, b"f"), submit(21, b"f"), grab(3), grab(1), grab(1), grab(1), ended(1, 1), ended(1, 2)]);
    // A high job at place 1, then one at place 0, which another job has left.
    events.extend([submit(7, b"g"), submit(21, b"f"), grab(2), ended(2, 3), submit(32, b"f"), grab(1), grab(1)]);
    // The best job is for connection 2 only.
    events.extend([submit(21, b"g"), submit(33, b"f"), grab(1), grab(2)]);
    events.extend([ended(1, 4), ended(1, 5), ended(2, 6), ended(1, 7)]);
    // 32 alike: all queued, then 31 queued and one held, and so on.
    events.extend((0..JOBS).map(|_| submit(18, b"f")));
    events.extend((0..JOBS).map(|_| grab(1)));
    // They end in another order, so that the serials of the next 32, of all priorities, do not follow the places.
    for index in 0..JOBS {
        events.push(ended(1, 8 + (index * 11 % JOBS) as u32));
        events.push(submit(SUBMISSIONS[index % SUBMISSIONS.len()], b"f"));
    }
    events.push(grab(3));
    events.extend((0..=JOBS).map(|index| packet(1, [9, 30][index % 2], &[])));
    Script::of_lap("priorities", 0, events)
}

/// The worker ends the job with this serial.
fn ended(worker: usize, serial: u32) -> Event {
    packet(worker, 13, &[handle(serial).bytes(), b"r"])
}

/// Exceptions to listeners with the option and without it, mixed and apart, the holder among them, and to nobody; empty
/// ones and largest ones. The option counts at the moment of the exception, and a close ends it.
fn exceptions() -> Script {
    const HOLDER: usize = 5;
    let option = |connection: usize| packet(connection, 26, &[b"exceptions"]);
    let mut events = open_all();
    events.push(packet(HOLDER, 1, &[b"f"]));
    events.extend([0, 2, 4, 9, 15].map(option));
    let everyone: Vec<usize> = (0..CONNECTIONS).collect();
    let again = |connection: u32| vec![Event::Close(connection), Event::Open(connection)];
    // Who submits the job; what comes while it is held; the exception.
    let rounds: [(Vec<Event>, Vec<Event>, &[u8]); 14] = [
        (all_submit(7, &[0, 1, 2, 3, 4]), vec![], b"text"),
        (all_submit(7, &[3, 2, 1, 4]), vec![], b"te\0xt\0"),
        (all_submit(21, &[1, 3, 14]), vec![], b"text"),
        (all_submit(33, &[0, 2, 15]), vec![], b"text"),
        (all_submit(18, &[12]), vec![], b"text"),
        ([all_submit(32, &[12]), all_submit(7, &[0, 1])].concat(), vec![], b"text"),
        (all_submit(7, &[HOLDER]), vec![], b"text"),
        (all_submit(7, &[6, HOLDER, 4]), all_submit(34, &[7]), b"text"),
        (all_submit(7, &[0, 1]), vec![], b""),
        (all_submit(7, &everyone), vec![], &[0xee; 1_024 - 9]),
        // The option set by a listener; then by the holder, and by one that does not listen.
        (all_submit(7, &[8, 9, 10]), vec![option(8)], b"text"),
        (all_submit(7, &[HOLDER, 10]), vec![option(HOLDER), option(11)], b"text"),
        // A close of one that listens again, and of one that does not.
        (all_submit(7, &[8, 9]), [again(8), all_submit(33, &[8])].concat(), b"text"),
        (all_submit(7, &[9, 10, 15]), again(15), b"text"),
    ];
    for (serial, (submissions, between, data)) in (10..).zip(rounds) {
        let handle = handle(serial);
        events.extend(submissions);
        events.push(packet(HOLDER, 9, &[]));
        events.extend(between);
        // By one that does not hold it, by its holder, and three packets that come too late.
        events.extend([13, HOLDER, HOLDER].map(|sender| packet(sender, 25, &[handle.bytes(), data])));
        events.extend([packet(HOLDER, 13, &[handle.bytes(), b"late"]), packet(HOLDER, 14, &[handle.bytes()])]);
        events.push(packet(1, 15, &[handle.bytes()]));
    }
    Script::of_lap("exceptions", 9, events)
}

/// These connections submit one job: the first makes it, the others join it.
fn all_submit(kind: u32, connections: &[usize]) -> Vec<Event> {
    connections.iter().map(|&connection| packet(connection, kind, &[b"f", b"u", b"w"])).collect()
}
