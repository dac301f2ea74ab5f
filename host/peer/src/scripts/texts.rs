//! Client ids, and what the text commands list: the longest texts, and names whose order is easily mistaken.
#![forbid(unsafe_code)]

use super::*;

pub fn all() -> Vec<Script> {
    vec![client_ids(), longest_texts(), names_in_reverse(), names_alike()]
}

/// Ids at their limits and beyond, sent again, kept over RESET_ABILITIES and in sleep, and cleared by a close.
fn client_ids() -> Script {
    let id = |connection: usize, id: &[u8]| packet(connection, 22, &[id]);
    let mut events = vec![Event::Open(3), id(3, b"alone"), id(2, b"not open"), id(16, b"beyond"), Event::Close(3)];
    events.extend(open_all());
    for length in [0, 1, 2, 63, 64, 65, 66, 1_024] {
        events.push(id(length % 7, &vec![b'i'; length]));
    }
    for at in [0, 1, 31, 63] {
        // A zero byte first, inside and last; then the id without it.
        let mut bytes = vec![b'z'; 64];
        bytes[at] = 0;
        events.extend([id(8, &bytes), id(8, &bytes[..at]), id(8, &bytes[..at + 1])]);
    }
    events.extend((1..=255).map(|byte| id(9, &[byte])));
    // The last one counts, and a shorter one leaves nothing of a longer one.
    events.extend([id(10, &[b'l'; 64]), id(10, b"short"), id(10, b""), id(11, b"short")]);
    // A sleeper stays asleep, also where it has just given up what it can do.
    events.extend([packet(10, 1, &[b"f"]), packet(10, 4, &[]), id(10, b"asleep"), packet(10, 3, &[])]);
    events.extend([packet(0, 18, &[b"f", b"", b"w"]), packet(10, 9, &[])]);
    events.extend([Event::Close(10), Event::Open(10), Event::Close(11), Event::Open(11), id(11, b"again")]);
    events.extend((0..CONNECTIONS as u32).map(Event::Close));
    events.extend(open_all());
    Script::of_lap("client ids", 0, events)
}

/// All connections with ids of 64 bytes can do 16 functions with names of 32; the 32 jobs of one of them are all held.
fn longest_texts() -> Script {
    let mut events = open_all();
    let name = |number: usize| [&[b'n'; 31][..], &[b'p' - number as u8]].concat();
    for connection in 0..CONNECTIONS {
        events.push(packet(connection, 22, &[&[b'A' + connection as u8; 64]]));
        events.extend((0..FUNCTIONS).map(|number| packet(connection, 1, &[&name(number)])));
    }
    for place in 0..JOBS {
        events.push(packet(place % CONNECTIONS, 18, &[&name(3), b"", b"w"]));
        events.push(packet((place + 5) % CONNECTIONS, 9, &[]));
    }
    events.push(Event::Close(5));
    Script::of_lap("longest texts", 0, events)
}

/// 16 functions in the reverse order of their places: some only named by jobs, some of these held by a connection that
/// has given them up.
fn names_in_reverse() -> Script {
    let mut events = open_all();
    let name = |number: usize| format!("function-{:02}", FUNCTIONS - number).into_bytes();
    for number in 0..FUNCTIONS {
        let worker = number % 5;
        events.push(match number % 4 {
            0 => packet(worker, 18, &[&name(number), b"", b"w"]),
            _ => packet(worker, 1, &[&name(number)]),
        });
        if number % 4 == 2 {
            events.push(packet(9, 18, &[&name(number), b"", b"w"]));
            events.push(packet(worker, 30, &[]));
            events.push(packet(worker, 2, &[&name(number)]));
        }
    }
    events.push(Event::Close(1));
    Script::of_lap("names in reverse", 0, events)
}

/// Names that start alike, names that print alike and names that print in another order than their own: places do not
/// follow either order.
fn names_alike() -> Script {
    let mut events = open_all();
    let names: [&[u8]; FUNCTIONS] = [
        b"aa", b"a", b"a!", b"\xff", b"\x7f", b"~", b"\x20", b"!", b"a\x20", b"a\xff", b"a\x7f", b"a~", b"?", b"a?",
        b"\n", b"\x01",
    ];
    for (place, name) in names.into_iter().enumerate() {
        events.push(packet(place % 3, 1, &[name]));
        events.push(packet(3, 1, &[name]));
        events.push(packet(place, 22, &[name]));
        events.extend((0..place % 4).map(|_| packet(0, 18, &[name, b"", b"w"])));
    }
    events.extend([packet(3, 9, &[]), packet(0, 9, &[]), packet(3, 2, &[b"a!"]), packet(2, 2, &[b"a!"])]);
    Script::of_lap("names alike", 0, events)
}
