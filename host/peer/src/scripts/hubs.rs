//! Hubs of other names: their handles in every packet that has one, handles of other hubs, and the longest handles.
#![forbid(unsafe_code)]

use super::*;

/// Names that are the start of each other or differ in a digit, single letters and digits, and full ones.
const NAMES: [&[u8]; 9] = [LAP, b"lap1", b"lap11", b"la", b"z", b"0", b"1", b"abcdefghijklmno", b"999999999999999"];

/// The worker packets.
const WORKER: [u32; 6] = [12, 28, 29, 25, 14, 13];

const HOLDER: usize = 1;

pub fn all() -> Vec<Script> {
    let mut scripts: Vec<Script> = NAMES.into_iter().map(handles_of_others).collect();
    scripts.push(longest_handles());
    scripts
}

/// Three jobs, each of which ends in another way. While the holder has one, it names the job as other hubs would, and
/// others ask for it like that. Then everybody leaves, and the hub keeps its name.
fn handles_of_others(hub: &'static [u8]) -> Script {
    let mut events = open_all();
    events.extend([packet(HOLDER, 1, &[b"f"]), packet(3, 26, &[b"exceptions"])]);
    for (serial, ending) in (11..).zip([25, 14, 13]) {
        let own = handle::print(hub, serial);
        events.extend([2, 3].map(|client| packet(client, 7, &[b"f", b"u", b"w"])));
        events.extend([packet(4, 15, &[own.bytes()]), packet(HOLDER, [9, 30][serial as usize % 2], &[])]);
        for text in near(hub, serial) {
            let kinds = if ending == 25 { &WORKER[..] } else { &[ending] };
            events.extend(kinds.iter().map(|&kind| named(kind, &text)));
            events.push(packet(4, 15, &[&text]));
        }
        events.extend([12, 28, 29].map(|kind| named(kind, own.bytes())));
        events.extend([packet(4, 15, &[own.bytes()]), named(ending, own.bytes()), named(ending, own.bytes())]);
        events.push(packet(4, 15, &[own.bytes()]));
    }
    events.push(packet(0, 18, &[b"f", b"", b"w"]));
    events.extend((0..CONNECTIONS as u32).map(Event::Close));
    events.extend(open_all());
    events.extend([packet(HOLDER, 1, &[b"f"]), packet(HOLDER, 9, &[]), packet(0, 7, &[b"f", b"", b"w"])]);
    events.extend((0..CONNECTIONS as u32).map(Event::Close));
    Script { name: "handles of other hubs", hub, last_serial: 10, events }
}

/// A worker packet of the holder with this handle.
fn named(kind: u32, handle: &[u8]) -> Event {
    match kind {
        12 => packet(HOLDER, 12, &[handle, b"1", b"23"]),
        14 => packet(HOLDER, 14, &[handle]),
        _ => packet(HOLDER, kind, &[handle, b"data"]),
    }
}

/// The serial under other names: all those above, and the hub's own one byte longer or shorter, in capitals, twice, or
/// with a digit on the wrong side of the colon.
fn near(hub: &[u8], serial: u32) -> Vec<Vec<u8>> {
    let digits = serial.to_string();
    let mut names: Vec<Vec<u8>> = NAMES.iter().filter(|name| **name != hub).map(|name| name.to_vec()).collect();
    names.extend([b"1", b"p", b":", b" "].map(|more| [hub, more].concat()));
    names.extend([hub[1..].to_vec(), hub[..hub.len() - 1].to_vec(), [hub, hub].concat()]);
    names.extend(Some(hub.to_ascii_uppercase()).filter(|name| name != hub));
    let mut texts: Vec<Vec<u8>> =
        names.iter().map(|name| [b"H:", &name[..], b":", digits.as_bytes()].concat()).collect();
    texts.push([b"H:", hub, b"1:1"].concat());
    texts.push([b"H:", &hub[..hub.len() - 1], b":", &hub[hub.len() - 1..], digits.as_bytes()].concat());
    texts.extend([[b"H:", hub, digits.as_bytes()].concat(), digits.into_bytes()]);
    texts
}

/// A name of 15 bytes and serials of 10 digits, so handles of 28: assignments of up to 1,053 bytes, worker packets of
/// 1,024 to 16 listeners, WORK_FAIL after an exception, and the end of the serials.
fn longest_handles() -> Script {
    const HUB: &[u8] = b"abcdefghijklmno";
    let own = |serial: u32| handle::print(HUB, serial);
    let mut events = open_all();
    events.push(packet(0, 1, &[&[b'f'; 32]]));
    for unique in [0, 1, 64] {
        events.push(packet(0, 7, &[&[b'f'; 32], &vec![b'u'; unique], &vec![0; 1_022 - 32 - unique]]));
        events.push(packet(0, if unique == 1 { 9 } else { 30 }, &[]));
    }
    events.push(packet(HOLDER, 1, &[b"g"]));
    for connection in 0..CONNECTIONS {
        if connection % 3 == 0 {
            events.push(packet(connection, 26, &[b"exceptions"]));
        }
        events.push(packet(connection, 7, &[b"g", b"u", b"w"]));
    }
    events.extend([packet(0, 7, &[b"g", b"", b"w"]), packet(HOLDER, 9, &[])]);
    let last = own(u32::MAX);
    events.push(packet(HOLDER, 12, &[last.bytes(), b"1234567890", b"9876543210"]));
    events.push(packet(2, 15, &[last.bytes()]));
    for kind in [28, 29, 25] {
        events.push(packet(HOLDER, kind, &[&last.bytes()[..27], &[0xee; 1_024 - 28]]));
        events.push(packet(HOLDER, kind, &[last.bytes(), &[0xee; 1_024 - 29]]));
    }
    events.push(packet(0, 14, &[own(u32::MAX - 1).bytes()]));
    events.push(packet(0, 7, &[b"g", b"", b"w"]));
    events.push(Event::Close(0));
    Script { name: "longest handles", hub: HUB, last_serial: u32::MAX - 4, events }
}
