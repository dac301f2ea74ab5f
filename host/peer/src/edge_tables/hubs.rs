//! The hub's name at its limits: every length, telling bytes at every place, bytes after it, and no name at all. Some
//! of these tables simply have another name, and so have their handles.
#![forbid(unsafe_code)]

use super::*;
use crate::hub::{names, MOST};

const RULE: &str = "the hub's name";
const RESTS: &str = "every field with a meaning: zeros";

/// The first and last letters and digits, and two digits between.
const GOOD_BYTES: [u8; 6] = *b"0159az";

pub fn all() -> Vec<Base> {
    let mut bases: Vec<Base> =
        [&b"lap"[..], b"1", b"lap11", b"abcdefghijklmn", b"abcdefghijklmno"].into_iter().map(places).collect();
    bases.extend([lengths(), bytes(), rests(), nothing()]);
    bases
}

/// A hub of this name where the jobs 1 and 11 are held, and 111, 112 and 113 wait.
fn working(hub: &[u8]) -> Server {
    let mut server = Server { hub: Text::new(hub), ..opened() };
    run(&mut server, 1, 1, &[b"reverse"]);
    run(&mut server, 0, 26, &[b"exceptions"]);
    for last_serial in [0, 10, 110, 111, 112] {
        server.last_serial = last_serial;
        run(&mut server, 0, 7, &[b"reverse", b"", b"w"]);
    }
    run(&mut server, 1, 9, &[]);
    run(&mut server, 1, 9, &[]);
    server
}

/// The whole place of the name.
fn hub(text: &[u8]) -> (usize, Vec<u8>) {
    (HUB, place(text, HUB_BYTES))
}

/// Each place of one name with each telling byte.
fn places(name: &[u8]) -> Base {
    let mut changes = Vec::new();
    for at in 0..HUB_BYTES {
        for byte in GOOD_BYTES.into_iter().chain(names::BAD_BYTES) {
            let good = GOOD_BYTES.contains(&byte);
            let broken = match (at, byte) {
                (0, 0) => Some(RULE),
                // One byte shorter, or as it was.
                (at, 0) if at + 1 >= name.len() => None,
                // A hole inside the name, or a byte after its end.
                (_, 0) => Some(RESTS),
                (at, _) if at > name.len() => Some(RESTS),
                // Sixteen bytes, or a byte that no name has.
                (MOST, _) => Some(RULE),
                _ if good => None,
                _ => Some(RULE),
            };
            changes.push(Change { sets: vec![(HUB + at, vec![byte])], breaks: broken });
        }
    }
    Base { name: format!("hub {}, each place", name.escape_ascii()), server: working(name), changes }
}

/// Names of every length, 0 and 16 included, from good bytes and from bad ones.
fn lengths() -> Base {
    let mut changes = vec![Change::breaking(RULE, vec![hub(b"")])];
    for length in 1..=HUB_BYTES {
        for byte in GOOD_BYTES {
            let sets = vec![hub(&vec![byte; length])];
            changes.push(if length <= MOST { Change::good(sets) } else { Change::breaking(RULE, sets) });
        }
        for byte in names::BAD_BYTES.into_iter().filter(|&byte| byte != 0) {
            changes.push(Change::breaking(RULE, vec![hub(&vec![byte; length])]));
        }
    }
    changes.extend(names::GOOD.map(|name| Change::good(vec![hub(name)])));
    Base { name: "hub names of every length".to_string(), server: working(b"lap"), changes }
}

/// Every byte as the whole name, and as the last one of a full name.
fn bytes() -> Base {
    let mut changes = Vec::new();
    for byte in 0..=255u8 {
        let good = matches!(byte, b'a'..=b'z' | b'0'..=b'9');
        for before in [&b""[..], b"abcdefghijklmn"] {
            let sets = vec![hub(&[before, &[byte]].concat())];
            // A zero byte at the end leaves a name of 14.
            let good = good || byte == 0 && !before.is_empty();
            changes.push(if good { Change::good(sets) } else { Change::breaking(RULE, sets) });
        }
    }
    Base { name: "hub names with every byte".to_string(), server: working(b"lap"), changes }
}

/// A byte at each place after the zero byte that ends a name of each length; most of them could stand in a name.
fn rests() -> Base {
    let mut changes = Vec::new();
    for length in 1..MOST {
        for at in length + 1..HUB_BYTES {
            for byte in [1, b'1', b'p', 0x80] {
                let mut text = place(&vec![b'l'; length], HUB_BYTES);
                text[at] = byte;
                changes.push(Change::breaking(RESTS, vec![(HUB, text)]));
            }
        }
    }
    Base { name: "bytes after a hub's name".to_string(), server: working(b"lap"), changes }
}

/// Nothing but a name: without it the table is zeros, which was a fresh one before names. It is tried with many events.
fn nothing() -> Base {
    let mut changes: Vec<Change> = (0..40).map(|_| Change::breaking(RULE, vec![hub(b"")])).collect();
    changes.extend(names::GOOD.map(|name| Change::good(vec![hub(name)])));
    changes.extend([1, 0xff].map(|byte| Change::breaking(RULE, vec![hub(b""), (LAST_SERIAL, vec![byte])])));
    Base { name: "nothing but a hub's name".to_string(), server: Server::new(), changes }
}
