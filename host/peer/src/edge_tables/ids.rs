//! Client ids at their limits in every place: on open and closed connections, with other bytes after the text.
#![forbid(unsafe_code)]

use super::*;

pub fn all() -> Vec<Base> {
    vec![on_open_connections(), on_closed_connections(), rests()]
}

/// Every connection has an id, full or of one byte; any two may be alike.
fn on_open_connections() -> Base {
    let mut server = opened();
    let text = |c: usize| vec![b'a' + c as u8; [64, 1][c % 2]];
    (0..CONNECTIONS).for_each(|c| run(&mut server, c, 22, &[&text(c)]));
    let mut changes = Vec::new();
    for (low, high) in pairs(CONNECTIONS) {
        changes.push(Change::good(vec![id(high, &text(low))]));
    }
    for c in 0..CONNECTIONS {
        for length in [0, 1, 2, 3, 4, 7, 8, 31, 32, 33, 63, 64] {
            // Bytes that print as `?`, and bytes whose high bit could be taken for a sign.
            for byte in [1, 10, 13, 32, 127, 128, 255] {
                changes.push(Change::good(vec![id(c, &vec![byte; length])]));
            }
        }
        // One zero byte in a full place; as its last byte it would leave an id of 63.
        for at in 0..ID_BYTES - 1 {
            let mut holed = vec![b'i'; ID_BYTES];
            holed[at] = 0;
            let sets = vec![id(c, &holed)];
            changes.push(Change::breaking("every field with a meaning: zeros", sets));
        }
    }
    Base { name: "client ids on open connections".to_string(), server, changes }
}

/// A connection is closed: an id of any length is refused there, whatever the others have.
fn on_closed_connections() -> Base {
    let rule = "client ids";
    let mut server = opened();
    (0..CONNECTIONS).for_each(|c| run(&mut server, c, 22, &[b"worker"]));
    let closed = |c: usize| (OPEN + c, vec![0]);
    let mut changes = Vec::new();
    for c in 0..CONNECTIONS {
        changes.push(Change::breaking(rule, vec![closed(c)]));
        changes.push(Change::good(vec![closed(c), id(c, b"")]));
        for text in [&b"\x01"[..], b"i", b"\x80", b"\xff", &[b'i'; 63], &[b'i'; 64]] {
            changes.push(Change::breaking(rule, vec![closed(c), id(c, text)]));
        }
        // The id of one that is open beside it.
        let other = (c + 1) % CONNECTIONS;
        changes.push(Change::good(vec![closed(c), id(c, b""), id(other, &[b'i'; 64])]));
        // All others are closed.
        let alone =
            || (0..CONNECTIONS).filter(move |&other| other != c).flat_map(move |other| [closed(other), id(other, b"")]);
        changes.push(Change::good(alone().collect()));
        changes.push(Change::breaking(rule, alone().chain([closed(c)]).collect()));
    }
    Base { name: "client ids on closed connections".to_string(), server, changes }
}

/// A byte after the end of an id, at each place, on open and closed connections; a free place is an empty text.
fn rests() -> Base {
    let rule = "every field with a meaning: zeros";
    let mut server = opened();
    (0..CONNECTIONS).filter(|c| c % 3 > 0).for_each(|c| run(&mut server, c, 22, &[b"id"]));
    (0..CONNECTIONS).filter(|c| c % 6 == 0).for_each(|c| assert_eq!(server.close(c as u32).0, DONE));
    let mut changes = Vec::new();
    for c in 0..CONNECTIONS {
        for at in 3..ID_BYTES {
            for byte in [1, 0x80] {
                changes.push(Change::breaking(rule, vec![(IDS + ID_BYTES * c + at, vec![byte])]));
            }
        }
    }
    Base { name: "bytes after a client id".to_string(), server, changes }
}
