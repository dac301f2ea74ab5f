//! The table's bytes: docs/TABLE.md's offsets and its example, round trips over random histories, and each table rule
//! broken.
mod common;
use common::{done, opened, response};
use peer::damage;
use peer::histories::History;
use peer::image::{image, obeys, read};
use peer::layout::*;
use peer::outbox::Outbox;
use peer::packet::{self, Side};
use peer::random::Random;
use peer::rules::{broken, RULES};
use peer::server::Server;

/// The table after the first six lines of document 01's replay, but for who is asleep: connection 1 was woken.
fn example() -> Server {
    let mut server = opened(&[1, 0]);
    done(&mut server, 1, 1, &[b"reverse"], &[]);
    done(&mut server, 1, 9, &[], &[response(1, 10, &[])]);
    done(&mut server, 1, 4, &[], &[]);
    let packets = [response(0, 8, &[b"H:lap:1"]), response(1, 6, &[])];
    done(&mut server, 0, 7, &[b"reverse", b"", b"test"], &packets);
    server
}

/// The layout adds up the columns; the page has the sums.
#[test]
fn the_offsets_of_the_table_page() {
    assert_eq!([LAST_SERIAL, SERIAL, SIZE, HOLDER], [0, 4, 132, 196]);
    assert_eq!([PRIORITY, BACKGROUND, FUNCTION, NAME], [260, 292, 324, 356]);
    assert_eq!([UNIQUE, NUMERATOR, DENOMINATOR], [868, 2_916, 3_236]);
    // Request 5: the hub's name before what grows with the number of connections.
    assert_eq!([HUB, ABLE], [3_556, 3_572]);
    assert_eq!([LISTENERS, OPEN, ASLEEP, EXCEPTIONS], [3_636, 3_764, 3_780, 3_796]);
    // Request 1: 16 client ids of 64 bytes behind the flags.
    assert_eq!([IDS, TABLE], [3_812, 4_836]);
}

#[test]
fn the_example_of_the_table_page() {
    let mut bytes = vec![0; TABLE];
    for (at, part) in [
        (0, &b"\x01"[..]),
        (4, b"\x01"),
        (132, b"\x04"),
        (260, b"\x01"),
        (356, b"reverse"),
        (2_916, b"0"),
        (3_236, b"0"),
        (3_556, b"lap"),
        (3_572, b"\x02"),
        (3_636, b"\x01"),
        (3_764, b"\x01\x01"),
    ] {
        bytes[at..at + part.len()].copy_from_slice(part);
    }
    let mut server = example();
    assert_eq!(image(&server), bytes);
    done(&mut server, 1, 9, &[], &[response(1, 11, &[b"H:lap:1", b"reverse", b"test"])]);
    bytes[196] = 2;
    assert_eq!(image(&server), bytes);
    // Connection 1 has an id now: bytes 3,876 to 3,880.
    done(&mut server, 1, 22, &[b"press"], &[]);
    bytes[3_876..3_881].copy_from_slice(b"press");
    assert_eq!(image(&server), bytes);
    // A fresh table is zero but for the name.
    let mut fresh = vec![0; TABLE];
    fresh[3_556..3_559].copy_from_slice(b"lap");
    assert_eq!(image(&Server::new()), fresh);
}

#[test]
fn histories_obey_the_rules_and_come_back_from_their_images() {
    let mut out = Outbox::default();
    for seed in 100..125 {
        let mut history = History::new(seed);
        let mut server = history.start();
        for index in 0..800 {
            let event = history.next(&server);
            let before = server.clone();
            let number = event.run(&mut server, &mut out);
            if number != 0 {
                assert!(server == before, "seed {seed}, event {index}: a refusal changed the server");
            }
            if (1..=8).contains(&number) {
                assert!(out.bytes().is_empty());
            }
            assert!(out.bytes().len() <= OUTPUT);
            for sent in out.addressed() {
                assert!(
                    packet::read(Side::Response, &sent[1..]).is_ok(),
                    "seed {seed}, event {index}: a packet not to be sent"
                );
            }
            let bytes = image(&server);
            assert_eq!(broken(&bytes), Vec::<&str>::new(), "seed {seed}, event {index}: {event}");
            assert!(read(&bytes, &server.workloads) == server, "seed {seed}, event {index}");
        }
    }
}

/// A table that obeys is the only image of what it says, and the next event keeps the rules.
#[test]
fn damaged_tables_that_obey_are_images() {
    let mut out = Outbox::default();
    let (mut good, mut bad) = (0, 0);
    for seed in 200..206 {
        let mut history = History::new(seed);
        let mut server = history.start();
        for _ in 0..700 {
            history.next(&server).run(&mut server, &mut out);
        }
        let table = image(&server);
        let mut random = Random::new(seed);
        for _ in 0..1_500 {
            let mut bytes = table.clone();
            for _ in 0..1 + random.below(3) {
                damage::field(&mut bytes, &mut random);
            }
            if !obeys(&bytes) {
                bad += 1;
                continue;
            }
            good += 1;
            let mut next = read(&bytes, &server.workloads);
            assert_eq!(image(&next), bytes);
            let event = history.next(&next);
            event.run(&mut next, &mut out);
            assert_eq!(broken(&image(&next)), Vec::<&str>::new(), "seed {seed}: {event}");
        }
    }
    assert!(good > 1_000 && bad > 1_000, "{good} {bad}");
}

/// The example with one more function and one more job; connection 2 sleeps, can do nothing and has an id.
fn broad() -> Vec<u8> {
    let mut server = example();
    assert_eq!(server.open(2), 0);
    done(&mut server, 2, 4, &[], &[]);
    done(&mut server, 2, 22, &[b"id"], &[]);
    done(&mut server, 0, 7, &[b"sort", b"unique", b"w"], &[response(0, 8, &[b"H:lap:2"])]);
    done(&mut server, 1, 1, &[b"print"], &[]);
    let bytes = image(&server);
    assert!(obeys(&bytes));
    bytes
}

#[test]
fn each_rule_is_broken_by_some_table() {
    let mut seen = Vec::new();
    let mut breaks = |rule: &str, changes: &[(usize, &[u8])]| {
        let mut bytes = broad();
        for (at, part) in changes {
            bytes[*at..*at + part.len()].copy_from_slice(part);
        }
        let all = broken(&bytes);
        assert!(all.iter().any(|name| name.starts_with(rule)), "{rule} holds; broken: {all:?}");
        let rule = *all.iter().find(|name| name.starts_with(rule)).unwrap();
        seen.push(rule);
        all
    };
    // Those with one name in the list break alone.
    assert_eq!(breaks("serials distinct", &[(SERIAL, &[2])]).len(), 1);
    assert_eq!(breaks("serials from 1", &[(SERIAL, &[3])]).len(), 1);
    assert_eq!(breaks("serials from 1", &[(LAST_SERIAL, &[1])]).len(), 1);
    for digits in [&b"\0"[..], b"a", b"0/", b"1234567:90"] {
        assert_eq!(breaks("stored texts", &[(NUMERATOR, digits)]).len(), 1);
        assert_eq!(breaks("stored texts", &[(DENOMINATOR + 10, digits)]).len(), 1);
    }
    // sort and unique are 10 bytes, so 1,012 more are the most.
    assert_eq!(breaks("function, unique and workload", &[(SIZE + 2, &1_013u16.to_le_bytes())]).len(), 1);
    assert_eq!(breaks("every field with a meaning: numbers", &[(PRIORITY, &[3])]).len(), 1);
    assert_eq!(breaks("every field with a meaning: numbers", &[(BACKGROUND, &[2])]).len(), 1);
    assert_eq!(breaks("every field with a meaning: numbers", &[(OPEN + 9, &[2])]).len(), 1);
    assert_eq!(breaks("every field with a meaning: numbers", &[(EXCEPTIONS, &[2])]).len(), 1);
    assert_eq!(breaks("every field with a meaning: numbers", &[(ASLEEP, &[2])]).len(), 1);
    breaks("every field with a meaning: numbers", &[(HOLDER, &[17])]);
    breaks("every field with a meaning: numbers", &[(FUNCTION, &[16])]);
    let ids = [IDS + 1, IDS + 127, IDS + 131, IDS + 191, IDS + 15 * 64 + 63];
    for at in [NAME + 31, UNIQUE + 63, NUMERATOR + 9, DENOMINATOR + 9, HUB + 4, HUB + 15].into_iter().chain(ids) {
        assert_eq!(breaks("every field with a meaning: zeros", &[(at, b"1")]).len(), 1, "{at}");
    }
    for at in [LISTENERS + 8, SIZE + 4, HOLDER + 4, PRIORITY + 2, BACKGROUND + 2, FUNCTION + 2] {
        assert_eq!(breaks("every field with a meaning: a free job place", &[(at, &[1])]).len(), 1, "{at}");
    }
    for at in [UNIQUE + 128, NUMERATOR + 20, DENOMINATOR + 20] {
        assert_eq!(breaks("every field with a meaning: a free job place", &[(at, b"1")]).len(), 1, "{at}");
    }
    breaks("every field with a meaning: a job's function", &[(FUNCTION, &[5])]);
    assert_eq!(breaks("known functions distinct", &[(NAME + 64, b"sort\0")]).len(), 1);
    assert_eq!(breaks("known functions as defined", &[(ABLE + 8, &[0])]).len(), 1);
    assert_eq!(breaks("known functions as defined", &[(ABLE + 12, &[1])]).len(), 1);
    assert_eq!(breaks("known functions as defined", &[(NAME + 96, b"x")]).len(), 1);
    for at in [ABLE, ABLE + 1, ABLE + 2, LISTENERS, LISTENERS + 3] {
        assert_eq!(breaks("abilities, listeners", &[(at, &[0x90])]).len(), 1, "{at}");
    }
    assert_eq!(breaks("abilities, listeners", &[(HOLDER, &[9])]).len(), 1);
    assert_eq!(breaks("abilities, listeners", &[(EXCEPTIONS + 9, &[1])]).len(), 1);
    assert_eq!(breaks("abilities, listeners", &[(ASLEEP + 9, &[1])]).len(), 1);
    for id in [&b"i"[..], b"\xff", &[b'i'; 64]] {
        assert_eq!(breaks("client ids", &[(IDS + 3 * 64, id)]).len(), 1);
        assert_eq!(breaks("client ids", &[(IDS + 15 * 64, id)]).len(), 1);
    }
    breaks("client ids", &[(OPEN + 2, &[0]), (ASLEEP + 2, &[0])]);
    assert_eq!(breaks("a queued job", &[(LISTENERS, &[0])]).len(), 1);
    let shared: [(usize, &[u8]); 2] = [(FUNCTION + 1, &[0]), (UNIQUE, b"unique")];
    breaks("no two jobs share", &shared);
    assert_eq!(breaks("no sleeper", &[(ASLEEP + 1, &[1])]).len(), 1);
    assert_eq!(breaks("no sleeper", &[(ABLE, &[6])]).len(), 1);
    for name in [&b"\0\0\0"[..], b"Lap", b"la-", b"lap:", b"lap\xe1", b"abcdefghijklmnop"] {
        assert_eq!(breaks("the hub's name", &[(HUB, name)]).len(), 1);
    }
    // Every rule was met but the one that the places' lengths keep.
    for (name, _) in RULES {
        assert!(seen.contains(&name) || name == "names within sizes", "{name}");
    }
}

#[test]
fn what_no_rule_forbids() {
    // Texts of a queued job, serials out of place order, serials at their end, the largest workload; a full id, two ids
    // alike, any byte but zero, and no id; other names of the hub.
    let changes: [&[(usize, &[u8])]; 11] = [
        &[(NUMERATOR, b"007"), (DENOMINATOR, b"1234567890")],
        &[(SERIAL, &[2]), (SERIAL + 4, &[1])],
        &[(LAST_SERIAL, &[255; 4]), (SERIAL, &[255; 4])],
        &[(SIZE + 2, &1_012u16.to_le_bytes())],
        &[(IDS + 64, &[b'i'; 64])],
        &[(IDS + 64, b"id")],
        &[(IDS, b"\x01 \n\x7f\x80\xff")],
        &[(IDS + 128, &[0; 2])],
        &[(HUB, b"lap1")],
        &[(HUB, b"9\0\0")],
        &[(HUB, b"abcdefghijklmno")],
    ];
    for changes in changes {
        let mut bytes = broad();
        for (at, part) in changes {
            bytes[*at..*at + part.len()].copy_from_slice(part);
        }
        assert_eq!(broken(&bytes), Vec::<&str>::new());
    }
}

/// Every byte of the ids, set to several values: the table obeys exactly if each id is a text with zeros after it, and
/// empty where the connection is closed.
#[test]
fn every_byte_of_the_ids() {
    let table = broad();
    let (mut good, mut bad) = (0, 0);
    for at in IDS..TABLE {
        for value in damage::values(at, table[at]) {
            let mut bytes = table.clone();
            bytes[at] = value;
            let (connection, place) = ((at - IDS) / 64, (at - IDS) % 64);
            // Connections 0 and 1 have no id, connection 2 has one of two bytes, and the others are closed.
            let right = match (connection, place) {
                (0 | 1, 0) | (2, 1) => true,
                // Without its first byte the id would be empty, and its second byte left over.
                (2, 0) | (2, 2) => value != 0,
                _ => false,
            };
            assert_eq!(obeys(&bytes), right, "byte {at} set to {value}");
            if right {
                good += 1;
                assert_eq!(image(&read(&bytes, &[0; 32_768])), bytes);
            } else {
                bad += 1;
            }
        }
    }
    assert!(good > 20 && bad > 5_000, "{good} {bad}");
}
