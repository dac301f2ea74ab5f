//! Hubs' names, request 5 of document 02: fresh tables, handles with the name, handles of other hubs, the table rule.
mod common;
use common::{done, refused, response, send};
use peer::commands;
use peer::damage;
use peer::histories::History;
use peer::hub::{fresh, is_name, names, MOST};
use peer::image::{image, obeys, read};
use peer::layout::{HUB, HUB_BYTES, OUTPUT, TABLE};
use peer::outbox::Outbox;
use peer::rules::broken;
use peer::server::{Server, WORKLOADS};
use std::collections::BTreeSet;

const WORKER: [u32; 6] = [12, 13, 14, 25, 28, 29];

/// A hub of this name with connections 0 to 3 open.
fn opened(hub: &[u8]) -> Server {
    let mut server = Server::fresh(hub).unwrap();
    (0..4).for_each(|connection| assert_eq!(server.open(connection), 0));
    server
}

/// The same, where connection 1 holds the job of this serial; connections 2 and 3 listen, 3 with the option.
fn working(hub: &[u8], serial: u32) -> Server {
    let mut server = opened(hub);
    server.last_serial = serial - 1;
    done(&mut server, 1, 1, &[b"f"], &[]);
    done(&mut server, 3, 26, &[b"exceptions"], &[response(3, 27, &[b"exceptions"])]);
    let handle = server.handle(serial);
    for client in [2, 3] {
        done(&mut server, client, 7, &[b"f", b"u", b"w"], &[response(client as u8, 8, &[handle.bytes()])]);
    }
    done(&mut server, 1, 9, &[], &[response(1, 11, &[handle.bytes(), b"f", b"w"])]);
    server
}

/// The arguments of a worker packet with this handle.
fn arguments(kind: u32, handle: &[u8]) -> Vec<&[u8]> {
    match kind {
        12 => vec![handle, b"1", b"2"],
        14 => vec![handle],
        _ => vec![handle, b"data"],
    }
}

// ---- Fresh tables.

/// Table and workloads of these lengths, full of other bytes, after a fresh table was asked for; and the number.
fn asked(lengths: [usize; 2], name: &[u8]) -> (u32, Vec<u8>, Vec<u8>) {
    let (mut table, mut workloads) = (vec![0xa5; lengths[0]], vec![0x5a; lengths[1]]);
    let number = fresh(&mut table, &mut workloads, name);
    (number, table, workloads)
}

#[test]
fn a_good_name_makes_a_table() {
    for name in names::GOOD {
        for longer in [0, 1, 100] {
            let (number, table, workloads) = asked([TABLE + longer, WORKLOADS + longer], name);
            assert_eq!(number, 0);
            assert_eq!(table[..TABLE], image(&Server::fresh(name).unwrap()));
            assert!(workloads[..WORKLOADS].iter().all(|&byte| byte == 0));
            // Beyond the layout nothing is written.
            assert!(table[TABLE..].iter().all(|&byte| byte == 0xa5));
            assert!(workloads[WORKLOADS..].iter().all(|&byte| byte == 0x5a));
            assert!(obeys(&table));
            let others = table[..TABLE].iter().enumerate().filter(|(_, &byte)| byte != 0);
            assert!(others.map(|(at, _)| at).eq(HUB..HUB + name.len()));
        }
    }
    assert_eq!(&asked([TABLE, WORKLOADS], b"lap11").1[3_556..3_562], b"lap11\0");
}

#[test]
fn a_bad_name_is_refused_and_nothing_is_written() {
    let (good, bad) = (names::GOOD.map(<[u8]>::to_vec), names::bad());
    for name in good.iter().chain(&bad) {
        for lengths in [[TABLE, WORKLOADS], [TABLE - 1, WORKLOADS], [TABLE, WORKLOADS - 1], [0, 0], [8_192, 0]] {
            let (number, table, workloads) = asked(lengths, name);
            let right = is_name(name) && lengths == [TABLE, WORKLOADS];
            assert_eq!(number, u32::from(!right), "{}", name.escape_ascii());
            let kept = table.iter().all(|&byte| byte == 0xa5) && workloads.iter().all(|&byte| byte == 0x5a);
            assert_eq!(kept, !right, "{}", name.escape_ascii());
        }
    }
    for name in [&b""[..], b"Lap", b"lap ", b"lap\0", b"la\0p", b"la-p", b"la_p", b"lap:", b"lap`", b"lap{", b"lap/"] {
        assert!(Server::fresh(name).is_err_and(|number| number == 1), "{}", name.escape_ascii());
    }
    assert!(is_name(&[b'z'; MOST]) && !is_name(&[b'z'; MOST + 1]));
}

#[test]
fn lap_is_the_hub_of_document_01() {
    assert!(Server::new() == Server::fresh(b"lap").unwrap() && Server::default() == Server::new());
    assert!(Server::new() != Server::fresh(b"lap1").unwrap());
}

// ---- Handles.

#[test]
fn every_packet_names_the_hub() {
    for (hub, handle) in [("lap", "H:lap:7"), ("x", "H:x:7"), ("42", "H:42:7"), ("lap1", "H:lap1:7")] {
        let handle = handle.as_bytes();
        let to = |connection: u8, kind: u32| response(connection, kind, &arguments(kind, handle));
        let mut server = working(hub.as_bytes(), 7);
        done(&mut server, 0, 18, &[b"f", b"u", b""], &[response(0, 8, &[handle])]);
        for kind in [12, 28, 29] {
            done(&mut server, 1, kind, &arguments(kind, handle), &[to(2, kind), to(3, kind)]);
        }
        done(&mut server, 0, 15, &[handle], &[response(0, 20, &[handle, b"1", b"1", b"1", b"2"])]);
        let mut failed = server.clone();
        done(&mut failed, 1, 14, &[handle], &[to(2, 14), to(3, 14)]);
        let mut thrown = server.clone();
        done(&mut thrown, 1, 25, &[handle, b"data"], &[to(2, 14), to(3, 25)]);
        // The holder leaves, and another one is given the job with its unique.
        assert_eq!(server.close(1), (0, vec![]));
        done(&mut server, 0, 1, &[b"f"], &[]);
        done(&mut server, 0, 30, &[], &[response(0, 31, &[handle, b"f", b"u", b"w"])]);
        done(&mut server, 0, 13, &[handle, b"data"], &[to(2, 13), to(3, 13)]);
    }
}

/// A worker packet is refused by 14, a status is unknown and has the handle as asked; the job stays as it was.
#[test]
fn handles_of_other_hubs_are_nobodys() {
    for (hub, serial) in names::GOOD.into_iter().flat_map(|hub| [1, 11, u32::MAX].map(|serial| (hub, serial))) {
        let mut server = working(hub, serial);
        let others = names::GOOD.into_iter().filter(|other| *other != hub);
        for other in others.chain([&b""[..], b"LAP", b"Lap", b"abcdefghijklmnop", b"lap:", b":lap", b" lap"]) {
            let handle = [b"H:", other, b":", serial.to_string().as_bytes()].concat();
            for kind in WORKER {
                refused(&mut server, 1, kind, &arguments(kind, &handle), 14);
            }
            done(&mut server, 0, 15, &[&handle], &[response(0, 20, &[&handle, b"0", b"0", b"0", b"0"])]);
        }
        let own = server.handle(serial);
        assert_eq!(send(&mut server, 1, 13, &[own.bytes(), b""]).0, 0);
    }
}

#[test]
fn digits_on_the_wrong_side_of_the_colon() {
    for (hub, serial, near) in [
        ("lap", 11, &["H:lap1:1", "H:lap11", "H:lap11:", "H:lap:1", "H:lap:1:1", "H:lap:011"][..]),
        ("lap1", 1, &["H:lap:11", "H:lap11:1", "H:lap1:11", "H:lap11", "H:lap:1"]),
        ("lap11", 1, &["H:lap1:11", "H:lap:111", "H:lap1:1", "H:lap:1", "H:lap111"]),
        ("1", 1, &["H:11", "H::11", "H:11:", "H:11:1", "1", "H:1:11"]),
    ] {
        let mut server = working(hub.as_bytes(), serial);
        for text in near {
            refused(&mut server, 1, 13, &[text.as_bytes(), b""], 14);
            let unknown = response(0, 20, &[text.as_bytes(), b"0", b"0", b"0", b"0"]);
            done(&mut server, 0, 15, &[text.as_bytes()], &[unknown]);
        }
        let own = format!("H:{hub}:{serial}");
        assert_eq!(send(&mut server, 1, 13, &[own.as_bytes(), b""]).0, 0);
    }
}

#[test]
fn handles_of_two_hubs_never_agree() {
    let serials = [1, 11, 111, 1_111, 11_111_111, u32::MAX];
    let handles = names::GOOD.into_iter().flat_map(|hub| serials.map(|serial| peer::handle::print(hub, serial)));
    let all: BTreeSet<Vec<u8>> = handles.map(|handle| handle.bytes().to_vec()).collect();
    assert_eq!(all.len(), names::GOOD.len() * serials.len());
}

/// A name of 15 bytes and the last serial: 28 bytes, and 1,053 in the longest assignment.
#[test]
fn the_longest_handle() {
    let mut server = opened(b"abcdefghijklmno");
    server.last_serial = u32::MAX - 1;
    let handle = b"H:abcdefghijklmno:4294967295";
    let (function, unique, workload) = ([b'f'; 32], [b'u'; 64], [0; 1_022 - 32 - 64]);
    done(&mut server, 0, 1, &[&function], &[]);
    done(&mut server, 2, 7, &[&function, &unique, &workload], &[response(2, 8, &[handle])]);
    let assignment = response(0, 31, &[handle, &function, &unique, &workload]);
    assert_eq!((handle.len(), assignment.1.len()), (28, 12 + 1_053));
    done(&mut server, 0, 30, &[], &[assignment]);
    refused(&mut server, 0, 13, &[&handle[..27], b""], 14);
    refused(&mut server, 0, 7, &[b"f", b"", b""], 13);
    let data = [0xee; 1_024 - 29];
    done(&mut server, 0, 25, &[handle, &data], &[response(2, 14, &[handle])]);
}

// ---- The table.

#[test]
fn no_event_changes_the_name() {
    let mut out = Outbox::default();
    for seed in 400..412 {
        let mut history = History::new(seed);
        let mut server = history.start();
        let hub = server.hub;
        for _ in 0..500 {
            history.next(&server).run(&mut server, &mut out);
            assert_eq!(server.hub, hub);
        }
        (0..16).for_each(|connection| assert!([0, 3].contains(&server.close(connection).0)));
        assert_eq!(image(&server)[HUB..][..hub.bytes().len()], *hub.bytes());
    }
}

/// The version is the program's, not the hub's.
#[test]
fn the_texts_do_not_name_the_hub() {
    let server = working(b"hub2", 1);
    assert_eq!(server.text(0, b"version\n"), (0, b"\0lap 1\n".to_vec()));
    assert_eq!(server.text(0, b"status\n"), (0, b"\0f\t1\t1\t1\n.\n".to_vec()));
    assert_eq!(server.text(0, b"workers\n"), (0, b"\x000 - - :\n1 - - : f\n2 - - :\n3 - - :\n.\n".to_vec()));
}

#[test]
fn a_table_of_zeros_is_refused() {
    let zeros = vec![0; TABLE];
    assert_eq!(broken(&zeros), ["the hub's name has 1 to 15 lowercase letters and digits"]);
    let mut output = vec![0xa5; OUTPUT];
    for (connection, line) in [(0, &b"version\n"[..]), (16, b""), (255, b"status\n")] {
        assert_eq!(commands::text(&zeros, &[0; WORKLOADS], &mut output, connection, line), (1, 0));
    }
    assert!(output.iter().all(|&byte| byte == 0xa5));
}

/// Every byte of the name's place, set to several values: some tables simply have another name.
#[test]
fn every_byte_of_the_name() {
    let (mut good, mut bad) = (0, 0);
    for hub in names::GOOD {
        let server = working(hub, 11);
        let table = image(&server);
        for (at, value) in
            (HUB..HUB + HUB_BYTES).flat_map(|at| damage::values(at, table[at]).into_iter().map(move |v| (at, v)))
        {
            let mut bytes = table.clone();
            bytes[at] = value;
            let place = &bytes[HUB..HUB + HUB_BYTES];
            let name = &place[..place.iter().position(|&byte| byte == 0).unwrap_or(HUB_BYTES)];
            let right = is_name(name) && place[name.len()..].iter().all(|&byte| byte == 0);
            assert_eq!(obeys(&bytes), right, "byte {at} set to {value}");
            if !right {
                bad += 1;
                continue;
            }
            good += 1;
            // The table goes on under its other name, and the old handle is another hub's.
            let mut renamed = read(&bytes, &server.workloads);
            assert_eq!(image(&renamed), bytes);
            refused(&mut renamed, 1, 14, &[server.handle(11).bytes()], 14);
            let own = [b"H:", name, b":11"].concat();
            assert_eq!(
                send(&mut renamed, 1, 14, &[&own]),
                (0, vec![response(2, 14, &[&own]), response(3, 14, &[&own])])
            );
        }
    }
    assert!(good > 500 && bad > 5_000, "{good} {bad}");
}
