//! SET_CLIENT_ID, request 1 of document 02: its sizes, what it leaves alone, and what clears an id.
mod common;
use common::{done, opened, refused, request, response, send};
use peer::server::Server;

fn id(server: &Server, connection: usize) -> &[u8] {
    server.connections[connection].id.bytes()
}

#[test]
fn ids_of_1_and_64_bytes_are_done() {
    let mut server = opened(&[0, 15]);
    for length in [1, 2, 63, 64] {
        done(&mut server, 15, 22, &[&vec![b'i'; length]], &[]);
        assert_eq!(id(&server, 15), vec![b'i'; length]);
    }
    assert_eq!(id(&server, 0), b"");
}

#[test]
fn ids_of_0_and_65_bytes_and_zero_bytes_are_refused() {
    let mut server = opened(&[0]);
    done(&mut server, 0, 22, &[b"old"], &[]);
    refused(&mut server, 0, 22, &[b""], 10);
    refused(&mut server, 0, 22, &[&[b'i'; 65]], 10);
    refused(&mut server, 0, 22, &[&[b'i'; 1_024]], 10);
    for bytes in [&b"\0"[..], b"\0i", b"i\0", b"i\0d", b"i\0d\0"] {
        refused(&mut server, 0, 22, &[bytes], 10);
    }
    let mut last = [b'i'; 64];
    last[63] = 0;
    refused(&mut server, 0, 22, &[&last], 10);
    assert_eq!(id(&server, 0), b"old");
    assert_eq!(send(&mut server, 0, 22, &[&[b'i'; 1_025]]), (7, vec![]));
}

#[test]
fn any_byte_but_zero() {
    let mut server = opened(&[0]);
    for byte in 1..=255 {
        done(&mut server, 0, 22, &[&[byte]], &[]);
        assert_eq!(id(&server, 0), [byte]);
    }
}

#[test]
fn the_last_id_counts() {
    let mut server = opened(&[0, 1]);
    done(&mut server, 0, 22, &[&[b'l'; 64]], &[]);
    done(&mut server, 0, 22, &[b"short"], &[]);
    assert_eq!(id(&server, 0), b"short");
    // Two connections may have the same.
    done(&mut server, 1, 22, &[b"short"], &[]);
    assert_eq!(id(&server, 1), b"short");
}

#[test]
fn an_id_leaves_sleep_and_everything_else() {
    let mut server = opened(&[0, 1]);
    done(&mut server, 1, 1, &[b"f"], &[]);
    done(&mut server, 1, 26, &[b"exceptions"], &[response(1, 27, &[b"exceptions"])]);
    done(&mut server, 1, 4, &[], &[]);
    let mut before = server.clone();
    done(&mut server, 1, 22, &[b"press"], &[]);
    assert!(server.connections[1].asleep);
    before.connections[1].id = server.connections[1].id;
    assert!(server == before);
    // Its sleeper is woken as ever.
    done(&mut server, 0, 7, &[b"f", b"", b"w"], &[response(0, 8, &[b"H:lap:1"]), response(1, 6, &[])]);
    // One that is awake is not put to sleep.
    done(&mut server, 1, 22, &[b"other"], &[]);
    assert!(!server.connections[1].asleep);
}

#[test]
fn reset_keeps_the_id_and_close_clears_it() {
    let mut server = opened(&[0, 1]);
    done(&mut server, 1, 22, &[b"press"], &[]);
    done(&mut server, 1, 1, &[b"f"], &[]);
    for (kind, arguments) in [(2, &[&b"f"[..]][..]), (3, &[]), (4, &[])] {
        done(&mut server, 1, kind, arguments, &[]);
        assert_eq!(id(&server, 1), b"press");
    }
    done(&mut server, 1, 9, &[], &[response(1, 10, &[])]);
    assert_eq!(id(&server, 1), b"press");
    done(&mut server, 0, 22, &[b"board"], &[]);
    assert_eq!(server.close(1), (0, vec![]));
    assert_eq!(id(&server, 1), b"");
    assert_eq!(server.open(1), 0);
    assert_eq!((id(&server, 1), id(&server, 0)), (&b""[..], &b"board"[..]));
}

#[test]
fn refusals_before_the_id() {
    let mut server = opened(&[0]);
    let packet = request(22, &[b"id"]);
    assert_eq!(server.packet(16, &packet), (2, vec![]));
    assert_eq!(server.packet(1, &packet), (3, vec![]));
    assert_eq!(server.packet(0, &packet[..11]), (5, vec![]));
    assert_eq!(server.packet(0, &packet[..13]), (8, vec![]));
    assert_eq!(id(&server, 0), b"");
    // Never sent.
    assert!(peer::packet::shape(peer::packet::Side::Response, 22).is_none());
}
