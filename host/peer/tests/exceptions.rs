//! Exceptions as request 3 of document 02 corrects them: a listener with the option gets a copy, every other listener
//! WORK_FAIL with the handle alone.
mod common;
use common::{done, opened, refused, response, send};
use peer::server::Server;

const HOLDER: u32 = 9;
const HANDLE: &[u8] = b"H:lap:1";

/// Connections 0 to 9 are open, and the holder holds job 1. The first of these connections has submitted it, as normal
/// or by the type given, and the others have joined it.
fn held_as(kind: u32, submitters: &[u32]) -> Server {
    let mut server = opened(&[0, 1, 2, 3, 4, 5, 6, 7, 8, 9]);
    done(&mut server, HOLDER, 1, &[b"f"], &[]);
    for (index, &submitter) in submitters.iter().enumerate() {
        let kind = if index == 0 { kind } else { 7 };
        done(&mut server, submitter, kind, &[b"f", b"u", b"w"], &[response(submitter as u8, 8, &[HANDLE])]);
    }
    done(&mut server, HOLDER, 9, &[], &[response(HOLDER as u8, 11, &[HANDLE, b"f", b"w"])]);
    server
}

fn held(listeners: &[u32]) -> Server {
    held_as(7, listeners)
}

/// These connections set the option.
fn set(server: &mut Server, connections: &[u32]) {
    for &connection in connections {
        done(server, connection, 26, &[b"exceptions"], &[response(connection as u8, 27, &[b"exceptions"])]);
    }
}

/// The holder sends an exception, which must be answered by exactly these packets.
fn throw(server: &mut Server, data: &[u8], packets: &[(u8, Vec<u8>)]) {
    done(server, HOLDER, 25, &[HANDLE, data], packets);
    assert!(server.jobs.iter().all(Option::is_none), "the job has ended");
}

fn copy(connection: u8, data: &[u8]) -> (u8, Vec<u8>) {
    response(connection, 25, &[HANDLE, data])
}

fn fail(connection: u8) -> (u8, Vec<u8>) {
    response(connection, 14, &[HANDLE])
}

// ---- Who gets what.

#[test]
fn both_kinds_of_listener_in_one_rising_order() {
    let mut server = held(&[3, 0, 4, 1, 2]);
    set(&mut server, &[4, 2, 0]);
    throw(&mut server, b"x", &[copy(0, b"x"), fail(1), copy(2, b"x"), fail(3), copy(4, b"x")]);
    let mut server = held(&[3, 0, 4, 1, 2]);
    set(&mut server, &[3, 1]);
    throw(&mut server, b"x", &[fail(0), copy(1, b"x"), fail(2), copy(3, b"x"), fail(4)]);
}

#[test]
fn listeners_of_one_kind_alone() {
    throw(&mut held(&[3, 1]), b"x", &[fail(1), fail(3)]);
    let mut server = held(&[3, 1]);
    set(&mut server, &[1, 3]);
    throw(&mut server, b"x", &[copy(1, b"x"), copy(3, b"x")]);
}

#[test]
fn a_listener_that_joined_twice_gets_one_packet() {
    throw(&mut held(&[1, 1]), b"x", &[fail(1)]);
    let mut server = held(&[1, 1]);
    set(&mut server, &[1]);
    throw(&mut server, b"x", &[copy(1, b"x")]);
}

/// The others are the other listeners: who does not listen is told nothing, with the option or without it.
#[test]
fn without_a_listener_nobody_is_told() {
    let mut server = held_as(18, &[0]);
    set(&mut server, &[0, 5, HOLDER]);
    throw(&mut server, b"x", &[]);
    // The only listener has left a held job.
    let mut server = held(&[0]);
    assert_eq!(server.close(0), (0, vec![]));
    throw(&mut server, b"x", &[]);
}

#[test]
fn the_holder_is_a_listener_like_the_others() {
    throw(&mut held(&[HOLDER]), b"x", &[fail(9)]);
    let mut server = held(&[HOLDER, 0, 1]);
    set(&mut server, &[1]);
    throw(&mut server, b"x", &[fail(0), copy(1, b"x"), fail(9)]);
    let mut server = held(&[HOLDER, 0]);
    set(&mut server, &[HOLDER]);
    throw(&mut server, b"x", &[fail(0), copy(9, b"x")]);
    // The option of a holder that does not listen says nothing of those that do.
    let mut server = held(&[0]);
    set(&mut server, &[HOLDER]);
    throw(&mut server, b"x", &[fail(0)]);
}

#[test]
fn a_background_job_may_have_listeners() {
    let mut server = held_as(34, &[7, 0, 1]);
    set(&mut server, &[1, 7]);
    throw(&mut server, b"x", &[fail(0), copy(1, b"x")]);
    // One that became background by a join keeps its listeners.
    let mut server = held(&[0, 1]);
    done(&mut server, 1, 32, &[b"f", b"u", b""], &[response(1, 8, &[HANDLE])]);
    throw(&mut server, b"x", &[fail(0), fail(1)]);
}

// ---- The option counts as it stands when the exception comes.

#[test]
fn the_option_may_be_set_after_the_submission() {
    let mut server = held(&[0, 1]);
    done(&mut server, HOLDER, 28, &[HANDLE, b"d"], &[0, 1].map(|c| response(c, 28, &[HANDLE, b"d"])));
    set(&mut server, &[1]);
    throw(&mut server, b"x", &[fail(0), copy(1, b"x")]);
}

#[test]
fn a_refused_option_is_not_set() {
    let mut server = held(&[0]);
    refused(&mut server, 0, 26, &[b"exception"], 15);
    throw(&mut server, b"x", &[fail(0)]);
}

#[test]
fn a_close_ends_the_option() {
    let mut server = held(&[0, 1]);
    set(&mut server, &[0, 1]);
    for leaver in [0, 1] {
        assert_eq!(server.close(leaver), (0, vec![]));
        assert_eq!(server.open(leaver), 0);
    }
    // Connection 0 listens again, without the option; connection 1 does not listen.
    done(&mut server, 0, 7, &[b"f", b"u", b""], &[response(0, 8, &[HANDLE])]);
    throw(&mut server, b"x", &[fail(0)]);
}

// ---- What the packets hold.

#[test]
fn the_bytes_of_work_fail() {
    let mut server = held(&[2]);
    let (number, packets) = send(&mut server, HOLDER, 25, &[HANDLE, b"x"]);
    assert_eq!(number, 0);
    assert_eq!(packets, [(2, peer::hex::read(b"005245530000000e00000007483a6c61703a31").unwrap())]);
    // The longest handle.
    let mut server = opened(&[2, HOLDER]);
    server.last_serial = u32::MAX - 1;
    let handle = b"H:lap:4294967295";
    done(&mut server, HOLDER, 1, &[b"f"], &[]);
    done(&mut server, 2, 7, &[b"f", b"u", b"w"], &[response(2, 8, &[handle])]);
    done(&mut server, HOLDER, 9, &[], &[response(9, 11, &[handle, b"f", b"w"])]);
    done(&mut server, HOLDER, 25, &[handle, b"x"], &[response(2, 14, &[handle])]);
}

/// Empty, with zero bytes, as large as can be: a copy has the packet's data as it came, WORK_FAIL is always the same.
#[test]
fn exceptions_of_any_bytes() {
    for data in [&b""[..], b"\0", b"\0\0x\0", b"H:lap:2", &[0xff; 1_016]] {
        let mut server = held(&[0, 1, 2]);
        set(&mut server, &[1]);
        throw(&mut server, data, &[fail(0), copy(1, data), fail(2)]);
    }
}

/// Whoever has not set the option cannot tell an exception from a failure.
#[test]
fn without_the_option_it_is_a_failure() {
    let mut server = held(&[0, 1, HOLDER]);
    let mut other = server.clone();
    let failed = send(&mut server, HOLDER, 14, &[HANDLE]);
    assert_eq!(failed, (0, vec![fail(0), fail(1), fail(9)]));
    assert_eq!(send(&mut other, HOLDER, 25, &[HANDLE, b"x"]), failed);
    assert!(server == other);
}

/// The option is about exceptions alone.
#[test]
fn other_worker_packets_go_to_all_as_they_came() {
    for kind in [12, 28, 29, 13, 14] {
        let arguments: &[&[u8]] = match kind {
            12 => &[HANDLE, b"1", b"2"],
            14 => &[HANDLE],
            _ => &[HANDLE, b"x"],
        };
        let mut server = held(&[0, 1, 2]);
        set(&mut server, &[1]);
        done(&mut server, HOLDER, kind, arguments, &[0, 1, 2].map(|listener| response(listener, kind, arguments)));
    }
}

// ---- The job ends, whatever its listeners got.

#[test]
fn nothing_is_left_of_the_job() {
    for (kind, options) in [(7, &[][..]), (7, &[0, 1]), (7, &[1]), (18, &[])] {
        let submitters: &[u32] = if kind == 18 { &[0] } else { &[0, 1] };
        let mut server = held_as(kind, submitters);
        set(&mut server, options);
        assert_eq!(send(&mut server, HOLDER, 25, &[HANDLE, b"x"]).0, 0);
        assert!(server.workloads.iter().all(|&byte| byte == 0));
        for late in [13, 25, 28, 29] {
            refused(&mut server, HOLDER, late, &[HANDLE, b"late"], 14);
        }
        refused(&mut server, HOLDER, 14, &[HANDLE], 14);
        refused(&mut server, HOLDER, 12, &[HANDLE, b"1", b"2"], 14);
        for asker in [0, HOLDER] {
            let unknown = response(asker as u8, 20, &[HANDLE, b"0", b"0", b"0", b"0"]);
            done(&mut server, asker, 15, &[HANDLE], &[unknown]);
        }
        // The same function and unique make a new job.
        done(&mut server, 0, 7, &[b"f", b"u", b"w"], &[response(0, 8, &[b"H:lap:2"])]);
        refused(&mut server, HOLDER, 25, &[HANDLE, b"late"], 14);
    }
}

/// The last job of a function that nobody can do any more takes it with it.
#[test]
fn its_function_may_be_forgotten() {
    let mut server = held(&[0]);
    done(&mut server, HOLDER, 2, &[b"f"], &[]);
    assert!(server.functions[0].is_some());
    throw(&mut server, b"x", &[fail(0)]);
    assert!(server.functions[0].is_none());
}

#[test]
fn a_refused_exception_tells_no_listener() {
    let mut server = held(&[0, 1]);
    set(&mut server, &[1]);
    // From a listener, and with another handle.
    refused(&mut server, 0, 25, &[HANDLE, b"x"], 14);
    refused(&mut server, 1, 25, &[HANDLE, b"x"], 14);
    refused(&mut server, HOLDER, 25, &[b"H:lap:01", b"x"], 14);
    // Without the zero byte after the handle.
    refused(&mut server, HOLDER, 25, &[HANDLE], 10);
    throw(&mut server, b"x", &[fail(0), copy(1, b"x")]);
}

/// NOOP ends sleep, these packets do not.
#[test]
fn a_listener_sleeps_on() {
    let mut server = held(&[0, 1]);
    set(&mut server, &[1]);
    for sleeper in [0, 1] {
        done(&mut server, sleeper, 4, &[], &[]);
    }
    throw(&mut server, b"x", &[fail(0), copy(1, b"x")]);
    assert!(server.connections[0].asleep && server.connections[1].asleep);
}
