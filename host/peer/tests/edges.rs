//! Every edge of document 01's 'Edges to try', its 'Errors that look reasonable', and the readings of its open points.
mod common;
use common::{done, opened, refused, request, response, send};
use peer::server::Server;

const NOOP: u32 = 6;
const CREATED: u32 = 8;
const NO_JOB: u32 = 10;
const ASSIGN: u32 = 11;

fn created(connection: u8, handle: &str) -> (u8, Vec<u8>) {
    response(connection, CREATED, &[handle.as_bytes()])
}

fn assigned(connection: u8, handle: &str, function: &[u8], workload: &[u8]) -> (u8, Vec<u8>) {
    response(connection, ASSIGN, &[handle.as_bytes(), function, workload])
}

fn noop(connection: u8) -> (u8, Vec<u8>) {
    response(connection, NOOP, &[])
}

fn no_job(connection: u8) -> (u8, Vec<u8>) {
    response(connection, NO_JOB, &[])
}

/// A server with connection 0 a client and connection 1 a worker for `f`, which holds one job of connection 0.
fn with_a_held_job() -> Server {
    let mut server = opened(&[0, 1]);
    done(&mut server, 1, 1, &[b"f"], &[]);
    done(&mut server, 0, 7, &[b"f", b"u", b"w"], &[created(0, "H:lap:1")]);
    done(&mut server, 1, 9, &[], &[assigned(1, "H:lap:1", b"f", b"w")]);
    server
}

// ---- Edges to try.

#[test]
fn function_of_32_33_and_0_bytes() {
    let mut server = opened(&[0]);
    for kind in [1, 2] {
        done(&mut server, 0, kind, &[&[b'f'; 32]], &[]);
        refused(&mut server, 0, kind, &[&[b'f'; 33]], 10);
        refused(&mut server, 0, kind, &[b""], 10);
    }
    done(&mut server, 0, 7, &[&[b'f'; 32], b"", b""], &[created(0, "H:lap:1")]);
    refused(&mut server, 0, 7, &[&[b'f'; 33], b"", b""], 10);
    refused(&mut server, 0, 7, &[b"", b"", b""], 10);
}

#[test]
fn unique_of_64_and_65_bytes() {
    let mut server = opened(&[0]);
    done(&mut server, 0, 7, &[b"f", &[b'u'; 64], b""], &[created(0, "H:lap:1")]);
    refused(&mut server, 0, 7, &[b"f", &[b'u'; 65], b""], 10);
}

#[test]
fn size_of_1024_and_1025() {
    let mut server = opened(&[0]);
    done(&mut server, 0, 16, &[&[0; 1_024]], &[response(0, 17, &[&[0; 1_024]])]);
    assert_eq!(send(&mut server, 0, 16, &[&[0; 1_025]]), (7, vec![]));
    // The largest workload comes back whole.
    done(&mut server, 0, 1, &[b"f"], &[]);
    done(&mut server, 0, 7, &[b"f", b"", &[9; 1_021]], &[created(0, "H:lap:1")]);
    done(&mut server, 0, 9, &[], &[assigned(0, "H:lap:1", b"f", &[9; 1_021])]);
}

#[test]
fn type_5_is_not_served() {
    let mut server = opened(&[2]);
    let (number, packets) = server.packet(2, &request(5, &[]));
    assert_eq!(number, 9);
    assert_eq!(packets, [(2, peer::hex::read(b"00524553000000130000000730390074797065").unwrap())]);
    for kind in [0, 5, 6, 8, 10, 11, 17, 19, 20, 23, 24, 27, 31, 35, 36, 37, 0x107, 0x116, u32::MAX] {
        refused(&mut server, 2, kind, &[b"anything"], 9);
    }
}

#[test]
fn a_leading_zero_is_no_handle() {
    let mut server = with_a_held_job();
    for kind in [13, 25, 28, 29] {
        refused(&mut server, 1, kind, &[b"H:lap:01", b"w"], 14);
    }
    refused(&mut server, 1, 14, &[b"H:lap:01"], 14);
    refused(&mut server, 1, 12, &[b"H:lap:01", b"1", b"2"], 14);
    refused(&mut server, 1, 14, &[b"H:lap:4294967297"], 14);
    done(&mut server, 1, 15, &[b"H:lap:01"], &[response(1, 20, &[b"H:lap:01", b"0", b"0", b"0", b"0"])]);
}

#[test]
fn empty_unique_twice_is_two_jobs() {
    let mut server = opened(&[0]);
    done(&mut server, 0, 7, &[b"f", b"", b"w"], &[created(0, "H:lap:1")]);
    done(&mut server, 0, 7, &[b"f", b"", b"w"], &[created(0, "H:lap:2")]);
}

#[test]
fn same_unique_twice_is_one_job_and_one_listener() {
    let mut server = opened(&[0, 1]);
    done(&mut server, 0, 7, &[b"f", b"u", b"first"], &[created(0, "H:lap:1")]);
    done(&mut server, 0, 21, &[b"f", b"u", b"second"], &[created(0, "H:lap:1")]);
    done(&mut server, 1, 1, &[b"f"], &[]);
    done(&mut server, 1, 9, &[], &[assigned(1, "H:lap:1", b"f", b"first")]);
    // The listener gets one copy.
    done(&mut server, 1, 13, &[b"H:lap:1", b"r"], &[response(0, 13, &[b"H:lap:1", b"r"])]);
}

#[test]
fn high_goes_before_low() {
    let mut server = opened(&[0]);
    done(&mut server, 0, 1, &[b"f"], &[]);
    done(&mut server, 0, 33, &[b"f", b"", b"low"], &[created(0, "H:lap:1")]);
    done(&mut server, 0, 21, &[b"f", b"", b"high"], &[created(0, "H:lap:2")]);
    done(&mut server, 0, 7, &[b"f", b"", b"normal"], &[created(0, "H:lap:3")]);
    done(&mut server, 0, 32, &[b"f", b"", b"high too"], &[created(0, "H:lap:4")]);
    done(&mut server, 0, 9, &[], &[assigned(0, "H:lap:2", b"f", b"high")]);
    done(&mut server, 0, 9, &[], &[assigned(0, "H:lap:4", b"f", b"high too")]);
    done(&mut server, 0, 30, &[], &[response(0, 31, &[b"H:lap:3", b"f", b"", b"normal"])]);
    done(&mut server, 0, 9, &[], &[assigned(0, "H:lap:1", b"f", b"low")]);
    done(&mut server, 0, 9, &[], &[no_job(0)]);
}

#[test]
fn the_holder_leaves_and_the_listener_stays() {
    let mut server = with_a_held_job();
    assert_eq!(server.open(2), 0);
    done(&mut server, 1, 12, &[b"H:lap:1", b"07", b"10"], &[response(0, 12, &[b"H:lap:1", b"07", b"10"])]);
    done(&mut server, 2, 15, &[b"H:lap:1"], &[response(2, 20, &[b"H:lap:1", b"1", b"1", b"07", b"10"])]);
    assert_eq!(server.close(1), (0, vec![]));
    done(&mut server, 2, 15, &[b"H:lap:1"], &[response(2, 20, &[b"H:lap:1", b"1", b"0", b"0", b"0"])]);
    done(&mut server, 2, 1, &[b"f"], &[]);
    done(&mut server, 2, 9, &[], &[assigned(2, "H:lap:1", b"f", b"w")]);
}

#[test]
fn the_33rd_job_is_refused_and_a_join_is_not() {
    let mut server = opened(&[0, 1]);
    for job in 1..=32 {
        let unique = format!("u{job}");
        done(&mut server, 0, 7, &[b"f", unique.as_bytes(), b""], &[created(0, &format!("H:lap:{job}"))]);
    }
    refused(&mut server, 0, 7, &[b"f", b"u33", b""], 12);
    refused(&mut server, 0, 7, &[b"g", b"u1", b""], 12);
    refused(&mut server, 0, 18, &[b"f", b"", b""], 12);
    done(&mut server, 1, 7, &[b"f", b"u7", b""], &[created(1, "H:lap:7")]);
}

#[test]
fn the_last_serial() {
    let mut server = opened(&[0]);
    server.last_serial = 4_294_967_294;
    done(&mut server, 0, 7, &[b"f", b"u", b""], &[created(0, "H:lap:4294967295")]);
    refused(&mut server, 0, 7, &[b"f", b"", b""], 13);
    refused(&mut server, 0, 7, &[b"g", b"u", b""], 13);
    done(&mut server, 0, 7, &[b"f", b"u", b""], &[created(0, "H:lap:4294967295")]);
}

// ---- Errors that look reasonable.

#[test]
fn a_late_result_does_not_meet_the_next_tenant() {
    let mut server = with_a_held_job();
    done(&mut server, 1, 14, &[b"H:lap:1"], &[response(0, 14, &[b"H:lap:1"])]);
    done(&mut server, 0, 7, &[b"f", b"u", b"w"], &[created(0, "H:lap:2")]);
    assert!(server.jobs[0].is_some());
    done(&mut server, 1, 9, &[], &[assigned(1, "H:lap:2", b"f", b"w")]);
    refused(&mut server, 1, 13, &[b"H:lap:1", b"late"], 14);
}

#[test]
fn a_unique_alone_does_not_join() {
    let mut server = opened(&[0]);
    done(&mut server, 0, 7, &[b"f", b"u", b""], &[created(0, "H:lap:1")]);
    done(&mut server, 0, 7, &[b"g", b"u", b""], &[created(0, "H:lap:2")]);
}

#[test]
fn a_workload_may_hold_zero_bytes() {
    let mut server = opened(&[0]);
    done(&mut server, 0, 1, &[b"f"], &[]);
    done(&mut server, 0, 7, &[b"f", b"u", b"\0a\0\0"], &[created(0, "H:lap:1")]);
    done(&mut server, 0, 30, &[], &[response(0, 31, &[b"H:lap:1", b"f", b"u", b"\0a\0\0"])]);
}

#[test]
fn a_listener_that_joins_twice_gets_one_copy() {
    let mut server = with_a_held_job();
    done(&mut server, 1, 33, &[b"f", b"u", b""], &[created(1, "H:lap:1")]);
    done(&mut server, 0, 7, &[b"f", b"u", b""], &[created(0, "H:lap:1")]);
    let copies = [response(0, 28, &[b"H:lap:1", b"d"]), response(1, 28, &[b"H:lap:1", b"d"])];
    done(&mut server, 1, 28, &[b"H:lap:1", b"d"], &copies);
}

// ---- Refusals in number order.

#[test]
fn connections() {
    let mut server = Server::new();
    for connection in [16, 255, 256, 65_536, u32::MAX] {
        assert_eq!(server.open(connection), 2);
        assert_eq!(server.close(connection), (2, vec![]));
        assert_eq!(server.packet(connection, b""), (2, vec![]));
    }
    assert_eq!(server.close(0), (3, vec![]));
    assert_eq!(server.packet(0, b""), (3, vec![]));
    assert_eq!(server.open(0), 0);
    assert_eq!(server.open(0), 4);
    assert_eq!(server.packet(0, b""), (5, vec![]));
    assert_eq!(server.open(15), 0);
}

#[test]
fn the_17th_function() {
    let mut server = opened(&[0, 1]);
    for function in 0..16 {
        done(&mut server, 0, 1, &[format!("f{function}").as_bytes()], &[]);
    }
    refused(&mut server, 1, 1, &[b"g"], 11);
    refused(&mut server, 1, 7, &[b"g", b"u", b""], 11);
    done(&mut server, 1, 2, &[b"g"], &[]);
    done(&mut server, 1, 1, &[b"f3"], &[]);
    done(&mut server, 1, 7, &[b"f3", b"u", b""], &[created(1, "H:lap:1")]);
    // A forgotten place is free for the next function, the lowest one first.
    done(&mut server, 0, 2, &[b"f9"], &[]);
    done(&mut server, 0, 2, &[b"f5"], &[]);
    done(&mut server, 0, 2, &[b"f3"], &[]);
    done(&mut server, 1, 2, &[b"f3"], &[]);
    done(&mut server, 1, 1, &[b"g"], &[]);
    assert_eq!(server.functions[5].unwrap().name.bytes(), b"g");
    assert_eq!(server.functions[3].unwrap().name.bytes(), b"f3");
}

#[test]
fn functions_before_jobs_before_serials() {
    let mut server = opened(&[0]);
    for function in 0..16 {
        done(&mut server, 0, 1, &[format!("f{function}").as_bytes()], &[]);
    }
    server.last_serial = u32::MAX - 32;
    for _ in 0..32 {
        assert_eq!(send(&mut server, 0, 18, &[b"f0", b"", b""]).0, 0);
    }
    refused(&mut server, 0, 7, &[b"g", b"", b""], 11);
    refused(&mut server, 0, 7, &[b"f1", b"", b""], 12);
    assert_eq!(send(&mut server, 0, 9, &[]).0, 0);
    assert_eq!(send(&mut server, 0, 14, &[b"H:lap:4294967264"]).0, 0);
    refused(&mut server, 0, 7, &[b"f1", b"", b""], 13);
}

#[test]
fn handles_of_others() {
    let mut server = with_a_held_job();
    // Connection 0 listens but does not hold.
    refused(&mut server, 0, 13, &[b"H:lap:1", b""], 14);
    refused(&mut server, 1, 13, &[b"H:lap:2", b""], 14);
    refused(&mut server, 1, 14, &[&[b'h'; 63]], 14);
    refused(&mut server, 1, 14, &[&[b'h'; 64]], 10);
    refused(&mut server, 1, 14, &[b""], 10);
    refused(&mut server, 1, 12, &[b"H:lap:1", b"1", b"12345678901"], 10);
    refused(&mut server, 1, 12, &[b"H:lap:1", b"", b"1"], 10);
    // A queued job is held by nobody.
    done(&mut server, 0, 7, &[b"g", b"", b""], &[created(0, "H:lap:2")]);
    refused(&mut server, 1, 14, &[b"H:lap:2"], 14);
}

#[test]
fn options() {
    let mut server = opened(&[0]);
    refused(&mut server, 0, 26, &[b""], 15);
    refused(&mut server, 0, 26, &[b"exception"], 15);
    refused(&mut server, 0, 26, &[b"exceptions "], 15);
    refused(&mut server, 0, 26, &[b"exceptions\0"], 10);
    for _ in 0..2 {
        done(&mut server, 0, 26, &[b"exceptions"], &[response(0, 27, &[b"exceptions"])]);
    }
}

// ---- Jobs and the queue.

#[test]
fn a_new_job_wakes_every_able_sleeper_once() {
    let mut server = opened(&[0, 1, 2, 3, 4]);
    for worker in [1, 2, 4] {
        done(&mut server, worker, 1, &[b"f"], &[]);
    }
    for sleeper in [1, 2, 3, 4] {
        done(&mut server, sleeper, 4, &[], &[]);
    }
    // The submitter sleeps and is able: first its JOB_CREATED, then the NOOPs in rising order.
    done(&mut server, 4, 7, &[b"f", b"u", b""], &[created(4, "H:lap:1"), noop(1), noop(2), noop(4)]);
    done(&mut server, 4, 7, &[b"f", b"v", b""], &[created(4, "H:lap:2")]);
    // Connection 3 sleeps on; a join wakes nobody.
    assert!(server.connections[3].asleep);
    done(&mut server, 0, 7, &[b"f", b"u", b""], &[created(0, "H:lap:1")]);
    done(&mut server, 3, 1, &[b"f"], &[noop(3)]);
    done(&mut server, 3, 4, &[], &[noop(3)]);
    assert!(!server.connections[3].asleep);
}

#[test]
fn what_ends_sleep() {
    let mut server = opened(&[0]);
    done(&mut server, 0, 4, &[], &[]);
    done(&mut server, 0, 4, &[], &[]);
    for (kind, arguments) in [(1, &[&b"f"[..]][..]), (2, &[b"f"]), (3, &[])] {
        done(&mut server, 0, kind, arguments, &[]);
        assert!(server.connections[0].asleep);
    }
    refused(&mut server, 0, 9, &[b"data"], 10);
    assert!(server.connections[0].asleep);
    done(&mut server, 0, 9, &[], &[no_job(0)]);
    assert!(!server.connections[0].asleep);
}

#[test]
fn close_drops_what_nobody_wants() {
    let mut server = opened(&[0, 1, 2]);
    done(&mut server, 1, 1, &[b"f"], &[]);
    done(&mut server, 0, 7, &[b"f", b"a", b"dropped"], &[created(0, "H:lap:1")]);
    done(&mut server, 0, 18, &[b"f", b"b", b"stays"], &[created(0, "H:lap:2")]);
    done(&mut server, 0, 7, &[b"f", b"c", b"stays"], &[created(0, "H:lap:3")]);
    done(&mut server, 2, 7, &[b"f", b"c", b""], &[created(2, "H:lap:3")]);
    done(&mut server, 0, 21, &[b"f", b"d", b"held"], &[created(0, "H:lap:4")]);
    done(&mut server, 1, 9, &[], &[assigned(1, "H:lap:4", b"f", b"held")]);
    assert_eq!(server.close(0), (0, vec![]));
    let serials: Vec<u32> = server.jobs.iter().flatten().map(|job| job.serial).collect();
    assert_eq!(serials, [2, 3, 4]);
    assert!(server.jobs[0].is_none() && server.workloads[..1_024].iter().all(|&byte| byte == 0));
    // The held job has no listener; it stays held, and is dropped when its holder leaves.
    done(&mut server, 1, 28, &[b"H:lap:4", b""], &[]);
    assert_eq!(server.close(1), (0, vec![]));
    let serials: Vec<u32> = server.jobs.iter().flatten().map(|job| job.serial).collect();
    assert_eq!(serials, [2, 3]);
}

#[test]
fn close_wakes_sleepers_for_returned_jobs() {
    let mut server = with_a_held_job();
    for sleeper in [5, 3] {
        assert_eq!(server.open(sleeper), 0);
        done(&mut server, sleeper, 1, &[b"f"], &[]);
        done(&mut server, sleeper, 4, &[], &[]);
    }
    done(&mut server, 1, 4, &[], &[]);
    assert_eq!(server.close(1), (0, vec![noop(3), noop(5)]));
    done(&mut server, 5, 9, &[], &[assigned(5, "H:lap:1", b"f", b"w")]);
    // A holder that alone listens takes the job with it.
    let mut server = opened(&[0, 1]);
    done(&mut server, 0, 1, &[b"f"], &[]);
    done(&mut server, 0, 7, &[b"f", b"", b"w"], &[created(0, "H:lap:1")]);
    done(&mut server, 0, 9, &[], &[assigned(0, "H:lap:1", b"f", b"w")]);
    done(&mut server, 1, 1, &[b"f"], &[]);
    done(&mut server, 1, 4, &[], &[]);
    assert_eq!(server.close(0), (0, vec![]));
    assert!(server.jobs[0].is_none());
}

#[test]
fn background_marks_stay() {
    let mut server = opened(&[0, 1]);
    done(&mut server, 0, 7, &[b"f", b"u", b"w"], &[created(0, "H:lap:1")]);
    done(&mut server, 1, 34, &[b"f", b"u", b""], &[created(1, "H:lap:1")]);
    done(&mut server, 1, 1, &[b"f"], &[]);
    done(&mut server, 1, 9, &[], &[assigned(1, "H:lap:1", b"f", b"w")]);
    // It is background now, and its listener still gets worker packets.
    done(&mut server, 1, 29, &[b"H:lap:1", b"!"], &[response(0, 29, &[b"H:lap:1", b"!"])]);
    assert_eq!(server.close(0), (0, vec![]));
    assert_eq!(server.close(1), (0, vec![]));
    assert!(server.jobs[0].is_some_and(|job| job.holder.is_none() && job.priority == 1));
}

#[test]
fn giving_up_an_ability_leaves_held_jobs() {
    let mut server = with_a_held_job();
    done(&mut server, 1, 3, &[], &[]);
    done(&mut server, 0, 7, &[b"f", b"", b""], &[created(0, "H:lap:2")]);
    done(&mut server, 1, 9, &[], &[no_job(1)]);
    done(&mut server, 1, 13, &[b"H:lap:1", b""], &[response(0, 13, &[b"H:lap:1", b""])]);
    // The function lives on by its second job, and dies with it.
    assert!(server.functions[0].is_some());
    assert_eq!(server.close(0), (0, vec![]));
    assert!(server.functions[0].is_none());
}

#[test]
fn workloads_are_followed_by_zeros_and_cleared() {
    let mut server = opened(&[0]);
    server.workloads.fill(0xee);
    done(&mut server, 0, 1, &[b"f"], &[]);
    done(&mut server, 0, 7, &[b"f", b"", b"abc"], &[created(0, "H:lap:1")]);
    assert_eq!(&server.workloads[..4], b"abc\0");
    assert!(server.workloads[3..1_024].iter().all(|&byte| byte == 0));
    assert!(server.workloads[1_024..].iter().all(|&byte| byte == 0xee));
    done(&mut server, 0, 9, &[], &[assigned(0, "H:lap:1", b"f", b"abc")]);
    done(&mut server, 0, 13, &[b"H:lap:1", b""], &[response(0, 13, &[b"H:lap:1", b""])]);
    assert!(server.workloads[..1_024].iter().all(|&byte| byte == 0));
}
