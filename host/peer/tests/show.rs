//! What docs/SHOW.md prints, line by line, and that random captures meet all of it.
mod common;

use common::{request, response};
use peer::captures::capture;
use peer::hex;
use peer::packet::{shape, Side};
use peer::show::show;
use peer::words::{labels, name, packet_line, refusal};

/// A frame's line: a packet of this type and these arguments.
fn sent(connection: u8, kind: u32, arguments: &[&[u8]]) -> String {
    format!("03{connection:02x}{}\n", hex::write(&request(kind, arguments)))
}

fn requested(connection: u32, kind: u32, arguments: &[&[u8]]) -> String {
    packet_line(Side::Request, connection, &request(kind, arguments))
}

fn responded(connection: u8, kind: u32, arguments: &[&[u8]]) -> String {
    packet_line(Side::Response, connection.into(), &response(connection, kind, arguments).1)
}

/// What stands below the last line of a capture.
fn last(capture: &str) -> Vec<String> {
    let shown = show(capture.as_bytes());
    let lines: Vec<&str> = shown.lines().collect();
    let start = lines.iter().rposition(|line| line.starts_with("line ")).unwrap();
    lines[start + 1..].iter().map(|line| line.strip_prefix("    ").unwrap().to_string()).collect()
}

#[test]
fn packets_that_are_read() {
    assert_eq!(requested(1, 1, &[b"reverse"]), "1 -> CAN_DO reverse");
    assert_eq!(requested(1, 9, &[]), "1 -> GRAB_JOB");
    assert_eq!(
        requested(0, 7, &[b"reverse", b"", b"test"]),
        "0 -> SUBMIT_JOB function reverse unique \"\" workload 4 bytes"
    );
    assert_eq!(responded(0, 8, &[b"H:lap:1"]), "0 <- JOB_CREATED H:lap:1");
    assert_eq!(
        responded(1, 11, &[b"H:lap:1", b"reverse", b"test"]),
        "1 <- JOB_ASSIGN handle H:lap:1 function reverse workload 4 bytes"
    );
    assert_eq!(requested(1, 13, &[b"H:lap:1", b"tset"]), "1 -> WORK_COMPLETE handle H:lap:1 data 4 bytes");
    assert_eq!(
        responded(0, 20, &[b"H:lap:1", b"1", b"0", b"0", b"0"]),
        "0 <- STATUS_RES handle H:lap:1 known 1 running 0 numerator 0 denominator 0"
    );
    assert_eq!(responded(2, 19, &[b"09", b"type"]), "2 <- ERROR number 09 text type");
    assert_eq!(requested(15, 16, &[b"a\0b\0c\0"]), "15 -> ECHO_REQ 6 bytes");
    assert_eq!(requested(3, 1, &[b"a b\xff"]), "3 -> CAN_DO a?b?");
    assert_eq!(requested(3, 26, &[b""]), "3 -> OPTION_REQ \"\"");
    assert_eq!(requested(3, 22, &[b"an id\xff"]), "3 -> SET_CLIENT_ID an?id?");
    assert_eq!(requested(3, 16, &[b""]), "3 -> ECHO_REQ 0 bytes");
    assert_eq!(requested(3, 16, &[b"a"]), "3 -> ECHO_REQ 1 byte");
    assert_eq!(requested(3, 1, &[b"\x20\x21\x7e\x7f"]), "3 -> CAN_DO ?!~?");
}

#[test]
fn packets_that_cannot_be_read() {
    assert_eq!(packet_line(Side::Request, 2, b""), "2 -> (unreadable: under 12 bytes)");
    assert_eq!(packet_line(Side::Request, 2, &response(2, 6, &[]).1), "2 -> (unreadable: magic)");
    assert_eq!(requested(2, 16, &[&[0; 1_025]]), "2 -> (unreadable: size)");
    assert_eq!(
        packet_line(Side::Request, 2, &[&request(9, &[])[..], b"a"].concat()),
        "2 -> (unreadable: length is not 12 + size)"
    );
    assert_eq!(requested(2, 23, &[b"id"]), "2 -> CAN_DO_TIMEOUT (unreadable: type)");
    assert_eq!(requested(2, 22, &[b""]), "2 -> SET_CLIENT_ID (unreadable: arguments)");
    assert_eq!(requested(2, 22, &[b"i\0d"]), "2 -> SET_CLIENT_ID (unreadable: arguments)");
    assert_eq!(requested(2, 5, &[]), "2 -> (unused) (unreadable: type)");
    for kind in [0, 37, 39, 256 + 9, u32::MAX] {
        assert_eq!(requested(2, kind, &[]), format!("2 -> type {kind} (unreadable: type)"));
    }
    assert_eq!(requested(2, 1, &[b""]), "2 -> CAN_DO (unreadable: arguments)");
    assert_eq!(refusal(14), "refused 14 handle");
    assert_eq!(refusal(17), "refused 17 ?");
}

#[test]
fn every_argument_has_a_label() {
    for kind in 0..40 {
        let counts = [Side::Request, Side::Response].map(|side| shape(side, kind).map(<[_]>::len));
        for count in counts.into_iter().flatten() {
            assert_eq!(labels(kind).len(), count, "{}", name(kind));
        }
        if counts == [None, None] {
            assert!(labels(kind).is_empty(), "{}", name(kind));
        }
    }
}

#[test]
fn a_line_that_is_no_frame() {
    assert_eq!(show(b""), "");
    assert_eq!(
        show(b"\n0100"),
        "line 1\n    refused 16 line is not a frame\nline 2 0100\n    0 opens\n    done\n    asleep none\n"
    );
}

#[test]
fn digits_end_with_the_header() {
    let first = |capture: &str| show(capture.as_bytes()).lines().next().unwrap().to_string();
    assert_eq!(first(&sent(2, 16, &[b"a name"])), "line 1 0302005245510000001000000006");
    assert_eq!(first(&sent(2, 22, &[b"a name"])), "line 1 0302005245510000001600000006");
    assert_eq!(first(&sent(2, 23, &[b"a name"])), "line 1 0302005245510000001700000006");
    assert_eq!(first("0302005245510000001000000006\n"), "line 1 0302");
    assert_eq!(first("0302616263\n"), "line 1 0302");
    assert_eq!(first("02ff"), "line 1 02ff");
    assert_eq!(first("02fF"), "line 1");
}

#[test]
fn an_id_concerns_no_job() {
    let slept = format!("0100\n{}{}", sent(0, 7, &[b"f", b"", b"w"]), sent(0, 4, &[]));
    let named = slept.clone() + &sent(0, 22, &[b"H:lap:1"]);
    assert_eq!(last(&named), ["0 -> SET_CLIENT_ID H:lap:1", "done", "asleep 0"]);
    let refused = last(&(slept + &sent(0, 22, &[&[b'i'; 65]])));
    let error = "0 <- ERROR number 10 text arguments";
    assert_eq!(refused, ["0 -> SET_CLIENT_ID (unreadable: arguments)", error, "refused 10 arguments", "asleep 0"]);
    assert_eq!(labels(22), ["id"]);
}

#[test]
fn the_job_concerned() {
    let queued = format!("0100\n0101\n{}{}", sent(1, 1, &[b"f"]), sent(0, 7, &[b"f", b"", b"w"]));
    assert_eq!(last(&queued).last().unwrap(), "job H:lap:1 holder none listeners 0");
    let held = queued + &sent(1, 9, &[]);
    assert_eq!(last(&held).last().unwrap(), "job H:lap:1 holder 1 listeners 0");
    for (handle, job) in [
        ("H:lap:1", "job H:lap:1 holder 1 listeners 0"),
        ("H:lap:2", "no job H:lap:2"),
        ("H:lap:4294967295", "no job H:lap:4294967295"),
        // No handles, so that no job is concerned and the sleepers stand last.
        ("H:lap:01", "asleep none"),
        ("H:lap:0", "asleep none"),
        ("H:lap:4294967296", "asleep none"),
    ] {
        // Asked for, refused by 14, and from a connection that is not open.
        for line in
            [sent(0, 15, &[handle.as_bytes()]), sent(0, 14, &[handle.as_bytes()]), sent(2, 14, &[handle.as_bytes()])]
        {
            assert_eq!(last(&(held.clone() + &line)).last().unwrap(), job, "{line}");
        }
    }
    let ended = held + &sent(1, 14, &[b"H:lap:1"]);
    assert_eq!(
        last(&ended),
        ["1 -> WORK_FAIL H:lap:1", "0 <- WORK_FAIL H:lap:1", "done", "asleep none", "ended H:lap:1"]
    );
    let late = ended + &sent(1, 14, &[b"H:lap:1"]);
    assert_eq!(last(&late)[2..], ["refused 14 handle", "asleep none", "no job H:lap:1"]);
}

#[test]
fn after_a_close_that_is_done_all_jobs_are_shown() {
    let mut capture = format!("0100\n0101\n0102\n{}", sent(1, 1, &[b"f"]));
    for connection in [2, 0, 2] {
        capture += &sent(connection, 7, &[b"f", b"u", b"w"]);
        capture += &sent(connection, 18, &[b"g", b"", b"w"]);
    }
    capture += &sent(1, 9, &[]);
    capture += &sent(2, 7, &[b"f", b"", b"w"]);
    let others = [2, 3, 4].map(|serial| format!("job H:lap:{serial} background holder none listeners none"));
    let refused = last(&(capture.clone() + "020f\n"));
    assert_eq!(refused, ["15 closes", "refused 3 connection not open", "asleep none"]);
    let left = last(&(capture + "0202\n"));
    assert_eq!(left[..3], ["2 closes", "done", "asleep none"]);
    assert_eq!(left[3], "dropped H:lap:5");
    assert_eq!(left[4], "job H:lap:1 holder 1 listeners 0");
    assert_eq!(left[5..], others);
}

#[test]
fn dropped_jobs_in_the_order_of_their_places() {
    let mut capture = format!("0100\n0101\n{}", sent(1, 1, &[b"f"]));
    for kind in [33, 7, 21] {
        capture += &sent(0, kind, &[b"f", b"", b"w"]);
    }
    // The highest priority is held and ends, and a new job takes its place, the last of the three.
    capture += &(sent(1, 9, &[]) + &sent(1, 14, &[b"H:lap:3"]) + &sent(0, 33, &[b"f", b"", b"w"]) + &sent(1, 9, &[]));
    let left = last(&(capture.clone() + "0200\n"));
    assert_eq!(left[2..], ["asleep none", "dropped H:lap:1", "dropped H:lap:4", "job H:lap:2 holder 1 listeners none"]);
    // The holder leaves, and nobody is left who listens.
    let left = last(&(capture + "0200\n0201\n"));
    assert_eq!(left[2..], ["asleep none", "dropped H:lap:2"]);
}

#[test]
fn the_marks_of_a_job() {
    for (kind, marks) in
        [(7, ""), (18, " background"), (21, " high"), (32, " high background"), (33, " low"), (34, " low background")]
    {
        let listeners = if marks.ends_with("background") { "none" } else { "0" };
        let shown = last(&format!("0100\n{}", sent(0, kind, &[b"f", b"", b"w"])));
        assert_eq!(shown.last().unwrap(), &format!("job H:lap:1{marks} holder none listeners {listeners}"));
    }
}

#[test]
fn sleepers_in_rising_order() {
    let capture = [11u8, 3, 7].map(|connection| format!("01{connection:02x}\n{}", sent(connection, 4, &[])));
    assert_eq!(last(&capture.concat()), ["7 -> PRE_SLEEP", "done", "asleep 3 7 11"]);
}

#[test]
fn random_captures_reach_everything() {
    let shown: String = (1..=4).map(|seed| show(&capture(5_000, seed))).collect();
    let count = |part: &str| shown.matches(part).count();
    for number in (2..=16).filter(|&number| number != 13) {
        assert!(count(&format!("\n    {}\n", refusal(number))) >= 20, "{}", refusal(number));
    }
    for kind in 0..=37 {
        let named =
            |arrow: &str| count(&format!(" {arrow} {} ", name(kind))) + count(&format!(" {arrow} {}\n", name(kind)));
        assert!(named("->") > 0, "-> {}", name(kind));
        assert!(shape(Side::Response, kind).is_none() || named("<-") >= 10, "<- {}", name(kind));
    }
    for part in [
        "\n    no job H:lap:",
        "\n    ended H:lap:",
        "\n    dropped H:lap:",
        " high holder ",
        " low background holder ",
        " holder 1 listeners ",
        " listeners none\n",
    ] {
        assert!(count(part) >= 20, "{part}");
    }
    let longest = |word: &str| {
        shown.lines().filter_map(|line| line.split_once(word)).map(|(_, list)| list.split(' ').count()).max()
    };
    assert!(longest("listeners ") >= Some(5) && longest("asleep ") >= Some(5));
    let jobs = |line: &str| line.matches("\n    job ").count();
    assert!(shown.split("\nline ").map(jobs).max() >= Some(30), "a close while the queue is full");
}
