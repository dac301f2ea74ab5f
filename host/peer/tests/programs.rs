//! The programs `replay`, `show` and `capture` on the hub that their first argument names, and on `lap` without one.
mod common;
use common::request;
use peer::captures::capture_from;
use peer::hex;
use peer::replay::{replay, replay_from};
use peer::server::Server;
use peer::show::{show, show_from};
use std::io::Write;
use std::process::{Command, Output, Stdio};

const REPLAY: &str = env!("CARGO_BIN_EXE_replay");
const SHOW: &str = env!("CARGO_BIN_EXE_show");
const CAPTURE: &str = env!("CARGO_BIN_EXE_capture");

/// What a program answers to this input. One that does not read it may have ended before it is written.
fn run(program: &str, arguments: &[&str], input: &[u8]) -> Output {
    let mut started = Command::new(program)
        .args(arguments)
        .stdin(Stdio::piped())
        .stdout(Stdio::piped())
        .stderr(Stdio::piped())
        .spawn()
        .unwrap();
    let mut pipe = started.stdin.take().unwrap();
    let bytes = input.to_vec();
    let writer = std::thread::spawn(move || drop(pipe.write_all(&bytes)));
    let output = started.wait_with_output().unwrap();
    writer.join().unwrap();
    output
}

fn hub(name: &str) -> Server {
    Server::fresh(name.as_bytes()).unwrap()
}

/// A capture in which a job is held; then a worker names it by this handle.
fn held_and_named(handle: &str) -> Vec<u8> {
    let frame = |connection: u8, kind: u32, arguments: &[&[u8]]| {
        format!("03{connection:02x}{}\n", hex::write(&request(kind, arguments)))
    };
    let lines = [
        "0100\n0101\n".to_string(),
        frame(1, 1, &[b"f"]),
        frame(0, 7, &[b"f", b"", b"w"]),
        frame(1, 9, &[]),
        frame(1, 14, &[handle.as_bytes()]),
    ];
    lines.concat().into_bytes()
}

#[test]
fn handles_go_by_the_hub() {
    let capture = held_and_named("H:press2:1");
    let shown = show_from(hub("press2"), &capture);
    for words in ["    0 <- JOB_CREATED H:press2:1\n", "    job H:press2:1 holder 1 listeners 0\n"] {
        assert!(shown.contains(words), "{shown}");
    }
    let ended =
        "1 -> WORK_FAIL H:press2:1\n    0 <- WORK_FAIL H:press2:1\n    done\n    asleep none\n    ended H:press2:1\n";
    assert!(shown.ends_with(ended), "{shown}");
    // On another hub it is refused, and concerns no job.
    let shown = show(&capture);
    let last = "1 <- ERROR number 14 text handle\n    refused 14 handle\n    asleep none\n";
    assert!(shown.contains("    job H:lap:1 holder 1 listeners 0\n") && shown.ends_with(last), "{shown}");
    // An unknown job of this hub is named.
    let shown = show_from(hub("press2"), &held_and_named("H:press2:2"));
    assert!(shown.ends_with("    asleep none\n    no job H:press2:2\n"), "{shown}");
    let created = |name: &str| hex::write(format!("H:{name}:1").as_bytes());
    assert!(replay_from(hub("press2"), &capture).contains(&created("press2")));
    assert!(replay(&capture).contains(&created("lap")) && !replay(&capture).contains(&created("press2")));
}

#[test]
fn the_programs_take_a_name() {
    for name in ["lap", "lap1", "0", "abcdefghijklmno"] {
        let capture = capture_from(hub(name), 600, 3);
        let right = [(SHOW, show_from(hub(name), &capture)), (REPLAY, replay_from(hub(name), &capture))];
        for (program, right) in right {
            let output = run(program, &[name], &capture);
            assert!(output.status.success() && output.stderr.is_empty());
            assert!(output.stdout == right.as_bytes(), "{program} {name}");
            // Without a name it is `lap`.
            let without = run(program, &[], &capture).stdout;
            assert_eq!(without == right.as_bytes(), name == "lap", "{program} {name}");
        }
        assert!(run(CAPTURE, &[name, "--lines", "600", "--seed", "3"], b"").stdout == capture);
    }
    let lap = capture_from(Server::new(), 600, 3);
    assert!(run(CAPTURE, &["--lines", "600", "--seed", "3"], b"").stdout == lap);
}

#[test]
fn a_bad_name_is_answered_by_a_line() {
    let capture = held_and_named("H:lap:1");
    for program in [SHOW, REPLAY] {
        for arguments in
            [&[""][..], &["Lap"], &["lap "], &["la-p"], &["abcdefghijklmnop"], &["lap", "lap"], &["--hub"], &["-"]]
        {
            let output = run(program, arguments, &capture);
            let error = String::from_utf8(output.stderr).unwrap();
            assert!(error.starts_with("usage: ") && error.lines().count() == 1, "{error}");
            assert!(output.status.code() == Some(2) && output.stdout.is_empty(), "{arguments:?}");
        }
    }
    for arguments in [&["Lap"][..], &["lap", "lap"], &["--lines"], &["lap", "--lines", "x"]] {
        let output = run(CAPTURE, arguments, b"");
        assert!(output.status.code() == Some(2) && output.stdout.is_empty(), "{arguments:?}");
    }
}
