//! The text entry, request 1 of document 02: each command, its readings, and the refusals 1 to 3.
mod common;
use common::{opened, send};
use peer::commands::text;
use peer::image::image;
use peer::layout::{ASLEEP, IDS, OUTPUT, TABLE};
use peer::server::{Server, WORKLOADS};

const UNKNOWN: &str = "ERR unknown\n";

/// The text that a connection is answered, which is open.
fn asked(server: &Server, connection: u32, line: &[u8]) -> String {
    let (number, bytes) = server.text(connection, line);
    assert_eq!((number, u32::from(bytes[0])), (0, connection));
    String::from_utf8(bytes[1..].to_vec()).unwrap()
}

/// A request that is done, whatever it sends.
fn sent(server: &mut Server, connection: u32, kind: u32, arguments: &[&[u8]]) {
    assert_eq!(send(server, connection, kind, arguments).0, 0);
}

#[test]
fn nothing_but_the_asker() {
    let server = opened(&[7]);
    assert_eq!(asked(&server, 7, b"status\n"), ".\n");
    assert_eq!(asked(&server, 7, b"workers\n"), "7 - - :\n.\n");
    assert_eq!(asked(&server, 7, b"version\n"), "lap 1\n");
}

#[test]
fn the_output_starts_with_the_asker() {
    let server = opened(&[0, 10, 15]);
    assert_eq!(server.text(10, b"version\n"), (0, b"\x0alap 1\n".to_vec()));
    assert_eq!(server.text(0, b"x\n"), (0, b"\0ERR unknown\n".to_vec()));
    assert_eq!(server.text(15, b"status\n"), (0, b"\x0f.\n".to_vec()));
}

#[test]
fn status_counts_queued_and_held_jobs_and_who_is_able() {
    let mut server = opened(&[0, 1, 2]);
    sent(&mut server, 1, 1, &[b"sort"]);
    sent(&mut server, 2, 1, &[b"sort"]);
    sent(&mut server, 1, 1, &[b"print"]);
    // A function that a job alone names has nobody who can do it.
    sent(&mut server, 0, 18, &[b"reverse", b"", b"w"]);
    for _ in 0..3 {
        sent(&mut server, 0, 7, &[b"sort", b"", b"w"]);
    }
    assert_eq!(asked(&server, 0, b"status\n"), "print\t0\t0\t1\nreverse\t1\t0\t0\nsort\t3\t0\t2\n.\n");
    sent(&mut server, 2, 9, &[]);
    sent(&mut server, 1, 9, &[]);
    assert_eq!(asked(&server, 0, b"status\n"), "print\t0\t0\t1\nreverse\t1\t0\t0\nsort\t3\t2\t2\n.\n");
    // Giving up an ability leaves held jobs; an ended job is not counted.
    sent(&mut server, 2, 3, &[]);
    sent(&mut server, 1, 13, &[b"H:lap:3", b""]);
    assert_eq!(asked(&server, 0, b"status\n"), "print\t0\t0\t1\nreverse\t1\t0\t0\nsort\t2\t1\t1\n.\n");
}

#[test]
fn workers_lists_every_open_connection() {
    let mut server = opened(&[12, 3, 0, 9]);
    sent(&mut server, 9, 1, &[b"sort"]);
    sent(&mut server, 9, 1, &[b"print"]);
    sent(&mut server, 9, 22, &[b"press-9"]);
    sent(&mut server, 3, 22, &[b"board"]);
    sent(&mut server, 12, 1, &[b"sort"]);
    // A job's function is nobody's ability.
    sent(&mut server, 0, 18, &[b"reverse", b"", b"w"]);
    let list = "0 - - :\n3 - board :\n9 - press-9 : print sort\n12 - - : sort\n.\n";
    assert_eq!(asked(&server, 0, b"workers\n"), list);
    assert_eq!(asked(&server, 12, b"workers\n"), list);
    assert_eq!(server.close(3).0, 0);
    assert_eq!(asked(&server, 0, b"workers\n"), "0 - - :\n9 - press-9 : print sort\n12 - - : sort\n.\n");
}

#[test]
fn an_id_stays_over_a_reset_and_goes_with_the_close() {
    let mut server = opened(&[0, 1]);
    sent(&mut server, 1, 1, &[b"f"]);
    sent(&mut server, 1, 22, &[b"first"]);
    sent(&mut server, 1, 22, &[b"second"]);
    assert_eq!(asked(&server, 0, b"workers\n"), "0 - - :\n1 - second : f\n.\n");
    sent(&mut server, 1, 3, &[]);
    assert_eq!(asked(&server, 0, b"workers\n"), "0 - - :\n1 - second :\n.\n");
    assert_eq!(server.close(1).0, 0);
    assert_eq!(server.open(1), 0);
    assert_eq!(asked(&server, 0, b"workers\n"), "0 - - :\n1 - - :\n.\n");
}

#[test]
fn functions_in_the_reverse_order_of_their_places() {
    let mut server = opened(&[0, 1]);
    let names: Vec<String> = (b'a'..=b'p').map(|letter| char::from(letter).to_string()).collect();
    for name in names.iter().rev() {
        sent(&mut server, 1, 1, &[name.as_bytes()]);
    }
    assert_eq!(server.functions[0].unwrap().name.bytes(), b"p");
    assert_eq!(server.functions[15].unwrap().name.bytes(), b"a");
    let status: String = names.iter().map(|name| format!("{name}\t0\t0\t1\n")).collect();
    assert_eq!(asked(&server, 0, b"status\n"), status + ".\n");
    assert_eq!(asked(&server, 0, b"workers\n"), format!("0 - - :\n1 - - : {}\n.\n", names.join(" ")));
}

#[test]
fn names_that_start_alike() {
    let mut server = opened(&[0]);
    for name in [&b"aa"[..], b"b", b"a", b"a!", b"a!a", b"a~"] {
        sent(&mut server, 0, 1, &[name]);
    }
    assert_eq!(asked(&server, 0, b"workers\n"), "0 - - : a a! a!a aa a~ b\n.\n");
    let names: Vec<String> =
        asked(&server, 0, b"status\n").lines().map(|line| line.split('\t').next().unwrap().to_string()).collect();
    assert_eq!(names, ["a", "a!", "a!a", "aa", "a~", "b", "."]);
}

/// The order is that of the true bytes: `?` would stand between 33 and 126.
#[test]
fn bytes_outside_33_to_126_print_as_question_marks() {
    let mut server = opened(&[0]);
    for (name, jobs) in [(255, 1), (126, 2), (32, 3), (127, 4), (33, 5), (b'?', 6), (1, 7)] {
        for _ in 0..jobs {
            sent(&mut server, 0, 18, &[&[name], b"", b""]);
        }
    }
    let status = "?\t7\t0\t0\n?\t3\t0\t0\n!\t5\t0\t0\n?\t6\t0\t0\n~\t2\t0\t0\n?\t4\t0\t0\n?\t1\t0\t0\n.\n";
    assert_eq!(asked(&server, 0, b"status\n"), status);
    for name in [&b"x\xff"[..], b"x\x7f", b"x~", b"x!", b"x ", b"x"] {
        sent(&mut server, 0, 1, &[name]);
    }
    sent(&mut server, 0, 22, &[b"\x01\x1f \x21~\x7f\x80\xff\n\t"]);
    assert_eq!(asked(&server, 0, b"workers\n"), "0 - ???!~????? : x x? x! x~ x? x?\n.\n");
    // An id is not taken for none because it looks like that, or like something else.
    for (id, printed) in [(&b"-"[..], "-"), (b":", ":"), (b"- :", "-?:"), (b".", "."), (b"\n.\n", "?.?")] {
        sent(&mut server, 0, 22, &[id]);
        sent(&mut server, 0, 3, &[]);
        assert_eq!(asked(&server, 0, b"workers\n"), format!("0 - {printed} :\n.\n"));
    }
}

#[test]
fn all_32_jobs_of_one_function_held() {
    let mut server = opened(&[0, 5]);
    sent(&mut server, 5, 1, &[b"f"]);
    for held in 0..=32 {
        assert_eq!(asked(&server, 0, b"status\n"), format!("f\t{held}\t{held}\t1\n.\n"));
        if held < 32 {
            sent(&mut server, 0, 18, &[b"f", b"", b"w"]);
            sent(&mut server, 5, 9, &[]);
        }
    }
    // The holder leaves: all are queued, and nobody can do them.
    assert_eq!(server.close(5).0, 0);
    assert_eq!(asked(&server, 0, b"status\n"), "f\t32\t0\t0\n.\n");
}

/// Six lines of 600 bytes, ten of 599, the period line and the connection byte.
#[test]
fn the_longest_texts() {
    let all: Vec<u32> = (0..16).collect();
    let mut server = opened(&all);
    for &connection in &all {
        sent(&mut server, connection, 22, &[&[b'i'; 64]]);
        for number in 0..16 {
            sent(&mut server, connection, 1, &[&[b'A' + number; 32]]);
        }
    }
    let (number, bytes) = server.text(15, b"workers\n");
    assert_eq!((number, bytes.len()), (0, 1 + 10 * 599 + 6 * 600 + 2));
    assert!(bytes.len() <= OUTPUT);
    let lines: Vec<&[u8]> = bytes[1..].split_inclusive(|&byte| byte == b'\n').collect();
    assert_eq!(lines.len(), 17);
    assert!(lines[9].starts_with(b"9 - iiii") && lines[10].starts_with(b"10 - iiii"));
    assert!(lines[..16].iter().all(|line| line.ends_with(b"PPPP\n")));
    for _ in 0..32 {
        sent(&mut server, 0, 18, &[&[b'A'; 32], b"", b""]);
        sent(&mut server, 1, 9, &[]);
    }
    let status = asked(&server, 0, b"status\n");
    assert!(status.starts_with(&format!("{}\t32\t32\t16\n", "A".repeat(32))));
    // 16 lines of 40 bytes, two digits more in one of them, and the period line.
    assert_eq!(status.len(), 16 * 40 + 2 + 2);
}

#[test]
fn one_carriage_return_is_dropped() {
    let server = opened(&[2]);
    for (command, answer) in [("status", ".\n"), ("workers", "2 - - :\n.\n"), ("version", "lap 1\n")] {
        let answers = |end: &str| asked(&server, 2, format!("{command}{end}").as_bytes());
        assert_eq!(answers("\n"), answer);
        assert_eq!(answers("\r\n"), answer);
        for end in
            ["", "\r", "\r\r\n", "\r\n\r\n", "\n\n", "\n\r\n", "\n\r", "\nx", "\0\n", " \n", "\t\n", "s\n", "\r \n"]
        {
            assert_eq!(answers(end), UNKNOWN, "{command}{}", end.escape_debug());
        }
        for start in [" ", "\n", "\r", "\0", "\u{feff}"] {
            assert_eq!(asked(&server, 2, format!("{start}{command}\n").as_bytes()), UNKNOWN);
        }
    }
}

#[test]
fn any_other_line_is_unknown() {
    let server = opened(&[2]);
    let lines =
        ["", "\n", "\r\n", "\r", "STATUS\n", "Status\n", "Workers\n", "versioN\n", "statu\n", "worker\n", "v\n"];
    for line in lines.into_iter().chain(["shutdown\n", "maxqueue f 3\n", "status f\n", "lap 1\n", "ERR unknown\n"]) {
        assert_eq!(asked(&server, 2, line.as_bytes()), UNKNOWN, "{}", line.escape_debug());
    }
    assert_eq!(asked(&server, 2, b"\xff\xfe\n"), UNKNOWN);
    for length in [127, 128, 129, 130, 1_000, 100_000] {
        for fill in [b' ', b'\r', b'\n', b'\0', b's'] {
            let mut line = vec![fill; length];
            assert_eq!(asked(&server, 2, &line), UNKNOWN);
            line[length - 1] = b'\n';
            assert_eq!(asked(&server, 2, &line), UNKNOWN);
            line[..6].copy_from_slice(b"status");
            assert_eq!(asked(&server, 2, &line), UNKNOWN);
        }
    }
}

/// Lent buffers for the entry.
struct Lent {
    table: Vec<u8>,
    workloads: Vec<u8>,
    output: Vec<u8>,
}

impl Lent {
    fn new(server: &Server, lengths: [usize; 3]) -> Self {
        let mut table = image(server);
        table.resize(lengths[0], 0xc7);
        Lent { table, workloads: vec![0x77; lengths[1]], output: vec![0xa5; lengths[2]] }
    }

    /// The answer; the output beyond it must be as it was.
    fn asked(&mut self, connection: u32, line: &[u8]) -> (u32, Vec<u8>) {
        let (number, length) = text(&self.table, &self.workloads, &mut self.output, connection, line);
        assert!(self.output[length..].iter().all(|&byte| byte == 0xa5));
        (number, self.output[..length].to_vec())
    }
}

#[test]
fn refusals_1_2_and_3_in_order() {
    let mut server = opened(&[4]);
    sent(&mut server, 4, 22, &[b"id"]);
    let least = [TABLE, WORKLOADS, OUTPUT];
    let lines = [&b"status\n"[..], b"workers\n", b"version\n", b"unknown", b""];
    for line in lines {
        // Not open, above 15; one buffer a byte too short comes before both.
        for (connection, number) in [(4, 0), (3, 3), (15, 3), (16, 2), (255, 2), (260, 2), (u32::MAX, 2)] {
            let (answered, bytes) = Lent::new(&server, least).asked(connection, line);
            assert_eq!(answered, number);
            assert_eq!(bytes.is_empty(), number != 0);
            assert_eq!((answered, bytes), server.text(connection, line));
            for short in 0..3 {
                for cut in [1, least[short] / 2, least[short]] {
                    let mut lengths = least;
                    lengths[short] -= cut;
                    assert_eq!(Lent::new(&server, lengths).asked(connection, line), (1, vec![]));
                }
            }
            // Longer buffers, and bytes beyond the layout, say nothing.
            let mut longer = Lent::new(&server, [8_192, 40_000, 20_000]);
            assert_eq!(longer.asked(connection, line), server.text(connection, line));
            // A broken table rule: connection 3 is closed, yet it sleeps or has an id.
            for at in [ASLEEP + 3, IDS + 3 * 64] {
                let mut broken = Lent::new(&server, least);
                broken.table[at] = 1;
                assert_eq!(broken.asked(connection, line), (1, vec![]));
            }
        }
    }
}
