//! The random lines reach every answer of the text entry, in rich states too.
use peer::histories::History;
use peer::outbox::Outbox;
use peer::questions::{Question, COMMANDS};
use peer::random::Random;
use peer::server::Server;
use std::collections::BTreeMap;

/// The line ends with a line feed, and its words are this near to a command.
fn nearly(line: &[u8], near: fn(&[u8], &[u8]) -> bool) -> bool {
    line.strip_suffix(b"\n").is_some_and(|words| COMMANDS.iter().any(|command| near(command, words)))
}

#[test]
fn lines_reach_everything() {
    let mut out = Outbox::default();
    let mut random = Random::new(1);
    let mut counts: BTreeMap<&str, usize> = BTreeMap::new();
    for seed in 1..=20 {
        let mut history = History::new(seed);
        let mut server = history.start();
        for _ in 0..1_000 {
            history.next(&server).run(&mut server, &mut out);
            let question = Question::random(&server, &mut random);
            let (number, bytes) = question.run(&server);
            assert_eq!(bytes.is_empty(), number != 0);
            let line = &question.line[..];
            let command = COMMANDS.iter().find(|command| line.starts_with(command));
            let rest = command.map(|command| &line[command.len()..]);
            let text = String::from_utf8(bytes.get(1..).unwrap_or_default().to_vec()).unwrap();
            let unknown = text == "ERR unknown\n";
            assert!(number != 0 || unknown != (rest == Some(b"\n") || rest == Some(b"\r\n")), "{question}");
            let lines = text.lines().count();
            let functions = text.lines().map(|line| line.matches(' ').count().saturating_sub(3)).max();
            for (holds, what) in [
                (number == 2, "refusal 2"),
                (number == 3, "refusal 3"),
                (text == "lap 1\n", "version"),
                (unknown && rest == Some(b"\r\r\n"), "two carriage returns"),
                (unknown && rest == Some(b""), "no line feed"),
                (unknown && rest == Some(b"\r"), "a carriage return alone"),
                (unknown && line.is_empty(), "an empty line"),
                (unknown && line.len() > 128, "more than 128 bytes"),
                (unknown && line.len() == 129, "129 bytes"),
                (unknown && nearly(line, |command, words| command.eq_ignore_ascii_case(words)), "another case"),
                (unknown && nearly(line, |command, words| command.starts_with(words)), "a prefix"),
                (text.contains('\t') && lines > 10, "status of many functions"),
                (text.contains('\t') && text.contains('?'), "status with question marks"),
                (text.contains(" :") && lines > 10, "workers of many connections"),
                (text.contains(" : ") && text.contains('?'), "workers with question marks"),
                (text.contains(" :") && functions > Some(5), "workers of many functions"),
                (text.contains(" - worker-"), "workers with an id"),
            ] {
                *counts.entry(what).or_default() += usize::from(holds);
            }
        }
    }
    println!("{counts:?}");
    assert!(counts.values().all(|&count| count >= 20), "{counts:?}");
}

#[test]
fn the_fixed_lines_are_commands_and_others() {
    let mut server = Server::new();
    assert_eq!(server.open(6), 0);
    let questions = Question::fixed(6);
    let answers: Vec<Vec<u8>> = questions.iter().map(|question| question.run(&server).1).collect();
    let count = |answer: &[u8]| answers.iter().filter(|text| text[1..] == *answer).count();
    // Each command with a line feed, and with a carriage return before it.
    assert_eq!([count(b".\n"), count(b"6 - - :\n.\n"), count(b"lap 1\n")], [2, 2, 2]);
    assert_eq!(count(b"ERR unknown\n"), questions.len() - 6);
    assert!(questions.iter().any(|question| question.line.len() == 129));
}
