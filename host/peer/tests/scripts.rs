//! The fixed histories do what they are named for.
use peer::event::Event;
use peer::handle;
use peer::hub::LAP;
use peer::image::image;
use peer::layout::OUTPUT;
use peer::outbox::Outbox;
use peer::rules::broken;
use peer::scripts;
use peer::server::Server;
use std::cmp::Reverse;

/// Runs a script; gives what `look` sees of each answer, and the last state.
fn run_with<T>(name: &str, look: fn(u32, &Outbox) -> T) -> (Vec<T>, Server) {
    let all = scripts::all();
    let script = all.iter().find(|script| script.name == name).unwrap();
    let mut server = script.start();
    let mut out = Outbox::default();
    let mut answers = Vec::new();
    for event in &script.events {
        let number = event.run(&mut server, &mut out);
        answers.push(look(number, &out));
        assert_eq!(broken(&image(&server)), Vec::<&str>::new());
    }
    (answers, server)
}

/// Runs a script; gives the numbers, the lengths of the outputs, and the last state.
fn run(name: &str) -> (Vec<u32>, Vec<usize>, Server) {
    let (answers, server) = run_with(name, |number, out| (number, out.bytes().len()));
    let (numbers, lengths) = answers.into_iter().unzip();
    (numbers, lengths, server)
}

/// The serial of the job that a grab gave, 0 for NO_JOB; nothing if the packets are no answer to a grab.
fn given(_: u32, out: &Outbox) -> Option<u32> {
    let packet = out.addressed().next()?;
    match packet[8] {
        10 => Some(0),
        11 | 31 => handle::read(LAP, packet[13..].split(|&byte| byte == 0).next()?),
        _ => None,
    }
}

#[test]
fn the_largest_output_is_just_the_least_length() {
    let (numbers, lengths, _) = run("largest output");
    assert!(numbers.iter().all(|&number| number == 0));
    assert_eq!(lengths.iter().filter(|&&length| length == OUTPUT).count(), 4);
    assert_eq!(lengths.iter().max(), Some(&OUTPUT));
}

#[test]
fn the_largest_assignment_has_1041_bytes_of_data() {
    let (numbers, lengths, _) = run("largest assignment");
    assert!(numbers.iter().all(|&number| number == 0));
    assert_eq!(lengths.iter().max(), Some(&(1 + 12 + 1_041)));
}

#[test]
fn new_jobs_are_refused_by_the_lowest_number() {
    let (numbers, _, server) = run("refusals of new jobs");
    let refusals = &numbers[16 + 32..];
    assert_eq!(refusals[..6], [11, 11, 12, 12, 0, 0]);
    assert_eq!(refusals[6..9], [0, 0, 0]);
    assert_eq!(refusals[9..15], [11, 11, 13, 13, 0, 0]);
    assert_eq!(refusals[15..20], [0, 0, 0, 13, 0]);
    assert_eq!(refusals[20..], [13, 0, 11, 13, 0, 0]);
    assert_eq!(server.last_serial, u32::MAX);
}

#[test]
fn all_are_woken() {
    let (numbers, lengths, _) = run("all asleep");
    assert!(numbers.iter().all(|&number| number == 0));
    // JOB_CREATED and 16 NOOPs, then 15 NOOPs at the close.
    assert!(lengths.contains(&(20 + 16 * 13)));
    assert!(lengths.contains(&(15 * 13)));
}

#[test]
fn leaving_returns_drops_and_forgets() {
    let (numbers, _, server) = run("holder of all jobs leaves");
    assert!(numbers.iter().all(|&number| number == 0));
    let held = server.jobs.iter().flatten().filter(|job| job.holder == Some(15)).count();
    assert!(held > 10 && held < 32, "{held}");
    let (_, _, server) = run("client of all jobs leaves");
    assert_eq!(server.jobs.iter().flatten().count(), 1);
    assert_eq!(server.functions[0].unwrap().name.bytes(), b"again");
    assert_eq!(server.functions.iter().flatten().count(), 1);
    assert!(server.workloads.iter().all(|&byte| byte == 0));
}

#[test]
fn a_whole_queue_is_given_out_in_order() {
    let (numbers, _, server) = run("priorities");
    assert!(numbers.iter().all(|&number| number == 0));
    let (answers, _) = run_with("priorities", given);
    let grabbed: Vec<u32> = answers.into_iter().flatten().collect();
    // NO_JOB with no job, without abilities and with held jobs only; the rest by priority, serial and ability.
    assert_eq!(grabbed[..10], [0, 0, 2, 1, 0, 3, 4, 5, 7, 6]);
    assert!(grabbed[10..42].iter().copied().eq(8..40));
    let mut jobs: Vec<_> = server.jobs.iter().flatten().collect();
    let by_place: Vec<u32> = jobs.iter().map(|job| job.serial).collect();
    jobs.sort_by_key(|job| (Reverse(job.priority), job.serial));
    let in_order: Vec<u32> = jobs.iter().map(|job| job.serial).collect();
    assert!(in_order.len() == 32 && in_order[0] == 42 && by_place[22] == 42 && by_place[1] == 43);
    assert_eq!(grabbed[42..], [&[0], &in_order[..], &[0]].concat());
}

/// The number, whom each packet went to and its type.
fn told(number: u32, out: &Outbox) -> (u32, Vec<(u8, u8)>) {
    (number, out.addressed().map(|packet| (packet[0], packet[8])).collect())
}

#[test]
fn exceptions_meet_every_mix_of_listeners() {
    let all = scripts::all();
    let script = all.iter().find(|script| script.name == "exceptions").unwrap();
    let (answers, server) = run_with("exceptions", told);
    let answers_to = |kind: u8, number: u32| -> Vec<&[(u8, u8)]> {
        let is = |event: &Event| matches!(event, Event::Packet(_, packet) if packet[7] == kind);
        let both = script.events.iter().zip(&answers);
        both.filter(|(event, answer)| is(event) && answer.0 == number).map(|(_, answer)| &answer.1[..]).collect()
    };
    let everyone: Vec<(u8, u8)> = (0..16).map(|c| (c, if [0, 2, 4, 9, 15].contains(&c) { 25 } else { 14 })).collect();
    let right: [&[(u8, u8)]; 14] = [
        &[(0, 25), (1, 14), (2, 25), (3, 14), (4, 25)],
        &[(1, 14), (2, 25), (3, 14), (4, 25)],
        &[(1, 14), (3, 14), (14, 14)],
        &[(0, 25), (2, 25), (15, 25)],
        &[],
        &[(0, 25), (1, 14)],
        &[(5, 14)],
        &[(4, 25), (5, 14), (6, 14)],
        &[(0, 25), (1, 14)],
        &everyone,
        &[(8, 25), (9, 25), (10, 14)],
        &[(5, 25), (10, 14)],
        &[(8, 14), (9, 25)],
        &[(9, 25), (10, 14)],
    ];
    assert_eq!(answers_to(25, 0), right);
    // Refused are one that does not hold the job, and all that comes too late; the rest is done.
    assert_eq!([13, 14, 25].map(|kind| answers_to(kind, 14).len()), [14, 14, 28]);
    assert_eq!(answers.iter().filter(|(number, _)| *number != 0).count(), 56);
    assert!(server.jobs.iter().all(Option::is_none));
}

/// Runs a script; gives the state after each event.
fn states(name: &str) -> Vec<Server> {
    let all = scripts::all();
    let script = all.iter().find(|script| script.name == name).unwrap();
    let mut server = script.start();
    let mut out = Outbox::default();
    let mut after = |event: &Event| {
        event.run(&mut server, &mut out);
        server.clone()
    };
    script.events.iter().map(&mut after).collect()
}

/// What connection 15 is answered, line by line.
fn asked(server: &Server, line: &[u8]) -> Vec<String> {
    let (number, bytes) = server.text(15, line);
    assert_eq!(number, 0);
    String::from_utf8(bytes[1..].to_vec()).unwrap().lines().map(str::to_string).collect()
}

#[test]
fn ids_are_set_refused_kept_and_cleared() {
    let (numbers, _, _) = run("client ids");
    let count = |number: u32| numbers.iter().filter(|&&other| other == number).count();
    assert_eq!([count(2), count(3), count(10)], [1, 1, 14]);
    assert_eq!(count(0), numbers.len() - 16);
    let states = states("client ids");
    let ids =
        |text: &[u8]| states.iter().filter(|state| state.connections.iter().any(|c| c.id.bytes() == text)).count();
    assert!([&b"alone"[..], b"i", &[b'i'; 64], &[b'z'; 63], b"\xff", b"short", b"again"]
        .into_iter()
        .all(|id| ids(id) > 0));
    assert!(ids(b"not open") == 0 && ids(&[b'i'; 65]) == 0);
    assert!(states.iter().any(|state| state.connections[10].asleep && state.connections[10].id.bytes() == b"asleep"));
    assert!(states.last().unwrap().connections.iter().all(|connection| connection.open && connection.id.is_empty()));
}

#[test]
fn the_longest_texts_are_asked() {
    let states = states("longest texts");
    let longest = |line: &[u8]| states.iter().map(|state| state.text(15, line).1.len()).max();
    assert_eq!(longest(b"workers\n"), Some(1 + 10 * 599 + 6 * 600 + 2));
    assert_eq!(longest(b"status\n"), Some(1 + 16 * 40 + 2 + 2));
    let held = &states[states.len() - 2];
    let last = format!("{}m\t32\t32\t16", "n".repeat(31));
    assert!(asked(held, b"status\n").contains(&last));
}

#[test]
fn names_are_listed_by_their_bytes() {
    let states = states("names in reverse");
    let server = &states[states.len() - 2];
    let names: Vec<String> = (1..=16).map(|number| format!("function-{number:02}")).collect();
    let status = asked(server, b"status\n");
    let firsts: Vec<&str> = status.iter().map(|line| line.split('\t').next().unwrap()).collect();
    assert_eq!(firsts[..16], names);
    assert_eq!(server.functions[0].unwrap().name.bytes(), b"function-16");
    // Function 16 is named by a job alone; 14 is held by a connection that has given it up.
    assert_eq!([&status[15], &status[13]], ["function-16\t1\t0\t0", "function-14\t1\t1\t0"]);
}

#[test]
fn names_that_print_alike_are_listed_by_their_bytes() {
    let server = states("names alike").pop().unwrap();
    let workers = asked(&server, b"workers\n");
    // Connection 3 can do all of them but `a!`, which nobody can do now; jobs of it wait.
    assert_eq!(workers[3], "3 - ? : ? ? ? ! ? a a? a? aa a~ a? a? ~ ? ?");
    assert_eq!(workers[16], ".");
    assert!(asked(&server, b"status\n").contains(&"a!\t2\t0\t0".to_string()));
}
