//! Two histories that differ in opaque bytes alone have the same numbers, lengths, tables and texts, and send the same
//! packets but for the opaque bytes in them.
use peer::event::Event;
use peer::histories::{request, History};
use peer::image::image;
use peer::outbox::Outbox;
use peer::packet::Side;
use peer::questions::Question;
use peer::random::Random;
use peer::server::Server;
use peer::twins::{blind, twin};

/// The history's start, and the same with any other workloads.
fn starts(history: &mut History, random: &mut Random) -> [Server; 2] {
    let first = history.start();
    let mut second = first.clone();
    second.workloads.fill_with(|| random.byte());
    [first, second]
}

/// The packets with their connections, without what is opaque in them.
fn blinded(out: &Outbox) -> Vec<(u8, Vec<u8>)> {
    out.packets().into_iter().map(|(connection, packet)| (connection, blind(Side::Response, &packet))).collect()
}

#[test]
fn texts_depend_on_no_opaque_byte() {
    let mut outs = [Outbox::default(), Outbox::default()];
    let (mut other_packets, mut other_workloads, mut ids, mut lists, mut exceptions) = (0, 0, 0, 0, 0);
    for seed in 300..320 {
        let mut history = History::new(seed);
        let mut random = Random::new(seed);
        let [mut first, mut second] = starts(&mut history, &mut random);
        for index in 0..800 {
            let event = history.next(&first);
            let other = twin(&event, &mut random);
            let numbers = [event.run(&mut first, &mut outs[0]), other.run(&mut second, &mut outs[1])];
            assert_eq!(numbers[0], numbers[1], "seed {seed}, event {index}: {event}");
            assert_eq!(blinded(&outs[0]), blinded(&outs[1]), "seed {seed}, event {index}: {event}");
            assert_eq!(image(&first), image(&second), "seed {seed}, event {index}: {event}");
            let asker = random.below(16) as u32;
            let mut questions = Question::commands(asker).to_vec();
            questions.push(Question::random(&first, &mut random));
            for question in questions {
                let answer = question.run(&first);
                assert_eq!(answer, question.run(&second), "seed {seed}, event {index}: {question}");
                lists += usize::from(answer.1.len() > 100);
            }
            other_packets += usize::from(outs[0].bytes() != outs[1].bytes());
            let both_kinds = outs[0].count(25) > 0 && outs[0].count(14) > 0;
            exceptions += usize::from(event != other && both_kinds);
            other_workloads += usize::from(first.workloads != second.workloads);
            ids += first.connections.iter().filter(|connection| !connection.id.is_empty()).count();
        }
    }
    println!("{other_packets} {other_workloads} {ids} {lists} {exceptions}");
    assert!(other_packets > 500 && other_workloads > 10_000 && ids > 10_000 && lists > 5_000 && exceptions > 20);
}

/// Document 02, request 3: another exception shows only in the copies that carry it, whoever of the five listeners has
/// set the option; the WORK_FAIL packets agree to the byte.
#[test]
fn an_exception_shows_in_its_copies_alone() {
    let handle = b"H:lap:1";
    for options in 0..32 {
        let answer = |text: &[u8]| {
            let mut server = Server::new();
            for connection in 0..6 {
                assert_eq!(server.open(connection), 0);
                if options >> connection & 1 == 1 {
                    assert_eq!(server.packet(connection, &request(26, &[b"exceptions"])).0, 0);
                }
            }
            assert_eq!(server.packet(5, &request(1, &[b"f"])).0, 0);
            for listener in 0..5 {
                assert_eq!(server.packet(listener, &request(7, &[b"f", b"u", b"w"])).0, 0);
            }
            assert_eq!(server.packet(5, &request(9, &[])).0, 0);
            let (number, packets) = server.packet(5, &request(25, &[handle, text]));
            assert_eq!((number, packets.len()), (0, 5));
            (packets, image(&server), server.workloads)
        };
        let [first, second] = [answer(b"ink is out"), answer(b"\0paper jam")];
        assert_eq!((&first.1, &first.2), (&second.1, &second.2));
        for (listener, (one, other)) in first.0.iter().zip(&second.0).enumerate() {
            assert_eq!([one.0, other.0], [listener as u8; 2]);
            if options >> listener & 1 == 1 {
                assert!(one.1[..20] == other.1[..20] && one.1 != other.1);
                assert_eq!((&one.1[20..], &other.1[20..]), (&b"ink is out"[..], &b"\0paper jam"[..]));
            } else {
                assert_eq!(one, other);
                assert_eq!(one.1[12..], *handle);
            }
        }
    }
}

/// An id is not opaque: a twin keeps it, and another one shows.
#[test]
fn an_id_is_seen() {
    let event = Event::Packet(3, request(22, &[b"press"]));
    assert_eq!(twin(&event, &mut Random::new(1)), event);
    let workers = |id: &[u8]| {
        let mut server = Server::new();
        assert_eq!(server.open(3), 0);
        assert_eq!(server.packet(3, &request(22, &[id])), (0, vec![]));
        server.text(3, b"workers\n")
    };
    assert_ne!(workers(b"press"), workers(b"presr"));
}
