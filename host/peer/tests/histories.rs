//! The random histories reach what they are for: every number, every request done, every type sent, joins, sleep, grabs
//! among many jobs, and client ids.
mod common;
use common::grab::Grab;
use peer::event::Event;
use peer::histories::{History, SUBMISSIONS};
use peer::outbox::Outbox;
use peer::server::Server;
use peer::state::has;
use std::collections::BTreeMap;

#[test]
fn histories_reach_everything() {
    let mut out = Outbox::default();
    let (mut numbers, mut done, mut sent) = ([0; 16], [0; 37], [0; 37]);
    let (mut joins, mut full, mut crowded, mut sleepers, mut listeners, mut largest) = (0, 0, 0, 0, 0, 0);
    for seed in 1..=30 {
        let mut history = History::new(seed);
        let mut server = history.start();
        for _ in 0..2_000 {
            let event = history.next(&server);
            let last_serial = server.last_serial;
            let number = event.run(&mut server, &mut out);
            numbers[number as usize] += 1;
            if let (Event::Packet(_, packet), 0) = (&event, number) {
                done[packet[7] as usize] += 1;
                let submission = SUBMISSIONS.contains(&u32::from(packet[7]));
                joins += usize::from(submission && server.last_serial == last_serial);
                largest += usize::from(packet.len() == 12 + 1_024);
            }
            for packet in out.addressed() {
                sent[packet[8] as usize] += 1;
            }
            full += usize::from(server.jobs.iter().all(Option::is_some));
            crowded += usize::from(server.functions.iter().all(Option::is_some));
            sleepers += usize::from(server.connections.iter().filter(|connection| connection.asleep).count() > 2);
            listeners += server.jobs.iter().flatten().filter(|job| job.listeners.count_ones() > 2).count();
        }
    }
    for number in [0, 2, 3, 4, 5, 6, 7, 8, 9, 10, 11, 12, 13, 14, 15] {
        assert!(numbers[number] >= 20, "number {number}: {numbers:?}");
    }
    for kind in [1, 2, 3, 4, 7, 9, 12, 13, 14, 15, 16, 18, 21, 22, 25, 26, 28, 29, 30, 32, 33, 34] {
        assert!(done[kind] >= 100, "type {kind}: {done:?}");
    }
    for kind in [6, 8, 10, 11, 12, 13, 14, 17, 19, 20, 25, 27, 28, 29, 31] {
        assert!(sent[kind] >= 50, "type {kind}: {sent:?}");
    }
    for (count, what) in [
        (joins, "joins"),
        (full, "full"),
        (crowded, "crowded"),
        (sleepers, "sleepers"),
        (listeners, "listeners"),
        (largest, "largest"),
    ] {
        assert!(count >= 100, "{what}: {count}");
    }
    println!(
        "joins {joins}, full {full}, crowded {crowded}, sleepers {sleepers}, listeners {listeners}, largest {largest}"
    );
}

/// What an event did, if it is one of those that sleepers and forgotten functions need.
fn telling(event: &Event, before: &Server, after: &Server, out: &Outbox) -> Vec<&'static str> {
    let woken = out.addressed().filter(|packet| packet[8] == 6).count();
    let known = |server: &Server| server.functions.iter().flatten().count();
    let forgets = known(after) < known(before);
    let Event::Packet(connection, packet) = event else {
        return if woken > 0 { vec!["close wakes"] } else { vec![] };
    };
    let asleep = before.connections[*connection as usize].asleep;
    let submission = SUBMISSIONS.contains(&u32::from(packet[7]));
    let found = [
        (submission && woken > 0, "a new job wakes"),
        (submission && woken > 1, "a new job wakes several"),
        (packet[7] == 4 && woken > 0, "PRE_SLEEP with a grabbable job"),
        (packet[7] == 1 && asleep && woken > 0, "CAN_DO wakes its sender"),
        (packet[7] == 1 && asleep && woken == 0, "CAN_DO leaves its sender asleep"),
        (packet[7] == 2 && forgets, "CANT_DO forgets"),
        ([13, 14, 25].contains(&packet[7]) && forgets, "an ending forgets"),
        (packet[7] == 26 && asleep, "an option of a sleeper"),
    ];
    found.into_iter().filter(|(holds, _)| *holds).map(|(_, what)| what).collect()
}

/// What a grab met, if a search that compares too little or stops too early could go wrong there.
fn telling_grab(event: &Event, before: &Server, after: &Server, _: &Outbox) -> Vec<&'static str> {
    let Event::Packet(connection, packet) = event else { return vec![] };
    if ![9, 30].contains(&packet[7]) {
        return vec![];
    }
    let sender = *connection as usize;
    let grab = Grab::new(before, after, sender);
    let queued = grab.queued.len();
    let mut found = vec![(queued > 24, "more than 24 queued")];
    if let (Some((place, job)), Some((_, best))) = (grab.given, grab.best()) {
        let high_before = grab.able.iter().any(|(other, job)| *other < place && job.priority == 2);
        let able = before.able(best.function);
        found.extend([
            (place != grab.queued[0].0, "not the first queued job by place"),
            (place != grab.able[0].0, "not the first job by place that it can do"),
            (job.priority == 2 && high_before, "not the first high job by place that it can do"),
            (able != 0 && !has(able, sender), "the best job can be done by others only"),
            (job.priority == 0, "a low job"),
        ]);
    } else {
        let unable = before.functions.iter().flatten().all(|known| !has(known.able, sender));
        found.extend([
            (queued > 0, "NO_JOB though jobs are queued"),
            (queued > 0 && unable, "NO_JOB without abilities though jobs are queued"),
            (queued == 0 && grab.held > 0, "NO_JOB with held jobs only"),
        ]);
    }
    found.into_iter().filter(|(holds, _)| *holds).map(|(_, what)| what).collect()
}

/// What an event did with a client id, or to a connection that has one.
fn telling_id(event: &Event, before: &Server, after: &Server, _: &Outbox) -> Vec<&'static str> {
    let (connection, kind) = match event {
        Event::Open(_) => return vec![],
        Event::Close(connection) => (*connection as usize, 0),
        Event::Packet(connection, packet) => (*connection as usize, packet[7]),
    };
    let [old, new] = [before, after].map(|server| server.connections[connection]);
    let shared = (0..16).any(|other| other != connection && after.connections[other].id == new.id);
    let odd = new.id.bytes().iter().any(|byte| !(33..=126).contains(byte));
    let found = [
        (kind == 22 && old.asleep && new.asleep, "an id of a sleeper"),
        (kind == 22 && !old.id.is_empty() && old.id != new.id, "another id"),
        (kind == 22 && new.id.bytes().len() < old.id.bytes().len(), "a shorter id"),
        (kind == 22 && new.id.bytes().len() == 1, "an id of one byte"),
        (kind == 22 && new.id.bytes().len() == 64, "an id of 64 bytes"),
        (kind == 22 && odd, "an id with bytes that print as question marks"),
        (kind == 22 && shared, "an id that another connection has"),
        (kind == 3 && !new.id.is_empty(), "RESET_ABILITIES keeps an id"),
        (kind == 0 && !old.id.is_empty(), "close clears an id"),
    ];
    found.into_iter().filter(|(holds, _)| *holds).map(|(_, what)| what).collect()
}

/// Whom an exception reached and how, if one who is told wrongly or in another order would show there.
fn telling_exception(event: &Event, before: &Server, _: &Server, out: &Outbox) -> Vec<&'static str> {
    let Event::Packet(sender, packet) = event else { return vec![] };
    if packet[7] != 25 {
        return vec![];
    }
    let sent: Vec<(u8, u8)> = out.addressed().map(|packet| (packet[0], packet[8])).collect();
    let copies = sent.iter().filter(|(_, kind)| *kind == 25).count();
    let fails = sent.len() - copies;
    let follows = |first: u8, second: u8| sent.windows(2).any(|pair| pair[0].1 == first && pair[1].1 == second);
    let told = |connection: usize| sent.iter().any(|(other, _)| usize::from(*other) == connection);
    let handle = packet[12..].split(|&byte| byte == 0).next().unwrap();
    let job = before.jobs[before.find(handle).unwrap()].unwrap();
    let found = [
        (copies > 0 && fails > 0, "to both kinds of listener"),
        (copies > 1 && fails > 1, "to several of both kinds"),
        (follows(14, 25), "WORK_FAIL before a copy"),
        (follows(25, 14), "WORK_FAIL after a copy"),
        (copies == 0 && fails > 0, "to listeners without the option only"),
        (fails == 0 && copies > 0, "to listeners with the option only"),
        (sent.is_empty(), "to nobody"),
        (sent.contains(&(*sender as u8, 14)), "WORK_FAIL to the holder"),
        (sent.contains(&(*sender as u8, 25)), "a copy to the holder"),
        (job.background && fails > 0, "WORK_FAIL for a background job"),
        (fails > 0 && packet.len() == 12 + handle.len() + 1, "an empty one"),
        ((0..16).any(|c| before.connections[c].open && !told(c)), "not to all connections"),
        ((0..16).any(|c| before.connections[c].exceptions && !told(c)), "not to all with the option"),
    ];
    found.into_iter().filter(|(holds, _)| *holds).map(|(_, what)| what).collect()
}

/// Over 30 histories the events that are done show so many different things to `look`, each at least 40 times.
fn rich_in(kinds: usize, look: fn(&Event, &Server, &Server, &Outbox) -> Vec<&'static str>) {
    let mut out = Outbox::default();
    let mut counts = BTreeMap::new();
    for seed in 1..=30 {
        let mut history = History::new(seed);
        let mut server = history.start();
        for _ in 0..2_000 {
            let event = history.next(&server);
            let before = server.clone();
            if event.run(&mut server, &mut out) == 0 {
                for what in look(&event, &before, &server, &out) {
                    *counts.entry(what).or_insert(0) += 1;
                }
            }
        }
    }
    println!("{counts:?}");
    assert_eq!(counts.len(), kinds, "{counts:?}");
    assert!(counts.values().all(|&count| count >= 40), "{counts:?}");
}

#[test]
fn histories_are_rich_in_sleepers() {
    rich_in(9, telling);
}

#[test]
fn histories_are_rich_in_telling_grabs() {
    rich_in(9, telling_grab);
}

#[test]
fn histories_are_rich_in_client_ids() {
    rich_in(9, telling_id);
}

#[test]
fn histories_are_rich_in_exceptions() {
    rich_in(13, telling_exception);
}

/// Ids of every length that is refused, and with a zero byte inside.
#[test]
fn histories_have_ids_that_are_refused() {
    let mut out = Outbox::default();
    let (mut empty, mut long, mut zeros) = (0, 0, 0);
    for seed in 1..=30 {
        let mut history = History::new(seed);
        let mut server = history.start();
        for _ in 0..2_000 {
            let event = history.next(&server);
            let number = event.run(&mut server, &mut out);
            if let (Event::Packet(_, packet), 10) = (event, number) {
                let id = &packet[12..];
                if packet[7] == 22 {
                    empty += usize::from(id.is_empty());
                    long += usize::from(id.len() == 65 && !id.contains(&0));
                    zeros += usize::from((1..=64).contains(&id.len()));
                }
            }
        }
    }
    assert!(empty >= 40 && long >= 40 && zeros >= 40, "{empty} {long} {zeros}");
}

#[test]
fn a_seed_gives_the_same_history_each_time() {
    let run = |seed: u64| {
        let mut history = History::new(seed);
        let mut server = history.start();
        let mut out = Outbox::default();
        (0..300)
            .map(|_| {
                let event = history.next(&server);
                event.run(&mut server, &mut out);
                event
            })
            .collect::<Vec<_>>()
    };
    assert_eq!(run(5), run(5));
    assert_ne!(run(5), run(6));
}
