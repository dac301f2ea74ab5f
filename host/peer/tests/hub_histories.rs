//! The fixed histories on hubs of other names do what they are named for, and the random ones are rich in handles of
//! other hubs.
use peer::event::Event;
use peer::histories::History;
use peer::hub::is_name;
use peer::image::image;
use peer::layout::OUTPUT;
use peer::outbox::Outbox;
use peer::packet::{self, Side};
use peer::rules::broken;
use peer::scripts;
use peer::server::Job;
use std::collections::{BTreeMap, BTreeSet};

const WORKER: [u32; 6] = [12, 13, 14, 25, 28, 29];

/// The numbers of a script's events by type, and the lengths of the outputs.
fn run(script: &scripts::Script) -> (BTreeMap<(u8, u32), usize>, BTreeSet<usize>) {
    let (mut server, mut out) = (script.start(), Outbox::default());
    let (mut numbers, mut lengths) = (BTreeMap::new(), BTreeSet::new());
    for event in &script.events {
        let number = event.run(&mut server, &mut out);
        let kind = if let Event::Packet(_, packet) = event { packet[7] } else { 0 };
        *numbers.entry((kind, number)).or_default() += 1;
        lengths.insert(out.bytes().len());
        assert_eq!(server.hub.bytes(), script.hub);
        assert_eq!(broken(&image(&server)), Vec::<&str>::new());
    }
    (numbers, lengths)
}

#[test]
fn the_fixed_histories_on_hubs() {
    let all = scripts::all();
    let others: Vec<_> = all.iter().filter(|script| script.name == "handles of other hubs").collect();
    assert_eq!(others.len(), 9);
    for script in others {
        let (numbers, _) = run(script);
        let refusals: Vec<usize> = WORKER.iter().map(|&kind| numbers[&(kind as u8, 14)]).collect();
        assert!(refusals.iter().all(|&count| count > 15), "{numbers:?}");
        // Done are three of each of 12, 28 and 29 and one ending of each kind.
        let dones: Vec<usize> = WORKER.iter().map(|&kind| numbers[&(kind as u8, 0)]).collect();
        assert_eq!(dones, [3, 1, 1, 1, 3, 3]);
        assert!(numbers[&(15, 0)] > 50 && numbers.keys().all(|(_, number)| [0, 14].contains(number)), "{numbers:?}");
    }
    let longest = all.iter().find(|script| script.name == "longest handles").unwrap();
    let (numbers, lengths) = run(longest);
    // A handle of 28 bytes; assignments of 1,051, where a unique of one byte is left out, and of 1,053; an exception to
    // six listeners with the option and ten without it; copies to all.
    let thrown = 6 * (13 + 1_024) + 10 * (13 + 28);
    assert!([13 + 28, 13 + 1_051, 13 + 1_053, thrown, OUTPUT].iter().all(|length| lengths.contains(length)));
    assert_eq!(lengths.last(), Some(&OUTPUT));
    assert_eq!((numbers[&(7, 0)], numbers[&(7, 13)], numbers[&(25, 0)], numbers[&(25, 14)]), (19, 2, 1, 1));
}

/// What a handle in a packet is to the hub where a job has this serial.
fn nearness(hub: &[u8], serial: u32, handle: &[u8]) -> Option<&'static str> {
    let rest = handle.strip_prefix(b"H:")?;
    let (name, digits) = rest.split_at(rest.iter().rposition(|&byte| byte == b':')?);
    if digits[1..] != *serial.to_string().as_bytes() {
        return None;
    }
    Some(match name {
        name if name == hub => "its own",
        name if name == hub.to_ascii_uppercase() => "in capitals",
        name if name.strip_prefix(hub).is_some_and(|more| more.len() == 1) => "one byte longer",
        name if name.starts_with(hub) => "longer",
        name if name == &hub[..hub.len() - 1] => "one byte shorter",
        name if is_name(name) => "another hub",
        _ => "no hub",
    })
}

/// Over 30 histories the holder of a job names it often in each of these ways, and others ask for it so.
#[test]
fn histories_are_rich_in_handles_of_other_hubs() {
    let mut out = Outbox::default();
    let mut counts: BTreeMap<(&str, &str), usize> = BTreeMap::new();
    let mut hubs = BTreeSet::new();
    for seed in 1..=30 {
        let mut history = History::new(seed);
        let mut server = history.start();
        hubs.insert(server.hub.bytes().to_vec());
        for _ in 0..2_000 {
            let event = history.next(&server);
            let before = server.clone();
            let number = event.run(&mut server, &mut out);
            let Event::Packet(sender, packet) = &event else { continue };
            let Ok(request) = packet::read(Side::Request, packet) else { continue };
            let worker = WORKER.contains(&request.kind);
            // Neither type, or a connection that is not open.
            if !worker && request.kind != 15 || [2, 3].contains(&number) {
                continue;
            }
            let held = |job: &&Job| !worker || job.holder == Some(*sender as usize);
            for job in before.jobs.iter().flatten().filter(held) {
                let Some(near) = nearness(before.hub.bytes(), job.serial, request.arguments[0]) else { continue };
                *counts.entry((if worker { "worker" } else { "status" }, near)).or_default() += 1;
                assert_eq!(number, if worker && near != "its own" { 14 } else { 0 }, "{event}");
            }
        }
    }
    println!("{counts:?}");
    // The seven of each; no worker packet and no status lacks one.
    assert_eq!(counts.len(), 14, "{counts:?}");
    assert!(counts.values().all(|&count| count >= 4), "{counts:?}");
    let lengths: BTreeSet<usize> = hubs.iter().map(Vec::len).collect();
    assert!(hubs.len() > 15 && hubs.contains(&b"lap"[..]) && lengths.len() > 6, "{hubs:?}");
}
