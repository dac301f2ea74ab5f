//! Compares the core's archive with the ordinary server over fixed, random and twin histories on hubs of many names,
//! damaged and made tables and short buffers: events, and lines for the text entry between them.
//! usage: compare [--events N] [--seed S]. It stops at the first difference with a full description and exit status 1.
//! Where too little was compared, or the options are wrong, the exit status is 2.
#![forbid(unsafe_code)]

use peer::counts::Counts;
use peer::damage;
use peer::edge_tables::{self, Base};
use peer::event::Event;
use peer::fresh_tables;
use peer::hex;
use peer::histories::History;
use peer::image;
use peer::layout::{OUTPUT, TABLE};
use peer::lent::Host;
use peer::options;
use peer::outbox::Outbox;
use peer::questions::Question;
use peer::random::Random;
use peer::scripts::{self, Script};
use peer::server::{Server, BAD_LENT, JOBS, WORKLOADS};
use peer::trials::{ask, described, Trial};
use peer::twin_trials;
use std::process::ExitCode;

const EVENTS_OF_A_HISTORY: u64 = 2_000;
/// How many reached tables are damaged at every byte, and how often each has several fields damaged.
const DAMAGED_TABLES: usize = 10;
const FIELD_DAMAGES: usize = 6_000;
/// How many random twin histories there are.
const TWINS: u64 = 10;
/// How many events are tried on each state that tables are made from.
const EVENTS_OF_A_BASE: usize = 100;

/// A state that a history reached, to be damaged later.
struct Reached {
    seed: u64,
    index: u64,
    server: Server,
}

fn main() -> ExitCode {
    let [events, seed] = match options::numbers(["--events", "--seed"], [300_000, 1]) {
        Ok(numbers) => numbers,
        Err(text) => {
            eprintln!("{text}\nusage: compare [--events N] [--seed S]");
            return ExitCode::from(2);
        }
    };
    let mut counts = Counts::default();
    match compare(events, seed, &mut counts) {
        // Without such an exception document 02's request 3 would not have been compared.
        Ok(()) if counts.exceptions[3] == 0 => {
            println!("no exception reached listeners with the option and without it: {counts}");
            ExitCode::from(2)
        }
        // Without such handles request 5.
        Ok(()) if counts.foreign.contains(&0) => {
            println!("no worker packet or no status named a job as another hub would: {counts}");
            ExitCode::from(2)
        }
        Ok(()) => {
            println!("same: {counts}");
            ExitCode::SUCCESS
        }
        Err(text) => {
            println!("DIFFERENCE\n{text}");
            ExitCode::from(1)
        }
    }
}

fn compare(events: u64, first_seed: u64, counts: &mut Counts) -> Result<(), String> {
    fresh_tables::compare(first_seed, counts)?;
    for script in scripts::all() {
        fixed_history(&script, counts)?;
    }
    for base in edge_tables::all() {
        made_tables(&base, counts)?;
    }
    let mut reached = Vec::new();
    let mut seed = first_seed;
    while counts.events < events {
        let rich = history(seed, EVENTS_OF_A_HISTORY.min(events - counts.events), counts)?;
        if reached.len() < DAMAGED_TABLES {
            reached.push(rich);
        }
        seed += 1;
    }
    for script in scripts::all() {
        twin_trials::script(&script, counts)?;
    }
    for seed in first_seed..first_seed + TWINS {
        twin_trials::history(seed, counts)?;
    }
    for reached in &reached {
        short_buffers(reached, counts)?;
        damaged_bytes(reached, counts)?;
        damaged_fields(reached, counts)?;
    }
    Ok(())
}

/// The archive makes a fresh table of the server's hub, which becomes the server's: the start may differ from a fresh
/// table in the last serial and in the workloads.
fn start(host: &mut Host, server: &Server, random: &mut Random) -> Result<(), String> {
    let made = host.fresh(server.hub.bytes(), random).map_err(|text| format!("fresh\n{text}"))?;
    assert!(made, "a history's buffers are long enough, and its hub has a good name");
    host.set(&image::image(server), &server.workloads);
    Ok(())
}

/// A fixed history on both sides, in the shortest buffers and in longer ones. After each event the three commands are
/// asked and a random line, after the last one the fixed lines by each connection.
fn fixed_history(script: &Script, counts: &mut Counts) -> Result<(), String> {
    let mut out = Outbox::default();
    let mut random = Random::new(script.events.len() as u64);
    for mut host in [Host::with_lengths(TABLE, WORKLOADS, OUTPUT), Host::with_lengths(8_192, 40_000, 20_000)] {
        let mut server = script.start();
        start(&mut host, &server, &mut random).map_err(|text| format!("{}\n{text}", script.title()))?;
        for (index, event) in script.events.iter().enumerate() {
            let number = event.run(&mut server, &mut out);
            host.step(event, &server, number, out.bytes())
                .map_err(|text| format!("{}, {}", script.title(), described(index, event, number, &out, &text)))?;
            counts.fixed += 1;
            counts.add(event, number, &out, &server);
            let asker = server.connections.iter().rposition(|connection| connection.open).unwrap_or(0);
            let mut questions = Question::commands(asker as u32).to_vec();
            questions.push(Question::random(&server, &mut random));
            for question in questions {
                ask(&mut host, &question, &server, counts)
                    .map_err(|text| format!("{}, after event {index}: {event}\n{text}", script.title()))?;
            }
        }
        for question in (0..=16).flat_map(Question::fixed) {
            ask(&mut host, &question, &server, counts)
                .map_err(|text| format!("{}, after all events\n{text}", script.title()))?;
        }
    }
    Ok(())
}

/// One history on both sides, a line asked after each event; gives back the richest state that it reached.
fn history(seed: u64, events: u64, counts: &mut Counts) -> Result<Reached, String> {
    let mut history = History::new(seed);
    let mut server = history.start();
    let mut host = Host::new(&mut Random::new(seed));
    start(&mut host, &server, &mut Random::new(seed)).map_err(|text| format!("seed {seed}\n{text}"))?;
    let mut out = Outbox::default();
    let mut random = Random::new(seed ^ 0x7e);
    let mut rich = Reached { seed, index: 0, server: server.clone() };
    for index in 0..events {
        let event = history.next(&server);
        let number = event.run(&mut server, &mut out);
        host.step(&event, &server, number, out.bytes())
            .map_err(|text| format!("seed {seed}, {}", described(index as usize, &event, number, &out, &text)))?;
        counts.events += 1;
        counts.add(&event, number, &out, &server);
        let question = Question::random(&server, &mut random);
        ask(&mut host, &question, &server, counts)
            .map_err(|text| format!("seed {seed}, after event {index}: {event}\n{text}"))?;
        if richness(&server) > richness(&rich.server) {
            rich = Reached { seed, index: index + 1, server: server.clone() };
        }
    }
    Ok(rich)
}

/// How much a state has to damage: many jobs, some held, some queued, functions, sleepers, options and client ids.
fn richness(server: &Server) -> usize {
    let jobs = server.jobs.iter().flatten().count().min(JOBS - 2);
    let held = server.jobs.iter().flatten().filter(|job| job.holder.is_some()).count();
    let functions = server.functions.iter().flatten().count();
    let asleep = server.connections.iter().filter(|connection| connection.asleep).count();
    let options = server.connections.iter().filter(|connection| connection.exceptions).count();
    let ids = server.connections.iter().filter(|connection| !connection.id.is_empty()).count();
    jobs + held.min(10) + functions.min(14) + 2 * asleep.min(5) + options.min(5) + ids.min(5)
}

/// A state with telling events, then the tables that are made from it on purpose.
fn made_tables(base: &Base, counts: &mut Counts) -> Result<(), String> {
    let mut trial = Trial::new(&base.server, 1);
    let table = trial.table().to_vec();
    let same = (0..EVENTS_OF_A_BASE).map(|_| (table.clone(), String::new()));
    let changed = base.changes.iter().map(|change| (change.table(&table), change.to_string()));
    for (index, (bytes, what)) in same.chain(changed).enumerate() {
        let choose = (index % 2 == 0).then_some(edge_tables::event_about as fn(&Server, &mut Random) -> Event);
        let obeys = trial
            .compare(&bytes, choose, counts)
            .map_err(|text| format!("made table {index} '{}' {what}\n{text}", base.name))?;
        counts.made.add(obeys);
    }
    Ok(())
}

/// Each byte of a reached table set to several values; in the hub's name the event that follows is about handles.
fn damaged_bytes(reached: &Reached, counts: &mut Counts) -> Result<(), String> {
    let mut trial = Trial::new(&reached.server, reached.seed ^ 0xda);
    let table = trial.table().to_vec();
    for at in 0..TABLE {
        let choose = damage::is_in_hub(at).then_some(edge_tables::event_about as fn(&Server, &mut Random) -> Event);
        for value in damage::values(at, table[at]) {
            let mut bytes = table.clone();
            bytes[at] = value;
            let obeys = trial.compare(&bytes, choose, counts).map_err(|text| {
                format!("{}, byte {at} set to {value:02x} from {:02x}\n{text}", reached.name(), table[at])
            })?;
            counts.damaged.add(obeys);
        }
    }
    Ok(())
}

/// One to three fields of a reached table changed.
fn damaged_fields(reached: &Reached, counts: &mut Counts) -> Result<(), String> {
    let mut trial = Trial::new(&reached.server, reached.seed ^ 0xda);
    for _ in 0..FIELD_DAMAGES {
        let mut bytes = trial.table().to_vec();
        for _ in 0..1 + trial.random.below(3) {
            damage::field(&mut bytes, &mut trial.random);
        }
        let obeys = trial.compare(&bytes, None, counts).map_err(|text| {
            format!("{}, fields changed, the table is\n{}\n{text}", reached.name(), hex::write(&bytes))
        })?;
        counts.damaged.add(obeys);
    }
    Ok(())
}

/// Every event and every line is refused by 1 if one lent buffer is too short, whatever it would be otherwise; none is
/// if each has exactly its least length.
fn short_buffers(reached: &Reached, counts: &mut Counts) -> Result<(), String> {
    let table = image::image(&reached.server);
    let mut history = History::new(reached.seed ^ 0x50);
    let mut random = Random::new(reached.seed ^ 0x50);
    let mut out = Outbox::default();
    let least = [TABLE, WORKLOADS, OUTPUT];
    for short in 0..8 {
        for cut in 0..4 {
            let mut lengths = least;
            for (place, length) in lengths.iter_mut().enumerate() {
                if short >> place & 1 == 1 {
                    *length = [*length - 1, *length / 2, 1, 0][cut];
                }
            }
            for _ in 0..20 {
                let event = history.next(&reached.server);
                let mut host = Host::with_lengths(lengths[0], lengths[1], lengths[2]);
                host.set(&table, &reached.server.workloads);
                let question = Question::random(&reached.server, &mut random);
                let answer = if short == 0 {
                    ask(&mut host, &question, &reached.server, counts)
                } else {
                    counts.add_text(&question.line, BAD_LENT);
                    host.asked(&question, BAD_LENT, &[])
                };
                answer.map_err(|text| format!("{}, lent lengths {lengths:?}\n{question}\n{text}", reached.name()))?;
                let answer = if short == 0 {
                    let mut server = reached.server.clone();
                    let number = event.run(&mut server, &mut out);
                    counts.add(&event, number, &out, &server);
                    host.step(&event, &server, number, out.bytes())
                } else {
                    counts.numbers[BAD_LENT as usize] += 1;
                    host.refused(&event)
                };
                answer.map_err(|text| format!("{}, lent lengths {lengths:?}\n{event}\n{text}", reached.name()))?;
                counts.short += 1;
            }
        }
    }
    Ok(())
}

impl Reached {
    fn name(&self) -> String {
        format!("seed {}, the table before event {}", self.seed, self.index)
    }
}
