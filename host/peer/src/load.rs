//! What `bench` runs: for each case the packets that lead to a state, then events that keep the server near it.
#![forbid(unsafe_code)]

pub mod grabs;

use crate::handle;
use crate::histories::request;
use crate::hub::LAP;
use crate::random::Random;
use std::collections::HashMap;

/// The kinds of events that are counted apart.
pub const SUBMIT: usize = 0;
pub const GRAB: usize = 1;
pub const COMPLETE: usize = 2;

/// An event: its kind, who sends it, and where its packet lies.
#[derive(Clone, Copy)]
pub struct Step {
    pub kind: u8,
    pub connection: u8,
    start: u32,
    end: u32,
}

pub struct Case {
    pub name: &'static str,
    /// They lead from a fresh table with all connections open to the state; they are not timed.
    pub before: Vec<Step>,
    /// They are timed.
    pub steps: Vec<Step>,
    packets: Vec<u8>,
}

impl Case {
    pub fn packet(&self, step: &Step) -> &[u8] {
        &self.packets[step.start as usize..step.end as usize]
    }
}

/// The five cases, and the first once more while others sleep; each with so many timed events.
pub fn cases(events: usize) -> Vec<Case> {
    vec![one_job(events), waiting(events), listeners(events), few_jobs(events), uniques(events), asleep(events)]
}

/// Packets and steps of a case while it is made.
///
/// Every packet is made before the clock starts, so that both sides read the same finished bytes. Equal packets lie
/// there once; only the completions differ, each with a handle of its own. So 100,002 events read at most 2 MB of
/// packets and 1.2 MB of steps, once and in order, about 30 bytes an event: no cache has to keep them.
#[derive(Default)]
struct Load {
    packets: Vec<u8>,
    places: HashMap<Vec<u8>, (u32, u32)>,
    steps: Vec<Step>,
}

impl Load {
    fn step(&mut self, kind: usize, connection: usize, number: u32, arguments: &[&[u8]]) {
        let packet = request(number, arguments);
        let next = self.packets.len() as u32;
        let (start, end) = match self.places.get(&packet) {
            Some(place) => *place,
            None => {
                self.packets.extend_from_slice(&packet);
                let place = (next, self.packets.len() as u32);
                self.places.insert(packet, place);
                place
            }
        };
        self.steps.push(Step { kind: kind as u8, connection: connection as u8, start, end });
    }

    /// It leads to the state, so no kind is counted for it.
    fn can_do(&mut self, connection: usize, function: &[u8]) {
        self.step(SUBMIT, connection, 1, &[function]);
    }

    /// The same.
    fn pre_sleep(&mut self, connection: usize) {
        self.step(SUBMIT, connection, 4, &[]);
    }

    fn submit(&mut self, connection: usize, function: &[u8], unique: &[u8], workload: usize) {
        self.step(SUBMIT, connection, 7, &[function, unique, &vec![b'w'; workload]]);
    }

    fn grab(&mut self, connection: usize) {
        self.step(GRAB, connection, 9, &[]);
    }

    fn complete(&mut self, connection: usize, serial: u32) {
        self.step(COMPLETE, connection, 13, &[handle::print(LAP, serial).bytes(), &[b'r'; 32]]);
    }

    /// The steps so far lead to the state; the cycles, numbered from 0, follow until there are enough events.
    fn case(mut self, name: &'static str, events: usize, cycle: impl Fn(&mut Load, u32)) -> Case {
        let before = std::mem::take(&mut self.steps);
        let mut number = 0;
        while self.steps.len() < events {
            cycle(&mut self, number);
            number += 1;
        }
        self.steps.truncate(events);
        Case { name, before, steps: self.steps, packets: self.packets }
    }
}

/// Sixteen names of 11 bytes.
fn function(number: u32) -> Vec<u8> {
    format!("function-{:02}", number % 16).into_bytes()
}

/// Thirty-two uniques of 36 bytes, as random UUIDs are written; any 32 in a row differ.
fn unique(number: u32) -> Vec<u8> {
    let mut random = Random::new(u64::from(number % 32));
    let digits = format!("{:016x}{:016x}", random.number(), random.number());
    [&digits[..8], &digits[8..12], &digits[12..16], &digits[16..20], &digits[20..]].join("-").into_bytes()
}

/// One job in flight: submitted, grabbed, completed.
fn one_job(events: usize) -> Case {
    let mut load = Load::default();
    load.can_do(1, b"reverse");
    load.case("one job in flight", events, |load, cycle| {
        load.submit(0, b"reverse", b"", 32);
        load.grab(1);
        load.complete(1, cycle + 1);
    })
}

/// 31 jobs wait, with 900-byte workloads over 16 functions; a 32nd comes, and the oldest is grabbed and completed.
fn waiting(events: usize) -> Case {
    let mut load = Load::default();
    (0..16).for_each(|number| load.can_do(1, &function(number)));
    (1..=31).for_each(|serial| load.submit(0, &function(serial), b"", 900));
    load.case("31 waiting, 900 bytes each, 16 functions", events, |load, cycle| {
        load.submit(0, &function(cycle + 32), b"", 900);
        load.grab(1);
        load.complete(1, cycle + 1);
    })
}

/// 15 connections submit with one unique, so that all of them listen; the result goes to each.
fn listeners(events: usize) -> Case {
    let mut load = Load::default();
    load.can_do(15, b"reverse");
    load.case("15 listeners on one job", events, |load, cycle| {
        (0..15).for_each(|client| load.submit(client, b"reverse", b"unique", 32));
        load.grab(15);
        load.complete(15, cycle + 1);
    })
}

/// 16 functions are known, and the worker can do all of them; three jobs come, then each is grabbed and completed.
fn few_jobs(events: usize) -> Case {
    let mut load = Load::default();
    (0..16).for_each(|number| load.can_do(1, &function(number)));
    load.case("16 functions, one to three jobs", events, |load, cycle| {
        let serials = 3 * cycle + 1..=3 * cycle + 3;
        serials.clone().for_each(|serial| load.submit(0, &function(serial), b"", 32));
        for serial in serials {
            load.grab(1);
            load.complete(1, serial);
        }
    })
}

/// 31 jobs of one function wait, no two with one unique; a 32nd comes, and the oldest is grabbed and completed.
fn uniques(events: usize) -> Case {
    let mut load = Load::default();
    load.can_do(1, b"reverse");
    (1..=31).for_each(|serial| load.submit(0, b"reverse", &unique(serial), 32));
    load.case("32 jobs, different uniques of 36 bytes", events, |load, cycle| {
        load.submit(0, b"reverse", &unique(cycle + 32), 32);
        load.grab(1);
        load.complete(1, cycle + 1);
    })
}

/// One job in flight, while 14 other connections sleep, which it does not wake. To be compared with the first case.
fn asleep(events: usize) -> Case {
    let mut load = Load::default();
    load.can_do(1, b"reverse");
    (2..16).for_each(|connection| load.pre_sleep(connection));
    load.case("one job in flight, 14 asleep", events, |load, cycle| {
        load.submit(0, b"reverse", b"", 32);
        load.grab(1);
        load.complete(1, cycle + 1);
    })
}

#[cfg(test)]
mod tests {
    use super::*;
    use crate::outbox::Outbox;
    use crate::server::{Server, CONNECTIONS};

    /// No event is refused, the timed ones are of the kind that is counted, and jobs stay as many as the case says.
    #[test]
    fn the_cases_do_what_they_are_named_for() {
        let most = [1, 32, 1, 3, 32, 1];
        for (case, most) in cases(1_002).iter().zip(most) {
            let mut server = Server::new();
            (0..CONNECTIONS as u32).for_each(|connection| assert_eq!(server.open(connection), 0));
            let (mut out, mut jobs, mut counts) = (Outbox::default(), 0, [0; 3]);
            for (index, step) in case.before.iter().chain(&case.steps).enumerate() {
                let packet = case.packet(step);
                out.clear();
                assert_eq!(server.packet_into(u32::from(step.connection), packet, &mut out), 0, "{}", case.name);
                jobs = jobs.max(server.jobs.iter().flatten().count());
                if index >= case.before.len() {
                    assert_eq!(packet[7], [7, 9, 13][usize::from(step.kind)]);
                    // The first answer: a job made or joined, given out, or ended with its result sent.
                    assert_eq!(out.bytes()[8], [8, 11, 13][usize::from(step.kind)], "{}", case.name);
                    counts[usize::from(step.kind)] += 1;
                }
            }
            assert_eq!(jobs, most, "{}", case.name);
            assert!(counts.iter().sum::<usize>() == 1_002 && counts.iter().all(|&count| count > 0), "{}", case.name);
        }
    }

    #[test]
    fn the_uniques_differ_and_have_36_bytes() {
        let uniques: std::collections::HashSet<Vec<u8>> = (0..32).map(unique).collect();
        assert!(uniques.len() == 32 && uniques.iter().all(|unique| unique.len() == 36));
    }
}
