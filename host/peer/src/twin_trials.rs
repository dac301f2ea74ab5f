//! Twin histories tried on the archive, on hubs of one name: events of both, and lines that both must answer alike.
#![forbid(unsafe_code)]

use crate::counts::Counts;
use crate::event::Event;
use crate::histories::History;
use crate::image;
use crate::lent::Host;
use crate::outbox::Outbox;
use crate::questions::Question;
use crate::random::Random;
use crate::scripts::Script;
use crate::server::Server;
use crate::trials::{ask, described};
use crate::twins;

/// How many events a random history has.
const EVENTS: usize = 600;

/// Two histories that differ in opaque bytes alone, each in buffers of its own: every text must be the same in both.
struct Twins {
    random: Random,
    servers: [Server; 2],
    hosts: [Host; 2],
    out: Outbox,
}

impl Twins {
    /// The second history starts from other workloads.
    fn new(start: Server, seed: u64) -> Self {
        let mut random = Random::new(seed);
        let mut servers = [start.clone(), start];
        servers[1].workloads.fill_with(|| random.byte());
        let mut hosts = [Host::new(&mut random), Host::new(&mut random)];
        for (host, server) in hosts.iter_mut().zip(&servers) {
            host.set(&image::image(server), &server.workloads);
        }
        Twins { random, servers, hosts, out: Outbox::default() }
    }

    /// The event in the first history and its twin in the second, each compared; then one line is asked in both.
    fn step(&mut self, index: usize, event: &Event, counts: &mut Counts) -> Result<(), String> {
        let events = [event.clone(), twins::twin(event, &mut self.random)];
        for ((event, host), server) in events.iter().zip(&mut self.hosts).zip(&mut self.servers) {
            let number = event.run(server, &mut self.out);
            host.step(event, server, number, self.out.bytes())
                .map_err(|text| described(index, event, number, &self.out, &text))?;
            counts.twins += 1;
            counts.add(event, number, &self.out, server);
        }
        // What is right for one history is right for the other.
        let question = Question::random(&self.servers[0], &mut self.random);
        for host in &mut self.hosts {
            ask(host, &question, &self.servers[0], counts)
                .map_err(|text| format!("after event {index}: {event}\n{text}"))?;
        }
        Ok(())
    }
}

/// A random history and its twin.
pub fn history(seed: u64, counts: &mut Counts) -> Result<(), String> {
    let mut history = History::new(seed ^ 0x79);
    let mut twins = Twins::new(history.start(), seed ^ 0x79);
    for index in 0..EVENTS {
        let event = history.next(&twins.servers[0]);
        twins.step(index, &event, counts).map_err(|text| format!("twin seed {seed}, {text}"))?;
    }
    Ok(())
}

/// A fixed history and its twin.
pub fn script(script: &Script, counts: &mut Counts) -> Result<(), String> {
    let mut twins = Twins::new(script.start(), script.events.len() as u64);
    for (index, event) in script.events.iter().enumerate() {
        twins.step(index, event, counts).map_err(|text| format!("twin {}, {text}", script.title()))?;
    }
    Ok(())
}
