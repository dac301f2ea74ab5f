//! What `compare` compared, counted for its summary.
#![forbid(unsafe_code)]

use crate::event::Event;
use crate::hub::{names, LAP};
use crate::outbox::Outbox;
use crate::packet::{self, Part, Side};
use crate::questions::COMMANDS;
use crate::server::{Server, DONE, NOT_HELD};

/// The protocol's types run from 1 to 36.
const TYPES: usize = 37;

/// Tables that were tried, and those among them that obey every rule.
#[derive(Default)]
pub struct Tables {
    pub tried: u64,
    pub obeying: u64,
}

impl Tables {
    pub fn add(&mut self, obeys: bool) {
        self.tried += 1;
        self.obeying += u64::from(obeys);
    }
}

pub struct Counts {
    pub events: u64,
    pub fixed: u64,
    pub numbers: [u64; 17],
    pub done: [u64; TYPES],
    pub sent: [u64; TYPES],
    /// Exceptions that were done: to nobody, to listeners with the option alone, to those without it alone, to both.
    pub exceptions: [u64; 4],
    pub damaged: Tables,
    pub made: Tables,
    pub short: u64,
    /// Fresh tables that were asked for, and those among them that were made.
    pub fresh: Tables,
    /// Events on hubs of another name than `lap`.
    pub renamed: u64,
    /// An unfinished job's serial in a handle of another hub: worker packets refused by 14, and statuses unknown.
    pub foreign: [u64; 2],
    /// Events of twin histories.
    pub twins: u64,
    /// Lines that were asked, and the texts among the answers: those of each command, then those for any other line.
    pub asked: u64,
    pub texts: [u64; 4],
}

impl Default for Counts {
    fn default() -> Self {
        Counts {
            events: 0,
            fixed: 0,
            numbers: [0; 17],
            done: [0; TYPES],
            sent: [0; TYPES],
            exceptions: [0; 4],
            damaged: Tables::default(),
            made: Tables::default(),
            short: 0,
            fresh: Tables::default(),
            renamed: 0,
            foreign: [0; 2],
            twins: 0,
            asked: 0,
            texts: [0; 4],
        }
    }
}

impl Counts {
    /// An event with its answer, and the state after it.
    pub fn add(&mut self, event: &Event, number: u32, out: &Outbox, server: &Server) {
        self.numbers[number as usize] += 1;
        self.renamed += u64::from(server.hub.bytes() != LAP);
        match number {
            NOT_HELD if names_another_hub(event, server) => self.foreign[0] += 1,
            DONE if names_another_hub(event, server) => self.foreign[1] += 1,
            _ => {}
        }
        if let (Event::Packet(_, packet), 0) = (event, number) {
            self.done[packet[7] as usize] += 1;
            if packet[7] == 25 {
                let [copies, fails] = [25, 14].map(|kind| usize::from(out.count(kind) > 0));
                self.exceptions[copies + 2 * fails] += 1;
            }
        }
        for packet in out.addressed() {
            self.sent[packet[8] as usize] += 1;
        }
    }

    /// A line with its answer.
    pub fn add_text(&mut self, line: &[u8], number: u32) {
        self.asked += 1;
        self.numbers[number as usize] += 1;
        if number == 0 {
            let command = COMMANDS.iter().position(|command| {
                let rest = line.strip_prefix(*command);
                rest == Some(b"\n") || rest == Some(b"\r\n")
            });
            self.texts[command.unwrap_or(COMMANDS.len())] += 1;
        }
    }
}

/// The event's handle is another hub's, with the serial of a job that is unfinished here.
fn names_another_hub(event: &Event, server: &Server) -> bool {
    let Event::Packet(_, bytes) = event else { return false };
    let Ok(packet) = packet::read(Side::Request, bytes) else { return false };
    if packet::shape(Side::Request, packet.kind).and_then(|shape| shape.first()) != Some(&Part::Handle) {
        return false;
    }
    let named = names::of_handle(packet.arguments[0]).filter(|(name, _)| *name != server.hub.bytes());
    named.is_some_and(|(_, serial)| server.jobs.iter().flatten().any(|job| job.serial == serial))
}

impl std::fmt::Display for Counts {
    fn fmt(&self, f: &mut std::fmt::Formatter<'_>) -> std::fmt::Result {
        let list = |counts: &[u64]| -> String {
            let some = counts.iter().enumerate().filter(|(_, &n)| n > 0);
            some.map(|(what, n)| format!("{what}:{n}")).collect::<Vec<_>>().join(" ")
        };
        let [status, workers, version, unknown] = self.texts;
        let [nobody, with, without, both] = self.exceptions;
        let [worker, asked] = self.foreign;
        write!(
            f,
            "{} random and {} fixed events, {} damaged tables ({} still obey), {} made tables ({} obey), \
             {} calls on shortest or short buffers, {} fresh tables ({} made), {} events of twin histories; \
             {} of all events on hubs other than lap, handles of other hubs in {worker} worker packets and \
             {asked} statuses; \
             {} lines asked (status {status}, workers {workers}, version {version}, unknown {unknown}); \
             {} exceptions (to nobody {nobody}, with the option {with}, without it {without}, to both {both}); \
             numbers {}; requests done by type {}; packets sent by type {}",
            self.events,
            self.fixed,
            self.damaged.tried,
            self.damaged.obeying,
            self.made.tried,
            self.made.obeying,
            self.short,
            self.fresh.tried,
            self.fresh.obeying,
            self.twins,
            self.renamed,
            self.asked,
            self.exceptions.iter().sum::<u64>(),
            list(&self.numbers),
            list(&self.done),
            list(&self.sent),
        )
    }
}
