//! Tables made on purpose for a check of the table rules that takes short ways: one that tells names and uniques apart
//! by keys, reads digits, sizes, client ids and the hub's name many at a time, or compares serials in an order of its
//! own.
#![forbid(unsafe_code)]

mod fields;
mod hubs;
mod ids;
mod keys;

use crate::event::Event;
use crate::histories::request;
use crate::hub::names;
use crate::layout::*;
use crate::random::Random;
use crate::server::{Job, Server, CONNECTIONS, DONE};
use crate::text::Text;

/// A state of the ordinary server, and tables that differ from its image in a few fields.
pub struct Base {
    pub name: String,
    pub server: Server,
    pub changes: Vec<Change>,
}

/// One such table: what is set in the image, and the rule that it then breaks, by the start of its name in `rules`.
pub struct Change {
    sets: Vec<(usize, Vec<u8>)>,
    pub breaks: Option<&'static str>,
}

impl Change {
    fn good(sets: Vec<(usize, Vec<u8>)>) -> Self {
        Change { sets, breaks: None }
    }

    fn breaking(rule: &'static str, sets: Vec<(usize, Vec<u8>)>) -> Self {
        Change { sets, breaks: Some(rule) }
    }

    /// The table, from the image of its base.
    pub fn table(&self, image: &[u8]) -> Vec<u8> {
        let mut table = image.to_vec();
        for (at, bytes) in &self.sets {
            table[*at..*at + bytes.len()].copy_from_slice(bytes);
        }
        table
    }
}

impl std::fmt::Display for Change {
    fn fmt(&self, f: &mut std::fmt::Formatter<'_>) -> std::fmt::Result {
        let sets: Vec<String> =
            self.sets.iter().map(|(at, bytes)| format!("{at}: {}", crate::hex::write(bytes))).collect();
        write!(f, "with {}", sets.join(", "))
    }
}

pub fn all() -> Vec<Base> {
    let mut bases = keys::all();
    bases.extend(fields::all());
    bases.extend(ids::all());
    bases.extend(hubs::all());
    bases
}

/// An event of an open connection that names what the state holds: a function, a function and a unique, a handle, or a
/// client id. Where no connection is open, one opens.
pub fn event_about(server: &Server, random: &mut Random) -> Event {
    let open: Vec<u32> = (0..CONNECTIONS as u32).filter(|&c| server.connections[c as usize].open).collect();
    if open.is_empty() {
        return Event::Open(random.below(CONNECTIONS) as u32);
    }
    let connection = *random.pick(&open);
    let jobs: Vec<_> = server.jobs.iter().flatten().collect();
    let names: Vec<_> = server.functions.iter().flatten().map(|known| known.name).collect();
    if names.is_empty() {
        let ids: Vec<_> = server.connections.iter().map(|other| other.id).filter(|id| !id.is_empty()).collect();
        let packet = if ids.is_empty() { request(4, &[]) } else { request(22, &[random.pick(&ids).bytes()]) };
        return Event::Packet(connection, packet);
    }
    let name = *random.pick(&names);
    if jobs.is_empty() || random.chance(40) {
        let kind = *random.pick(&[1, 1, 2, 9, 4]);
        let arguments: &[&[u8]] = if kind < 3 { &[name.bytes()] } else { &[] };
        return Event::Packet(connection, request(kind, arguments));
    }
    let job = *random.pick(&jobs);
    if random.chance(40) {
        return event_with_handle(server, connection, job, random);
    }
    // Mostly the function of the job, so that the submission joins it.
    let own = server.functions[job.function].map_or(name, |known| known.name);
    let name = if random.chance(70) { own } else { name };
    Event::Packet(connection, request(*random.pick(&[7, 18]), &[name.bytes(), job.unique.bytes(), b"w"]))
}

/// The job's status is asked for, or its holder sends a worker packet. The handle is the job's own, or one that another
/// hub would give it.
fn event_with_handle(server: &Server, asker: u32, job: &Job, random: &mut Random) -> Event {
    let own = server.handle(job.serial);
    let near = names::near_handle(server.hub.bytes(), job.serial, random);
    let handle = if random.chance(50) { own.bytes() } else { &near };
    let holder = job.holder.map_or(asker, |holder| holder as u32);
    match random.below(8) {
        0..=3 => Event::Packet(asker, request(15, &[handle])),
        4 => Event::Packet(holder, request(12, &[handle, b"1", b"23"])),
        5 => Event::Packet(holder, request(14, &[handle])),
        _ => Event::Packet(holder, request(*random.pick(&[13, 25, 28, 29]), &[handle, b"data"])),
    }
}

// ---- Short ways to write the tables.

/// A server with all connections open.
fn opened() -> Server {
    let mut server = Server::new();
    (0..CONNECTIONS as u32).for_each(|connection| assert_eq!(server.open(connection), DONE));
    server
}

/// A request that is done.
fn run(server: &mut Server, connection: usize, kind: u32, arguments: &[&[u8]]) {
    assert_eq!(server.packet(connection as u32, &request(kind, arguments)).0, DONE);
}

/// All pairs of places, the lower one first.
fn pairs(places: usize) -> impl Iterator<Item = (usize, usize)> {
    (0..places).flat_map(move |low| (low + 1..places).map(move |high| (low, high)))
}

/// A text in the name's place of a function.
fn name(q: usize, text: &[u8]) -> (usize, Vec<u8>) {
    (NAME + NAME_BYTES * q, place(text, NAME_BYTES))
}

/// A text in the unique's place of a job.
fn unique(p: usize, text: &[u8]) -> (usize, Vec<u8>) {
    (UNIQUE + UNIQUE_BYTES * p, place(text, UNIQUE_BYTES))
}

/// A text in the client id's place of a connection.
fn id(c: usize, text: &[u8]) -> (usize, Vec<u8>) {
    (IDS + ID_BYTES * c, place(text, ID_BYTES))
}

fn able(q: usize, set: u32) -> (usize, Vec<u8>) {
    (ABLE + 4 * q, set.to_le_bytes().to_vec())
}

fn serial(p: usize, number: u32) -> (usize, Vec<u8>) {
    (SERIAL + 4 * p, number.to_le_bytes().to_vec())
}

/// A text at the start of its place, zeros after it.
fn place(text: &[u8], length: usize) -> Vec<u8> {
    let mut place = vec![0; length];
    place[..text.len()].copy_from_slice(text);
    place
}
