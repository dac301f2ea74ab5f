//! The server's state as the table's bytes (docs/TABLE.md), and back. `obeys` is the table rules over any such bytes.
#![forbid(unsafe_code)]

use crate::layout::*;
pub use crate::rules::obeys;
use crate::rules::{text, Table};
use crate::server::{Connection, Function, Job, Server, Set, CONNECTIONS, FUNCTIONS, JOBS, WORKLOADS};
use crate::text::Text;

/// The table's 4,836 bytes.
pub fn image(server: &Server) -> Vec<u8> {
    let mut table = vec![0; TABLE];
    write(server, &mut table);
    table
}

/// The table's 4,836 bytes, written over the first ones of a buffer; the rest of the buffer stays.
pub fn write(server: &Server, table: &mut [u8]) {
    let mut put = |at: usize, bytes: &[u8]| table[at..at + bytes.len()].copy_from_slice(bytes);
    put(0, &[0; TABLE]);
    put(LAST_SERIAL, &server.last_serial.to_le_bytes());
    put(HUB, server.hub.bytes());
    for (q, function) in server.functions.iter().enumerate() {
        let Some(function) = function else { continue };
        put(NAME + NAME_BYTES * q, function.name.bytes());
        put(ABLE + 4 * q, &u32::from(function.able).to_le_bytes());
    }
    for (p, job) in server.jobs.iter().enumerate() {
        let Some(job) = job else { continue };
        put(SERIAL + 4 * p, &job.serial.to_le_bytes());
        put(SIZE + 2 * p, &(job.size as u16).to_le_bytes());
        put(HOLDER + 2 * p, &(job.holder.map_or(0, |holder| holder as u16 + 1)).to_le_bytes());
        put(PRIORITY + p, &[job.priority]);
        put(BACKGROUND + p, &[u8::from(job.background)]);
        put(FUNCTION + p, &[job.function as u8]);
        put(UNIQUE + UNIQUE_BYTES * p, job.unique.bytes());
        put(NUMERATOR + DIGITS_BYTES * p, job.numerator.bytes());
        put(DENOMINATOR + DIGITS_BYTES * p, job.denominator.bytes());
        put(LISTENERS + 4 * p, &u32::from(job.listeners).to_le_bytes());
    }
    for (c, connection) in server.connections.iter().enumerate() {
        put(OPEN + c, &[u8::from(connection.open)]);
        put(ASLEEP + c, &[u8::from(connection.asleep)]);
        put(EXCEPTIONS + c, &[u8::from(connection.exceptions)]);
        put(IDS + ID_BYTES * c, connection.id.bytes());
    }
}

/// The state that a table and workloads say. The table must obey the rules; the workloads may hold any bytes.
pub fn read(table: &[u8], workloads: &[u8]) -> Server {
    let table = Table(&table[..TABLE]);
    let mut server = Server::new();
    server.hub = Text::new(text(table.hub_place()));
    server.last_serial = table.last_serial();
    server.workloads.copy_from_slice(&workloads[..WORKLOADS]);
    for c in 0..CONNECTIONS {
        server.connections[c] = Connection {
            open: table.open(c) != 0,
            asleep: table.asleep(c) != 0,
            exceptions: table.exceptions(c) != 0,
            id: Text::new(text(table.id_place(c))),
        };
    }
    for q in 0..FUNCTIONS {
        let name = text(table.name_place(q));
        if !name.is_empty() {
            server.functions[q] = Some(Function { name: Text::new(name), able: table.able(q) as Set, jobs: 0 });
        }
    }
    for p in (0..JOBS).filter(|&p| table.is_job(p)) {
        let function = usize::from(table.function(p));
        server.jobs[p] = Some(Job {
            serial: table.serial(p),
            function,
            unique: Text::new(text(table.unique_place(p))),
            size: usize::from(table.size(p)),
            priority: table.priority(p),
            background: table.background(p) != 0,
            listeners: table.listeners(p) as Set,
            holder: usize::from(table.holder(p)).checked_sub(1),
            numerator: Text::new(text(table.numerator_place(p))),
            denominator: Text::new(text(table.denominator_place(p))),
        });
        if let Some(known) = &mut server.functions[function] {
            known.jobs += 1;
        }
    }
    server
}
