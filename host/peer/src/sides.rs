//! What `bench` compares: an archive with its lent buffers, and the ordinary server with its outbox.
#![forbid(unsafe_code)]

use crate::archive::Calls;
use crate::histories::request;
use crate::hub::LAP;
use crate::layout::{OUTPUT, TABLE};
use crate::outbox::Outbox;
use crate::server::{Server, CONNECTIONS, PLACE, WORKLOADS};

pub trait Side {
    /// A fresh server of the hub `lap`, which an older archive has too, with all connections open.
    fn reset(&mut self);
    /// Runs a packet; gives the number and how many bytes were written.
    fn run(&mut self, connection: u32, packet: &[u8]) -> (u32, usize);
    fn output(&self, length: usize) -> &[u8];
    /// The workloads as the side keeps them.
    fn workloads(&mut self) -> &mut [u8];
}

pub struct Archive {
    calls: &'static Calls,
    table: Vec<u8>,
    workloads: Vec<u8>,
    output: Vec<u8>,
}

impl Archive {
    pub fn new(calls: &'static Calls) -> Self {
        Archive { calls, table: vec![0; TABLE], workloads: vec![0; WORKLOADS], output: vec![0; OUTPUT] }
    }
}

impl Side for Archive {
    fn reset(&mut self) {
        self.calls.fresh(&mut self.table, &mut self.workloads, LAP);
        for connection in 0..CONNECTIONS {
            self.calls.open(&mut self.table, &mut self.workloads, &mut self.output, connection as u32);
        }
    }
    fn run(&mut self, connection: u32, packet: &[u8]) -> (u32, usize) {
        let (table, workloads, output) = (&mut self.table, &mut self.workloads, &mut self.output);
        let (number, length) = self.calls.packet(table, workloads, output, connection, packet);
        (number, length as usize)
    }
    fn output(&self, length: usize) -> &[u8] {
        &self.output[..length]
    }
    fn workloads(&mut self) -> &mut [u8] {
        &mut self.workloads
    }
}

pub struct Plain {
    server: Server,
    out: Outbox,
}

impl Plain {
    pub fn new() -> Self {
        Plain { server: Server::new(), out: Outbox::default() }
    }
}

impl Default for Plain {
    fn default() -> Self {
        Self::new()
    }
}

impl Side for Plain {
    fn reset(&mut self) {
        self.server = Server::new();
        for connection in 0..CONNECTIONS {
            self.server.open(connection as u32);
        }
    }
    fn run(&mut self, connection: u32, packet: &[u8]) -> (u32, usize) {
        self.out.clear();
        let number = self.server.packet_into(connection, packet, &mut self.out);
        (number, self.out.bytes().len())
    }
    fn output(&self, length: usize) -> &[u8] {
        &self.out.bytes()[..length]
    }
    fn workloads(&mut self) -> &mut [u8] {
        &mut self.server.workloads
    }
}

/// Whether the side clears memory: it is tried in workloads full of other bytes, which no rule looks at. A new workload
/// must be followed by zeros to the end of its place, and an ended job must leave its whole place zero.
pub fn clears(side: &mut impl Side) -> bool {
    const OTHER: u8 = 0xee;
    side.reset();
    side.workloads().fill(OTHER);
    let zeros = |bytes: &[u8]| bytes.iter().all(|&byte| byte == 0);
    let done = |side: &mut dyn Side, number: u32, arguments: &[&[u8]]| side.run(0, &request(number, arguments)).0 == 0;
    let made = done(side, 1, &[b"f"]) && done(side, 7, &[b"f", b"", b"text"]);
    let padded = side.workloads().starts_with(b"text") && zeros(&side.workloads()[4..PLACE]);
    let ended = done(side, 9, &[]) && done(side, 13, &[b"H:lap:1", b""]);
    let emptied = zeros(&side.workloads()[..PLACE]);
    let others_kept = side.workloads()[PLACE..].iter().all(|&byte| byte == OTHER);
    made && padded && ended && emptied && others_kept
}
