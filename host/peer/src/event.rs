//! The events of a host: open, close, and one whole packet from a connection.
#![forbid(unsafe_code)]

use crate::hex;
use crate::outbox::Outbox;
use crate::server::Server;

#[derive(Clone, PartialEq, Eq, Debug)]
pub enum Event {
    Open(u32),
    Close(u32),
    Packet(u32, Vec<u8>),
}

impl Event {
    /// Runs the event on the ordinary server; the outbox then holds its packets and nothing else.
    pub fn run(&self, server: &mut Server, out: &mut Outbox) -> u32 {
        out.clear();
        match self {
            Event::Open(connection) => server.open(*connection),
            Event::Close(connection) => server.close_into(*connection, out),
            Event::Packet(connection, packet) => server.packet_into(*connection, packet, out),
        }
    }
}

impl std::fmt::Display for Event {
    fn fmt(&self, f: &mut std::fmt::Formatter<'_>) -> std::fmt::Result {
        match self {
            Event::Open(connection) => write!(f, "open of connection {connection}"),
            Event::Close(connection) => write!(f, "close of connection {connection}"),
            Event::Packet(connection, packet) => {
                write!(f, "packet from connection {connection}, {} bytes: {}", packet.len(), hex::write(packet))
            }
        }
    }
}
