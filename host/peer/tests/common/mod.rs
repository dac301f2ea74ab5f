//! Short ways to write the tests: requests by number, and responses as they should come.
#![allow(dead_code)]

pub mod grab;

pub use peer::histories::request;
use peer::server::{Answer, Server};

/// A response to a connection, as an answer holds it.
pub fn response(connection: u8, kind: u32, arguments: &[&[u8]]) -> (u8, Vec<u8>) {
    let mut packet = request(kind, arguments);
    packet[3] = b'S';
    (connection, packet)
}

/// A server with these connections open.
pub fn opened(connections: &[u32]) -> Server {
    let mut server = Server::new();
    for &connection in connections {
        assert_eq!(server.open(connection), 0);
    }
    server
}

pub fn send(server: &mut Server, connection: u32, kind: u32, arguments: &[&[u8]]) -> Answer {
    server.packet(connection, &request(kind, arguments))
}

/// Sends a packet that must be done with exactly these packets.
pub fn done(server: &mut Server, connection: u32, kind: u32, arguments: &[&[u8]], packets: &[(u8, Vec<u8>)]) {
    assert_eq!(send(server, connection, kind, arguments), (0, packets.to_vec()));
}

/// Sends a packet that must be refused with this number, its ERROR packet and no change.
pub fn refused(server: &mut Server, connection: u32, kind: u32, arguments: &[&[u8]], number: u32) {
    let texts = ["type", "arguments", "functions", "jobs", "serials", "handle", "option"];
    let before = server.clone();
    let error =
        response(connection as u8, 19, &[format!("{number:02}").as_bytes(), texts[number as usize - 9].as_bytes()]);
    assert_eq!(send(server, connection, kind, arguments), (number, vec![error]));
    assert!(*server == before, "a refusal changed the server");
}
