//! Document 01's replay program: frames in hexadecimal go in, one a line; addressed packets and numbers come out.
#![forbid(unsafe_code)]

use crate::event::Event;
use crate::hex;
use crate::lines::lines;
use crate::outbox::Outbox;
use crate::server::Server;

/// The number for a line that is not a frame.
pub const NOT_A_FRAME: u32 = 16;
const MOST_DIGITS: usize = 2_080;

/// The frame on a line, if it is one: a kind byte, a connection byte, and for a packet alone more bytes.
pub fn frame(line: &[u8]) -> Option<Event> {
    if line.len() > MOST_DIGITS {
        return None;
    }
    let bytes = hex::read(line)?;
    match bytes[..] {
        [1, connection] => Some(Event::Open(connection.into())),
        [2, connection] => Some(Event::Close(connection.into())),
        [3, connection, ref packet @ ..] => Some(Event::Packet(connection.into(), packet.to_vec())),
        _ => None,
    }
}

/// The whole output for a whole input, from the fresh table of the hub `lap`.
pub fn replay(input: &[u8]) -> String {
    replay_from(Server::new(), input)
}

/// The same from this state.
pub fn replay_from(mut server: Server, input: &[u8]) -> String {
    let mut out = Outbox::default();
    let mut output = String::new();
    for line in lines(input) {
        let number = match frame(line) {
            Some(event) => {
                let number = event.run(&mut server, &mut out);
                for packet in out.addressed() {
                    output.push_str(&hex::write(packet));
                    output.push('\n');
                }
                number
            }
            None => NOT_A_FRAME,
        };
        output.push_str(&format!("{number:02x}\n"));
    }
    output
}
