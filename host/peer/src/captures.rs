//! Random captures, the same for the same seed: the frames of a random history from a fresh table, some lines damaged.
#![forbid(unsafe_code)]

use crate::event::Event;
use crate::hex;
use crate::histories::History;
use crate::outbox::Outbox;
use crate::random::Random;
use crate::replay::frame;
use crate::server::Server;

/// Lengths around the longest line that can be a frame, and beyond what a program may keep of a line.
const LONG_LINES: [usize; 8] = [2_078, 2_079, 2_080, 2_081, 2_082, 2_084, 4_096, 9_000];

/// A capture of so many lines on the hub `lap`; the last one of an odd seed has no line end.
pub fn capture(lines: u64, seed: u64) -> Vec<u8> {
    capture_from(Server::new(), lines, seed)
}

/// The same on any hub, from its fresh table.
pub fn capture_from(mut server: Server, lines: u64, seed: u64) -> Vec<u8> {
    let mut history = History::new(seed);
    let mut random = Random::new(seed ^ 0xca);
    let mut out = Outbox::default();
    let mut text = Vec::new();
    for _ in 0..lines {
        let mut line = hex::write(&frame_bytes(&history.next(&server))).into_bytes();
        if random.chance(4) {
            damage(&mut line, &mut random);
        }
        // The history goes on from what the line says now.
        if let Some(event) = frame(&line) {
            event.run(&mut server, &mut out);
        }
        text.extend(line);
        text.push(b'\n');
    }
    if seed % 2 == 1 {
        text.pop();
    }
    text
}

/// An event as a frame. A frame has one byte for the connection: one above 255 becomes 255.
fn frame_bytes(event: &Event) -> Vec<u8> {
    let (kind, connection, packet): (u8, u32, &[u8]) = match event {
        Event::Open(connection) => (1, *connection, &[]),
        Event::Close(connection) => (2, *connection, &[]),
        Event::Packet(connection, packet) => (3, *connection, packet),
    };
    [&[kind, connection.min(255) as u8], packet].concat()
}

/// The line cut, prolonged or with other bytes. Most kinds of damage make it no frame, some another frame.
fn damage(line: &mut Vec<u8>, random: &mut Random) {
    match random.below(10) {
        0 => line.clear(),
        1 => line.truncate(random.below(line.len())),
        2 => line.truncate(random.below(5)),
        3 => line.push(b'0'),
        4 => line.extend(b"00"),
        5 => line.push(b'\r'),
        6 => line.make_ascii_uppercase(),
        7 => line[..2].copy_from_slice(*random.pick(&[b"00", b"01", b"02", b"03", b"04", b"10", b"ff"])),
        8 => {
            let place = random.below(line.len());
            line[place] = any_byte(random);
        }
        _ => line.resize(*random.pick(&LONG_LINES), b'0'),
    }
}

/// Any byte that ends no line; half of them stand next to the digits.
fn any_byte(random: &mut Random) -> u8 {
    match random.byte() {
        b'\n' => 0,
        byte if byte % 2 == 0 => *random.pick(b"/:`gGA 0f"),
        byte => byte,
    }
}
