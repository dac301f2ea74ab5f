//! A capture in words, as docs/SHOW.md has it: each line, what the server sends, its number, the sleepers, the jobs.
#![forbid(unsafe_code)]

use crate::event::Event;
use crate::handle;
use crate::hub::Name;
use crate::lines::lines;
use crate::outbox::Outbox;
use crate::packet::{self, Part, Side};
use crate::replay::{frame, NOT_A_FRAME};
use crate::server::{Job, Server, CONNECTIONS, DONE};
use crate::state::members;
use crate::words::{packet_line, refusal};

/// The whole output for a whole capture, from the fresh table of the hub `lap`.
pub fn show(input: &[u8]) -> String {
    show_from(Server::new(), input)
}

/// The same from this state; handles go by the name of its hub.
pub fn show_from(mut server: Server, input: &[u8]) -> String {
    let mut out = Outbox::default();
    let mut output = String::new();
    for (index, line) in lines(input).enumerate() {
        output.push_str(&format!("line {}{}\n", index + 1, digits(line)));
        for words in below(line, &mut server, &mut out) {
            output.push_str(&format!("    {words}\n"));
        }
    }
    output
}

/// The digits of a frame after a space, up to the end of its packet's header; where the header is bad, kind and connection alone.
fn digits(line: &[u8]) -> String {
    let seen = match frame(line) {
        None => return String::new(),
        Some(Event::Packet(_, packet)) if !matches!(packet::read(Side::Request, &packet), Err(5..=8)) => 28,
        Some(_) => 4,
    };
    format!(" {}", String::from_utf8_lossy(&line[..seen]))
}

/// What stands below a line's number. The server does not see a line that is no frame.
fn below(line: &[u8], server: &mut Server, out: &mut Outbox) -> Vec<String> {
    let Some(event) = frame(line) else { return vec![refusal(NOT_A_FRAME)] };
    let before = serials(server);
    let number = event.run(server, out);
    let mut words = vec![said(&event)];
    words.extend(out.addressed().map(|packet| packet_line(Side::Response, packet[0].into(), &packet[1..])));
    words.push(if number == DONE { "done".to_string() } else { refusal(number) });
    let asleep = (0..CONNECTIONS).filter(|&connection| server.connections[connection].asleep);
    words.push(format!("asleep {}", list(asleep)));
    let after = serials(server);
    let gone = before.iter().filter(|serial| !after.contains(serial));
    words.extend(gone.map(|&serial| format!("{} {}", ending(&event), handle_words(server, serial))));
    words.extend(concerned(&event, number, &before, server, out));
    words
}

/// The serials of the unfinished jobs, in the order of their places.
fn serials(server: &Server) -> Vec<u32> {
    server.jobs.iter().flatten().map(|job| job.serial).collect()
}

/// What an event does to a job that is gone after it.
fn ending(event: &Event) -> &'static str {
    match event {
        Event::Packet(..) => "ended",
        Event::Open(_) | Event::Close(_) => "dropped",
    }
}

/// What the line itself says.
fn said(event: &Event) -> String {
    match event {
        Event::Open(connection) => format!("{connection} opens"),
        Event::Close(connection) => format!("{connection} closes"),
        Event::Packet(connection, packet) => packet_line(Side::Request, *connection, packet),
    }
}

/// The job concerned, if there is one and it has not just gone; after a close that is done, all jobs in the order of their places.
fn concerned(event: &Event, number: u32, before: &[u32], server: &Server, out: &Outbox) -> Vec<String> {
    if let Event::Close(_) = event {
        let left = server.jobs.iter().flatten().filter(|_| number == DONE);
        return left.map(|job| job_words(server, job)).collect();
    }
    let words = |serial| match server.jobs.iter().flatten().find(|job| job.serial == serial) {
        Some(job) => Some(job_words(server, job)),
        None if before.contains(&serial) => None,
        None => Some(format!("no job {}", handle_words(server, serial))),
    };
    serial(&server.hub, event, out).and_then(words).into_iter().collect()
}

/// The serial whose handle stands in the packet that came, or else in the first one that was sent. A handle of another
/// hub is none.
fn serial(hub: &Name, event: &Event, out: &Outbox) -> Option<u32> {
    let asked = match event {
        Event::Packet(_, packet) => serial_in(hub, Side::Request, packet),
        _ => None,
    };
    asked.or_else(|| serial_in(hub, Side::Response, out.addressed().next()?.get(1..)?))
}

/// The serial of a packet's handle: where a type has a handle, it is the first argument.
fn serial_in(hub: &Name, side: Side, bytes: &[u8]) -> Option<u32> {
    let packet = packet::read(side, bytes).ok()?;
    match packet::shape(side, packet.kind)? {
        [Part::Handle, ..] => handle::read(hub.bytes(), packet.arguments[0]),
        _ => None,
    }
}

fn job_words(server: &Server, job: &Job) -> String {
    let handle = handle_words(server, job.serial);
    let priority = ["low ", "", "high "][usize::from(job.priority)];
    let background = if job.background { "background " } else { "" };
    format!("job {handle} {priority}{background}holder {} listeners {}", list(job.holder), list(members(job.listeners)))
}

fn handle_words(server: &Server, serial: u32) -> String {
    String::from_utf8_lossy(server.handle(serial).bytes()).into_owned()
}

/// Connections with one space between each two, or `none`.
fn list(connections: impl IntoIterator<Item = usize>) -> String {
    let all: Vec<String> = connections.into_iter().map(|connection| connection.to_string()).collect();
    if all.is_empty() {
        "none".to_string()
    } else {
        all.join(" ")
    }
}
