//! One packet as a line of words, as docs/SHOW.md has it: names, labels, what may be seen of an argument, reasons.
#![forbid(unsafe_code)]

use crate::packet::{self, Packet, Part, Side};
use crate::server::error_text;
use crate::text::printed;

/// Document 000's names of the types 1 to 36.
const NAMES: [&str; 36] = [
    "CAN_DO",
    "CANT_DO",
    "RESET_ABILITIES",
    "PRE_SLEEP",
    "(unused)",
    "NOOP",
    "SUBMIT_JOB",
    "JOB_CREATED",
    "GRAB_JOB",
    "NO_JOB",
    "JOB_ASSIGN",
    "WORK_STATUS",
    "WORK_COMPLETE",
    "WORK_FAIL",
    "GET_STATUS",
    "ECHO_REQ",
    "ECHO_RES",
    "SUBMIT_JOB_BG",
    "ERROR",
    "STATUS_RES",
    "SUBMIT_JOB_HIGH",
    "SET_CLIENT_ID",
    "CAN_DO_TIMEOUT",
    "ALL_YOURS",
    "WORK_EXCEPTION",
    "OPTION_REQ",
    "OPTION_RES",
    "WORK_DATA",
    "WORK_WARNING",
    "GRAB_JOB_UNIQ",
    "JOB_ASSIGN_UNIQ",
    "SUBMIT_JOB_HIGH_BG",
    "SUBMIT_JOB_LOW",
    "SUBMIT_JOB_LOW_BG",
    "SUBMIT_JOB_SCHED",
    "SUBMIT_JOB_EPOCH",
];

/// A type's name; one that document 000 does not name goes by its number.
pub fn name(kind: u32) -> String {
    let place = (kind as usize).wrapping_sub(1);
    NAMES.get(place).map_or_else(|| format!("type {kind}"), |name| (*name).to_string())
}

/// The documents' words for the arguments of a type, in their order. A type goes by one shape on either side.
pub fn labels(kind: u32) -> &'static [&'static str] {
    match kind {
        1 | 2 => &["function"],
        7 | 18 | 21 | 32 | 33 | 34 => &["function", "unique", "workload"],
        8 | 14 | 15 => &["handle"],
        11 => &["handle", "function", "workload"],
        12 => &["handle", "numerator", "denominator"],
        13 | 25 | 28 | 29 => &["handle", "data"],
        16 | 17 => &["data"],
        19 => &["number", "text"],
        20 => &["handle", "known", "running", "numerator", "denominator"],
        22 => &["id"],
        26 | 27 => &["option"],
        31 => &["handle", "function", "unique", "workload"],
        _ => &[],
    }
}

/// What the server answers where it refuses.
pub fn refusal(number: u32) -> String {
    format!("refused {number} {}", reason(number))
}

fn reason(number: u32) -> &'static str {
    match number {
        1 => "buffer or table",
        2 => "connection above 15",
        3 => "connection not open",
        4 => "already open",
        5 => "under 12 bytes",
        6 => "magic",
        7 => "size",
        8 => "length is not 12 + size",
        16 => "line is not a frame",
        _ => error_text(number).unwrap_or("?"),
    }
}

/// A packet with its connection: a request goes to the server, a response comes from it.
pub fn packet_line(side: Side, connection: u32, bytes: &[u8]) -> String {
    let arrow = match side {
        Side::Request => "->",
        Side::Response => "<-",
    };
    format!("{connection} {arrow} {}", packet_words(side, bytes))
}

/// A packet that cannot be read shows nothing of its data; under a bad header, 5 to 8, it has no type either.
fn packet_words(side: Side, bytes: &[u8]) -> String {
    match packet::read(side, bytes) {
        Ok(packet) => [name(packet.kind), arguments(side, &packet)].concat(),
        Err(number @ (packet::WRONG_TYPE | packet::BAD_ARGUMENTS)) => {
            format!("{} {}", name(packet::kind(bytes)), unreadable(number))
        }
        Err(number) => unreadable(number),
    }
}

/// Why a packet cannot be read.
fn unreadable(number: u32) -> String {
    format!("(unreadable: {})", reason(number))
}

/// The arguments, one space before each; labels where there are several.
fn arguments(side: Side, packet: &Packet) -> String {
    let shape = packet::shape(side, packet.kind).unwrap_or_default();
    let labels = labels(packet.kind);
    let mut words = String::new();
    for ((part, label), bytes) in shape.iter().zip(labels).zip(packet.arguments) {
        if shape.len() > 1 {
            words.push_str(&format!(" {label}"));
        }
        words.push_str(&format!(" {}", seen(*part, bytes)));
    }
    words
}

/// What may be seen of an argument: of an opaque one its length alone.
fn seen(part: Part, bytes: &[u8]) -> String {
    match part {
        Part::Opaque if bytes.len() == 1 => "1 byte".to_string(),
        Part::Opaque => format!("{} bytes", bytes.len()),
        _ if bytes.is_empty() => "\"\"".to_string(),
        _ => printed(bytes),
    }
}
