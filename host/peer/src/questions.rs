//! Lines for the text entry, fixed ones and random ones, the same for the same seed: the three commands with all kinds
//! of line ends, and lines that are nearly one of them.
#![forbid(unsafe_code)]

use crate::hex;
use crate::random::Random;
use crate::server::{Server, CONNECTIONS};

pub const COMMANDS: [&[u8]; 3] = [b"status", b"workers", b"version"];
/// Commands of document 000 that are not served, and served ones with something more.
const OTHERS: [&[u8]; 8] =
    [b"maxqueue", b"shutdown", b"help", b"status reverse", b"version 1", b"workers\t", b"status;", b"."];
/// Lengths of lines around the longest that document 02 names, and of far longer ones.
const LONG: [usize; 7] = [127, 128, 129, 130, 256, 1_036, 20_000];
const BEYOND: [u32; 6] = [16, 17, 255, 256, 0x8000_0000, u32::MAX];

/// One line from one connection.
#[derive(Clone, PartialEq, Eq, Debug)]
pub struct Question {
    pub connection: u32,
    pub line: Vec<u8>,
}

impl Question {
    /// The ordinary server's number, and what the output must hold.
    pub fn run(&self, server: &Server) -> (u32, Vec<u8>) {
        server.text(self.connection, &self.line)
    }

    /// The three commands from one connection.
    pub fn commands(connection: u32) -> [Question; 3] {
        COMMANDS.map(|command| Question { connection, line: [command, b"\n"].concat() })
    }

    /// From one connection each command with each line end, and what is nearly one.
    pub fn fixed(connection: u32) -> Vec<Question> {
        let mut lines = vec![vec![], b"\n".to_vec(), b"\r\n".to_vec()];
        for command in COMMANDS {
            for end in [&b""[..], b"\n", b"\r", b"\r\n", b"\r\r\n", b"\n\n", b" \n", b"\0\n"] {
                lines.push([command, end].concat());
            }
            lines.push([&command.to_ascii_uppercase()[..], b"\n"].concat());
            lines.push([&command[..command.len() - 1], b"\n"].concat());
            lines.push([b" ", command, b"\n"].concat());
            for length in [127, 128, 129, 130] {
                lines.push([command, &vec![b'\r'; length - 1 - command.len()], b"\n"].concat());
            }
        }
        lines.into_iter().map(|line| Question { connection, line }).collect()
    }

    /// Mostly from an open connection.
    pub fn random(server: &Server, random: &mut Random) -> Question {
        let open: Vec<u32> = (0..CONNECTIONS as u32).filter(|&c| server.connections[c as usize].open).collect();
        let connection = match random.below(20) {
            0 => *random.pick(&BEYOND),
            1 => random.below(CONNECTIONS) as u32,
            _ if open.is_empty() => 0,
            _ => *random.pick(&open),
        };
        Question { connection, line: line(random) }
    }
}

impl std::fmt::Display for Question {
    fn fmt(&self, f: &mut std::fmt::Formatter<'_>) -> std::fmt::Result {
        let (length, digits) = (self.line.len(), hex::write(&self.line));
        write!(f, "line from connection {}, {length} bytes: {digits}", self.connection)
    }
}

/// More than half of the lines are commands.
fn line(random: &mut Random) -> Vec<u8> {
    let command = *random.pick(&COMMANDS);
    match random.below(40) {
        0..=16 => [command, b"\n"].concat(),
        17..=22 => [command, b"\r\n"].concat(),
        23 => [command, b"\r\r\n"].concat(),
        24 => command.to_vec(),
        25 => [command, b"\r"].concat(),
        26 => vec![],
        27 => random.pick(&[&b"\n"[..], b"\r\n", b"\r", b"\r\r\n", b"\n\n", b"\0\n"]).to_vec(),
        28 => [&command.to_ascii_uppercase()[..], b"\n"].concat(),
        29 => one_other(command, |byte| byte ^ 0x20, random),
        30 => one_other(command, |byte| byte.wrapping_add(1), random),
        31 => [&command[..random.below(command.len())], b"\n"].concat(),
        32 => [command, &[*random.pick(b" \t\0s.\n\x80")], b"\n"].concat(),
        33 => [&[*random.pick(b" \t\0s.\n\r")], command, b"\n"].concat(),
        // A line end in the middle, and something after it.
        34 => {
            let (start, rest) = command.split_at(random.below(command.len() + 1));
            [start, *random.pick(&[&b"\n"[..], b"\r", b"\r\n"]), rest, b"\n"].concat()
        }
        35 => [command, b"\n", *random.pick(&[&b"\n"[..], b"\r", b"x", b"\0", b"status\n"])].concat(),
        36 => [*random.pick(&OTHERS), b"\n"].concat(),
        37 => long(command, random),
        38 => any_bytes(random),
        _ => [&any_bytes(random)[..], b"\n"].concat(),
    }
}

/// The command with one byte changed.
fn one_other(command: &[u8], change: fn(u8) -> u8, random: &mut Random) -> Vec<u8> {
    let mut line = [command, b"\n"].concat();
    let place = random.below(command.len());
    line[place] = change(line[place]);
    line
}

/// A long line that starts with the command or ends with it.
fn long(command: &[u8], random: &mut Random) -> Vec<u8> {
    let room = random.pick(&LONG) - command.len() - 1;
    let rest = vec![*random.pick(b" \r\n\0x"); room];
    if random.chance(50) {
        [command, &rest, b"\n"].concat()
    } else {
        [&rest, command, b"\n"].concat()
    }
}

fn any_bytes(random: &mut Random) -> Vec<u8> {
    (0..random.below(140)).map(|_| random.byte()).collect()
}
