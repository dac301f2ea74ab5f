//! Lines of a capture, and programs that read one on standard input.
#![forbid(unsafe_code)]

use crate::options;
use crate::server::Server;
use std::io::{self, Read, Write};
use std::process::ExitCode;

/// The lines without their line ends. A last line without one counts; nothing after the last line end is no line.
pub fn lines(input: &[u8]) -> impl Iterator<Item = &[u8]> {
    input.split_inclusive(|&byte| byte == b'\n').map(|line| line.strip_suffix(b"\n").unwrap_or(line))
}

/// The whole of a program that reads all its input and then writes what the function makes of it, from the fresh table
/// of the hub that the only argument names, or of `lap`. Other arguments are answered by a line on standard error.
pub fn filter(program: &str, made: fn(Server, &[u8]) -> String) -> ExitCode {
    match options::hub() {
        Ok((server, rest)) if rest.is_empty() => match pass(|input| made(server, input)) {
            Ok(()) => ExitCode::SUCCESS,
            Err(error) => {
                eprintln!("{program}: {error}");
                ExitCode::FAILURE
            }
        },
        _ => {
            eprintln!("usage: {program} [HUB] < CAPTURE (HUB: 1 to 15 lowercase letters and digits; without it, lap)");
            ExitCode::from(2)
        }
    }
}

fn pass(made: impl FnOnce(&[u8]) -> String) -> io::Result<()> {
    let mut input = Vec::new();
    io::stdin().read_to_end(&mut input)?;
    io::stdout().write_all(made(&input).as_bytes())
}
