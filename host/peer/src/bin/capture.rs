//! Prints a random capture, for programs that read one.
//! usage: capture [HUB] [--lines N] [--seed S]. The hub is `lap` where no other one is named.
#![forbid(unsafe_code)]

use peer::{captures, options};
use std::io::{self, Write};
use std::process::ExitCode;

fn main() -> ExitCode {
    match print() {
        Ok(()) => ExitCode::SUCCESS,
        Err(text) => {
            eprintln!("{text}\nusage: capture [HUB] [--lines N] [--seed S]");
            ExitCode::from(2)
        }
    }
}

fn print() -> Result<(), String> {
    let (server, words) = options::hub()?;
    let [lines, seed] = options::numbers_in(words, ["--lines", "--seed"], [1_000, 1])?;
    io::stdout().write_all(&captures::capture_from(server, lines, seed)).map_err(|error| error.to_string())
}
