//! Document 02's text commands, request 1: `status`, `workers` and `version`, on an entry of their own.
#![forbid(unsafe_code)]

use crate::image;
use crate::layout::{OUTPUT, TABLE};
use crate::server::{Function, Server, BAD_LENT, CONNECTIONS, DONE, WORKLOADS};
use crate::state::has;
use crate::text::printed;

const VERSION: &str = "lap 1\n";
const UNKNOWN: &str = "ERR unknown\n";
/// The line that ends a list.
const PERIOD: &str = ".\n";

/// The entry over lent buffers: the number, and how many bytes of the output were written. Refusal 1 comes first.
pub fn text(table: &[u8], workloads: &[u8], output: &mut [u8], connection: u32, line: &[u8]) -> (u32, usize) {
    let short = table.len() < TABLE || workloads.len() < WORKLOADS || output.len() < OUTPUT;
    if short || !image::obeys(table) {
        return (BAD_LENT, 0);
    }
    let (number, bytes) = image::read(table, workloads).text(connection, line);
    output[..bytes.len()].copy_from_slice(&bytes);
    (number, bytes.len())
}

impl Server {
    /// The number, and what the output holds: the connection byte and one text, or nothing after refusal 2 or 3.
    pub fn text(&self, connection: u32, line: &[u8]) -> (u32, Vec<u8>) {
        match self.opened(connection) {
            Ok(asker) => (DONE, [&[asker as u8], self.answer(line).as_bytes()].concat()),
            Err(number) => (number, vec![]),
        }
    }

    fn answer(&self, line: &[u8]) -> String {
        match words(line) {
            Some(b"status") => self.status_list(),
            Some(b"workers") => self.workers_list(),
            Some(b"version") => VERSION.to_string(),
            _ => UNKNOWN.to_string(),
        }
    }

    /// A line a known function: name, unfinished jobs, held jobs, and how many connections can do it.
    fn status_list(&self) -> String {
        let mut list = String::new();
        for (place, known) in self.by_name() {
            let jobs = self.jobs.iter().flatten().filter(|job| job.function == place);
            let held = jobs.clone().filter(|job| job.holder.is_some()).count();
            let name = printed(known.name.bytes());
            list += &format!("{name}\t{}\t{held}\t{}\n", jobs.count(), known.able.count_ones());
        }
        list + PERIOD
    }

    /// A line an open connection: its number, `-` for the address, its id or `-`, a colon and its functions.
    fn workers_list(&self) -> String {
        let mut list = String::new();
        let functions = self.by_name();
        for connection in (0..CONNECTIONS).filter(|&c| self.connections[c].open) {
            let id = &self.connections[connection].id;
            let id = if id.is_empty() { "-".to_string() } else { printed(id.bytes()) };
            list += &format!("{connection} - {id} :");
            for (_, known) in functions.iter().filter(|(_, known)| has(known.able, connection)) {
                list += &format!(" {}", printed(known.name.bytes()));
            }
            list.push('\n');
        }
        list + PERIOD
    }

    /// The known functions with their places, in rising order of the names' own bytes, not of the printed ones.
    fn by_name(&self) -> Vec<(usize, &Function)> {
        let known = self.functions.iter().enumerate();
        let mut functions: Vec<_> = known.filter_map(|(place, known)| Some((place, known.as_ref()?))).collect();
        functions.sort_by_key(|(_, known)| known.name.bytes());
        functions
    }
}

/// What stands before the line feed at the end, and before one carriage return in front of it; nothing without a line
/// feed. That a line has at most 128 bytes needs no test: the commands are shorter, and any other line is unknown.
fn words(line: &[u8]) -> Option<&[u8]> {
    let words = line.strip_suffix(b"\n")?;
    Some(words.strip_suffix(b"\r").unwrap_or(words))
}
