//! What an ordinary job server remembers, with the limits of document 01 and the client ids and hub names of document
//! 02, and how it is searched.
#![forbid(unsafe_code)]

use crate::handle::{self, Handle};
use crate::hub::{self, Name, LAP};
use crate::server::BAD_LENT;
use crate::text::Text;

pub const CONNECTIONS: usize = 16;
pub const FUNCTIONS: usize = 16;
pub const JOBS: usize = 32;
/// Bytes of one workload place.
pub const PLACE: usize = 1_024;
pub const WORKLOADS: usize = JOBS * PLACE;

/// A set of connections: connection c is in it exactly if bit c is 1.
pub type Set = u16;

pub fn has(set: Set, connection: usize) -> bool {
    set & only(connection) != 0
}

/// The set of one connection.
pub fn only(connection: usize) -> Set {
    1 << connection
}

/// The connections of a set in rising order.
pub fn members(set: Set) -> impl Iterator<Item = usize> {
    let mut rest = set;
    std::iter::from_fn(move || {
        let lowest = rest.trailing_zeros() as usize;
        if rest == 0 {
            return None;
        }
        rest &= rest - 1;
        Some(lowest)
    })
}

#[derive(Clone, Copy, Default, PartialEq, Debug)]
pub struct Connection {
    pub open: bool,
    pub asleep: bool,
    pub exceptions: bool,
    /// The client id; empty: none was set.
    pub id: Text<64>,
}

/// A known function: who can do it, and how many unfinished jobs name it. It is forgotten when both come to nothing.
#[derive(Clone, Copy, PartialEq, Debug)]
pub struct Function {
    pub name: Text<32>,
    pub able: Set,
    pub jobs: usize,
}

/// An unfinished job; its workload lies in the workload place of the same number.
#[derive(Clone, Copy, PartialEq, Debug)]
pub struct Job {
    pub serial: u32,
    pub function: usize,
    pub unique: Text<64>,
    pub size: usize,
    /// 2 high, 1 normal, 0 low.
    pub priority: u8,
    pub background: bool,
    pub listeners: Set,
    pub holder: Option<usize>,
    pub numerator: Text<10>,
    pub denominator: Text<10>,
}

impl Job {
    /// Whether somebody still wants the job when nobody holds it.
    pub fn wanted(&self) -> bool {
        self.background || self.listeners != 0
    }
}

#[derive(Clone, PartialEq)]
pub struct Server {
    /// The hub's name, which stands in every handle and never changes.
    pub hub: Name,
    /// The last serial given out; 0: none yet.
    pub last_serial: u32,
    pub connections: [Connection; CONNECTIONS],
    pub functions: [Option<Function>; FUNCTIONS],
    pub jobs: [Option<Job>; JOBS],
    pub workloads: Vec<u8>,
}

impl Default for Server {
    fn default() -> Self {
        Self::new()
    }
}

impl Server {
    /// A server as a fresh table says it, for the hub of document 01's cases.
    pub fn new() -> Self {
        Server {
            hub: Text::new(LAP),
            last_serial: 0,
            connections: [Connection::default(); CONNECTIONS],
            functions: [None; FUNCTIONS],
            jobs: [None; JOBS],
            workloads: vec![0; WORKLOADS],
        }
    }

    /// The same for the hub of this name; a bad name is refused by 1.
    pub fn fresh(name: &[u8]) -> Result<Self, u32> {
        if hub::is_name(name) {
            Ok(Server { hub: Text::new(name), ..Server::new() })
        } else {
            Err(BAD_LENT)
        }
    }

    /// The handle of the job with this serial.
    pub fn handle(&self, serial: u32) -> Handle {
        handle::print(self.hub.bytes(), serial)
    }

    /// The unfinished job with this handle. One of another hub is nobody's.
    pub fn find(&self, asked: &[u8]) -> Option<usize> {
        let serial = handle::read(self.hub.bytes(), asked)?;
        self.jobs.iter().position(|job| job.as_ref().is_some_and(|job| job.serial == serial))
    }

    /// The unfinished job that a submission joins: the same function and the same unique, which is not empty.
    pub fn joinable(&self, name: &[u8], unique: &[u8]) -> Option<usize> {
        if unique.is_empty() {
            return None;
        }
        let function = self.known(name)?;
        self.jobs
            .iter()
            .position(|job| job.as_ref().is_some_and(|job| job.function == function && job.unique.bytes() == unique))
    }

    /// The place of a known function.
    pub fn known(&self, name: &[u8]) -> Option<usize> {
        self.functions.iter().position(|function| function.as_ref().is_some_and(|known| known.name.bytes() == name))
    }

    /// The place that a function has, or would take: the lowest free one.
    pub fn function_place(&self, name: &[u8]) -> Option<usize> {
        self.known(name).or_else(|| self.functions.iter().position(Option::is_none))
    }

    pub fn able(&self, function: usize) -> Set {
        self.functions[function].as_ref().map_or(0, |known| known.able)
    }

    /// The job that the connection would be given: among queued jobs that it can do, the highest priority, then the
    /// lowest serial.
    pub fn grabbable(&self, connection: usize) -> Option<usize> {
        let mut best: Option<(usize, &Job)> = None;
        for (place, job) in self.jobs.iter().enumerate() {
            let Some(job) = job else { continue };
            if job.holder.is_some() || !has(self.able(job.function), connection) {
                continue;
            }
            let better = best.is_none_or(|(_, other)| {
                job.priority > other.priority || job.priority == other.priority && job.serial < other.serial
            });
            if better {
                best = Some((place, job));
            }
        }
        best.map(|(place, _)| place)
    }
}
