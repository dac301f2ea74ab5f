//! Random histories of events, the same for the same seed, on hubs of random names. Functions, uniques and handles come
//! from small sets, so that joins, grabs, completions, sleeps and refusals happen often; some packets stand at a limit,
//! some are damaged.
#![forbid(unsafe_code)]

mod packets;

use crate::event::Event;
use crate::hub::names;
use crate::packet::Side;
use crate::random::Random;
use crate::server::{Job, Server, CONNECTIONS, JOBS};
use crate::state::has;
use crate::text::Text;

/// What a stretch of a history does most; it changes every few dozen events.
#[derive(Clone, Copy, PartialEq)]
enum Mood {
    Mixed,
    Filling,
    Draining,
    Sleeping,
    Churning,
    Learning,
    Damaging,
    Idle,
    Forgetting,
    Grabbing,
    Failing,
}

const MOODS: [Mood; 14] = [
    Mood::Mixed,
    Mood::Mixed,
    Mood::Filling,
    Mood::Draining,
    Mood::Sleeping,
    Mood::Churning,
    Mood::Learning,
    Mood::Damaging,
    Mood::Idle,
    Mood::Idle,
    Mood::Idle,
    Mood::Forgetting,
    Mood::Grabbing,
    Mood::Failing,
];

pub const SUBMISSIONS: [u32; 6] = [7, 18, 21, 32, 33, 34];
/// All of them, high priority more often: such jobs are grabbed first, and several must wait for a choice among them.
const MANY_HIGH: [u32; 8] = [7, 18, 21, 21, 32, 32, 33, 34];
/// Those whose sender becomes a listener.
const FOREGROUND: [u32; 3] = [7, 21, 33];
const ENDINGS: [u32; 3] = [13, 14, 25];
const WORKER_PACKETS: [u32; 6] = [12, 13, 14, 25, 28, 29];
const SERVED: [u32; 22] = [1, 2, 3, 4, 7, 9, 12, 13, 14, 15, 16, 18, 21, 22, 25, 26, 28, 29, 30, 32, 33, 34];
/// Types that no connection may send, some of them with the low byte or the low half of a served type.
const NOT_SERVED: [u32; 20] =
    [0, 5, 6, 8, 10, 11, 17, 19, 20, 23, 24, 27, 31, 35, 36, 37, 0x107, 0x116, 0x0100_0007, u32::MAX];
/// How many events at the end of a stretch of grabs empty the queue.
const EMPTYING: usize = 80;
const BEYOND: [u32; 7] = [16, 17, 255, 256, 65_536, 0x8000_0000, u32::MAX];

pub struct History {
    random: Random,
    mood: Mood,
    left: usize,
    /// How many functions, uniques and connections this stretch draws from.
    functions: usize,
    uniques: usize,
    connections: usize,
}

impl History {
    pub fn new(seed: u64) -> Self {
        History { random: Random::new(seed), mood: Mood::Mixed, left: 0, functions: 3, uniques: 3, connections: 6 }
    }

    /// The state that the history starts from: mostly a fresh one of any name, in some seeds with serials near a longer
    /// handle or near their end, in some with workloads that hold any bytes.
    pub fn start(&mut self) -> Server {
        let mut server = Server::new();
        server.last_serial = match self.random.below(32) {
            0 => u32::MAX - self.random.below(3) as u32,
            1 => u32::MAX - self.random.below(600) as u32,
            2 | 3 => {
                // The queue fills up just when the serials end.
                self.change_mood();
                self.mood = Mood::Filling;
                self.uniques = 40;
                self.left = 120;
                u32::MAX - 30 - self.random.below(12) as u32
            }
            4..=8 => 10u32.pow(1 + self.random.below(9) as u32) - 1 - self.random.below(9) as u32,
            _ => 0,
        };
        if self.random.chance(30) {
            for byte in &mut server.workloads {
                *byte = self.random.byte();
            }
        }
        server.hub = Text::new(&names::any(&mut self.random));
        server
    }

    /// The next event; the state is looked at only to meet open connections, held jobs and known handles often.
    pub fn next(&mut self, server: &Server) -> Event {
        if self.left == 0 {
            self.change_mood();
        }
        self.left -= 1;
        let open = (0..CONNECTIONS).filter(|&c| server.connections[c].open).count();
        if open < self.connections.min(if self.mood == Mood::Idle { 12 } else { 5 })
            || self.random.chance(self.share(4, 20))
        {
            return Event::Open(self.any_connection());
        }
        if self.random.chance(self.share(2, 20)) {
            // A holder's leaving does more than another's: its jobs return, and sleepers wake.
            let holders: Vec<usize> = server.jobs.iter().flatten().filter_map(|job| job.holder).collect();
            let leaver = if holders.is_empty() || self.random.chance(50) {
                self.connection(server)
            } else {
                *self.random.pick(&holders)
            };
            return Event::Close(leaver as u32);
        }
        let kind = self.kind(server);
        let connection = match self.random.below(100) {
            0 => self.any_connection(),
            1 => *self.random.pick(&BEYOND),
            _ => self.suited(server, kind) as u32,
        };
        let packet = self.valid(server, connection, kind);
        let packet = if self.random.chance(if self.mood == Mood::Damaging { 50 } else { 4 }) {
            self.damaged(packet)
        } else {
            packet
        };
        Event::Packet(connection, packet)
    }

    /// A percentage in most moods, a higher one while connections come and go, and one between where many sleep or set
    /// the option, which a close ends.
    fn share(&self, usual: usize, churning: usize) -> usize {
        match self.mood {
            Mood::Churning => churning,
            Mood::Sleeping | Mood::Failing => usual * 2,
            _ => usual,
        }
    }

    fn change_mood(&mut self) {
        self.mood = *self.random.pick(&MOODS);
        self.left = 20 + self.random.below(160);
        self.functions = *self.random.pick(&[1, 2, 3, 5, 16, 20]);
        self.uniques = *self.random.pick(&[1, 2, 4, 12, 40]);
        self.connections = *self.random.pick(&[1, 2, 4, 8, 16]);
        if matches!(self.mood, Mood::Learning | Mood::Forgetting) {
            self.functions = 20;
        }
        if self.mood == Mood::Idle {
            self.connections = *self.random.pick(&[4, 8, 16]);
        }
        if matches!(self.mood, Mood::Filling | Mood::Grabbing) {
            self.uniques = 40;
        }
        if self.mood == Mood::Grabbing {
            self.functions = *self.random.pick(&[2, 3, 5, 16]);
            self.connections = *self.random.pick(&[8, 16]);
            self.left += EMPTYING + 40;
        }
        if self.mood == Mood::Failing {
            self.functions = *self.random.pick(&[1, 2]);
            self.uniques = *self.random.pick(&[1, 2]);
            self.connections = *self.random.pick(&[4, 8, 16]);
        }
    }

    fn any_connection(&mut self) -> u32 {
        match self.random.below(30) {
            0 => *self.random.pick(&BEYOND),
            1..=9 => self.random.below(CONNECTIONS) as u32,
            _ => self.random.below(self.connections) as u32,
        }
    }

    /// Mostly an open connection.
    fn connection(&mut self, server: &Server) -> usize {
        let open: Vec<usize> = (0..CONNECTIONS).filter(|&c| server.connections[c].open).collect();
        if open.is_empty() || self.random.chance(1) {
            return self.random.below(CONNECTIONS);
        }
        let few = open.len().min(self.connections);
        if self.random.chance(80) {
            open[self.random.below(few)]
        } else {
            *self.random.pick(&open)
        }
    }

    /// Mostly a connection for which a packet of this type can do something: a holder, one with a job to grab or with an
    /// ability to give up; while workers are idle, one that can go to sleep, or a sleeper; while jobs fail, the holder
    /// of one that several wait for, or one without the option.
    fn suited(&mut self, server: &Server, kind: u32) -> usize {
        let suited: Vec<usize> = match kind {
            9 | 30 => (0..CONNECTIONS).filter(|&c| server.grabbable(c).is_some()).collect(),
            25 if self.mood == Mood::Failing => awaited(server).filter_map(|job| job.holder).collect(),
            26 if self.mood == Mood::Failing => {
                (0..CONNECTIONS).filter(|&c| server.connections[c].open && !server.connections[c].exceptions).collect()
            }
            _ if WORKER_PACKETS.contains(&kind) => server.jobs.iter().flatten().filter_map(|job| job.holder).collect(),
            1 | 22 | 26 if self.mood == Mood::Idle => {
                (0..CONNECTIONS).filter(|&c| server.connections[c].asleep).collect()
            }
            2 => (0..CONNECTIONS).filter(|&c| !abilities(server, c).is_empty()).collect(),
            4 if self.mood == Mood::Idle => (0..CONNECTIONS)
                .filter(|&c| !abilities(server, c).is_empty() && server.grabbable(c).is_none())
                .filter(|&c| !server.connections[c].asleep)
                .collect(),
            _ => vec![],
        };
        if suited.is_empty() || self.random.chance(30) {
            self.connection(server)
        } else {
            *self.random.pick(&suited)
        }
    }

    fn kind(&mut self, server: &Server) -> u32 {
        let percent = self.random.below(100);
        // A full queue is drained, or else most submissions would be refused.
        if server.jobs.iter().all(Option::is_some) && percent < 60 {
            return *self.random.pick(&[1, 9, 9, 30, 30, 13, 13, 14, 25]);
        }
        match (self.mood, percent) {
            (Mood::Filling, 0..=59) => *self.random.pick(&SUBMISSIONS),
            (Mood::Draining, 0..=29) => *self.random.pick(&[9, 30]),
            (Mood::Draining, 30..=59) => *self.random.pick(&WORKER_PACKETS),
            (Mood::Draining, 60..=69) => 1,
            (Mood::Sleeping, 0..=29) => 4,
            (Mood::Sleeping, 30..=49) => *self.random.pick(&SUBMISSIONS),
            (Mood::Sleeping, 50..=64) => *self.random.pick(&[1, 1, 2]),
            // Grabbed jobs leave the others asleep, until the holder leaves.
            (Mood::Sleeping, 65..=79) => *self.random.pick(&[9, 30]),
            (Mood::Idle, 0..=84) => self.idle_kind(server),
            // Few can do a function, and they give it up while they hold its jobs.
            (Mood::Forgetting, 0..=84) => *self.random.pick(&[1, 1, 1, 2, 2, 2, 7, 18, 9, 30, 13, 14, 25]),
            (Mood::Grabbing, 0..=89) => self.grabbing_kind(server),
            (Mood::Failing, 0..=89) => self.failing_kind(server),
            (Mood::Learning, 0..=49) => 1,
            (Mood::Learning, 50..=54) => *self.random.pick(&[2, 3]),
            (_, 70..=79) => *self.random.pick(&SUBMISSIONS),
            (_, 80..=89) => *self.random.pick(&WORKER_PACKETS),
            (_, 90..=94) => *self.random.pick(&[1, 4, 9, 22, 30]),
            // RESET_ABILITIES would keep the server poor if it came as often as the others.
            _ => match *self.random.pick(&SERVED) {
                3 if self.random.chance(70) => 1,
                kind => kind,
            },
        }
    }

    /// Jobs are few and soon done, so that workers sleep though they can do something; then a new job wakes them.
    fn idle_kind(&mut self, server: &Server) -> u32 {
        let grabbable = (0..CONNECTIONS).any(|c| server.grabbable(c).is_some());
        let held = server.jobs.iter().flatten().any(|job| job.holder.is_some());
        match self.random.below(20) {
            0..=9 if grabbable => *self.random.pick(&[9, 30]),
            0..=9 => 4,
            10..=12 if held => *self.random.pick(&ENDINGS),
            10..=13 => 1,
            14..=17 => *self.random.pick(&SUBMISSIONS),
            18 => 2,
            _ => *self.random.pick(&[22, 26]),
        }
    }

    /// Some two dozen jobs wait, of every priority. Workers of different abilities grab and end what they hold, so that
    /// new jobs take any place. At the end of the stretch few jobs come or end until all are grabbed.
    fn grabbing_kind(&mut self, server: &Server) -> u32 {
        const LONG: usize = 24;
        let jobs = server.jobs.iter().flatten().count();
        let held = server.jobs.iter().flatten().filter(|job| job.holder.is_some()).count();
        match self.random.below(20) {
            0..=16 if self.left < EMPTYING => *self.random.pick(&[1, 9, 9, 30, 30]),
            // Held jobs must leave room for a long queue.
            0..=16 if held > JOBS - LONG => *self.random.pick(&ENDINGS),
            0..=14 if jobs - held < LONG => *self.random.pick(&MANY_HIGH),
            0..=5 => *self.random.pick(&[9, 30]),
            6..=9 => *self.random.pick(&MANY_HIGH),
            10..=17 => *self.random.pick(&ENDINGS),
            _ => *self.random.pick(&[1, 1, 1, 1, 2, 3]),
        }
    }

    /// Many connections wait for the same few jobs, up to half of them with the option; the holders send exceptions.
    fn failing_kind(&mut self, server: &Server) -> u32 {
        let open = server.connections.iter().filter(|connection| connection.open).count();
        let options = server.connections.iter().filter(|connection| connection.exceptions).count();
        let grabbable = (0..CONNECTIONS).any(|c| server.grabbable(c).is_some());
        match self.random.below(20) {
            0..=3 if awaited(server).next().is_some() => 25,
            0..=5 if grabbable => *self.random.pick(&[9, 30]),
            0..=5 => 1,
            6..=8 if options < open / 2 => 26,
            9 => *self.random.pick(&[18, 32, 34]),
            _ => *self.random.pick(&FOREGROUND),
        }
    }
}

/// The held jobs that several connections wait for.
fn awaited(server: &Server) -> impl Iterator<Item = &Job> {
    server.jobs.iter().flatten().filter(|job| job.holder.is_some() && job.listeners.count_ones() > 2)
}

/// The names of the functions that the connection can do.
fn abilities(server: &Server, connection: usize) -> Vec<Text<32>> {
    server.functions.iter().flatten().filter(|known| has(known.able, connection)).map(|known| known.name).collect()
}

/// A request with these arguments; nothing is checked, so it may be one that is refused.
pub fn request(kind: u32, arguments: &[&[u8]]) -> Vec<u8> {
    let data = arguments.join(&0);
    let mut packet = Side::Request.magic().to_vec();
    packet.extend_from_slice(&kind.to_be_bytes());
    packet.extend_from_slice(&(data.len() as u32).to_be_bytes());
    packet.extend_from_slice(&data);
    packet
}
