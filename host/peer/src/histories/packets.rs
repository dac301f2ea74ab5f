//! The packets of random histories: mostly right ones, with arguments from small sets, and damaged ones.
#![forbid(unsafe_code)]

use super::{abilities, awaited, request, History, Mood, NOT_SERVED, SERVED, SUBMISSIONS};
use crate::hub::names;
use crate::packet::Side;
use crate::server::{Job, Server, CONNECTIONS};

impl History {
    /// A packet of a served type; its arguments are mostly right.
    pub(super) fn valid(&mut self, server: &Server, connection: u32, kind: u32) -> Vec<u8> {
        match kind {
            1 => request(1, &[&self.learned(server)]),
            2 => request(2, &[&self.given_up(server, connection)]),
            kind if SUBMISSIONS.contains(&kind) => {
                let (function, unique) = self.submitted(server);
                let workload = self.opaque(1_022usize.saturating_sub(function.len() + unique.len()));
                request(kind, &[&function, &unique, &workload])
            }
            12 => request(12, &[&self.handle(server, connection), &self.digits(), &self.digits()]),
            14 => request(14, &[&self.handle(server, connection)]),
            15 => request(15, &[&self.asked(server, connection)]),
            kind @ (13 | 25 | 28 | 29) => {
                let handle = self.handle(server, connection);
                let data = self.opaque(1_023usize.saturating_sub(handle.len()));
                request(kind, &[&handle, &data])
            }
            16 => request(16, &[&self.opaque(1_024)]),
            22 => request(22, &[&self.id()]),
            26 => {
                const RIGHT: &[u8] = b"exceptions";
                let options = [RIGHT, RIGHT, RIGHT, RIGHT, b"exception", b"exceptions2", b"", b"Exceptions"];
                request(26, &[*self.random.pick(&options)])
            }
            kind => request(kind, &[]),
        }
    }

    /// The function and the unique of a submission: any, or, while workers are idle, mostly a function that a sleeper
    /// can do; while jobs fail, mostly both of one of the first held jobs, which many then wait for.
    fn submitted(&mut self, server: &Server) -> (Vec<u8>, Vec<u8>) {
        let sleepers = (0..CONNECTIONS).filter(|&c| server.connections[c].asleep);
        let wanted: Vec<_> = sleepers.flat_map(|sleeper| abilities(server, sleeper)).collect();
        if self.mood == Mood::Idle && !wanted.is_empty() && self.random.chance(60) {
            return (self.random.pick(&wanted).bytes().to_vec(), self.unique());
        }
        let held = server.jobs.iter().flatten().filter(|job| job.holder.is_some() && !job.unique.is_empty());
        let first: Vec<_> = held.take(2).collect();
        if self.mood == Mood::Failing && !first.is_empty() && self.random.chance(70) {
            let job = self.random.pick(&first);
            let name = server.functions[job.function].map_or(vec![], |known| known.name.bytes().to_vec());
            return (name, job.unique.bytes().to_vec());
        }
        (self.function(), self.unique())
    }

    /// The function that a connection learns: any one, or, while workers grab, mostly that of a queued job.
    fn learned(&mut self, server: &Server) -> Vec<u8> {
        let queued = server.jobs.iter().flatten().filter(|job| job.holder.is_none());
        let names: Vec<_> = queued.filter_map(|job| server.functions[job.function].map(|known| known.name)).collect();
        if self.mood == Mood::Grabbing && !names.is_empty() && self.random.chance(60) {
            return self.random.pick(&names).bytes().to_vec();
        }
        self.function()
    }

    /// The function that a connection gives up: mostly that of a job which it holds, or one that it can do.
    fn given_up(&mut self, server: &Server, connection: u32) -> Vec<u8> {
        let held = server.jobs.iter().flatten().filter(|job| job.holder == Some(connection as usize));
        let names: Vec<_> = held.filter_map(|job| server.functions[job.function].map(|known| known.name)).collect();
        let able = if (connection as usize) < CONNECTIONS { abilities(server, connection as usize) } else { vec![] };
        match self.random.below(10) {
            0..=3 if !names.is_empty() => self.random.pick(&names).bytes().to_vec(),
            0..=7 if !able.is_empty() => self.random.pick(&able).bytes().to_vec(),
            _ => self.function(),
        }
    }

    /// A name from the small set: short ones, some that differ in the last byte only, some of 32 bytes. Rarely one of 0
    /// or 33 bytes.
    fn function(&mut self) -> Vec<u8> {
        match self.random.below(120) {
            0 => return vec![],
            1 => return vec![b'a'; 33],
            2 => return vec![self.random.byte(); 1 + self.random.below(40)],
            _ => {}
        }
        let number = self.random.below(self.functions);
        match number {
            0 => b"reverse".to_vec(),
            1 => b"r".to_vec(),
            2 => vec![b'a'; 32],
            3 => [&[b'a'; 31][..], b"b"].concat(),
            4 => vec![b'a'; 31],
            5 => vec![0xff; 32],
            6 => b"reversf".to_vec(),
            7 => b"revers".to_vec(),
            8 => vec![0x01],
            9 => b"reverse ".to_vec(),
            _ => format!("function-{number}").into_bytes(),
        }
    }

    fn unique(&mut self) -> Vec<u8> {
        match self.random.below(100) {
            0 => return vec![b'x'; 65],
            1 => return vec![self.random.byte(); self.random.below(70)],
            2..=14 => return vec![],
            _ => {}
        }
        let number = self.random.below(self.uniques);
        match number {
            0 => b"u".to_vec(),
            1 => vec![b'x'; 64],
            2 => [&[b'x'; 63][..], b"y"].concat(),
            3 => vec![b'x'; 63],
            4 => b"reverse".to_vec(),
            _ => format!("unique-{number}").into_bytes(),
        }
    }

    /// Mostly an id of 1 to 64 bytes, some of one byte alone, some full, some of bytes that print as `?`; connections
    /// may share one. Some are empty, too long or hold a zero byte.
    fn id(&mut self) -> Vec<u8> {
        match self.random.below(16) {
            0 => vec![],
            1 => vec![b'i'; 65],
            2 => {
                let mut id = vec![b'i'; 2 + self.random.below(63)];
                let place = self.random.below(id.len());
                id[place] = 0;
                id
            }
            3 | 4 => vec![self.random.byte().max(1)],
            5 | 6 => vec![self.random.byte().max(1); 64],
            7 => vec![b'i'; 63],
            8 | 9 => {
                let length = 1 + self.random.below(64);
                (0..length).map(|_| self.random.byte().max(1)).collect()
            }
            10 => b"\x1f\x20\x21\x7e\x7f\x80\xff".to_vec(),
            11 => self.random.pick(&[&b"-"[..], b":", b" ", b".", b"- :", b"a\nb", b"\r\n"]).to_vec(),
            _ => format!("worker-{}", self.random.below(6)).into_bytes(),
        }
    }

    /// Opaque bytes, many of them zero; sometimes as many as still fit, or one more.
    fn opaque(&mut self, room: usize) -> Vec<u8> {
        let length = match self.random.below(40) {
            0 => room,
            1 => room + 1,
            2 => room.saturating_sub(1),
            3..=5 => self.random.below(room + 1),
            6..=9 => 0,
            _ => self.random.below(24).min(room),
        };
        (0..length).map(|_| if self.random.chance(20) { 0 } else { self.random.byte() }).collect()
    }

    /// Mostly a handle of a job that the connection holds, if there is one, while jobs fail one that several wait for;
    /// else other handles, old ones, those of other hubs, and texts that are nearly one.
    fn handle(&mut self, server: &Server, connection: u32) -> Vec<u8> {
        let jobs: Vec<_> = server.jobs.iter().flatten().collect();
        let holds = |job: &&Job| job.holder == Some(connection as usize);
        let mut held: Vec<_> = jobs.iter().copied().filter(holds).collect();
        if self.mood == Mood::Failing && awaited(server).any(|job| holds(&job)) {
            held = awaited(server).filter(holds).collect();
        }
        let some_serial = if jobs.is_empty() { 1 } else { self.random.pick(&jobs).serial };
        let held_serial = if held.is_empty() { some_serial } else { self.random.pick(&held).serial };
        let serial = match self.random.below(100) {
            0..=65 => held_serial,
            // As another hub would name the job: whoever looks at the serial alone takes it.
            66..=71 => return names::near_handle(server.hub.bytes(), held_serial, &mut self.random),
            72..=75 => server.last_serial.saturating_sub(self.random.below(40) as u32),
            76..=88 => return self.nearly_handle(server, some_serial),
            _ => some_serial,
        };
        server.handle(serial).bytes().to_vec()
    }

    /// The handle in a status: as above, but more often as another hub would name a job, since statuses are rare.
    fn asked(&mut self, server: &Server, connection: u32) -> Vec<u8> {
        let jobs: Vec<_> = server.jobs.iter().flatten().collect();
        if jobs.is_empty() || self.random.chance(60) {
            return self.handle(server, connection);
        }
        let serial = self.random.pick(&jobs).serial;
        names::near_handle(server.hub.bytes(), serial, &mut self.random)
    }

    /// A text that is nearly a handle of this hub, or far from one.
    fn nearly_handle(&mut self, server: &Server, serial: u32) -> Vec<u8> {
        let with = |digits: String| [b"H:", server.hub.bytes(), b":", digits.as_bytes()].concat();
        match self.random.below(14) {
            0 => with(format!("0{serial}")),
            1 => with((u64::from(serial) + (1 << 32)).to_string()),
            2 => with(format!("+{serial}")),
            3 => with(serial.to_string()).to_ascii_lowercase(),
            4 => with(format!("{serial} ")),
            5 => with(String::new()),
            6 => with("0".to_string()),
            7 => vec![],
            8 => vec![b'H'; 63],
            9 => vec![b'H'; 64],
            10 => with(format!("{serial:0width$}", width = 60 - server.hub.bytes().len())),
            11 => vec![self.random.byte(); self.random.below(70)],
            _ => server.last_serial.saturating_add(1).to_string().into_bytes(),
        }
    }

    /// Mostly 1 to 10 digits, leading zeros included; rarely none, eleven, or another byte among them.
    fn digits(&mut self) -> Vec<u8> {
        let length = match self.random.below(30) {
            0 => 0,
            1 => 11,
            2..=5 => 10,
            _ => 1 + self.random.below(9),
        };
        let mut digits: Vec<u8> = (0..length).map(|_| b'0' + self.random.below(10) as u8).collect();
        if length > 0 && self.random.chance(4) {
            let place = self.random.below(length);
            digits[place] = *self.random.pick(b" /:-+a");
        }
        digits
    }

    /// The packet truncated, prolonged, with other bytes, or something else altogether.
    pub(super) fn damaged(&mut self, mut packet: Vec<u8>) -> Vec<u8> {
        match self.random.below(16) {
            0 => packet.truncate(self.random.below(packet.len() + 1)),
            1 => packet.truncate(self.random.below(13)),
            2 => packet.extend([0; 3].iter().take(1 + self.random.below(3))),
            3 | 4 => {
                let place = self.random.below(packet.len());
                packet[place] ^= 1 << self.random.below(8);
            }
            5 => {
                let place = self.random.below(packet.len());
                packet[place] = *self.random.pick(&[0, 1, b'0', 0xff]);
            }
            6 => packet[..4].copy_from_slice(Side::Response.magic()),
            7 => {
                let size = *self.random.pick(&[0, 1, 1_023, 1_024, 1_025, 1_088, 65_536, 0x0100_0000, u32::MAX]);
                packet[8..12].copy_from_slice(&size.to_be_bytes());
            }
            8 => packet[4..8].copy_from_slice(&self.random.pick(&NOT_SERVED).to_be_bytes()),
            9 => packet[4..8].copy_from_slice(&self.random.pick(&SERVED).to_be_bytes()),
            10 => packet = (0..self.random.below(60)).map(|_| self.random.byte()).collect(),
            11 => {
                // A packet at its limit, or one byte beyond it, with any type.
                let length = *self.random.pick(&[1_023, 1_024, 1_025, 1_026]);
                let byte = *self.random.pick(b"a\0");
                let kind =
                    if self.random.chance(70) { *self.random.pick(&SERVED) } else { *self.random.pick(&NOT_SERVED) };
                packet = request(kind, &[&vec![byte; length]]);
            }
            12 => {
                // Some data behind a type that has none, or a zero byte where none may stand.
                let kind = *self.random.pick(&[1, 2, 3, 4, 9, 14, 15, 22, 26, 30]);
                packet = request(kind, &[b"exceptions\0"]);
            }
            13 => {
                // Too few separators: the arguments run together.
                let kind = *self.random.pick(&[7, 12, 13, 18, 25, 28, 34]);
                packet = request(kind, &[b"reverse"]);
            }
            14 => packet.clear(),
            _ => {
                let data: Vec<u8> =
                    (0..self.random.below(30)).map(|_| *self.random.pick(b"\0\0H:lap:1reverse")).collect();
                let kind = *self.random.pick(&SERVED);
                packet = request(kind, &[&data]);
            }
        }
        packet
    }
}
