//! What the ordinary job server does with each event: the rules of document 01, and document 02's SET_CLIENT_ID
//! (request 1), exceptions (request 3) and hub names (request 5), over the plain structs of `state`.
//! Job places, function places and workload places are kept as document 01 says, since the table's bytes show them.
#![forbid(unsafe_code)]

use crate::handle;
use crate::outbox::Outbox;
use crate::packet::{self, Packet, Side};
use crate::state::{members, only};
pub use crate::state::{Connection, Function, Job, Server, Set, CONNECTIONS, FUNCTIONS, JOBS, PLACE, WORKLOADS};
use crate::text::Text;

// The refusals of the server, by their numbers in document 01; the packet layer has 5 to 10.
pub const DONE: u32 = 0;
pub const BAD_LENT: u32 = 1;
pub const NO_CONNECTION: u32 = 2;
pub const NOT_OPEN: u32 = 3;
pub const ALREADY_OPEN: u32 = 4;
pub const TOO_MANY_FUNCTIONS: u32 = 11;
pub const TOO_MANY_JOBS: u32 = 12;
pub const SERIALS_USED_UP: u32 = 13;
pub const NOT_HELD: u32 = 14;
pub const UNKNOWN_OPTION: u32 = 15;

// The types that the server sends of its own; worker packets go on with the type they came with, but for an exception,
// of which some listeners hear as WORK_FAIL.
const NOOP: u32 = 6;
const JOB_CREATED: u32 = 8;
const NO_JOB: u32 = 10;
const JOB_ASSIGN: u32 = 11;
const WORK_FAIL: u32 = 14;
const ECHO_RES: u32 = 17;
const ERROR: u32 = 19;
const STATUS_RES: u32 = 20;
const OPTION_RES: u32 = 27;
const JOB_ASSIGN_UNIQ: u32 = 31;

/// An answer: the number, and the packets with their connections.
pub type Answer = (u32, Vec<(u8, Vec<u8>)>);

impl Server {
    // ---- The three events.

    pub fn open(&mut self, connection: u32) -> u32 {
        let connection = connection as usize;
        if connection >= CONNECTIONS {
            return NO_CONNECTION;
        }
        if self.connections[connection].open {
            return ALREADY_OPEN;
        }
        self.connections[connection].open = true;
        DONE
    }

    pub fn close(&mut self, connection: u32) -> Answer {
        let mut out = Outbox::default();
        let number = self.close_into(connection, &mut out);
        (number, out.packets())
    }

    pub fn packet(&mut self, connection: u32, bytes: &[u8]) -> Answer {
        let mut out = Outbox::default();
        let number = self.packet_into(connection, bytes, &mut out);
        (number, out.packets())
    }

    /// The close event; its packets go to the outbox, which the caller has cleared.
    pub fn close_into(&mut self, connection: u32, out: &mut Outbox) -> u32 {
        let leaver = match self.opened(connection) {
            Ok(leaver) => leaver,
            Err(number) => return number,
        };
        // Held jobs are met in the same walk as queued ones: what happens to one job does not depend on another.
        for place in 0..JOBS {
            let Some(job) = &mut self.jobs[place] else { continue };
            job.listeners &= !only(leaver);
            if job.holder == Some(leaver) {
                job.holder = None;
                job.numerator = Text::new(b"0");
                job.denominator = Text::new(b"0");
            }
            if job.holder.is_none() && !job.wanted() {
                self.end(place);
            }
        }
        self.give_up_all(leaver);
        self.connections[leaver] = Connection::default();
        for sleeper in 0..CONNECTIONS {
            if self.connections[sleeper].asleep && self.grabbable(sleeper).is_some() {
                self.wake(sleeper, out);
            }
        }
        DONE
    }

    /// The packet event; its packets go to the outbox, which the caller has cleared.
    pub fn packet_into(&mut self, connection: u32, bytes: &[u8], out: &mut Outbox) -> u32 {
        let sender = match self.opened(connection) {
            Ok(sender) => sender,
            Err(number) => return number,
        };
        let served = packet::read(Side::Request, bytes).and_then(|request| self.serve(sender, &request, out));
        match served {
            Ok(()) => DONE,
            Err(number) => {
                if let Some(text) = error_text(number) {
                    let digits = [b'0' + (number / 10) as u8, b'0' + (number % 10) as u8];
                    out.send(sender, ERROR, &[&digits, text.as_bytes()]);
                }
                number
            }
        }
    }

    /// Refusals 2 and 3.
    pub fn opened(&self, connection: u32) -> Result<usize, u32> {
        match self.connections.get(connection as usize) {
            None => Err(NO_CONNECTION),
            Some(state) if !state.open => Err(NOT_OPEN),
            Some(_) => Ok(connection as usize),
        }
    }

    // ---- The requests. Each one finds its refusal before it changes anything.

    fn serve(&mut self, sender: usize, request: &Packet, out: &mut Outbox) -> Result<(), u32> {
        let [first, second, third, ..] = request.arguments;
        match request.kind {
            1 => self.can_do(sender, first, out),
            2 => {
                self.give_up(sender, first);
                Ok(())
            }
            3 => {
                self.give_up_all(sender);
                Ok(())
            }
            4 => {
                if self.grabbable(sender).is_some() {
                    self.wake(sender, out);
                } else {
                    self.connections[sender].asleep = true;
                }
                Ok(())
            }
            7 => self.submit(sender, 1, false, first, second, third, out),
            18 => self.submit(sender, 1, true, first, second, third, out),
            21 => self.submit(sender, 2, false, first, second, third, out),
            32 => self.submit(sender, 2, true, first, second, third, out),
            33 => self.submit(sender, 0, false, first, second, third, out),
            34 => self.submit(sender, 0, true, first, second, third, out),
            9 | 30 => {
                self.grab(sender, request.kind == 30, out);
                Ok(())
            }
            12 | 13 | 14 | 25 | 28 | 29 => self.work(sender, request, out),
            15 => {
                self.status(sender, first, out);
                Ok(())
            }
            16 => {
                out.send(sender, ECHO_RES, &[first]);
                Ok(())
            }
            22 => {
                self.connections[sender].id = Text::new(first);
                Ok(())
            }
            26 => {
                if first != b"exceptions" {
                    return Err(UNKNOWN_OPTION);
                }
                self.connections[sender].exceptions = true;
                out.send(sender, OPTION_RES, &[first]);
                Ok(())
            }
            // The packet layer has refused every other type.
            _ => Err(packet::WRONG_TYPE),
        }
    }

    fn can_do(&mut self, sender: usize, name: &[u8], out: &mut Outbox) -> Result<(), u32> {
        let place = self.function_place(name).ok_or(TOO_MANY_FUNCTIONS)?;
        self.know(place, name).able |= only(sender);
        if self.connections[sender].asleep && self.grabbable(sender).is_some() {
            self.wake(sender, out);
        }
        Ok(())
    }

    #[allow(clippy::too_many_arguments)]
    fn submit(
        &mut self,
        sender: usize,
        priority: u8,
        background: bool,
        name: &[u8],
        unique: &[u8],
        workload: &[u8],
        out: &mut Outbox,
    ) -> Result<(), u32> {
        if let Some(place) = self.joinable(name, unique) {
            let job = self.jobs[place].as_mut().expect("a job was found there");
            if background {
                job.background = true;
            } else {
                job.listeners |= only(sender);
            }
            out.send(sender, JOB_CREATED, &[handle::print(self.hub.bytes(), job.serial).bytes()]);
            return Ok(());
        }
        let function = self.function_place(name).ok_or(TOO_MANY_FUNCTIONS)?;
        let place = self.jobs.iter().position(Option::is_none).ok_or(TOO_MANY_JOBS)?;
        let serial = self.last_serial.checked_add(1).ok_or(SERIALS_USED_UP)?;

        self.know(function, name).jobs += 1;
        self.last_serial = serial;
        self.jobs[place] = Some(Job {
            serial,
            function,
            unique: Text::new(unique),
            size: workload.len(),
            priority,
            background,
            listeners: if background { 0 } else { only(sender) },
            holder: None,
            numerator: Text::new(b"0"),
            denominator: Text::new(b"0"),
        });
        let bytes = self.workload_place(place);
        bytes[..workload.len()].copy_from_slice(workload);
        bytes[workload.len()..].fill(0);

        out.send(sender, JOB_CREATED, &[self.handle(serial).bytes()]);
        for sleeper in members(self.able(function)) {
            if self.connections[sleeper].asleep {
                self.wake(sleeper, out);
            }
        }
        Ok(())
    }

    fn grab(&mut self, sender: usize, with_unique: bool, out: &mut Outbox) {
        self.connections[sender].asleep = false;
        let Some(place) = self.grabbable(sender) else {
            out.send(sender, NO_JOB, &[]);
            return;
        };
        let job = self.jobs[place].as_mut().expect("a job was found there");
        job.holder = Some(sender);
        let handle = handle::print(self.hub.bytes(), job.serial);
        let name = &self.functions[job.function].as_ref().expect("a job's function is known").name;
        let workload = &self.workloads[place * PLACE..][..job.size];
        if with_unique {
            out.send(sender, JOB_ASSIGN_UNIQ, &[handle.bytes(), name.bytes(), job.unique.bytes(), workload]);
        } else {
            out.send(sender, JOB_ASSIGN, &[handle.bytes(), name.bytes(), workload]);
        }
    }

    /// The worker packets 12, 13, 14, 25, 28 and 29.
    fn work(&mut self, sender: usize, request: &Packet, out: &mut Outbox) -> Result<(), u32> {
        let place = self.find(request.arguments[0]).ok_or(NOT_HELD)?;
        let job = self.jobs[place].as_mut().expect("a job was found there");
        if job.holder != Some(sender) {
            return Err(NOT_HELD);
        }
        if request.kind == 12 {
            job.numerator = Text::new(request.arguments[1]);
            job.denominator = Text::new(request.arguments[2]);
        }
        let listeners = job.listeners;
        self.tell(listeners, request, out);
        if matches!(request.kind, 13 | 14 | 25) {
            self.end(place);
        }
        Ok(())
    }

    /// Each listener gets the packet as it came, in rising order. Of an exception one without the option gets WORK_FAIL
    /// instead, with the handle alone (document 02, request 3); the holder is a listener like the others.
    fn tell(&self, listeners: Set, request: &Packet, out: &mut Outbox) {
        for listener in members(listeners) {
            if request.kind == 25 && !self.connections[listener].exceptions {
                out.send(listener, WORK_FAIL, &[request.arguments[0]]);
            } else {
                out.send(listener, request.kind, &[request.data]);
            }
        }
    }

    fn status(&self, sender: usize, asked: &[u8], out: &mut Outbox) {
        match self.find(asked).and_then(|place| self.jobs[place].as_ref()) {
            Some(job) => {
                let running: &[u8] = if job.holder.is_some() { b"1" } else { b"0" };
                let texts = [job.numerator.bytes(), job.denominator.bytes()];
                out.send(sender, STATUS_RES, &[asked, b"1", running, texts[0], texts[1]]);
            }
            None => out.send(sender, STATUS_RES, &[asked, b"0", b"0", b"0", b"0"]),
        }
    }

    // ---- Changing.

    /// Sends NOOP, which always ends sleep.
    fn wake(&mut self, connection: usize, out: &mut Outbox) {
        self.connections[connection].asleep = false;
        out.send(connection, NOOP, &[]);
    }

    /// The function at its place, which it takes now if the place is free.
    fn know(&mut self, place: usize, name: &[u8]) -> &mut Function {
        self.functions[place].get_or_insert_with(|| Function { name: Text::new(name), able: 0, jobs: 0 })
    }

    /// A function that nobody can do and no job names is forgotten.
    fn forget(&mut self, place: usize) {
        if self.functions[place].as_ref().is_some_and(|known| known.able == 0 && known.jobs == 0) {
            self.functions[place] = None;
        }
    }

    fn give_up(&mut self, connection: usize, name: &[u8]) {
        if let Some(place) = self.known(name) {
            self.know(place, name).able &= !only(connection);
            self.forget(place);
        }
    }

    fn give_up_all(&mut self, connection: usize) {
        for place in 0..FUNCTIONS {
            if let Some(known) = &mut self.functions[place] {
                known.able &= !only(connection);
            }
            self.forget(place);
        }
    }

    /// A job ends or is dropped: its row and its workload place are set to zero.
    fn end(&mut self, place: usize) {
        let Some(job) = self.jobs[place].take() else { return };
        self.workload_place(place).fill(0);
        if let Some(known) = &mut self.functions[job.function] {
            known.jobs -= 1;
        }
        self.forget(job.function);
    }

    fn workload_place(&mut self, place: usize) -> &mut [u8] {
        &mut self.workloads[place * PLACE..][..PLACE]
    }
}

/// The texts of ERROR packets; refusals 1 to 8 send none.
pub fn error_text(number: u32) -> Option<&'static str> {
    let text = match number {
        9 => "type",
        10 => "arguments",
        11 => "functions",
        12 => "jobs",
        13 => "serials",
        14 => "handle",
        15 => "option",
        _ => return None,
    };
    Some(text)
}
