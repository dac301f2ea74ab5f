//! The buffers that the archive is lent, each beside what it must hold, with guard bytes before and after.
#![forbid(unsafe_code)]

use crate::archive::{self, ARCHIVE};
use crate::event::Event;
use crate::hub;
use crate::image;
use crate::layout::{OUTPUT, TABLE};
use crate::questions::Question;
use crate::random::Random;
use crate::server::{Server, DONE, WORKLOADS};

const GUARD: u8 = 0xc7;
const GUARDS_AFTER: usize = 48;

/// One buffer: the bytes as they are, the bytes as they must be, and the part that is lent.
pub struct Buffer {
    actual: Vec<u8>,
    expected: Vec<u8>,
    start: usize,
    length: usize,
}

impl Buffer {
    fn new(start: usize, length: usize) -> Self {
        let bytes = vec![GUARD; start + length + GUARDS_AFTER];
        Buffer { actual: bytes.clone(), expected: bytes, start, length }
    }

    fn lend(&mut self) -> &mut [u8] {
        &mut self.actual[self.start..self.start + self.length]
    }

    /// The lent part where it is only to be read. It is compared all the same.
    fn lend_to_read(&self) -> &[u8] {
        &self.actual[self.start..self.start + self.length]
    }

    /// The lent part as it must be after the call.
    fn right(&mut self) -> &mut [u8] {
        &mut self.expected[self.start..self.start + self.length]
    }

    /// The first bytes of the lent part must be these after the call.
    fn expect(&mut self, bytes: &[u8]) {
        self.right()[..bytes.len()].copy_from_slice(bytes);
    }

    /// The whole lent part gets this value, as it is and as it must be.
    fn fill(&mut self, value: u8) {
        self.lend().fill(value);
        self.right().fill(value);
    }

    /// The first bytes of the lent part are set, as they are and as they must be.
    fn set(&mut self, bytes: &[u8]) {
        self.lend()[..bytes.len()].copy_from_slice(bytes);
        self.expect(bytes);
    }

    /// Where the bytes first are not as they must be.
    fn difference(&self, name: &str) -> Result<(), String> {
        if self.actual == self.expected {
            return Ok(());
        }
        let pairs = self.actual.iter().zip(&self.expected);
        let at = pairs.clone().position(|(actual, expected)| actual != expected).unwrap_or(0);
        let count = pairs.filter(|(actual, expected)| actual != expected).count();
        Err(format!(
            "{name}: {count} bytes differ, the first at offset {} of {} lent: {:02x} where {:02x} is right",
            at as isize - self.start as isize,
            self.length,
            self.actual[at],
            self.expected[at],
        ))
    }
}

/// All that a host lends.
pub struct Host {
    pub table: Buffer,
    pub workloads: Buffer,
    pub output: Buffer,
    calls: u64,
}

impl Host {
    /// Buffers of the least lengths or longer, at any alignment.
    pub fn new(random: &mut Random) -> Self {
        let mut buffer = |least: usize| {
            let more = *random.pick(&[0, 0, 1, 7, 100, 4_396]);
            Buffer::new(8 + random.below(8), least + more)
        };
        Host { table: buffer(TABLE), workloads: buffer(WORKLOADS), output: buffer(OUTPUT), calls: 0 }
    }

    /// Buffers of the given lengths, which may be too short.
    pub fn with_lengths(table: usize, workloads: usize, output: usize) -> Self {
        let buffer = |length| Buffer::new(8, length);
        Host { table: buffer(table), workloads: buffer(workloads), output: buffer(output), calls: 0 }
    }

    /// Table and workloads are set to these bytes, or to as many of them as the buffers hold.
    pub fn set(&mut self, table: &[u8], workloads: &[u8]) {
        let table = &table[..table.len().min(self.table.length)];
        self.table.set(table);
        self.workloads.set(&workloads[..workloads.len().min(self.workloads.length)]);
    }

    /// One byte of the table is set.
    pub fn set_byte(&mut self, at: usize, value: u8) {
        self.table.actual[self.table.start + at] = value;
        self.table.expected[self.table.start + at] = value;
    }

    /// The archive makes a table over any bytes, and must refuse it exactly for short buffers and bad names. The name
    /// is lent as the start of longer bytes, which must not be looked at. Gives back whether a table was made.
    pub fn fresh(&mut self, name: &[u8], random: &mut Random) -> Result<bool, String> {
        self.table.fill(random.byte());
        self.workloads.fill(random.byte());
        let right = hub::fresh(self.table.right(), self.workloads.right(), name);
        let longer = [name, &[*random.pick(b"a1A\0\xff"); 16]].concat();
        let number = ARCHIVE.fresh(self.table.lend(), self.workloads.lend(), &longer[..name.len()]);
        self.compare((number, 0), (right, 0))?;
        Ok(right == DONE)
    }

    /// The archive runs an event and must report and write what the ordinary server answered.
    pub fn step(&mut self, event: &Event, server: &Server, number: u32, packets: &[u8]) -> Result<(), String> {
        self.run(event, number, packets, |host| {
            image::write(server, host.table.right());
            host.workloads.expect(&server.workloads);
        })
    }

    /// The archive runs an event that must be refused by 1: nothing is written.
    pub fn refused(&mut self, event: &Event) -> Result<(), String> {
        self.run(event, crate::server::BAD_LENT, &[], |_| {})
    }

    /// The archive answers a line with this number and these bytes, or refuses it; table and workloads stay.
    pub fn asked(&mut self, question: &Question, number: u32, text: &[u8]) -> Result<(), String> {
        self.fill_output(text);
        let (table, workloads) = (self.table.lend_to_read(), self.workloads.lend_to_read());
        let report = archive::text(table, workloads, self.output.lend(), question.connection, &question.line);
        self.compare(report, (number, text.len() as u32))
    }

    /// The pattern changes from call to call, so that no byte is written with the value that it has by chance.
    fn fill_output(&mut self, written: &[u8]) {
        self.calls += 1;
        self.output.fill([0xa5, 0x5a, 0x00, 0xff][(self.calls % 4) as usize]);
        self.output.expect(written);
    }

    fn run(&mut self, event: &Event, number: u32, packets: &[u8], expect: impl Fn(&mut Host)) -> Result<(), String> {
        self.fill_output(packets);
        expect(self);
        let report = ARCHIVE.event(self.table.lend(), self.workloads.lend(), self.output.lend(), event);
        self.compare(report, (number, packets.len() as u32))
    }

    fn compare(&self, report: (u32, u32), right: (u32, u32)) -> Result<(), String> {
        if report.0 != right.0 {
            return Err(format!("number {} where {} is right (length {}, {})", report.0, right.0, report.1, right.1));
        }
        if report.1 != right.1 {
            return Err(format!("length {} where {} is right (number {})", report.1, right.1, right.0));
        }
        self.output.difference("output")?;
        self.table.difference("table")?;
        self.workloads.difference("workloads")
    }
}
