//! The addressed packets of one event, one after the other as the output buffer has them.
#![forbid(unsafe_code)]

use crate::packet::{Side, HEADER};

#[derive(Default)]
pub struct Outbox {
    bytes: Vec<u8>,
    starts: Vec<usize>,
}

impl Outbox {
    /// Forgets the packets and keeps the memory.
    pub fn clear(&mut self) {
        self.bytes.clear();
        self.starts.clear();
    }

    /// One packet to one connection: the connection byte, the header, and the arguments with zero bytes between them.
    pub fn send(&mut self, connection: usize, kind: u32, arguments: &[&[u8]]) {
        let separators = arguments.len().saturating_sub(1);
        let size = arguments.iter().map(|argument| argument.len()).sum::<usize>() + separators;
        let mut header = [0; 1 + HEADER];
        header[0] = connection as u8;
        header[1..5].copy_from_slice(Side::Response.magic());
        header[5..9].copy_from_slice(&kind.to_be_bytes());
        header[9..].copy_from_slice(&(size as u32).to_be_bytes());
        self.starts.push(self.bytes.len());
        self.bytes.extend_from_slice(&header);
        for (place, argument) in arguments.iter().enumerate() {
            if place > 0 {
                self.bytes.push(0);
            }
            self.bytes.extend_from_slice(argument);
        }
    }

    /// All bytes, as they stand in the output buffer.
    pub fn bytes(&self) -> &[u8] {
        &self.bytes
    }

    /// Each addressed packet with its connection byte.
    pub fn addressed(&self) -> impl Iterator<Item = &[u8]> {
        let ends = self.starts.iter().skip(1).copied().chain([self.bytes.len()]);
        self.starts.iter().zip(ends).map(|(&start, end)| &self.bytes[start..end])
    }

    /// How many packets are of this type.
    pub fn count(&self, kind: u8) -> usize {
        self.addressed().filter(|packet| packet[8] == kind).count()
    }

    /// Each packet apart from its connection.
    pub fn packets(&self) -> Vec<(u8, Vec<u8>)> {
        self.addressed().map(|packet| (packet[0], packet[1..].to_vec())).collect()
    }
}
