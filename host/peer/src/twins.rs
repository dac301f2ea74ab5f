//! Twin histories: the same events but for the opaque bytes, which are others, as many. Nothing else may tell which of
//! the two a server has seen; client ids are not opaque, so both have the same.
#![forbid(unsafe_code)]

use crate::event::Event;
use crate::packet::{self, Part, Side, HEADER};
use crate::random::Random;

/// The event with other opaque bytes, if it has any.
pub fn twin(event: &Event, random: &mut Random) -> Event {
    match event {
        Event::Packet(connection, packet) => {
            let mut packet = packet.clone();
            opaque(Side::Request, &mut packet).fill_with(|| random.byte());
            Event::Packet(*connection, packet)
        }
        _ => event.clone(),
    }
}

/// The packet with its opaque bytes set to zero: what both histories must send.
pub fn blind(side: Side, packet: &[u8]) -> Vec<u8> {
    let mut packet = packet.to_vec();
    opaque(side, &mut packet).fill(0);
    packet
}

/// The opaque part of a packet: all data after the last separator that its type demands. With too few separators, with
/// a bad header or in another type there is none. Bad arguments before it do not matter.
fn opaque(side: Side, packet: &mut [u8]) -> &mut [u8] {
    let start = opaque_start(side, packet).unwrap_or(packet.len());
    &mut packet[start..]
}

fn opaque_start(side: Side, packet: &[u8]) -> Option<usize> {
    if matches!(packet::read(side, packet), Err(5..=8)) {
        return None;
    }
    let (last, before) = packet::shape(side, packet::kind(packet))?.split_last()?;
    if *last != Part::Opaque {
        return None;
    }
    let mut start = HEADER;
    for _ in before {
        start += 1 + packet[start..].iter().position(|&byte| byte == 0)?;
    }
    Some(start)
}

#[cfg(test)]
mod tests {
    use super::*;
    use crate::histories::request;

    #[test]
    fn where_the_opaque_part_starts() {
        for (kind, arguments, start) in [
            (16, &[&b"ab"[..]][..], Some(12)),
            (7, &[b"f", b"u", b"w\0w"], Some(16)),
            (34, &[b"", b"", b""], Some(14)),
            (7, &[b"f", b"u"], None),
            (13, &[b"h", b"r\0"], Some(14)),
            (13, &[b"h"], None),
            (25, &[b"h", b"x"], Some(14)),
            (14, &[b"h"], None),
            (22, &[b"id"], None),
            (1, &[b"f"], None),
            (5, &[b"f", b"u", b"w"], None),
        ] {
            assert_eq!(opaque_start(Side::Request, &request(kind, arguments)), start, "{kind}");
        }
        assert_eq!(opaque_start(Side::Request, &request(16, &[&[1; 1_025]])), None);
        assert_eq!(opaque_start(Side::Request, b""), None);
    }
}
