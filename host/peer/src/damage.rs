//! Damaged tables: single bytes set to telling values, and whole fields set so that single rules break or nearly break.
#![forbid(unsafe_code)]

use crate::hub::names;
use crate::layout::*;
use crate::random::Random;
use crate::server::{CONNECTIONS, FUNCTIONS, JOBS};

/// The values that the byte at this offset, now of this value, is set to, each other than it. In the hub's name there
/// are more: letters, digits and capitals, some of which leave a good name.
pub fn values(at: usize, old: u8) -> Vec<u8> {
    let mut values =
        vec![0, 1, 2, b'0', b':', 0x80, 0xff, old ^ 1, old ^ 0x10, old.wrapping_add(1), old.wrapping_sub(1)];
    if is_in_hub(at) {
        values.extend(b"amz9");
        values.extend(names::BAD_BYTES);
        values.push(old ^ 0x20);
    }
    values.sort_unstable();
    values.dedup();
    values.retain(|&value| value != old);
    values
}

/// Whether the byte at this offset belongs to the place of the hub's name.
pub fn is_in_hub(at: usize) -> bool {
    (HUB..HUB + HUB_BYTES).contains(&at)
}

/// Changes one field, by one of many kinds of damage; most kinds aim at one table rule.
pub fn field(table: &mut [u8], random: &mut Random) {
    let p = job(table, random);
    let other = job(table, random);
    let q = random.below(FUNCTIONS);
    let c = random.below(CONNECTIONS);
    match random.below(32) {
        0 => {
            let place = random.below(TABLE);
            table[place] ^= 1 << random.below(8);
        }
        1 => copy(table, SERIAL + 4 * other, SERIAL + 4 * p, 4),
        2 => copy(table, LAST_SERIAL, SERIAL + 4 * p, 4),
        3 => {
            let last = four(table, LAST_SERIAL);
            set(table, SERIAL + 4 * p, &last.wrapping_add(1).to_le_bytes());
        }
        4 => set(table, LAST_SERIAL, &random.pick(&[0, 1, u32::MAX, u32::MAX - 1]).to_le_bytes()),
        5 => copy(table, NAME + 32 * random.below(FUNCTIONS), NAME + 32 * q, 32),
        6 => {
            let at = NAME + 32 * q + random.below(32);
            table[at] = *random.pick(&[0, b'a', 0xff]);
        }
        7 => {
            // A job takes the function and unique of another one.
            table[FUNCTION + p] = table[FUNCTION + other];
            copy(table, UNIQUE + 64 * other, UNIQUE + 64 * p, 64);
        }
        8 => copy(table, UNIQUE + 64 * other, UNIQUE + 64 * p, 64),
        9 => {
            let length = *random.pick(&[0, 1, 63, 64]);
            set(table, UNIQUE + 64 * p, &[0; 64]);
            set(table, UNIQUE + 64 * p, &vec![b'z'; length]);
        }
        10 => {
            let place = UNIQUE + 64 * p + random.below(64);
            table[place] = *random.pick(&[0, b'z']);
        }
        11 => {
            // The workload's size as large as the rule allows, or one more.
            let name = NAME + 32 * usize::from(table[FUNCTION + p] & 15);
            let function = text_length(&table[name..name + 32]);
            let unique = text_length(&table[UNIQUE + 64 * p..][..64]);
            let size = 1_022 - function - unique + random.below(2);
            set(table, SIZE + 2 * p, &(size as u16).to_le_bytes());
        }
        12 => set(table, SIZE + 2 * p, &random.pick(&[0u16, 1, 926, 1_022, 1_023, 1_024, 65_535]).to_le_bytes()),
        13 => set(table, HOLDER + 2 * p, &random.pick(&[0u16, 1, 16, 17, 256, 257]).to_le_bytes()),
        14 => set(table, HOLDER + 2 * p, &(random.below(17) as u16).to_le_bytes()),
        15 => table[PRIORITY + p] = *random.pick(&[0, 1, 2, 3]),
        16 => table[BACKGROUND + p] = *random.pick(&[0, 1, 2]),
        17 => table[FUNCTION + p] = random.below(18) as u8,
        18 => {
            let texts: [&[u8]; 8] = [b"", b"0", b"007", b"1234567890", b"12a", b"1\x002", b"/", b":"];
            let digits = *random.pick(&texts);
            let at = *random.pick(&[NUMERATOR, DENOMINATOR]) + 10 * p;
            set(table, at, &[0; 10]);
            set(table, at, digits);
        }
        19 => set(table, LISTENERS + 4 * p, &(1u32 << random.below(32)).to_le_bytes()),
        20 => set(table, LISTENERS + 4 * p, &[0; 4]),
        21 => set(table, ABLE + 4 * q, &(1u32 << random.below(32)).to_le_bytes()),
        22 => {
            let set_at = ABLE + 4 * q + c / 8;
            table[set_at] ^= 1 << (c % 8);
        }
        23 => table[OPEN + c] = *random.pick(&[0, 1, 2]),
        24 => table[ASLEEP + c] = *random.pick(&[0, 1, 1, 2]),
        25 => table[EXCEPTIONS + c] = *random.pick(&[0, 1, 2]),
        26 => {
            let length = *random.pick(&[0, 1, 63, 64]);
            set(table, IDS + 64 * c, &[0; 64]);
            set(table, IDS + 64 * c, &vec![*random.pick(b"i\x01\xff"); length]);
        }
        27 => copy(table, IDS + 64 * random.below(CONNECTIONS), IDS + 64 * c, 64),
        28 => {
            let place = IDS + 64 * c + random.below(64);
            table[place] = *random.pick(&[0, b'i']);
        }
        29 | 30 => hub(table, random),
        _ => {
            // A connection that leaves, its id with it or not.
            table[OPEN + c] = 0;
            if random.chance(50) {
                set(table, IDS + 64 * c, &[0; 64]);
            }
        }
    }
}

/// Changes the hub's name: to another one, to none, to a full place, or by single bytes.
fn hub(table: &mut [u8], random: &mut Random) {
    let at = HUB + random.below(HUB_BYTES);
    let length = text_length(&table[HUB..][..HUB_BYTES]);
    match random.below(8) {
        0 => table[at] = 0,
        1 => table[at] = *random.pick(b"az09"),
        2 => table[at] = *random.pick(&names::BAD_BYTES),
        // One byte longer or shorter.
        3 => table[HUB + length.min(HUB_BYTES - 1)] = *random.pick(b"a1"),
        4 => table[HUB + length.saturating_sub(1)] = 0,
        5 => set(table, HUB, &[*random.pick(b"\0a0A"); HUB_BYTES]),
        _ => {
            set(table, HUB, &[0; HUB_BYTES]);
            set(table, HUB, &names::any(random));
        }
    }
}

/// Mostly a place with a job.
fn job(table: &[u8], random: &mut Random) -> usize {
    let jobs: Vec<usize> = (0..JOBS).filter(|&p| four(table, SERIAL + 4 * p) != 0).collect();
    if jobs.is_empty() || random.chance(10) {
        random.below(JOBS)
    } else {
        *random.pick(&jobs)
    }
}

/// The bytes before the first zero byte of a place.
fn text_length(place: &[u8]) -> usize {
    place.iter().take_while(|&&byte| byte != 0).count()
}

fn four(table: &[u8], at: usize) -> u32 {
    u32::from_le_bytes([table[at], table[at + 1], table[at + 2], table[at + 3]])
}

fn set(table: &mut [u8], at: usize, bytes: &[u8]) {
    table[at..at + bytes.len()].copy_from_slice(bytes);
}

fn copy(table: &mut [u8], from: usize, to: usize, length: usize) {
    table.copy_within(from..from + length, to);
}
