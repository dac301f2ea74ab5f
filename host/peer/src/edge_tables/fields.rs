//! Stored digits, sizes, sleepers and serials at their limits, in every place.
#![forbid(unsafe_code)]

use super::*;
use crate::server::{FUNCTIONS, JOBS};

pub fn all() -> Vec<Base> {
    let mut bases = vec![digits(), sizes(), sleepers(), two_serials(), last_serials()];
    bases.extend([1, 32, 64, 65_536, 1 << 27].map(serials));
    bases
}

/// 32 queued jobs of connection 0 that name these functions by turns.
fn jobs(functions: &[&[u8]]) -> Server {
    let mut server = opened();
    (0..JOBS).for_each(|p| run(&mut server, 0, 7, &[functions[p % functions.len()], b"", b"w"]));
    server
}

/// Numbers of 1, 2, 9 and 10 digits, with another byte at each place.
fn digits() -> Base {
    let rule = "stored texts";
    let mut changes = Vec::new();
    for at in (0..JOBS).flat_map(|p| [NUMERATOR + DIGITS_BYTES * p, DENOMINATOR + DIGITS_BYTES * p]) {
        for length in [1, 2, 9, 10] {
            let text = &b"9012345678"[..length];
            let with = |index: usize, byte: u8| {
                let mut place = place(text, DIGITS_BYTES);
                place[index] = byte;
                vec![(at, place)]
            };
            changes.push(Change::good(vec![(at, place(text, DIGITS_BYTES))]));
            for index in 0..length {
                // The neighbours of the digits, and bytes that differ from a digit in one high bit.
                for byte in [b'/', b':', b'9' + 0x80, b'0' - 0x10, b'5' + 0x40] {
                    changes.push(Change::breaking(rule, with(index, byte)));
                }
                changes.push(match index {
                    0 => Change::breaking(rule, with(0, 0)),
                    _ if index == length - 1 => Change::good(with(index, 0)),
                    _ => Change::breaking("every field with a meaning: zeros", with(index, 0)),
                });
            }
        }
    }
    Base { name: "stored digits".to_string(), server: jobs(&[b"reverse"]), changes }
}

/// Function, unique and workload of 1,022 and 1,023 bytes together, with short and longest texts, and workloads on
/// either side of 926: up to there no text is too long.
fn sizes() -> Base {
    let lengths = [1, 11, 32];
    let mut server = jobs(&[b"f"]);
    lengths[1..].iter().for_each(|&length| run(&mut server, 1, 1, &[&vec![b'f'; length]]));
    let mut changes = Vec::new();
    for p in 0..JOBS {
        for (q, function) in lengths.into_iter().enumerate() {
            for text in [0, 1, 36, 64] {
                let texts = function + text;
                for size in [0, 926, 927, 1_022 - texts, 1_023 - texts, 1_022, 1_023, 65_535, 65_536 - texts] {
                    let sets = vec![
                        (FUNCTION + p, vec![q as u8]),
                        unique(p, &vec![b'u'; text]),
                        (SIZE + 2 * p, (size as u16).to_le_bytes().to_vec()),
                    ];
                    changes.push(if texts + size <= 1_022 {
                        Change::good(sets)
                    } else {
                        Change::breaking("function, unique and workload", sets)
                    });
                }
            }
        }
    }
    Base { name: "sizes".to_string(), server, changes }
}

/// Connection 0 holds 32 jobs of 15 functions; others sleep with no ability, an idle one, or that of a job.
fn sleepers() -> Base {
    let names: Vec<Vec<u8>> = (0..15).map(|q| format!("function-{q}").into_bytes()).collect();
    let mut server = jobs(&names.iter().map(|name| &name[..]).collect::<Vec<_>>());
    names.iter().for_each(|name| run(&mut server, 0, 1, &[name]));
    (0..JOBS).for_each(|_| run(&mut server, 0, 9, &[]));
    let queued = |p: usize| (HOLDER + 2 * p, vec![0, 0]);
    let everyone = || {
        let mut sets: Vec<_> = (0..15).map(|q| able(q, 0xffff)).collect();
        sets.push((ASLEEP, vec![1; CONNECTIONS]));
        sets
    };
    let mut changes = vec![Change::good(everyone())];
    for p in 0..JOBS {
        changes.push(Change::breaking("no sleeper", [everyone(), vec![queued(p)]].concat()));
        for c in 1..CONNECTIONS {
            let asleep = || (ASLEEP + c, vec![1]);
            let can = || able(p % 15, 1 | 1 << c);
            let idle = vec![name(FUNCTIONS - 1, b"idle"), able(FUNCTIONS - 1, 1 << c)];
            changes.push(Change::good(vec![asleep(), queued(p)]));
            changes.push(Change::good([idle, vec![asleep(), queued(p)]].concat()));
            // The next job is never of the same function.
            changes.push(Change::good(vec![asleep(), can(), queued((p + 1) % JOBS)]));
            changes.push(Change::good(vec![asleep(), can()]));
            changes.push(Change::breaking("no sleeper", vec![asleep(), can(), queued(p)]));
        }
    }
    Base { name: "sleepers".to_string(), server, changes }
}

/// 32 serials this far apart, so that they agree modulo this number; any two alike are refused.
fn serials(step: u32) -> Base {
    let mut server = jobs(&[b"reverse"]);
    for (p, job) in server.jobs.iter_mut().flatten().enumerate() {
        // Neither rising nor falling with the place.
        job.serial = 1 + step * (p as u32 * 11 % 32);
    }
    server.last_serial = 1 + 31 * step;
    let number = |p: usize| 1 + step * (p as u32 * 11 % 32);
    let mut changes = Vec::new();
    for (low, high) in pairs(JOBS) {
        changes.push(Change::breaking("serials distinct", vec![serial(high, number(low))]));
        changes.push(Change::good(vec![serial(high, number(low)), serial(low, number(high))]));
    }
    Base { name: format!("serials {step} apart"), server, changes }
}

/// Two jobs at any two places, all others free: the serials are alike, or differ in one bit.
fn two_serials() -> Base {
    let mut server = opened();
    run(&mut server, 1, 1, &[b"reverse"]);
    server.last_serial = u32::MAX;
    let job = |p: usize, number: u32| {
        let digit = |at: usize| (at + DIGITS_BYTES * p, b"0".to_vec());
        vec![serial(p, number), (LISTENERS + 4 * p, vec![1]), digit(NUMERATOR), digit(DENOMINATOR)]
    };
    let mut changes = Vec::new();
    for (index, (low, high)) in pairs(JOBS).enumerate() {
        let number = 0x4000_0021;
        changes.push(Change::breaking("serials distinct", [job(low, number), job(high, number)].concat()));
        changes.push(Change::good([job(low, number), job(high, number ^ 1 << (index % 32))].concat()));
    }
    Base { name: "two serials".to_string(), server, changes }
}

/// A serial that is the last one or one more, where bytes or signs could mislead.
fn last_serials() -> Base {
    let mut changes = Vec::new();
    for p in 0..JOBS {
        for last in [40u32, 0xff, 0xffff, 0x7fff_ffff, 0x8000_0000, 0xffff_fffe] {
            let sets = |number: u32| vec![serial(p, number), (LAST_SERIAL, last.to_le_bytes().to_vec())];
            changes.push(Change::good(sets(last)));
            changes.push(Change::breaking("serials from 1", sets(last + 1)));
        }
        changes.push(Change::good(vec![serial(p, u32::MAX), (LAST_SERIAL, vec![0xff; 4])]));
    }
    Base { name: "last serials".to_string(), server: jobs(&[b"reverse"]), changes }
}
