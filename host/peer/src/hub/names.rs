//! Names of hubs to try: good ones and bad ones, random ones, and handles that are nearly those of one hub.
#![forbid(unsafe_code)]

use super::{LAP, MOST};
use crate::handle;
use crate::random::Random;

/// The name of document 01's cases and names near it, single letters and digits, digits only, and full ones.
pub const GOOD: [&[u8]; 20] = [
    LAP,
    b"lap1",
    b"lap11",
    b"lapp",
    b"la",
    b"l",
    b"ap",
    b"a",
    b"z",
    b"0",
    b"1",
    b"9",
    b"11",
    b"4294967295",
    b"hub2",
    b"a0z9",
    b"abcdefghijklmn",
    b"abcdefghijklmno",
    b"lap000000000000",
    b"999999999999999",
];

/// Bytes that no name has: the neighbours of letters and digits, capitals, signs, and letters with a high bit.
pub const BAD_BYTES: [u8; 17] =
    [0, 1, b' ', b'-', b'.', b'/', b':', b'@', b'A', b'Z', b'[', b'_', b'`', b'{', 0x80, 0xe1, 0xff];

/// Names that are empty, too long or hold a bad byte: each at the start, in the middle and at the end, also of a full
/// name and of one that is too long.
pub fn bad() -> Vec<Vec<u8>> {
    let mut names: Vec<Vec<u8>> =
        [&b""[..], b"LAP", b"Lap", b"H:lap:", b"lap:1", b"\0\0\0", b"lap\0\0\0\0\0\0\0\0\0\0\0\0"]
            .into_iter()
            .map(<[u8]>::to_vec)
            .collect();
    // 259 and 65,539 are 3 in one byte and in two.
    names.extend([16, 17, 31, 32, 64, 259, 65_539].map(|length| vec![b'a'; length]));
    for byte in BAD_BYTES {
        names.push(vec![byte]);
        for name in [LAP, b"abcdefghijklmno", b"abcdefghijklmnop"] {
            for at in [0, name.len() / 2, name.len() - 1] {
                let mut name = name.to_vec();
                name[at] = byte;
                names.push(name);
            }
        }
    }
    names
}

/// A good name: often `lap` or one of the fixed ones, else letters and digits of any length.
pub fn any(random: &mut Random) -> Vec<u8> {
    match random.below(8) {
        0 => LAP.to_vec(),
        1..=3 => random.pick(&GOOD).to_vec(),
        kind => {
            let length = 1 + random.below(MOST);
            let letters: &[u8] = if kind == 4 { b"0123456789" } else { b"abcdefghijklmnopqrstuvwxyz0123456789" };
            (0..length).map(|_| *random.pick(letters)).collect()
        }
    }
}

/// What stands where the hub's name should, but is not it: the name one byte longer or shorter, in capitals, with one
/// other byte, twice, or another hub's.
pub fn other(own: &[u8], random: &mut Random) -> Vec<u8> {
    let mut name = own.to_vec();
    match random.below(12) {
        0 => name.push(*random.pick(b"1pz")),
        1 => name.push(*random.pick(b": \x80L")),
        2 => name.truncate(own.len() - 1),
        3 => name = own[1..].to_vec(),
        4 => name.make_ascii_uppercase(),
        5 => name[0] ^= 0x20,
        6 => name[own.len() - 1] ^= 1,
        7 => name = [own, own].concat(),
        8 | 9 => name = any(random),
        10 => name = LAP.to_vec(),
        _ => name = b"lap1".to_vec(),
    }
    // Some of this may have led back to the name, or to a zero byte.
    if name == own || name.contains(&0) {
        name = [own, b"0"].concat();
    }
    name
}

/// The handle of this serial under a name that is not the hub's own, or with a digit on the wrong side of the colon.
pub fn near_handle(own: &[u8], serial: u32, random: &mut Random) -> Vec<u8> {
    let digits = serial.to_string().into_bytes();
    let last = own[own.len() - 1];
    match random.below(8) {
        0 if digits.len() > 1 => [b"H:", own, &digits[..1], b":", &digits[1..]].concat(),
        1 if last.is_ascii_digit() => [b"H:", &own[..own.len() - 1], b":", &[last], &digits].concat(),
        2 => [b"H:", own, &digits].concat(),
        _ => [b"H:", &other(own, random)[..], b":", &digits].concat(),
    }
}

/// The name in a text that is a hub's handle, of this hub or another one, and the serial.
pub fn of_handle(text: &[u8]) -> Option<(&[u8], u32)> {
    let name = text.strip_prefix(b"H:")?.split(|&byte| byte == b':').next()?;
    let serial = handle::read(name, text)?;
    super::is_name(name).then_some((name, serial))
}

#[cfg(test)]
mod tests {
    use super::*;
    use crate::hub::is_name;
    use std::collections::BTreeSet;

    #[test]
    fn good_names_and_bad_ones() {
        assert!(GOOD.iter().all(|name| is_name(name)));
        assert!(bad().iter().all(|name| !is_name(name)));
        let distinct = |names: Vec<Vec<u8>>| names.iter().cloned().collect::<BTreeSet<_>>().len();
        assert_eq!(distinct(GOOD.map(<[u8]>::to_vec).to_vec()), GOOD.len());
        assert!(distinct(bad()) > 150);
        // Every byte stands on one side.
        let good = (0..=255).filter(|byte| is_name(&[*byte])).count();
        assert!(good == 36 && BAD_BYTES.iter().all(|byte| !is_name(&[*byte])));
    }

    #[test]
    fn random_names_are_good_and_of_every_length() {
        let mut random = Random::new(1);
        let names: Vec<Vec<u8>> = (0..2_000).map(|_| any(&mut random)).collect();
        assert!(names.iter().all(|name| is_name(name)));
        let lengths: BTreeSet<usize> = names.iter().map(Vec::len).collect();
        assert!(lengths.into_iter().eq(1..=MOST));
        let count = |holds: fn(&[u8]) -> bool| names.iter().filter(|name| holds(name)).count();
        assert!(count(|name| name == LAP) > 200);
        assert!(count(|name| name.iter().all(u8::is_ascii_digit)) > 200);
        assert!(count(|name| name.len() == MOST) > 100);
    }

    #[test]
    fn near_handles_are_none_of_the_hub() {
        let mut random = Random::new(2);
        for own in GOOD {
            let mut seen = BTreeSet::new();
            for serial in [1, 11, 111, u32::MAX] {
                for _ in 0..400 {
                    let text = near_handle(own, serial, &mut random);
                    assert_eq!(handle::read(own, &text), None, "{}", text.escape_ascii());
                    assert!(text.len() <= 63 && !text.contains(&0), "{}", text.escape_ascii());
                    seen.insert(text);
                }
            }
            let foreign = seen.iter().filter_map(|text| of_handle(text)).filter(|(name, _)| *name != own);
            assert!(foreign.count() > 20);
            assert!(
                own != LAP
                    || [&b"H:lap1:1"[..], b"H:la:1", b"H:LAP:1", b"H:lap11"].iter().all(|text| seen.contains(*text))
            );
            assert!(own != b"lap1" || seen.contains(&b"H:lap:11"[..]) && seen.contains(&b"H:lap:1"[..]));
        }
    }

    #[test]
    fn names_in_handles() {
        assert_eq!(of_handle(b"H:lap:1"), Some((LAP, 1)));
        assert_eq!(of_handle(b"H:0:4294967295"), Some((&b"0"[..], u32::MAX)));
        for text in [&b"H:lap"[..], b"H::1", b"H:Lap:1", b"H:lap:01", b"H:lap:1:1", b"H:abcdefghijklmnop:1", b"lap:1"] {
            assert_eq!(of_handle(text), None, "{}", text.escape_ascii());
        }
    }
}
