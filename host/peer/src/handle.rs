//! Handles of jobs: `H:`, the hub's name, a colon and the serial in decimal. They match as exact text: no other name,
//! no leading zero, no sign, no wrap.
#![forbid(unsafe_code)]

use crate::text::Text;

/// The longest handle: a name of 15 bytes and a serial of 10 digits.
pub const MOST: usize = 28;

pub type Handle = Text<MOST>;

/// The handle of the job with this serial on the hub of this name.
pub fn print(hub: &[u8], serial: u32) -> Handle {
    let mut digits = [0; 10];
    let mut at = digits.len();
    let mut rest = serial;
    loop {
        at -= 1;
        digits[at] = b'0' + (rest % 10) as u8;
        rest /= 10;
        if rest == 0 {
            break;
        }
    }
    let mut bytes = [0; MOST];
    let mut length = 0;
    for part in [b"H:", hub, b":", &digits[at..]] {
        bytes[length..length + part.len()].copy_from_slice(part);
        length += part.len();
    }
    Text::new(&bytes[..length])
}

/// The serial whose handle this text is on the hub of this name, if it is one.
pub fn read(hub: &[u8], handle: &[u8]) -> Option<u32> {
    let digits = handle.strip_prefix(b"H:")?.strip_prefix(hub)?.strip_prefix(b":")?;
    if digits.is_empty() || digits.len() > 10 || digits[0] == b'0' {
        return None;
    }
    let mut serial: u64 = 0;
    for &digit in digits {
        if !digit.is_ascii_digit() {
            return None;
        }
        serial = serial * 10 + u64::from(digit - b'0');
    }
    u32::try_from(serial).ok()
}

#[cfg(test)]
mod tests {
    use super::*;

    #[test]
    fn handles_are_read_as_they_are_printed() {
        for hub in ["lap", "l", "lap1", "0", "abcdefghijklmno"] {
            for serial in [1, 9, 10, 99, 100, 4_294_967_294, 4_294_967_295] {
                let handle = print(hub.as_bytes(), serial);
                assert_eq!(handle.bytes(), format!("H:{hub}:{serial}").as_bytes());
                assert_eq!(read(hub.as_bytes(), handle.bytes()), Some(serial));
            }
        }
        assert_eq!(print(b"abcdefghijklmno", u32::MAX).bytes().len(), MOST);
    }

    #[test]
    fn other_texts_are_no_handles() {
        for text in [
            "",
            "H:lap:",
            "H:lap:01",
            "H:lap:0",
            "H:lap:+1",
            "H:lap:1 ",
            "h:lap:1",
            "H:lap:4294967296",
            "H:lap:4294967297",
            // Other hubs, and what is nearly this one.
            "H:lap1:1",
            "H:lap11:1",
            "H:la:1",
            "H::1",
            "H:1",
            "H:LAP:1",
            "H:lap::1",
            "H:lap1",
            "H:lap:lap:1",
        ] {
            assert_eq!(read(b"lap", text.as_bytes()), None, "{text}");
        }
        assert_eq!(read(b"lap1", b"H:lap:11"), None);
    }
}
