//! The packet layer: its sizes, the order of its refusals, and that what is written is read back.
mod common;
use common::request;
use peer::packet::{read, shape, write, Part, Side};

fn number(bytes: &[u8]) -> u32 {
    read(Side::Request, bytes).err().unwrap_or(0)
}

#[test]
fn refusals_5_to_10_in_order() {
    let good = request(16, &[b"data"]);
    assert_eq!(number(&good), 0);
    for length in 0..12 {
        assert_eq!(number(&good[..length]), 5);
    }
    // Each packet has the fault of its number and all later ones too.
    let mut packet = request(5, &[b"data"]);
    packet.push(0);
    packet[10] = 4;
    let mut foreign = packet.clone();
    foreign[3] = b'S';
    assert_eq!(number(&foreign), 6);
    packet[11] = 1;
    assert_eq!(number(&packet), 7);
    packet[11] = 0;
    assert_eq!(number(&packet), 8);
    assert_eq!(number(&request(5, &[b"data"])), 9);
    assert_eq!(number(&request(0x107, &[b"f\0u\0w"])), 9);
    assert_eq!(number(&request(9, &[b"data"])), 10);
}

#[test]
fn sizes_of_data() {
    assert_eq!(number(&request(16, &[&[7; 1_024]])), 0);
    assert_eq!(number(&request(16, &[&[7; 1_025]])), 7);
    // A short packet that says more than 1,024 is too large first.
    let mut short = request(16, &[b""]);
    short[8..12].copy_from_slice(&1_025u32.to_be_bytes());
    assert_eq!(number(&short), 7);
    short[8..12].copy_from_slice(&1_024u32.to_be_bytes());
    assert_eq!(number(&short), 8);
    short[8..12].copy_from_slice(&u32::MAX.to_be_bytes());
    assert_eq!(number(&short), 7);
}

#[test]
fn sizes_of_arguments() {
    let cases: [(Part, &[usize], &[usize]); 5] = [
        (Part::Function, &[1, 32], &[0, 33]),
        (Part::Unique, &[0, 64], &[65]),
        (Part::Handle, &[1, 63], &[0, 64]),
        (Part::Digits, &[1, 10], &[0, 11]),
        (Part::Id, &[1, 64], &[0, 65]),
    ];
    for (part, good, bad) in cases {
        assert!(good.iter().all(|&length| part.allows(&vec![b'1'; length])), "{part:?}");
        assert!(!bad.iter().any(|&length| part.allows(&vec![b'1'; length])), "{part:?}");
        assert!(!part.allows(b"1\0"));
    }
    assert!(!Part::Digits.allows(b"1/") && !Part::Digits.allows(b"1:"));
    assert!(Part::Code.allows(b"00") && !Part::Code.allows(b"0") && !Part::Code.allows(b"000"));
    assert!(Part::Flag.allows(b"0") && Part::Flag.allows(b"1") && !Part::Flag.allows(b"2") && !Part::Flag.allows(b""));
    assert!(Part::Text.allows(b"") && Part::Text.allows(&[1; 1_000]) && !Part::Text.allows(&[0]));
}

#[test]
fn a_zero_byte_ends_an_argument_only_where_one_is_asked_for() {
    let packet = request(7, &[b"f", b"u", b"w\0\0w\0"]);
    let read = read(Side::Request, &packet).unwrap();
    assert_eq!(read.arguments[..3], [&b"f"[..], b"u", b"w\0\0w\0"]);
    for kind in [1, 2, 14, 15, 22, 26] {
        assert_eq!(number(&request(kind, &[b"f\0"])), 10);
    }
    for kind in [13, 25, 28, 29] {
        assert_eq!(number(&request(kind, &[b"handle"])), 10);
        assert_eq!(number(&request(kind, &[b"handle\0"])), 0);
    }
    assert_eq!(number(&request(12, &[b"h\x001\x002\0"])), 10);
    assert_eq!(number(&request(12, &[b"h\x001"])), 10);
}

#[test]
fn writing_refuses_in_the_order_9_10_7_1() {
    let mut output = [0xa5; 1_200];
    assert_eq!(write(Side::Response, 5, &[b""], &mut []), Err(9));
    assert_eq!(write(Side::Request, 8, &[b"h"], &mut output), Err(9));
    assert_eq!(write(Side::Response, 8, &[b""], &mut []), Err(10));
    assert_eq!(write(Side::Response, 8, &[b"h", b"h"], &mut output), Err(10));
    assert_eq!(write(Side::Response, 17, &[&[0; 1_089]], &mut []), Err(7));
    assert_eq!(write(Side::Request, 16, &[&[0; 1_025]], &mut output), Err(7));
    assert_eq!(write(Side::Response, 17, &[b"abc"], &mut [0; 14]), Err(1));
    assert!(output.iter().all(|&byte| byte == 0xa5));
    assert_eq!(write(Side::Response, 17, &[b"abc"], &mut [0; 15]), Ok(15));
    assert_eq!(write(Side::Response, 17, &[&[0; 1_088]], &mut output), Ok(1_100));
}

#[test]
fn what_is_written_is_read_back() {
    let mut types = 0;
    for side in [Side::Request, Side::Response] {
        for kind in 0..40 {
            let Some(shape) = shape(side, kind) else { continue };
            types += 1;
            let arguments: Vec<&[u8]> = shape
                .iter()
                .map(|part| match part {
                    Part::Opaque => &b"a\0b"[..],
                    Part::Flag => b"1",
                    _ => b"42",
                })
                .collect();
            let mut output = [0; 100];
            let length = write(side, kind, &arguments, &mut output).unwrap();
            let packet = read(side, &output[..length]).unwrap();
            assert_eq!((packet.kind, packet.count), (kind, shape.len()));
            assert_eq!(packet.arguments[..packet.count], arguments[..]);
        }
    }
    // 22 served types and 15 sent ones.
    assert_eq!(types, 37);
}
