//! Document 01's replay program: its example byte for byte, and the edges of its lines.
use peer::replay::replay;

const EXAMPLE: &str = "\
0101
0100
030100524551000000010000000772657665727365
0301005245510000000900000000
0301005245510000000400000000
030000524551000000070000000d72657665727365000074657374
0301005245510000000900000000
0301005245510000000d0000000c483a6c61703a310074736574
";

const EXAMPLE_OUTPUT: &str = "\
00
00
00
01005245530000000a00000000
00
00
00005245530000000800000007483a6c61703a31
01005245530000000600000000
00
01005245530000000b00000014483a6c61703a3100726576657273650074657374
00
00005245530000000d0000000c483a6c61703a310074736574
00
";

#[test]
fn the_example_of_document_01() {
    assert_eq!(replay(EXAMPLE.as_bytes()), EXAMPLE_OUTPUT);
    assert_eq!(replay(EXAMPLE.trim_end().as_bytes()), EXAMPLE_OUTPUT);
}

#[test]
fn lines_that_are_no_frames() {
    assert_eq!(replay(b""), "");
    assert_eq!(replay(b"\n"), "10\n");
    assert_eq!(replay(b"\n\n0100"), "10\n10\n00\n");
    for line in
        ["0", "01", "010", "01ff00", "0200ff", "0000", "0400", "01 00", "0100 ", "01FF", "0100\r", "zz", "ff00", "01g0"]
    {
        assert_eq!(replay(line.as_bytes()), "10\n", "{line}");
    }
}

#[test]
fn frames_that_are_refused() {
    assert_eq!(replay(b"01ff\n0110\n02ff\n03ff\n0200\n0300\n0100\n0100\n0300"), "02\n02\n02\n02\n03\n03\n00\n04\n05\n");
}

#[test]
fn a_line_has_at_most_2080_digits() {
    let line = |digits: usize| format!("0100\n0300{}\n0300\n", "00".repeat(digits / 2 - 2));
    assert_eq!(replay(line(2_080).as_bytes()), "00\n06\n05\n");
    assert_eq!(replay(line(2_082).as_bytes()), "00\n10\n05\n");
    assert_eq!(replay(line(9_000).as_bytes()), "00\n10\n05\n");
}

#[test]
fn type_5_from_connection_2() {
    let output = replay(b"0102\n0302005245510000000500000000\n");
    assert_eq!(output, "00\n0200524553000000130000000730390074797065\n09\n");
}
