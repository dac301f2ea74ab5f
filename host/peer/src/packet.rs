//! The packet layer of document 01, with document 02's SET_CLIENT_ID: requests and responses read and written, with
//! refusals 5 to 10 in order.
#![forbid(unsafe_code)]

pub const HEADER: usize = 12;
pub const MOST_ARGUMENTS: usize = 5;

// The refusals of this layer, by their numbers in document 01.
pub const OUTPUT_SHORT: u32 = 1;
pub const PACKET_SHORT: u32 = 5;
pub const WRONG_MAGIC: u32 = 6;
pub const TOO_LARGE: u32 = 7;
pub const WRONG_LENGTH: u32 = 8;
pub const WRONG_TYPE: u32 = 9;
pub const BAD_ARGUMENTS: u32 = 10;

/// Who sends a packet: a connection (request) or the server (response).
#[derive(Clone, Copy, PartialEq, Eq, Debug)]
pub enum Side {
    Request,
    Response,
}

impl Side {
    pub fn magic(self) -> &'static [u8; 4] {
        match self {
            Side::Request => b"\0REQ",
            Side::Response => b"\0RES",
        }
    }

    /// The most bytes of data.
    pub fn limit(self) -> usize {
        match self {
            Side::Request => 1_024,
            Side::Response => 1_088,
        }
    }
}

/// The kinds of arguments; document 01 gives each its sizes, document 02 that of a client id.
#[derive(Clone, Copy, PartialEq, Eq, Debug)]
pub enum Part {
    Function,
    Unique,
    Handle,
    Digits,
    Flag,
    Code,
    Text,
    Id,
    Opaque,
}

impl Part {
    /// Whether the bytes are an argument of this kind. Only an opaque one may hold a zero byte.
    pub fn allows(self, bytes: &[u8]) -> bool {
        let plain = |least: usize, most: usize| (least..=most).contains(&bytes.len()) && !bytes.contains(&0);
        let digits =
            |least: usize, most: usize| (least..=most).contains(&bytes.len()) && bytes.iter().all(u8::is_ascii_digit);
        match self {
            Part::Function => plain(1, 32),
            Part::Unique => plain(0, 64),
            Part::Handle => plain(1, 63),
            Part::Digits => digits(1, 10),
            Part::Flag => bytes == b"0" || bytes == b"1",
            Part::Code => digits(2, 2),
            Part::Text => !bytes.contains(&0),
            Part::Id => plain(1, 64),
            Part::Opaque => true,
        }
    }
}

/// The arguments of a type, or nothing if this side does not send it.
pub fn shape(side: Side, kind: u32) -> Option<&'static [Part]> {
    use Part::*;
    let shape: &[Part] = match (side, kind) {
        (Side::Request, 1 | 2) => &[Function],
        (Side::Request, 3 | 4 | 9 | 30) => &[],
        (Side::Request, 7 | 18 | 21 | 32 | 33 | 34) => &[Function, Unique, Opaque],
        (Side::Request, 15) => &[Handle],
        (Side::Request, 16) => &[Opaque],
        (Side::Request, 22) => &[Id],
        (Side::Request, 26) => &[Text],
        (Side::Response, 6 | 10) => &[],
        (Side::Response, 8) => &[Handle],
        (Side::Response, 11) => &[Handle, Function, Opaque],
        (Side::Response, 31) => &[Handle, Function, Unique, Opaque],
        (Side::Response, 17) => &[Opaque],
        (Side::Response, 19) => &[Code, Text],
        (Side::Response, 20) => &[Handle, Flag, Flag, Digits, Digits],
        (Side::Response, 27) => &[Text],
        // The worker packets come as requests and go on as responses.
        (_, 12) => &[Handle, Digits, Digits],
        (_, 13 | 25 | 28 | 29) => &[Handle, Opaque],
        (_, 14) => &[Handle],
        _ => return None,
    };
    Some(shape)
}

/// A packet that was read; the arguments lie where they came.
#[derive(Clone, Copy, Debug)]
pub struct Packet<'a> {
    pub kind: u32,
    pub data: &'a [u8],
    pub arguments: [&'a [u8]; MOST_ARGUMENTS],
    pub count: usize,
}

/// Reads one whole packet of the given side, or says which refusal of 5 to 10 comes first.
pub fn read(side: Side, bytes: &[u8]) -> Result<Packet<'_>, u32> {
    if bytes.len() < HEADER {
        return Err(PACKET_SHORT);
    }
    if &bytes[..4] != side.magic() {
        return Err(WRONG_MAGIC);
    }
    let kind = kind(bytes);
    let size = number(&bytes[8..12]) as usize;
    if size > side.limit() {
        return Err(TOO_LARGE);
    }
    if bytes.len() != HEADER + size {
        return Err(WRONG_LENGTH);
    }
    let shape = shape(side, kind).ok_or(WRONG_TYPE)?;
    let data = &bytes[HEADER..];
    let arguments = split(shape, data).ok_or(BAD_ARGUMENTS)?;
    Ok(Packet { kind, data, arguments, count: shape.len() })
}

/// Writes a packet to the start of the output and gives its length; refusals in the order 9, 10, 7, 1 write nothing.
pub fn write(side: Side, kind: u32, arguments: &[&[u8]], output: &mut [u8]) -> Result<usize, u32> {
    let shape = shape(side, kind).ok_or(WRONG_TYPE)?;
    if arguments.len() != shape.len() || shape.iter().zip(arguments).any(|(part, bytes)| !part.allows(bytes)) {
        return Err(BAD_ARGUMENTS);
    }
    let data = arguments.join(&0);
    if data.len() > side.limit() {
        return Err(TOO_LARGE);
    }
    let length = HEADER + data.len();
    if output.len() < length {
        return Err(OUTPUT_SHORT);
    }
    output[..4].copy_from_slice(side.magic());
    output[4..8].copy_from_slice(&kind.to_be_bytes());
    output[8..12].copy_from_slice(&(data.len() as u32).to_be_bytes());
    output[12..length].copy_from_slice(&data);
    Ok(length)
}

/// The type that a whole header names, served or not.
pub fn kind(bytes: &[u8]) -> u32 {
    number(&bytes[4..8])
}

fn number(bytes: &[u8]) -> u32 {
    u32::from_be_bytes([bytes[0], bytes[1], bytes[2], bytes[3]])
}

/// The data at its zero bytes: all arguments but the last end at one, the last runs to the end.
fn split<'a>(shape: &[Part], data: &'a [u8]) -> Option<[&'a [u8]; MOST_ARGUMENTS]> {
    let mut arguments = [&data[..0]; MOST_ARGUMENTS];
    let Some((last, first)) = shape.split_last() else {
        return data.is_empty().then_some(arguments);
    };
    let mut rest = data;
    for (place, part) in first.iter().enumerate() {
        let zero = rest.iter().position(|&byte| byte == 0)?;
        arguments[place] = &rest[..zero];
        if !part.allows(arguments[place]) {
            return None;
        }
        rest = &rest[zero + 1..];
    }
    arguments[first.len()] = rest;
    last.allows(rest).then_some(arguments)
}
