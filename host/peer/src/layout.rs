//! Where each field of the table stands (docs/TABLE.md), and how long the lent buffers are at least.
#![forbid(unsafe_code)]

use crate::server::{CONNECTIONS, FUNCTIONS, JOBS};

pub const NAME_BYTES: usize = 32;
pub const UNIQUE_BYTES: usize = 64;
pub const DIGITS_BYTES: usize = 10;
pub const ID_BYTES: usize = 64;
/// One byte more than the longest name, so that a zero byte follows each.
pub const HUB_BYTES: usize = 16;

// Each column begins where the one before it ends.
pub const LAST_SERIAL: usize = 0;
pub const SERIAL: usize = LAST_SERIAL + 4;
pub const SIZE: usize = SERIAL + 4 * JOBS;
pub const HOLDER: usize = SIZE + 2 * JOBS;
pub const PRIORITY: usize = HOLDER + 2 * JOBS;
pub const BACKGROUND: usize = PRIORITY + JOBS;
pub const FUNCTION: usize = BACKGROUND + JOBS;
pub const NAME: usize = FUNCTION + JOBS;
pub const UNIQUE: usize = NAME + NAME_BYTES * FUNCTIONS;
pub const NUMERATOR: usize = UNIQUE + UNIQUE_BYTES * JOBS;
pub const DENOMINATOR: usize = NUMERATOR + DIGITS_BYTES * JOBS;
pub const HUB: usize = DENOMINATOR + DIGITS_BYTES * JOBS;
pub const ABLE: usize = HUB + HUB_BYTES;
pub const LISTENERS: usize = ABLE + 4 * FUNCTIONS;
pub const OPEN: usize = LISTENERS + 4 * JOBS;
pub const ASLEEP: usize = OPEN + CONNECTIONS;
pub const EXCEPTIONS: usize = ASLEEP + CONNECTIONS;
pub const IDS: usize = EXCEPTIONS + CONNECTIONS;
/// The layout ends here: the least length of a lent table.
pub const TABLE: usize = IDS + ID_BYTES * CONNECTIONS;
/// The least length of a lent output: one copy of the largest request to each of 16 listeners.
pub const OUTPUT: usize = 16_592;
