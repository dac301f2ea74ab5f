//! The hub's name, request 5 of document 02: a fresh table is made with it, and it stands in every handle.
#![forbid(unsafe_code)]

pub mod names;

use crate::image;
use crate::layout::TABLE;
use crate::server::{Server, BAD_LENT, DONE, WORKLOADS};
use crate::text::Text;

/// The hub of document 01's cases and of the replay program.
pub const LAP: &[u8] = b"lap";

/// The most bytes of a name.
pub const MOST: usize = 15;

pub type Name = Text<MOST>;

/// 1 to 15 bytes, each a lowercase letter or a digit.
pub fn is_name(bytes: &[u8]) -> bool {
    (1..=MOST).contains(&bytes.len()) && bytes.iter().all(|byte| matches!(byte, b'a'..=b'z' | b'0'..=b'9'))
}

/// Makes a fresh table in lent buffers, of which the bytes beyond the layout stay. A short buffer or a bad name is
/// refused by 1: then nothing is written.
pub fn fresh(table: &mut [u8], workloads: &mut [u8], name: &[u8]) -> u32 {
    if table.len() < TABLE || workloads.len() < WORKLOADS {
        return BAD_LENT;
    }
    match Server::fresh(name) {
        Ok(server) => {
            image::write(&server, table);
            workloads[..WORKLOADS].copy_from_slice(&server.workloads);
            DONE
        }
        Err(number) => number,
    }
}
