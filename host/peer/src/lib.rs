//! An ordinary job server with the limits of document 01, and of document 02 the text commands (request 1), the
//! exceptions (request 3) and the hub names (request 5), written from the documents alone, to compare the core with.
//! It shares no code with the core. Only the module `archive` holds unsafe code: it calls the core's archive.
#![deny(unsafe_code)]
#![cfg_attr(not(feature = "archive"), forbid(unsafe_code))]

#[cfg(feature = "archive")]
#[allow(unsafe_code)]
pub mod archive;
pub mod captures;
pub mod commands;
pub mod counts;
pub mod damage;
pub mod edge_tables;
pub mod event;
#[cfg(feature = "archive")]
pub mod fresh_tables;
pub mod handle;
pub mod hex;
pub mod histories;
pub mod hub;
pub mod image;
pub mod layout;
#[cfg(feature = "archive")]
pub mod lent;
pub mod lines;
pub mod load;
pub mod options;
pub mod outbox;
pub mod packet;
pub mod questions;
pub mod random;
pub mod replay;
pub mod rules;
pub mod scripts;
pub mod server;
pub mod show;
#[cfg(feature = "archive")]
pub mod sides;
pub mod state;
pub mod text;
#[cfg(feature = "archive")]
pub mod trials;
#[cfg(feature = "archive")]
pub mod twin_trials;
pub mod twins;
pub mod words;
