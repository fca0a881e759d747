//! A replicated key-value store that speaks the Redis protocol, version 2 (docs/KV.md). Each member of a group is a server, and any of
//! them takes reads and writes.

#![warn(missing_docs)]

pub mod about;
pub mod client;
pub mod dialog;
pub mod op;
pub mod options;
pub mod pattern;
pub mod resp;
pub mod run;
pub mod server;
pub mod store;
pub mod words;
