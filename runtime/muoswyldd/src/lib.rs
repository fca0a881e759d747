//! The parts of a member as a process: configuration, keys, logs, metrics, and commands over a Unix socket. `muoswyldd` is made of
//! these, and `muoswyld-kv` too.

#![warn(missing_docs)]

pub mod control;
pub mod exit;
pub mod failing;
pub mod key;
pub mod log;
pub mod metrics;
pub mod options;
pub mod otherwise;
pub mod run;
pub mod show;
