//! A whole cluster of members in one thread, on virtual time, from a seed.
//!
//! Each member is a real one over the proved node. The network loses, repeats, delays and reorders datagrams; members pause, crash
//! (also between an input and what comes of it, and amid that), come back as their next lives, join, leave and reset; applications
//! take slowly. What the applications saw is checked: [`checker`] says what. A run of a seed is the same each time.

#![warn(missing_docs)]

pub mod checker;
mod clock;
mod closings;
pub mod draw;
mod ends;
mod fenced;
mod happening;
pub mod journals;
mod lifecycle;
mod machine;
mod outside;
pub mod plan;
mod process;
mod report;
mod services;
mod world;

pub use plan::Plan;
pub use report::{Failure, Fenced, Report, SeenView};
pub use services::Services;
pub use world::{run, run_with};
