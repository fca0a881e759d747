//! Judges the journals of a group's members (docs/NETWORK.md, "Judged"), however long they are.
//!
//! - Each life's lines are given to a node of the proved library again, and each answer is compared.
//! - All lives' lines are put in one order, each life's in its own: a letter is heard after it was sent, with the bytes that were sent;
//!   a name is given up after it stopped; a place's next life begins after the one before stopped.
//! - What the lives took is compared as one list. Each life takes a piece of it without a gap. Each send that was answered `sent`
//!   stands at its number, with its body.
//! - Whether the run is lawful is watched meanwhile. After more members stopped than the resilience allows, only the answers are
//!   compared, since nothing else is claimed. A run of at most 100,000 events goes to the proved `play` too, if its program is named.
//!
//! The answers are those of the proved node, and so is the text of `play`. The rest of this crate isn't proved.
//!
//! Memory is bounded: a line of each life that runs, the last sums of its letters and of the list; older sums are in temporary files.
//! A sum is a keyed hash of 64 bits, with a key of this process.

#![warn(missing_docs)]

mod court;
mod ending;
pub mod feed;
pub mod finding;
pub mod judge;
mod lawful;
mod line;
mod links;
mod list;
mod merge;
mod replay;
mod script;
mod sums;

pub use finding::{Cause, Finding};
pub use judge::{judge, Asked, Judged};
