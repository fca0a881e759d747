//! Who has stopped: a value without I/O that is given what happened and the time, and answers what is to be done.
//!
//! A member that is given up while it still acts splits its group in two lists. So a name is given up only once it can't act any
//! more, and a [`Policy`] says what makes that certain: somebody's word, a fence's word, a lease that ran out, or an echo that can't
//! come. Under the last two a member lets out what came of a batch only if it may, and this value says whether
//! ([`Failures::begin`], [`Failures::fix`], [`Failures::look`], [`Failures::emitted`]).
//!
//! It has no socket, no disk, no clock and no randomness. What it wants done it says as [`Output`]s. The same inputs give the same
//! outputs. Nothing of it is proved; `tests` simulates it, with defects planted in it that the simulation must find.

#![warn(missing_docs)]

mod candidate;
mod core;
mod echoes;
mod event;
mod fences;
mod gate;
mod info;
mod message;
mod names;
mod peers;
mod settings;
mod time;
mod voter;

pub use crate::core::Failures;
pub use event::{Input, NoVoter, Notice, Output};
pub use info::{Blocked, Info};
pub use message::{is_message, Echo, Heard, Heartbeat, Message};
pub use names::{places_of, Name, NameSet, Places};
pub use settings::{Lease, Plant, Policy, Settings, StartError};
pub use time::Time;
pub use voter::{new_file, refused_in, BadFile, FILE_BYTES};
