//! A replicated state machine over the deliveries of a group's members: a deterministic core without I/O (docs/REPLICAS.md).
//!
//! Each member has a [`Replica`] of a [`StateMachine`]. It is given what its member delivers, and answers what is to be sent. All
//! replicas apply the same commands in the same order. A joiner is sent the state at its Join, in chunks. A command of a session is
//! done once, however often it is sent.
//!
//! ```
//! use muoswyld_member::{Delivery, Position};
//! use muoswyld_replica::{Answer, Output, Replica, Request, Settings, StateMachine, Unreadable};
//!
//! /// Counts its commands.
//! struct Counter(u64);
//!
//! impl StateMachine for Counter {
//!     type Snapshot = std::iter::Once<Vec<u8>>;
//!     fn apply(&mut self, _at: Position, _command: &[u8]) -> Vec<u8> {
//!         self.0 += 1;
//!         self.0.to_string().into_bytes()
//!     }
//!     fn snapshot(&self) -> Self::Snapshot {
//!         std::iter::once(self.0.to_be_bytes().to_vec())
//!     }
//!     fn restore(&mut self, record: &[u8]) -> Result<(), Unreadable> {
//!         self.0 = u64::from_be_bytes(record.try_into().map_err(|_| Unreadable)?);
//!         Ok(())
//!     }
//!     fn digest(&self) -> u64 {
//!         self.0
//!     }
//! }
//!
//! # fn main() -> Result<(), Box<dyn std::error::Error>> {
//! let settings = Settings::new("0".parse()?, 7);
//! let mut replica = Replica::new(Counter(0), settings);
//! let at = Position { generation: 0, number: 1, index: 0 };
//! replica.deliver(Delivery::View { at, members: "0".parse()?, resilience: 0 });
//! replica.submit(1, Request::Command(b"more".to_vec()))?;
//! let mut answers = Vec::new();
//! while let Some(output) = replica.next_output() {
//!     match output {
//!         // a group sends it, and delivers it to all members
//!         Output::Send(message) => {
//!             let at = Position { generation: 0, number: 2, index: 0 };
//!             replica.deliver(Delivery::Message { at, from: "0".parse()?, message });
//!         }
//!         Output::Answered { token, answer } => answers.push((token, answer)),
//!         _ => {}
//!     }
//! }
//! assert_eq!(answers, [(1, Answer::Done(b"1".to_vec()))]);
//! # Ok(())
//! # }
//! ```

#![warn(missing_docs)]

mod checks;
mod digest;
mod event;
mod holder;
mod machine;
mod message;
mod parts;
mod replica;
mod restoring;
mod roll;
mod sessions;
mod snapshot;
mod waiting;

pub use digest::Digest;
pub use event::{
    Answer, Ended, Notice, Output, Plant, Refused, Request, SessionId, Settings, Status,
};
pub use machine::{StateMachine, Unreadable};
pub use message::{MOST_COMMAND, MOST_MESSAGE};
pub use replica::Replica;
