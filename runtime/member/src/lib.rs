//! A member of a group without I/O: no socket, no thread, no clock, no randomness of its own. It is a value that is given what
//! happened and the time, and answers what is to be done. The same inputs give the same outputs, byte for byte.
//!
//! ```no_run
//! # fn main() -> Result<(), Box<dyn std::error::Error>> {
//! use muoswyld_member::{Founding, Input, Member, Output, Settings, Time};
//!
//! let founding = Founding { founders: "0,1,2".parse()?, resilience: 1, window: 64, pb_up_to: 1024 };
//! let mut member = Member::new(Settings::new("1".parse()?, founding, 0x5eed), Time(0))?;
//! member.handle(Time(10), Input::Send { ticket: 1, message: b"hello".to_vec() })?;
//! let mut out = Vec::new();
//! member.release(Time(20), &mut out);
//! for output in out {
//!     match output {
//!         Output::Datagram { .. } => {} // goes to each place of its names
//!         Output::Deliver(_) => {}      // is for the application
//!         _ => {}
//!     }
//! }
//! // until `member.wake()` there is nothing to do, if nothing comes
//! # Ok(())
//! # }
//! ```

#![warn(missing_docs)]

mod body;
mod chance;
mod config;
mod contents;
mod delivering;
mod ending_list;
mod ends;
mod event;
mod every;
mod frame;
mod generations;
mod hearing;
mod held;
mod info;
mod journal;
mod leaving;
mod member;
mod notice;
mod outbox;
mod packet;
mod queue;
mod resetting;
mod sending;
mod stream;
mod streaming;
mod succeeding;
mod timers;

pub use body::MOST_MESSAGE;
pub use config::{
    Before, Founding, Limits, Plant, Settings, StartError, Time, LEAST_STREAMED, MESSAGE_HEAD,
    MOST_STREAMED,
};
pub use event::{
    Counts, Delivery, End, HandleError, Info, Input, Next, NotReset, Notice, Output, Position,
    Successor, Unsent,
};
pub use frame::LEAST_DATAGRAM;
pub use generations::{Generations, Released};
pub use member::Member;
pub use muoswyld::answer::{Role, Standing};
pub use muoswyld::names::{Name, Names, Stamp};
