//! A group of members over UDP, by the seven calls of the Amoeba distributed operating system: create, join, leave, send,
//! receive, reset, info. All members are given the same deliveries in the same order, though the network loses, repeats and
//! reorders datagrams and members stop.
//!
//! ```no_run
//! use muoswyld_group::{Config, Delivery, Group, Key};
//!
//! # let key = Key::of([7; 32]);
//! let config = Config::new("0".parse()?, "0,1,2".parse()?)
//!     .resilience(1)
//!     .address(0, "127.0.0.1:7000".parse()?)?
//!     .address(1, "127.0.0.1:7001".parse()?)?
//!     .address(2, "127.0.0.1:7002".parse()?)?
//!     .key(key);
//! let group = Group::create(config)?;
//! let at = group.send("hello")?;
//! for delivery in group.deliveries() {
//!     if let Delivery::Message { at, from, message } = delivery {
//!         println!("{} {from}: {}", at.number, String::from_utf8_lossy(&message));
//!     }
//! }
//! # Ok::<(), Box<dyn std::error::Error>>(())
//! ```
//!
//! The node of each member is proved (docs/PROVED.md); what carries it here, and the member between the two
//! (`muoswyld-member`), is tested and not proved.

mod addresses;
mod asking;
mod clock;
mod config;
mod error;
mod failures;
mod fencing;
mod group;
mod later;
mod life;
mod next;
mod returning;
mod seal;
mod shared;
mod shell;
mod slot;
mod socket;
mod state;
mod ticket;

pub use addresses::{Addresses, BadAddress};
pub use asking::Facts;
pub use config::Config;
pub use error::{
    CreateError, End, LeaveError, ReceiveError, ResetError, SendError, SucceedError, ToldError,
};
pub use failures::{Blocked, EndedList, FailuresInfo, Policy};
pub use group::Group;
pub use later::LaterList;
pub use muoswyld::names::{BadName, Name, Names, Stamp};
pub use muoswyld_member::{
    Before, Counts, Delivery, Founding, Info, Limits, NotReset, Notice, Position, Role, Standing,
    StartError,
};
pub use next::{BadNextList, NextList};
pub use returning::{latest_life, NextLife};
pub use seal::Key;
pub use state::{next_life, StateError};
pub use ticket::Ticket;
