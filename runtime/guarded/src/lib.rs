//! A member and what says who has stopped, put together: a value without I/O, to be driven by a shell or by a simulator.
//!
//! Under the policies `echo` and `lease` a member may let out what came of its inputs only if it may act. So inputs wait where it may
//! not, and what came of a batch of them is held until a look says that all of it may go out. Under `told` and `command` nothing waits
//! and nothing is held.
//!
//! A group's lists follow one another, and each list that is served has all of that of its own: who has stopped, the voters' files,
//! the batch, and the inputs that wait.

#![warn(missing_docs)]

mod closing;
mod deed;
mod following;
mod guarded;
mod ids;
mod lane;
mod waiting;

pub use closing::EndedList;
pub use deed::{Closing, Deed, Ending, Plant};
pub use guarded::Guarded;
pub use ids::next_id;
