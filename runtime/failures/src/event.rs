//! What a value is given, and what it wants done.

use crate::names::{Name, NameSet, Places};
use crate::time::Time;

/// Something that happened.
#[derive(Clone, Copy, Debug, PartialEq, Eq)]
pub enum Input<'a> {
    /// A message came. The time that comes with it was read after it was received.
    Datagram(&'a [u8]),
    /// The write of this number is on disk, and the folder's entry too.
    Written(u64),
    /// A write failed: this place is no voter any more.
    NotWritten,
    /// Somebody outside says that a name has stopped for certain. That is said of a process, so it holds in each group of its place.
    Told(Name),
    /// What became of a fence.
    Fenced {
        /// The name that it was for.
        name: Name,
        /// Whether the program ended with 0.
        done: bool,
    },
    /// The members of the view that stands from now on, and the fewest that a reset goes on with.
    View {
        /// The members.
        members: NameSet,
        /// The fewest.
        least: u8,
    },
    /// Time passed.
    Time,
}

/// Something to be done.
#[derive(Clone, Debug, PartialEq, Eq)]
pub enum Output {
    /// Send a message to these places.
    Send {
        /// The places.
        to: Places,
        /// Its bytes.
        payload: Vec<u8>,
    },
    /// Write the voter's file: beside the old one, synced, renamed, the folder synced. Then say [`Input::Written`].
    Write {
        /// The write's number.
        number: u64,
        /// The whole file.
        bytes: Vec<u8>,
    },
    /// Run the program that ends a name, with a limit: kill it then, and say [`Input::Fenced`] that it isn't done.
    Fence {
        /// The name.
        name: Name,
        /// Up to when it may take.
        until: Time,
    },
    /// A name has stopped for certain: tell the member so, as soon as it may be given anything.
    Stopped(Name),
    /// It is known by somebody's word, by a fence's, or by its place's next life that a name's process has ended. That holds in each list
    /// of the group in which the process has a name. It may be this name itself.
    Word(Name),
    /// This life was given up. Nothing more may be let out, and what is held is dropped. It ends. A life ends by itself for no other
    /// cause: who is frozen, or refused by some, may still go on.
    Ended,
    /// Something for the log.
    Notice(Notice),
}

/// Something for the log.
#[derive(Clone, Copy, Debug, PartialEq, Eq)]
pub enum Notice {
    /// A name wasn't heard for too long.
    Suspects(Name),
    /// A suspected name is heard again.
    Hears(Name),
    /// It wants a name to be refused.
    Wants(Name),
    /// It refuses a name for ever.
    Refuses(Name),
    /// What comes of a name has another id, and counts for nothing.
    OtherId(Name),
    /// It may not act until a majority of the voters echoes.
    Frozen,
    /// It may act again.
    Thawed,
    /// Its place is no voter any more.
    NoVoter(NoVoter),
}

/// Why a place isn't a voter.
#[derive(Clone, Copy, Debug, PartialEq, Eq)]
pub enum NoVoter {
    /// The founding doesn't name it.
    NotNamed,
    /// It has no file: its disk was lost, or the founding made none.
    NoFile,
    /// Its file isn't whole, or is another group's.
    BadFile,
    /// Others remember a later file of it.
    OldFile,
    /// A write failed.
    NotWritten,
}
