//! What is to be done for what says who has stopped.

use muoswyld_failures::{self as failures, Places};
use muoswyld_member::{Name, Time};

/// A defect that a test plants, to see that it is found. A value without one is the only one to use.
#[doc(hidden)]
#[derive(Clone, Copy, Debug, PartialEq, Eq)]
#[allow(missing_docs)]
pub enum Plant {
    EmitsWithoutLook,
    ReadsAfterLook,
    LetsOutInPart,
    BeginsBeforeDisk,
    LooksByOldLane,
    LooksByNextLane,
    CarriesGiveUps,
    UsesOldFile,
    EndsWhileRefused,
    EndsAtOneElsewhere,
    HeedsEarlierList,
    LeavesListWhileEchoed,
}

/// What is to be done for what says who has stopped. The rest is the member's [`Output`](muoswyld_member::Output)s.
#[derive(Clone, Debug, PartialEq, Eq)]
pub enum Deed {
    /// A datagram's payload is to go to each of these places.
    Send {
        /// How many lists came before the one that it is of.
        generation: u32,
        /// The places.
        to: Places,
        /// The payload.
        payload: Vec<u8>,
    },
    /// The voter's file of a list is to be written and synced, and then [`Guarded::written`](crate::Guarded::written) is called with the number.
    Write {
        /// How many lists came before the one that it is of.
        generation: u32,
        /// The write's number.
        number: u64,
        /// The whole file.
        bytes: Vec<u8>,
    },
    /// The program that ends a name is to be run, with a limit, and then [`Guarded::fenced`](crate::Guarded::fenced) is called.
    Fence {
        /// How many lists came before the one that the name is of.
        generation: u32,
        /// The name.
        name: Name,
        /// Up to when it may take.
        until: Time,
    },
    /// The next list begins here. That this name's life began in it is to be written and synced, and the voter's file if there is one:
    /// both are there, or the life isn't. Then [`Guarded::begun`](crate::Guarded::begun) is called. Before that nothing of the list goes out. Where nothing is
    /// kept on disk, it is called at once.
    Begin {
        /// How many lists came before.
        generation: u32,
        /// The id of the list's group.
        group: u64,
        /// The id of its failures, as the voter's file has it.
        id: [u8; 16],
        /// The member's name in it: the first life of its place.
        name: Name,
        /// The voter's file, if the place votes in it.
        voter: Option<Vec<u8>>,
    },
    /// A list that has ended isn't served here any more: its voter's file may be removed. That a life of it began stays known.
    Closed {
        /// How many lists came before it.
        generation: u32,
        /// Why.
        why: Closing,
    },
    /// A name has stopped for certain in a list; the member is told so.
    Stopped {
        /// How many lists came before.
        generation: u32,
        /// The name.
        name: Name,
    },
    /// Nothing more is let out, what is held is dropped, and the life ends.
    Ended {
        /// How many lists came before the one in which it ends.
        generation: u32,
        /// Why.
        why: Ending,
    },
    /// Something for the log.
    Told {
        /// How many lists came before the one that it is about.
        generation: u32,
        /// What is told.
        notice: failures::Notice,
    },
}

/// Why a list that has ended isn't served any more.
#[derive(Clone, Copy, Debug, PartialEq, Eq)]
pub enum Closing {
    /// Nobody wants anything of it any more: all founders of the next list were heard in that list, or have stopped there; or another member,
    /// which knows that, said so.
    Over,
    /// This place's name was given up in it, so its member there has ended.
    GivenUp,
    /// Too few of its voters may still echo this place's name, so the name can't act in it any more. Others may serve the list still.
    Lost,
}

/// Why a life ends by what says who has stopped.
#[derive(Clone, Copy, Debug, PartialEq, Eq)]
pub enum Ending {
    /// It was given up: the group goes on without it.
    GivenUp,
    /// Its list has ended, and too few voters of the list may still echo it: they don't serve the list any more, or have refused this name. So
    /// it can't act any more, and what is held never goes out. The place comes back in the latest list as its next life.
    Unserved,
    /// It asked to join a list that has ended. Its place can come back in the latest one.
    Superseded,
    /// The next list didn't begin here: that its life began couldn't be written, there was no memory for it, or its control names no voters
    /// though the policy has some. The place comes back in it as its next life.
    NotBegun,
}
