//! What a node answers: what came of an event, how the node stands after it, and the letters that go out
//! (docs/PROTOCOL.md, "Outcomes").

use crate::event::To;
use crate::names::{Name, Names, Stamp};

/// A node's role in its group.
#[derive(Clone, Copy, Debug, PartialEq, Eq)]
pub enum Role {
    /// It has no list, and has not asked for one.
    Stranger,
    /// It has asked to join.
    Asking,
    /// It has a list.
    Member,
    /// It numbers its group's entries.
    Sequencer,
    /// It has a ballot that isn't over.
    Coordinator,
    /// It has left.
    Departed,
}

/// How a node stands.
#[derive(Clone, Copy, Debug, PartialEq, Eq)]
pub struct Standing {
    /// Its role in its group.
    pub role: Role,
    /// The stamp of the last view of its list; its name is the sequencer.
    pub view: Stamp,
    /// The number of that view.
    pub view_number: u32,
    /// The members after its last entry.
    pub members: Names,
    /// The resilience of its last view.
    pub resilience: u8,
    /// The number up to which its list is trimmed.
    pub base: u32,
    /// The number up to which its application has taken entries.
    pub taken: u32,
    /// The number up to which it knows the list to be accepted.
    pub accepted: u32,
    /// The number of its last entry.
    pub top: u32,
    /// The names that a ballot of its own waits for.
    pub waits_for: Names,
}

/// An entry of the group's list.
#[derive(Clone, Debug, PartialEq, Eq)]
pub enum Entry {
    /// A send of a member.
    Data {
        /// Who sent it.
        from: Name,
        /// Its request number.
        request: u32,
        /// Its body.
        body: Vec<u8>,
    },
    /// A name becomes a member.
    Join(Name),
    /// A member goes.
    Leave(Name),
    /// A view begins.
    View {
        /// Its stamp.
        stamp: Stamp,
        /// Its members.
        members: Names,
        /// How many of them may stop; None if it is the founding's.
        resilience: Option<u8>,
    },
}

/// The outcome of an event.
#[derive(Clone, Debug, PartialEq, Eq)]
#[allow(missing_docs)] // each field says what it is, and the page has each outcome
pub enum Outcome {
    Queued {
        request: u32,
    },
    Busy {
        queued: u8,
    },
    Pending {
        request: u32,
    },
    Sent {
        request: u32,
        number: u32,
    },
    Unknown,
    Took {
        number: u32,
        entry: Entry,
    },
    Empty,
    Asked,
    Joined {
        number: u32,
    },
    Leaving,
    Departed,
    Stranger,
    NotMember,
    Ticked,
    Idle,
    PutOff {
        request: u32,
        base: u32,
        top: u32,
    },
    Numbered {
        number: u32,
    },
    Again,
    Early {
        last: u32,
    },
    Held {
        base: u32,
        top: u32,
    },
    Kept,
    Known,
    Stored {
        number: u32,
    },
    Gap {
        want: u32,
    },
    NoBody {
        from: Name,
        request: u32,
    },
    Behind,
    Unfit,
    Advanced {
        accepted: u32,
    },
    Noted,
    Accepted {
        accepted: u32,
    },
    Served {
        count: u32,
    },
    Welcomed {
        number: u32,
    },
    LetGo {
        number: u32,
    },
    Elsewhere,
    /// The bytes are no packet, by this cause.
    Refused {
        cause: u8,
    },
    Voted,
    Newer {
        promise: Stamp,
    },
    Catching {
        want: u32,
    },
    Waiting {
        names: Names,
    },
    Fetching {
        from: Name,
        want: u32,
    },
    TooFew {
        got: u32,
        least: u32,
    },
    Crowded {
        base: u32,
        top: u32,
    },
    Overtaken {
        by: Stamp,
    },
    NotIn {
        best: Stamp,
    },
    Decided {
        number: u32,
        members: Names,
    },
    NotCoordinator,
    /// The asker's place has a member of another life.
    Occupied {
        name: Name,
    },
    /// The letter was for somebody else.
    NotAddressed,
    /// Before `Look`'s standing: nothing was asked for.
    Looked,
    /// The event was none, by this cause (docs/NETWORK.md), and nothing changed.
    Bad {
        cause: u8,
    },
    /// The node's numbers are used up.
    NoNumbersLeft,
}

/// A letter that a node sends.
#[derive(Clone, Debug, PartialEq, Eq)]
pub struct Packet {
    /// For whom it is.
    pub to: To,
    /// Its bytes.
    pub bytes: Vec<u8>,
}

/// A node's answer to an event.
#[derive(Clone, Debug, PartialEq, Eq)]
pub struct Did {
    /// The outcome.
    pub outcome: Outcome,
    /// How the node stands after it.
    pub standing: Standing,
    /// The letters that go out, in order.
    pub letters: Vec<Packet>,
}
