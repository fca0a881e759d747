//! What a replica is asked, and what it answers.

use muoswyld_member::{Name, Names, Position};
use thiserror::Error;

/// A session: whose group it is of, and the position at which it was opened there. It goes on over the ends of the group's lists.
#[derive(Clone, Copy, Debug, PartialEq, Eq, PartialOrd, Ord, Hash)]
pub struct SessionId {
    /// The id of the list in which the member began that opened it.
    pub list: u64,
    /// Where the session was opened.
    pub at: Position,
}

/// An entry in words: the number of a later list has its generation before it.
fn shown(at: &Position) -> String {
    match at.generation {
        0 => at.number.to_string(),
        generation => format!("{generation}.{}", at.number),
    }
}

/// What a caller asks for. Each goes through the group's list.
#[derive(Clone, Debug, PartialEq, Eq)]
pub enum Request {
    /// A command without a session: it is done at most once, and a caller that isn't answered doesn't know whether it is.
    Command(Vec<u8>),
    /// Opens a session.
    Open,
    /// A command of a session.
    SessionCommand {
        /// The session.
        session: SessionId,
        /// Its number in the session, from 1 without a gap.
        sequence: u64,
        /// Up to which number the caller has its answers: those above are kept.
        answered: u64,
        /// The command.
        command: Vec<u8>,
    },
    /// Closes a session.
    Close(SessionId),
    /// Nothing: once it is answered, the machine has applied all that anybody was answered before this was asked.
    Barrier,
}

/// What became of a request.
#[derive(Clone, Debug, PartialEq, Eq)]
pub enum Answer {
    /// The command was done once, now or before; this is the machine's answer.
    Done(Vec<u8>),
    /// The command was done once before, and its answer isn't kept any more.
    NotKept,
    /// The command is neither the session's next nor one of those before: it wasn't done.
    OutOfOrder {
        /// The number of the last command that was done.
        last: u64,
    },
    /// There is no such session, or none any more. This request did nothing; whether an earlier one with the same number was done isn't
    /// known.
    NoSession,
    /// The session is open.
    Opened(SessionId),
    /// The session is closed.
    Closed,
    /// The machine has applied the list up to here at least.
    Reached(Position),
}

/// Why a request isn't taken.
#[derive(Clone, Copy, Debug, PartialEq, Eq, Error)]
pub enum Refused {
    /// A command has at most 1 MiB.
    #[error("a command has at most 1,048,576 bytes")]
    TooLong,
    /// The replica has ended.
    #[error("the replica has ended")]
    Ended,
}

/// How a replica ends. It applies nothing any more, and its machine isn't to be used.
#[derive(Clone, Copy, Debug, PartialEq, Eq, Error)]
pub enum Ended {
    /// The replicas that had the state have all stopped or left.
    #[error("all replicas that had the state have stopped or left: it is lost, and nobody begins with an empty one by itself")]
    Lost,
    /// The replicas differ, and this one's state isn't the one that counts.
    #[error("at entry {} this replica has the digest {own:016x}, and the one that counts is {other:016x}", shown(.at))]
    Differs {
        /// The entry after which states were compared.
        at: Position,
        /// This replica's digest.
        own: u64,
        /// The digest of most replicas, or of the lowest name among as many.
        other: u64,
    },
    /// The snapshot that was sent isn't one, or its digest isn't the one that was said.
    #[error("the snapshot for entry {} is spoilt at chunk {chunk}", shown(.at))]
    Spoilt {
        /// The Join that it is for.
        at: Position,
        /// The chunk.
        chunk: u32,
    },
    /// What was delivered before the state was whole is more than may be held.
    #[error("{bytes} bytes wait for the state, and {most} may at most")]
    HeldTooMuch {
        /// How many bytes wait.
        bytes: usize,
        /// How many may.
        most: usize,
    },
    /// The member's first delivery is neither the founders' view of the group's first list nor its own join.
    #[error("the member's first delivery is neither the founders' view of the group's first list nor its own join")]
    NoBeginning,
}

/// What is told for logs.
#[derive(Clone, Copy, Debug, PartialEq, Eq)]
pub enum Notice {
    /// A joiner is sent the state from here on.
    Serves {
        /// The joiner.
        to: Name,
        /// The chunk with which it begins.
        chunk: u32,
    },
    /// A replica's state differs from the one that counts.
    OtherDiffers {
        /// The replica.
        name: Name,
        /// After which entry.
        at: Position,
    },
}

/// What a replica answers.
#[derive(Clone, Debug, PartialEq, Eq)]
pub enum Output {
    /// A message for the group. Messages go out in this order.
    Send(Vec<u8>),
    /// What became of a request.
    Answered {
        /// The caller's number for it.
        token: u64,
        /// What became of it.
        answer: Answer,
    },
    /// The replica has the state.
    Ready,
    /// Something for logs.
    Told(Notice),
    /// The replica has ended. It is the last output.
    Ended(Ended),
}

/// How a replica stands.
#[derive(Clone, Copy, Debug, PartialEq, Eq)]
pub struct Status {
    /// Whether it has the state.
    pub is_ready: bool,
    /// The position of the last delivery that it has applied.
    pub at: Option<Position>,
    /// The position of the last delivery that it was given.
    pub given: Option<Position>,
    /// The members, as far as it knows them.
    pub members: Option<Names>,
    /// The members that have the state, if this one has.
    pub holders: Names,
    /// How many bytes of deliveries wait to be applied.
    pub held: usize,
    /// How many sessions are open.
    pub sessions: usize,
    /// How many chunks of the state it was sent, while it waits for that.
    pub chunks: u32,
    /// The last entry after which states were compared, and this replica's digest there.
    pub checked: Option<(Position, u64)>,
    /// Messages that are none of a replica's.
    pub foreign: u64,
}

/// A defect that a test plants, to see that it is found. A replica without one is the only one to use.
#[doc(hidden)]
#[derive(Clone, Copy, Debug, PartialEq, Eq)]
#[allow(missing_docs)]
pub enum Plant {
    TakesChunkTwice,
    DropsHeld,
    LeavesSessionsOut,
    LeavesAnswersOut,
    LeavesPartsOut,
    ChecksAnotherNumber,
    SnapshotIsLate,
    NoSessions,
    BeginsEmpty,
    SkipsAChunk,
    EndsOldestSession,
    ExpiredIsNew,
    ReadsEarly,
    ChunksByNumber,
    ChecksByNumber,
    ForgetsSessions,
    ForgetsParts,
    TransfersAnew,
    SendsAnew,
}

/// What a replica is told at its start. All replicas of a group are told the same limits.
#[derive(Clone, Debug)]
pub struct Settings {
    /// Its member's name, in the list in which it begins.
    pub name: Name,
    /// The id of that list.
    pub list: u64,
    /// How many sessions are open at most: one more ends the one that was used least recently.
    pub most_sessions: u32,
    /// How many answers of a session are kept at most.
    pub most_answers: u32,
    /// How many bytes of answers of a session are kept at most.
    pub most_answer_bytes: u32,
    /// Every so many entries states are compared.
    pub check_every: u32,
    /// How many bytes of deliveries may wait for the state.
    pub most_held: usize,
    /// How many chunks are under way at most.
    pub chunks_ahead: u32,
    #[doc(hidden)]
    pub plant: Option<Plant>,
}

impl Settings {
    /// The settings of a member that begins in a list with this id, and the usual limits.
    pub fn new(name: Name, list: u64) -> Settings {
        Settings {
            name,
            list,
            most_sessions: 4_096,
            most_answers: 16,
            most_answer_bytes: 1 << 20,
            check_every: 4_096,
            most_held: 64 << 20,
            chunks_ahead: 32,
            plant: None,
        }
    }

    pub(crate) fn has(&self, plant: Plant) -> bool {
        self.plant == Some(plant)
    }
}
