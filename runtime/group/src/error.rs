//! Why a call has no result.

use crate::addresses::BadAddress;
use crate::state::StateError;
use muoswyld::names::Name;
use muoswyld_member::{HandleError, NotReset, Position, StartError};
use thiserror::Error;

/// How a member ended. It does nothing any more.
#[derive(Clone, Debug, PartialEq, Eq, Error)]
#[non_exhaustive]
pub enum End {
    /// It left.
    #[error("it left the group")]
    Left,
    /// It was the last member, and left: the group is over.
    #[error("it was the last member, and the group is over")]
    Closed,
    /// The group goes on without it. Its place comes back as its next life.
    #[error("the group goes on without it; its place comes back as its next life")]
    LeftOut,
    /// It asked to join, and nobody welcomed it. Its place comes back as its next life.
    #[error("nobody welcomed it; its place comes back as its next life")]
    Unwelcomed,
    /// It joined after the end of its list, which another one follows. Its place can come back in that one.
    #[error("its list has ended, and another one follows it; its place can come back in that")]
    Superseded,
    /// The list has something that only a later version of this program understands.
    #[error("the list has something that only a later version of this program understands")]
    OtherVersion,
    /// Its list ended, and the next one couldn't be begun here. Its place comes back in that as its next life.
    #[error("the next list couldn't be begun here; its place comes back in that as its next life")]
    NotBegun,
    /// Its caller ended it, and it hasn't left.
    #[error("it was stopped, and hasn't left")]
    Stopped,
    /// Its numbers are used up.
    #[error("its numbers are used up")]
    NoNumbersLeft,
    /// It could not go on: the text says why.
    #[error("{0}")]
    Failed(String),
}

impl From<muoswyld_member::End> for End {
    fn from(end: muoswyld_member::End) -> End {
        match end {
            muoswyld_member::End::Left => End::Left,
            muoswyld_member::End::Closed => End::Closed,
            muoswyld_member::End::LeftOut => End::LeftOut,
            muoswyld_member::End::Unwelcomed => End::Unwelcomed,
            muoswyld_member::End::Superseded => End::Superseded,
            muoswyld_member::End::OtherVersion => End::OtherVersion,
            muoswyld_member::End::NoNumbersLeft => End::NoNumbersLeft,
            muoswyld_member::End::NodeFailed => End::Failed("its node gave no answer".into()),
            muoswyld_member::End::ContentsLost => {
                End::Failed("the contents of an entry are missing, or aren't what it names".into())
            }
        }
    }
}

/// Why a member didn't start, or isn't in the group.
#[derive(Debug, Error)]
#[non_exhaustive]
pub enum CreateError {
    /// An address can't be one of a place.
    #[error(transparent)]
    Address(#[from] BadAddress),
    /// A place of the group has no address.
    #[error("place {0} has no address")]
    NoAddress(u8),
    /// A group is created by its founders; others join.
    #[error("{0} is none of the founders: it joins")]
    NoFounder(Name),
    /// A founder's first life creates the group; it can't join.
    #[error(
        "{0} is one of the founders: it creates the group; if it ran before, its next life joins"
    )]
    Founder(Name),
    /// The settings name no member of a group.
    #[error(transparent)]
    Member(#[from] StartError),
    /// A voter is none of the founders.
    #[error("{0} is to vote and is none of the founders")]
    Voter(Name),
    /// The policy rests on voters, and there is no folder of state.
    #[error("this policy wants a folder of state")]
    NoState,
    /// The folder of state isn't made, or isn't taken.
    #[error(transparent)]
    State(#[from] StateError),
    /// The place has no life left in the latest list of its group.
    #[error("the place has no life left")]
    NoLife,
    /// The folder of state has another list of the same generation than the members.
    #[error("the folder of state has another list than the other members")]
    OtherList,
    /// The settings of who has stopped can't work.
    #[error(transparent)]
    Failures(#[from] muoswyld_failures::StartError),
    /// There is no key, and `insecure` isn't set.
    #[error("there is no key: without one anybody who reaches a member's address can end the group; `insecure` allows it")]
    NoKey,
    /// The system refused a socket, a thread or random bytes.
    #[error("the member can't start: {0}")]
    System(#[from] std::io::Error),
    /// The time passed. The member has ended.
    #[error("the member isn't in the group in time")]
    Timeout,
    /// The member ended before it was in the group.
    #[error("the member ended: {0}")]
    Ended(End),
}

/// Why a message wasn't sent, or isn't known to be.
#[derive(Clone, Debug, PartialEq, Eq, Error)]
#[non_exhaustive]
pub enum SendError {
    /// A message has at most 65,535 bytes. It wasn't sent.
    #[error("a message has at most 65,535 bytes")]
    TooLong,
    /// As many messages wait as may wait. It wasn't sent.
    #[error("too many messages wait to be sent")]
    Full,
    /// The time passed. If the message was taken, it may still be sent: its ticket says so later.
    #[error("the message isn't delivered in time; it may be later")]
    Timeout,
    /// The member ended before the message went out whole: nobody is given it.
    #[error("the message wasn't sent, since the member ended: {0}")]
    NotSent(End),
    /// The member ended while the message was under way: the others may be given it, or not.
    #[error("the member ended before the message was delivered, and others may be given it: {0}")]
    Ended(End),
    /// The member leaves, and sends no more. It wasn't sent.
    #[error("the member leaves the group")]
    Leaving,
}

/// Why there is no delivery.
#[derive(Clone, Debug, PartialEq, Eq, Error)]
#[non_exhaustive]
pub enum ReceiveError {
    /// Nothing is there now.
    #[error("nothing is there now")]
    Empty,
    /// The time passed.
    #[error("nothing came in time")]
    Timeout,
    /// The member ended, and all that it delivered was received.
    #[error("the member ended: {0}")]
    Ended(End),
}

/// Why a member hasn't left.
#[derive(Clone, Debug, PartialEq, Eq, Error)]
#[non_exhaustive]
pub enum LeaveError {
    /// The time passed. It goes on leaving.
    #[error("the member hasn't left in time; it goes on leaving")]
    Timeout,
    /// It ended in another way.
    #[error("the member ended before it left: {0}")]
    Ended(End),
}

/// Why a group isn't reset.
#[derive(Clone, Debug, PartialEq, Eq, Error)]
#[non_exhaustive]
pub enum ResetError {
    /// The least size isn't 1 to 16, or the resilience is above 15.
    #[error("a reset has a least size of 1 to 16 and a resilience of 0 to 15")]
    OutOfRange,
    /// It came to no view.
    #[error(transparent)]
    NotReset(NotReset),
    /// The time passed. It goes on.
    #[error("the group isn't reset in time; the reset goes on")]
    Timeout,
    /// The member ended.
    #[error("the member ended: {0}")]
    Ended(End),
}

/// Why a list didn't end, or isn't known to have.
#[derive(Clone, Debug, PartialEq, Eq, Error)]
#[non_exhaustive]
pub enum SucceedError {
    /// Somebody has stopped, is silent, suspected or refused, leaves or joins, the member doesn't know yet who was a member before it joined,
    /// or the list before isn't over for all. Try again later.
    #[error("the group has members that have stopped, are silent, refused, leave or join, or another list just ended: not now")]
    NotNow,
    /// No group can have such a founding.
    #[error("the next list can't be founded so: {0}")]
    Founding(StartError),
    /// A voter of the next list isn't the first life of a member's place.
    #[error("{0} isn't the first life of a member's place, and can't vote in the next list")]
    Voter(Name),
    /// The number of voters is even: half of them could refuse the other half.
    #[error("the number of voters is odd, and {0} isn't: name one place more or less")]
    EvenVoters(usize),
    /// No voter of this list is a member, so the next one's are to be named.
    #[error("no voter of this list is a member: name the voters of the next one")]
    NoVoters,
    /// Voters are named, and the policy has none.
    #[error("the policy has no voters")]
    Unvoted,
    /// Somebody joined, left, stopped or became silent meanwhile, or a view began: the list goes on. Try again.
    #[error("somebody joined, left or stopped meanwhile, or a view began: the list goes on")]
    NotSucceeded,
    /// Another member ended the list, and the next one has other numbers or voters.
    #[error("another member ended the list at {}, with other numbers or voters", .0.number)]
    Otherwise(Position),
    /// The time passed. The list may still end.
    #[error("the list hasn't ended in time; it may later")]
    Timeout,
    /// The member leaves, or is none of its group's members.
    #[error("the member is none of its group's members, or leaves")]
    NotMember,
    /// The member ended.
    #[error("the member ended: {0}")]
    Ended(End),
}

impl From<HandleError> for SucceedError {
    fn from(refusal: HandleError) -> SucceedError {
        match refusal {
            HandleError::NotNow => SucceedError::NotNow,
            HandleError::Founding(why) => SucceedError::Founding(why),
            HandleError::Voter(name) => SucceedError::Voter(name),
            HandleError::EvenVoters(count) => SucceedError::EvenVoters(count),
            HandleError::NoVoters => SucceedError::NoVoters,
            HandleError::Unvoted => SucceedError::Unvoted,
            _ => SucceedError::NotMember,
        }
    }
}

/// Why a word that a name has stopped wasn't taken.
#[derive(Clone, Debug, PartialEq, Eq, Error)]
#[non_exhaustive]
pub enum ToldError {
    /// The name is the member's own.
    #[error("the member itself hasn't stopped")]
    Itself,
    /// The member has ended.
    #[error("the member ended: {0}")]
    Ended(End),
}
