//! What a member is given, and what it answers.

use crate::config::{Founding, StartError};
use crate::notice::counted;
use muoswyld::answer::Standing;
use muoswyld::names::{Name, Names};
use thiserror::Error;

/// What happened.
#[derive(Debug)]
pub enum Input<'a> {
    /// A datagram came; this is its payload.
    Datagram(&'a [u8]),
    /// The application sends a message of at most 65,535 bytes. The ticket comes back with what became of it.
    Send {
        /// The caller's number for it.
        ticket: u64,
        /// The message.
        message: Vec<u8>,
    },
    /// The member is to leave, once all that it was given to send is sent.
    Leave,
    /// The member is to reset the group.
    Reset {
        /// The caller's number for it.
        ticket: u64,
        /// The fewest members to go on with; None: as the settings say.
        least: Option<u8>,
        /// The resilience from then on; None: as it is.
        resilience: Option<u8>,
    },
    /// This name has stopped for certain: it can't act any more.
    Stopped(Name),
    /// The group's list is to end, and another one to follow it, with these numbers.
    Succeed(Next),
    /// The application has taken so many deliveries: there is room for as many more.
    Consumed(usize),
    /// Nothing but time.
    Time,
}

/// Why an input wasn't taken. Nothing has changed.
#[derive(Debug, PartialEq, Eq, Error)]
pub enum HandleError {
    /// The message has more than 65,535 bytes.
    #[error("a message has at most 65,535 bytes")]
    TooLong {
        /// The message, given back.
        message: Vec<u8>,
    },
    /// So many bytes don't fit into what may wait now.
    #[error("there is room for {room} bytes now")]
    Full {
        /// The message, given back.
        message: Vec<u8>,
        /// How many bytes fit.
        room: usize,
    },
    /// The member leaves.
    #[error("the member leaves")]
    Leaving {
        /// The message, given back.
        message: Vec<u8>,
    },
    /// The member is none of its group's members, or not yet, and so can't reset it.
    #[error("the member is none of its group's members")]
    NotMember,
    /// The member leaves, and so can't reset the group.
    #[error("the member leaves, and can't reset")]
    LeavingNoReset,
    /// The least size isn't 1 to 16, or the resilience is above 15.
    #[error("a reset has a least size of 1 to 16 and a resilience of 0 to 15")]
    OutOfRange,
    /// The name is the member's own.
    #[error("the member itself hasn't stopped")]
    Itself,
    /// The list can't be followed by another one now: somebody has stopped, is silent, suspected or refused, leaves or joins, the member doesn't
    /// know yet who was a member before it joined, or the list before isn't over for all.
    #[error(
        "the group has members that have stopped, are silent, refused, leave or join: not now"
    )]
    NotNow,
    /// The next list's founding isn't one that a group can have.
    #[error("the next list can't be founded so: {0}")]
    Founding(StartError),
    /// A voter of the next list isn't the first life of a member's place.
    #[error("{0} isn't the first life of a member's place, and can't vote in the next list")]
    Voter(Name),
    /// The number of the next list's voters is even: half of them could refuse the other half.
    #[error("the number of voters is odd, and {0} isn't: name one place more or less")]
    EvenVoters(usize),
    /// No voter of this list is a member, so the next one's are to be named.
    #[error("no voter of this list is a member: name the voters of the next one")]
    NoVoters,
    /// Voters are named, and the policy has none.
    #[error("the policy has no voters")]
    Unvoted,
    /// The list has ended: the message is to be sent in the one that follows.
    #[error("the list has ended")]
    Succeeded {
        /// The message, given back.
        message: Vec<u8>,
    },
    /// The member has ended.
    #[error("the member has ended")]
    Ended,
}

/// Where something stands in the group's list: the number of the entry, and its index within that.
#[derive(Clone, Copy, Debug, PartialEq, Eq, PartialOrd, Ord, Hash)]
pub struct Position {
    /// How many lists of the group came before this one (docs/MEMBER.md, "Generations").
    pub generation: u32,
    /// The number of the entry, from 1. A message beside the list has the number of the entry that names it.
    pub number: u32,
    /// The index among the messages of one entry, from 0.
    pub index: u32,
}

/// What the application is given: the group's list, in order, each once.
#[derive(Clone, Debug, PartialEq, Eq)]
pub enum Delivery {
    /// A message.
    Message {
        /// Where it stands.
        at: Position,
        /// Who sent it.
        from: Name,
        /// The message.
        message: Vec<u8>,
    },
    /// A name became a member. A joiner's first delivery is its own.
    Joined {
        /// Where this stands.
        at: Position,
        /// The name.
        name: Name,
    },
    /// A member left.
    Left {
        /// Where this stands.
        at: Position,
        /// The name.
        name: Name,
    },
    /// A view begins.
    View {
        /// Where this stands.
        at: Position,
        /// Its members.
        members: Names,
        /// How many of them may stop.
        resilience: u8,
    },
    /// The list ended, and another one follows it, whose positions are of the next generation. Its founders' view comes next.
    Succeeded {
        /// The entry that ended the list.
        at: Position,
        /// The members there, by their names in the list that ended.
        members: Names,
        /// How the next list is founded. A member's name in it is the first life of its place.
        founding: Founding,
        /// The places that vote who has stopped in the next list; nobody if the policy has no voters.
        voters: Names,
    },
}

impl Delivery {
    /// Where it stands.
    pub fn at(&self) -> Position {
        match self {
            Delivery::Message { at, .. }
            | Delivery::Joined { at, .. }
            | Delivery::Left { at, .. }
            | Delivery::View { at, .. }
            | Delivery::Succeeded { at, .. } => *at,
        }
    }
}

/// What the next list of a group has otherwise. Its founders are the members at the end of this one.
#[derive(Clone, Copy, Debug, PartialEq, Eq)]
pub struct Next {
    /// How many members may stop between two resets, 0 to 15.
    pub resilience: u8,
    /// How many entries wait for the slowest member, 1 to 1,008.
    pub window: u16,
    /// Up to how many bytes a body goes by the sequencer, 0 to 1,024.
    pub pb_up_to: u16,
    /// The places that vote who has stopped, each as the first life of a member's place, odd in number. None: those voters of this list that
    /// are members, less the highest one if their number is even. It is None where the policy has no voters.
    pub voters: Option<Names>,
}

/// The list that follows a member's own one.
#[derive(Clone, Debug, PartialEq, Eq)]
pub struct Successor {
    /// The id of its group.
    pub group: u64,
    /// Its founding. The member's name in it is the first life of its place.
    pub founding: Founding,
    /// The places that vote who has stopped in it, each as the first life; nobody if the policy has no voters.
    pub voters: Names,
    /// The members of the old list at its end, who are its founders.
    pub members: Names,
    /// The last entry of the old list: nothing after it is delivered.
    pub at: Position,
    /// What the member was given to send and hasn't delivered, with the tickets, in order.
    pub unsent: Vec<(u64, Vec<u8>)>,
}

/// Why a message wasn't delivered by its own member before that ended.
#[derive(Clone, Copy, Debug, PartialEq, Eq, Error)]
pub enum Unsent {
    /// It never went out whole: nobody is given it.
    #[error("it wasn't sent: nobody is given it")]
    NotSent,
    /// It was under way: the others may be given it or not.
    #[error("it was under way when the member ended: the others may be given it or not")]
    Unknown,
}

/// Why a reset came to no view.
#[derive(Clone, Copy, Debug, PartialEq, Eq, Error)]
pub enum NotReset {
    /// Fewer members than the least size are left.
    #[error("{}, of {least} at least", counted(*.got as usize, "member is left", "members are left"))]
    TooFew {
        /// How many are left.
        got: u32,
        /// The least size.
        least: u32,
    },
    /// The window has no room for a view.
    #[error("the window has no room for a view")]
    Crowded,
    /// Another reset overtook it.
    #[error("another reset overtook it")]
    Overtaken,
    /// The members of the latest view don't have this one among them.
    #[error("the group goes on without this member")]
    NotIn,
    /// The member isn't one of its group's members, or leaves, or has ended.
    #[error("the member is none of its group, leaves or has ended")]
    NotMember,
}

/// How a member ends. It does nothing any more then.
#[derive(Clone, Copy, Debug, PartialEq, Eq)]
pub enum End {
    /// It has left.
    Left,
    /// It was the last member, and left: the group is over.
    Closed,
    /// The group goes on without it. Its place can come back as its next life.
    LeftOut,
    /// It asked to join, and stayed unwelcomed over two resets, or nobody confirmed its join. Its place can come back as its next life.
    Unwelcomed,
    /// It joined after the end of its list, which another one follows. Its place can come back in that.
    Superseded,
    /// The list has something that only a later version of this program understands.
    OtherVersion,
    /// The node's numbers are used up.
    NoNumbersLeft,
    /// The node gave no answer, as without memory.
    NodeFailed,
    /// The contents that an entry names aren't there, or aren't what it names.
    ContentsLost,
}

/// What is told for logs.
#[derive(Clone, Copy, Debug, PartialEq, Eq)]
pub enum Notice {
    /// The founding has fewer than twice the resilience and one more members: a join during a crash can lock the group.
    FewFounders,
    /// The member learnt its group's id, or drew it.
    Group(u64),
    /// Nothing was heard of a member for a while.
    Silent(Name),
    /// A member that was silent is heard again.
    Heard(Name),
    /// Half of the window is used and has been for a while, since this member takes nothing. It is told at the sequencer.
    Slow(Name),
    /// The sequencer has had no room for an own send for a while. It is told at any other member.
    Full(Name),
    /// A reset isn't begun, since fewer members run than it is to go on with.
    TooFew {
        /// How many run.
        running: usize,
        /// The least size.
        least: u8,
    },
    /// More members of a view stopped than its resilience.
    BeyondResilience(usize),
    /// The member begins a reset by itself, since somebody stopped.
    Resets,
    /// The member begins a reset by itself, since what it waits for isn't answered while all others are heard.
    ResetsStuck,
    /// A reset of this member came to no view.
    NotReset(NotReset),
    /// What comes of a place is of another group, and dropped.
    OtherGroup(Name),
    /// What comes of a name is of another process than before, and dropped.
    OtherProcess(Name),
    /// What comes of a place's address isn't sealed by the group's key, and dropped.
    OtherKey(u8),
    /// A leave waits: for sends, for a reset, or until another leaver has left.
    LeaveWaits,
    /// The list was to end, but somebody joined, left, stopped or became silent, or a view began meanwhile: it goes on.
    NotSucceeded,
    /// The list is to end by itself, but none of its voters is a member: somebody has to end it, and to name the next voters.
    NoNextVoters,
}

/// What a member answers.
#[derive(Clone, Debug, PartialEq, Eq)]
pub enum Output {
    /// A datagram is to go to each place of these names.
    Datagram {
        /// The names whose places get it.
        to: Names,
        /// Its payload.
        payload: Vec<u8>,
    },
    /// The application is given something.
    Deliver(Delivery),
    /// A message was delivered by this member, which it is told after, or won't be.
    Settled {
        /// The caller's number for it.
        ticket: u64,
        /// Where it stands.
        result: Result<Position, Unsent>,
    },
    /// A reset was decided, or came to nothing.
    ResetDone {
        /// The caller's number for it.
        ticket: u64,
        /// The number of the view's entry.
        result: Result<u32, NotReset>,
    },
    /// The list has ended, and another one follows it.
    Succeeded(Successor),
    /// Lines of the journal, to be written before the datagrams that follow go out.
    Journal(Vec<u8>),
    /// Something for logs.
    Told(Notice),
    /// The member has ended. It is the last output.
    Ended(End),
}

/// How often something happened.
#[derive(Clone, Copy, Debug, Default, PartialEq, Eq)]
pub struct Counts {
    /// Datagrams that came.
    pub datagrams_heard: u64,
    /// Datagrams that went out, each place for itself.
    pub datagrams_sent: u64,
    /// Datagrams that are none by their form, or come of this place itself.
    pub malformed: u64,
    /// Datagrams that its network dropped before they reached it: not sealed by the key, of no member's address, or too long.
    pub dropped: u64,
    /// Datagrams of another group or founding.
    pub other_group: u64,
    /// Datagrams of another process of a name.
    pub other_process: u64,
    /// Letters for somebody else.
    pub not_addressed: u64,
    /// Letters of askers that weren't heard, since somebody has stopped or leaves.
    pub askers_put_off: u64,
    /// Letters that the node heard.
    pub letters_heard: u64,
    /// Letters that the node sent.
    pub letters_sent: u64,
    /// Calls of the node.
    pub steps: u64,
    /// Ticks of the node.
    pub ticks: u64,
    /// Bodies that were sent.
    pub bodies_sent: u64,
    /// Messages that were given to be sent.
    pub messages_sent: u64,
    /// What the application was given.
    pub deliveries: u64,
    /// Control bodies, which nobody is given.
    pub controls: u64,
    /// Resets that the member began by itself.
    pub resets: u64,
    /// Bytes of its stream that went out, once for all members.
    pub bytes_streamed: u64,
    /// Bytes of streams that it asked for, since they hadn't come.
    pub bytes_asked: u64,
    /// Bytes of streams that others asked it for, and that it sent.
    pub bytes_answered: u64,
    /// Chunks of streams that it had, or didn't need.
    pub chunks_dropped: u64,
    /// Letters that were held until the contents came that they name.
    pub letters_held: u64,
}

impl Counts {
    /// These and others together: of lists that follow one another.
    pub fn plus(&self, other: &Counts) -> Counts {
        Counts {
            datagrams_heard: self.datagrams_heard + other.datagrams_heard,
            datagrams_sent: self.datagrams_sent + other.datagrams_sent,
            malformed: self.malformed + other.malformed,
            dropped: self.dropped + other.dropped,
            other_group: self.other_group + other.other_group,
            other_process: self.other_process + other.other_process,
            not_addressed: self.not_addressed + other.not_addressed,
            askers_put_off: self.askers_put_off + other.askers_put_off,
            letters_heard: self.letters_heard + other.letters_heard,
            letters_sent: self.letters_sent + other.letters_sent,
            steps: self.steps + other.steps,
            ticks: self.ticks + other.ticks,
            bodies_sent: self.bodies_sent + other.bodies_sent,
            messages_sent: self.messages_sent + other.messages_sent,
            deliveries: self.deliveries + other.deliveries,
            controls: self.controls + other.controls,
            resets: self.resets + other.resets,
            bytes_streamed: self.bytes_streamed + other.bytes_streamed,
            bytes_asked: self.bytes_asked + other.bytes_asked,
            bytes_answered: self.bytes_answered + other.bytes_answered,
            chunks_dropped: self.chunks_dropped + other.chunks_dropped,
            letters_held: self.letters_held + other.letters_held,
        }
    }
}

/// How a member stands.
#[derive(Clone, Copy, Debug, PartialEq, Eq)]
pub struct Info {
    /// Its name in the latest list of its group.
    pub name: Name,
    /// How many lists of the group came before that one.
    pub generation: u32,
    /// How that list was founded.
    pub founding: Founding,
    /// Its group's id, once it knows it.
    pub group: Option<u64>,
    /// What it is to its group, the members, and the fronts of its list.
    pub standing: Standing,
    /// How many messages wait to be sent, or are under way.
    pub unsettled: usize,
    /// How many bytes of messages wait to be sent, each with its head.
    pub waiting: usize,
    /// How many letters wait for the contents that they name.
    pub held: usize,
    /// Members that nothing was heard of for a while.
    pub silent: Names,
    /// At the sequencer, with half of the window used: the members that have taken least.
    pub slow: Names,
    /// The names that were told as stopped.
    pub stopped: Names,
    /// The measured round trip, in microseconds.
    pub round_trip: Option<u64>,
    /// Whether it is to leave.
    pub leaves: bool,
    /// How it ended.
    pub ended: Option<End>,
    /// How often something happened.
    pub counts: Counts,
}
