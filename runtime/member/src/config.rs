//! What a member is told at its start: its name, its group's founding, and its limits.

use muoswyld::names::{Name, Names};
use muoswyld::Refusal;
use thiserror::Error;

/// A time on the caller's clock, in microseconds. It never goes back.
#[derive(Clone, Copy, Debug, PartialEq, Eq, PartialOrd, Ord, Hash, Default)]
pub struct Time(pub u64);

impl Time {
    /// The time that never comes.
    pub const NEVER: Time = Time(u64::MAX);

    /// This time and so many microseconds.
    pub const fn after(self, micros: u64) -> Time {
        Time(self.0.saturating_add(micros))
    }

    /// A period that is doubled so many times, 32 at most.
    pub(crate) fn doubled(micros: u64, times: u32) -> u64 {
        micros.saturating_mul(1 << times.min(32))
    }

    /// The microseconds from an earlier time to this one; 0 if it isn't earlier.
    pub const fn since(self, earlier: Time) -> u64 {
        self.0.saturating_sub(earlier.0)
    }
}

/// A group's founding. All members say the same one.
#[derive(Clone, Copy, Debug, PartialEq, Eq)]
pub struct Founding {
    /// The founders, each the first life of its place.
    pub founders: Names,
    /// How many members may stop between two resets, 0 to 15.
    pub resilience: u8,
    /// How many entries wait for the slowest member, 1 to 1,008.
    pub window: u16,
    /// Up to how many bytes a body goes by the sequencer, 0 to 1,024.
    pub pb_up_to: u16,
}

/// The version of the forms of bodies: members of another one couldn't read this one's, and aren't told the group's id.
const FORM: u32 = 2;

impl Founding {
    /// The options of a node of this founding (docs/NETWORK.md, "A node that speaks lines").
    pub fn options(&self, name: Name) -> String {
        format!(
            "--name {name} --founders {} --resilience {} --window {} --pb-up-to {}",
            self.founders, self.resilience, self.window, self.pb_up_to
        )
    }

    /// The founder that draws the group's id: the lowest one.
    pub fn lowest(&self) -> Option<Name> {
        self.founders.iter().next()
    }

    /// Eight bytes that differ between foundings, generations and forms of bodies, but for an accident: the 64-bit FNV-1a of their numbers.
    pub fn digest(&self, generation: u32) -> u64 {
        let text = format!(
            "{FORM} {} {} {} {} {generation}",
            self.founders, self.resilience, self.window, self.pb_up_to
        );
        text.bytes().fold(0xcbf2_9ce4_8422_2325, |hash, byte| {
            (hash ^ u64::from(byte)).wrapping_mul(0x0100_0000_01b3)
        })
    }

    pub(crate) fn check(&self) -> Result<(), StartError> {
        match () {
            _ if self.founders.is_empty() => Err(StartError::NoFounders),
            _ if self.founders.iter().any(|name| name.life() > 1) => Err(StartError::LaterLife),
            _ if self.resilience > 15 => Err(StartError::Resilience),
            _ if !(1..=1008).contains(&self.window) => Err(StartError::Window),
            _ if self.pb_up_to > 1024 => Err(StartError::PbUpTo),
            _ => Ok(()),
        }
    }
}

/// When a list is to end by itself, so that another one follows it before its lives or its numbers run out.
#[derive(Clone, Copy, Debug, PartialEq, Eq)]
pub struct Limits {
    /// It ends once a member's place has at most so many lives left after the member's own, 0 to 15.
    pub lives: u8,
    /// It ends once at most so many numbers of entries are left, of 2,000,000,000.
    pub numbers: u32,
}

/// A defect that a test plants, to see that it is found. A member without one is the only one to use.
#[doc(hidden)]
#[derive(Clone, Copy, Debug, PartialEq, Eq)]
#[allow(missing_docs)]
pub enum Plant {
    UnpacksTwice,
    SendsAnew,
    LetterBeforeJournal,
    SettlesEarly,
    GivesUpSilent,
    TakesAnyGroup,
    TakesAnyProcess,
    SkipsDelivery,
    EndsListLate,
    SendsAllAnew,
    TakesUnconfirmed,
    TakesByAnotherEntry,
    FoundersAtTop,
    GivesWithoutBytes,
    DropsBytesEarly,
    NamesBeforeCut,
    TakesAnyOffset,
}

/// A list that another one follows: the id of its group, and the entry that ended it.
#[derive(Clone, Copy, Debug, PartialEq, Eq)]
pub struct Before {
    /// The id of its group.
    pub group: u64,
    /// The number of the entry that ended it.
    pub number: u32,
}

/// What a member is told at its start.
#[derive(Clone, Debug)]
pub struct Settings {
    /// Its name. A life of a place is never begun twice.
    pub name: Name,
    /// Its group's founding.
    pub founding: Founding,
    /// How many lists of the group came before this founding's.
    pub generation: u32,
    /// The group's id, if it is known: of a list that follows another one. Else the lowest founder draws it, and the others ask for it.
    pub group: Option<u64>,
    /// The list that this founding's follows, if that is known. Only the journal says it.
    pub before: Option<Before>,
    /// The places that vote who has stopped, each as the first life; None where the policy has no voters.
    pub voters: Option<Names>,
    /// When the list ends by itself; None: it doesn't.
    pub succeed_at: Option<Limits>,
    /// A random word of this process. Two processes of one name have different ones.
    pub process: u64,
    /// What chance the member needs, its group's id among it, comes from this alone.
    pub seed: u64,
    /// The fewest members that a reset goes on with; None: a majority of the last view.
    pub least: Option<u8>,
    /// How many bytes of messages may wait to be sent. Each message counts [`MESSAGE_HEAD`] bytes more.
    pub most_waiting: usize,
    /// How many bytes of its stream a member has out that aren't taken by all, [`LEAST_STREAMED`] to [`MOST_STREAMED`].
    pub most_streamed: usize,
    /// How many bytes a datagram's payload has at most.
    pub datagram: usize,
    /// How many deliveries the application takes before it says [`Consumed`](crate::Input::Consumed).
    pub deliveries: usize,
    /// Microseconds between two ticks of a member that waits for nothing.
    pub slow_tick: u64,
    /// Microseconds after which what isn't answered is sent again, as long as no round trip was measured.
    pub first_resend: u64,
    /// The most microseconds after which what isn't answered is sent again.
    pub most_resend: u64,
    /// After how many microseconds without a letter of a member it is told as silent.
    pub silent_after: u64,
    /// How many microseconds a member waits for the reset of each lower one, before it resets itself. It is a round trip at least, and
    /// doubles with each ballot that the member began by itself since the last view; but it is at most 32 times this.
    pub reset_step: u64,
    /// After how many microseconds without an answer, while all others are heard, a member resets. It is four round trips at least.
    pub stuck_after: u64,
    /// Whether it gives lines of a journal.
    pub journal: bool,
    #[doc(hidden)]
    pub plant: Option<Plant>,
}

/// The fewest bytes of its stream that a member may have out: some of the longest messages.
pub const LEAST_STREAMED: usize = 1 << 18;
/// The most bytes of its stream that a member may have out.
pub const MOST_STREAMED: usize = 1 << 22;

/// How many bytes each waiting message counts beside its own.
pub const MESSAGE_HEAD: usize = 32;

impl Settings {
    /// The settings of a name in a founding, with the process's random word, and the usual limits for everything else.
    pub fn new(name: Name, founding: Founding, process: u64) -> Settings {
        Settings {
            name,
            founding,
            generation: 0,
            group: None,
            before: None,
            voters: None,
            succeed_at: None,
            process,
            seed: process,
            least: None,
            most_waiting: 4 << 20,
            most_streamed: 1 << 20,
            datagram: 1400,
            deliveries: 4096,
            slow_tick: 50_000,
            first_resend: 10_000,
            most_resend: 200_000,
            silent_after: 5_000_000,
            reset_step: 200_000,
            stuck_after: 3_000_000,
            journal: false,
            plant: None,
        }
    }

    pub(crate) fn check(&self) -> Result<(), StartError> {
        self.founding.check()?;
        let times = [self.slow_tick, self.first_resend, self.most_resend];
        match () {
            _ if self.datagram < crate::frame::LEAST_DATAGRAM => Err(StartError::Datagram),
            _ if self.most_waiting < crate::body::MOST_MESSAGE + MESSAGE_HEAD => {
                Err(StartError::Waiting)
            }
            _ if !(LEAST_STREAMED..=MOST_STREAMED).contains(&self.most_streamed) => {
                Err(StartError::Streamed)
            }
            _ if self.deliveries == 0 => Err(StartError::Deliveries),
            _ if self.least.is_some_and(|least| !(1..=16).contains(&least)) => {
                Err(StartError::Least)
            }
            _ if times.contains(&0) => Err(StartError::Period),
            _ if self.succeed_at.is_some_and(|at| at.lives > 15) => Err(StartError::Limits),
            _ => Ok(()),
        }
    }
}

/// Why there is no member.
#[derive(Clone, Copy, Debug, PartialEq, Eq, Error)]
pub enum StartError {
    /// The founding has no founders.
    #[error("a founding has at least one founder")]
    NoFounders,
    /// A founder isn't the first life of its place.
    #[error("each founder is the first life of its place")]
    LaterLife,
    /// The resilience is above 15.
    #[error("a resilience is 0 to 15")]
    Resilience,
    /// The window is 0 or above 1,008.
    #[error("a window is 1 to 1,008")]
    Window,
    /// The length up to which a body goes by the sequencer is above 1,024.
    #[error("the longest body that the sequencer sends has 0 to 1,024 bytes")]
    PbUpTo,
    /// A datagram is too small for one packet with its heads.
    #[error("a datagram has at least {} bytes", crate::frame::LEAST_DATAGRAM)]
    Datagram,
    /// The longest message doesn't fit into what may wait.
    #[error("a message of 65,535 bytes, and 32 more, may wait at least")]
    Waiting,
    /// The bytes of a stream that may be out are too few or too many.
    #[error(
        "{LEAST_STREAMED} to {MOST_STREAMED} bytes of a stream are out before all have taken them"
    )]
    Streamed,
    /// The application takes no delivery.
    #[error("the application takes at least one delivery")]
    Deliveries,
    /// The least size of a reset isn't 1 to 16.
    #[error("a reset goes on with 1 to 16 members at least")]
    Least,
    /// A period of ticks is 0.
    #[error("a tick comes after a microsecond at least")]
    Period,
    /// A list is to end by itself with more than 15 lives left.
    #[error("a list ends by itself with 0 to 15 lives left")]
    Limits,
    /// The node wasn't opened.
    #[error("no node: {0}")]
    Node(#[from] Refusal),
}
