//! What a member knows of itself and of its group, as C has it.

use crate::guard::{guard_or, nothing};
use crate::types::{muoswyld_name, muoswyld_names};
use group::{Info, Role};
use std::ffi::c_char;

extern "C" {
    /// What tools/library.py puts into the node's library.
    fn muoswyld_version() -> *const c_char;
}

/// The node that is linked: "proved SOURCES TOOLCHAIN", or "unproved SOURCES TOOLCHAIN" if nothing is proved of it. SOURCES is the beginning of a sum of
/// its sources.
///
/// From any thread. The text is the library's for as long as it is loaded.
#[no_mangle]
pub extern "C" fn muoswyld_group_version() -> *const c_char {
    // SAFETY: it is given nothing, and answers a text that stays
    guard_or(nothing(), || unsafe { muoswyld_version() })
}

/// What a member is to its group.
#[repr(C)]
#[derive(Clone, Copy, Debug, PartialEq, Eq)]
pub enum muoswyld_role {
    /// It has no list, and hasn't asked for one.
    Stranger = 0,
    /// It has asked to join.
    Asking = 1,
    /// It has a list.
    Member = 2,
    /// It numbers its group's entries.
    Sequencer = 3,
    /// It has a ballot that isn't over: a reset is under way.
    Coordinator = 4,
    /// It has left.
    Departed = 5,
}

/// How often something happened since the member began.
#[repr(C)]
#[derive(Clone, Copy, Debug, Default, PartialEq, Eq)]
pub struct muoswyld_counts {
    /// Datagrams that came.
    pub datagrams_heard: u64,
    /// Datagrams that went out, each place for itself.
    pub datagrams_sent: u64,
    /// Datagrams that are none by their form, or come of this place itself.
    pub malformed: u64,
    /// Datagrams that aren't sealed by the key, come of no member's address, or are too long.
    pub dropped: u64,
    /// Datagrams of another group or founding.
    pub other_group: u64,
    /// Datagrams of another process of a name.
    pub other_process: u64,
    /// Letters that the node heard.
    pub letters_heard: u64,
    /// Letters that the node sent.
    pub letters_sent: u64,
    /// Messages that were given to be sent.
    pub messages_sent: u64,
    /// What the application was given.
    pub deliveries: u64,
    /// Resets that the member began by itself.
    pub resets: u64,
}

/// What a member knows of itself and of its group.
#[repr(C)]
#[derive(Clone, Copy, Debug, PartialEq, Eq)]
pub struct muoswyld_info {
    /// Its name in the latest list of its group.
    pub name: muoswyld_name,
    /// How many lists of the group came before that one.
    pub generation: u32,
    /// The window of that list.
    pub window: u16,
    /// Up to how many bytes a body goes by the sequencer in it.
    pub pb_up_to: u16,
    /// What it is to its group.
    pub role: muoswyld_role,
    /// Whether it knows its group's id.
    pub knows_group: bool,
    /// Whether it is to leave.
    pub leaves: bool,
    /// The resilience of its last view.
    pub resilience: u8,
    /// Its group's id, a random number; 0 until it knows it.
    pub group: u64,
    /// The members after its last entry.
    pub members: muoswyld_names,
    /// The sequencer: the name that began its last view.
    pub sequencer: muoswyld_name,
    /// The round of its last view.
    pub round: u32,
    /// The number of its last view.
    pub view_number: u32,
    /// The number up to which its list is trimmed.
    pub base: u32,
    /// The number up to which its application has taken entries.
    pub taken: u32,
    /// The number up to which it knows the list to be accepted.
    pub accepted: u32,
    /// The number of its last entry.
    pub top: u32,
    /// The names that a reset of its own waits for.
    pub waits_for: muoswyld_names,
    /// Members that nothing was heard of for a while.
    pub silent: muoswyld_names,
    /// At the sequencer, with half of the window used: the members that have taken least.
    pub slow: muoswyld_names,
    /// The names that were told as stopped.
    pub stopped: muoswyld_names,
    /// How many messages wait to be sent, or are under way.
    pub unsettled: u64,
    /// How many bytes of messages wait to be sent, each with its head.
    pub waiting: u64,
    /// The measured round trip, in microseconds; 0 until there is one.
    pub round_trip: u64,
    /// How often something happened.
    pub counts: muoswyld_counts,
}

impl From<Role> for muoswyld_role {
    fn from(role: Role) -> muoswyld_role {
        match role {
            Role::Stranger => muoswyld_role::Stranger,
            Role::Asking => muoswyld_role::Asking,
            Role::Member => muoswyld_role::Member,
            Role::Sequencer => muoswyld_role::Sequencer,
            Role::Coordinator => muoswyld_role::Coordinator,
            Role::Departed => muoswyld_role::Departed,
        }
    }
}

fn count(number: usize) -> u64 {
    u64::try_from(number).unwrap_or(u64::MAX)
}

impl From<Info> for muoswyld_info {
    fn from(info: Info) -> muoswyld_info {
        let (standing, counts) = (info.standing, info.counts);
        muoswyld_info {
            name: info.name.into(),
            generation: info.generation,
            window: info.founding.window,
            pb_up_to: info.founding.pb_up_to,
            role: standing.role.into(),
            knows_group: info.group.is_some(),
            leaves: info.leaves,
            resilience: standing.resilience,
            group: info.group.unwrap_or_default(),
            members: standing.members.into(),
            sequencer: standing.view.name.into(),
            round: standing.view.round,
            view_number: standing.view_number,
            base: standing.base,
            taken: standing.taken,
            accepted: standing.accepted,
            top: standing.top,
            waits_for: standing.waits_for.into(),
            silent: info.silent.into(),
            slow: info.slow.into(),
            stopped: info.stopped.into(),
            unsettled: count(info.unsettled),
            waiting: count(info.waiting),
            round_trip: info.round_trip.unwrap_or_default(),
            counts: muoswyld_counts {
                datagrams_heard: counts.datagrams_heard,
                datagrams_sent: counts.datagrams_sent,
                malformed: counts.malformed,
                dropped: counts.dropped,
                other_group: counts.other_group,
                other_process: counts.other_process,
                letters_heard: counts.letters_heard,
                letters_sent: counts.letters_sent,
                messages_sent: counts.messages_sent,
                deliveries: counts.deliveries,
                resets: counts.resets,
            },
        }
    }
}
