//! What a run came to, or what it found.

use muoswyld_member::{Name, Names};
use std::collections::BTreeMap;
use thiserror::Error;

/// What a run found.
#[derive(Clone, Debug, Error)]
#[error("seed {seed}, at {at} us: {what}\n    again: SEED={seed} cargo test -p muoswyld-simulator --test seeds one_seed -- --nocapture (of members that find out by themselves who has stopped: POLICY=echo or lease, --test fenced one_fenced_seed)")]
pub struct Failure {
    /// The run's seed.
    pub seed: u64,
    /// When it was found.
    pub at: u64,
    /// What is wrong.
    pub what: String,
}

/// What a run came to.
#[derive(Clone, Debug, PartialEq, Eq)]
pub struct Report {
    /// Some lines that tell of it; a run of the same seed has the same ones.
    pub text: String,
    /// The journals of all lives in the first list, if they were kept.
    pub journals: BTreeMap<Name, Vec<u8>>,
    /// How many deliveries the applications had.
    pub delivered: usize,
    /// When processes crashed, in microseconds.
    pub crashes: Vec<u64>,
    /// The views that the applications were given, in the order of time.
    pub views: Vec<SeenView>,
    /// How often a member reset the group since what it waited for wasn't answered.
    pub stuck_resets: u64,
    /// How many lives ended since they stayed unwelcomed.
    pub unwelcomed: u64,
    /// What came of who has stopped, where members find it out by themselves.
    pub fenced: Fenced,
}

/// What came of who has stopped, where members find it out by themselves.
#[derive(Clone, Copy, Debug, Default, PartialEq, Eq)]
pub struct Fenced {
    /// How many batches went out.
    pub batches: u64,
    /// How often a look said no.
    pub held: u64,
    /// How often a look said yes after somebody had given the name up.
    pub late_looks: u64,
    /// How often a member froze.
    pub frozen: u64,
    /// How many refusals voters made.
    pub refusals: u64,
    /// How many names were given up that ran.
    pub given_up: u64,
    /// How many lives ended since they were given up.
    pub ended: u64,
    /// How often an operator had to end a name that was blocked.
    pub operated: u64,
    /// How many machines lost their disks.
    pub lost_disks: u64,
    /// How often a member was asked to end its list, and took it.
    pub asked: u64,
    /// How many lists ended, and another one followed.
    pub lists: u64,
    /// How often a place closed a list that had ended.
    pub closed: u64,
    /// How often a place stopped to serve a list that had ended, since it could never act in it again.
    pub lists_lost: u64,
    /// Whether more stopped than the resilience.
    pub is_void: bool,
}

/// A view that an application was given.
#[derive(Clone, Copy, Debug, PartialEq, Eq)]
pub struct SeenView {
    /// When, in microseconds.
    pub at: u64,
    /// To which life.
    pub name: Name,
    /// Its members.
    pub members: Names,
}

/// How often something happened.
#[derive(Clone, Copy, Debug, Default)]
pub(crate) struct Counts {
    pub(crate) events: u64,
    pub(crate) datagrams: u64,
    pub(crate) lost: u64,
    pub(crate) crashes: u64,
    pub(crate) lives: u64,
    pub(crate) twins: u64,
    pub(crate) pauses: u64,
    pub(crate) resets: u64,
    pub(crate) leaves: u64,
    pub(crate) stuck_resets: u64,
    pub(crate) unwelcomed: u64,
    pub(crate) batches: u64,
    pub(crate) held: u64,
    pub(crate) late_looks: u64,
    pub(crate) frozen: u64,
    pub(crate) refusals: u64,
    pub(crate) given_up: u64,
    pub(crate) ended: u64,
    pub(crate) operated: u64,
    pub(crate) lost_disks: u64,
    pub(crate) asked: u64,
    pub(crate) lists: u64,
    pub(crate) closed: u64,
    pub(crate) lists_lost: u64,
}
