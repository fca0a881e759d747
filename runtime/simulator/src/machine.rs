//! A place's machine: its disk, its clock, and what is known of its process's batch.

use crate::clock::Clock;
use crate::draw::Draw;
use crate::plan::{FencedPlan, Plan};
use crate::process::Begins;
use muoswyld_failures::{self as failures, places_of, Failures, Policy};
use muoswyld_member::{Name, StartError, Time};
use std::collections::{BTreeMap, VecDeque};

/// What a place's disk has synced, and the clock of its machine.
#[derive(Clone, Debug, Default)]
pub(crate) struct Machine {
    /// The voter's file of each list.
    pub(crate) voters: BTreeMap<u32, Vec<u8>>,
    /// The last life that was begun in each list, as far as it is synced.
    pub(crate) lives: BTreeMap<u32, u8>,
    pub(crate) clock: Option<Clock>,
    /// The life that is about to begin, in which list, and is being written.
    pub(crate) begins: Option<(u32, u8)>,
    /// Whether its disk was lost.
    pub(crate) is_lost: bool,
}

/// What is known of a process's batch, by the order of happenings.
#[derive(Clone, Debug, Default)]
pub(crate) struct Batch {
    /// Of each list, when what goes out of it was complete, and how many outputs it had then.
    pub(crate) fixed: BTreeMap<u32, (u64, usize)>,
    /// When a look said that it may go out.
    pub(crate) looked: Option<u64>,
    pub(crate) is_look_planned: bool,
    /// The files that are to be written, of which list each.
    pub(crate) writes: VecDeque<(u32, u64, Vec<u8>)>,
}

impl Batch {
    /// How many outputs it has.
    pub(crate) fn size(&self) -> usize {
        self.fixed.values().map(|(_, size)| size).sum()
    }
}

/// The id of a plan's founding.
pub(crate) fn id_of(plan: &Plan) -> [u8; 16] {
    let mut id = [0; 16];
    id[..8].copy_from_slice(&plan.seed.to_be_bytes());
    id
}

/// What says who has stopped at a name's process.
pub(crate) fn core_of(
    plan: &Plan,
    begins: &Begins,
    name: Name,
    process: u64,
    now: Time,
) -> Result<Failures, StartError> {
    let (list, generation) = (begins.list, begins.generation);
    let file = begins.machine.voters.get(&generation).map(Vec::as_slice);
    let founders = list.founding.founders.iter();
    let founders = places_of(founders.map(|name| name.place()));
    let name = failures::Name::of_byte(name.byte());
    let policy = plan.fenced.as_ref().map_or(Policy::Told, |it| it.policy);
    let mut settings = failures::Settings::new(list.id, name, process, founders, policy);
    settings.awaits_founders = generation == 0;
    if let Some(fenced) = &plan.fenced {
        settings.period = 20_000;
        settings.delay = 10_000;
        settings.silence = settings.least_silence();
        settings.plant = fenced.core_plant;
        settings.voters = list.voters;
        settings.fence_within = Some(300_000);
    }
    settings.least = plan.least.unwrap_or(settings.least);
    // a plan has an odd number of founders, and times that are long enough
    Failures::new(settings, file, failures::Time(now.0)).map_err(|_| StartError::Period)
}

/// The clock of a machine that has begun.
pub(crate) fn clock_of(plan: &FencedPlan, now: u64, draw: &mut Draw) -> Clock {
    let most = plan.drift;
    let rate = match plan.at_bounds || draw.per_mille(500) {
        true if draw.per_mille(500) => 1000 + most,
        true => 1000 - most,
        false => draw.between(1000 - most, 1000 + most),
    };
    let base = draw.one_of(&[0, 3_000_000, 9_000_000_000_000]).unwrap_or(0);
    Clock {
        base: base + draw.below(1_000_000),
        began: now,
        rate,
    }
}
