//! A process of the cluster: a member, its application, and its journal.

use crate::checker::App;
use crate::clock::Clock;
use crate::draw::Draw;
use crate::ends::List;
use crate::machine::{core_of, Batch, Machine};
use crate::plan::{Plan, Sizes};
use muoswyld_guarded::Guarded;
use muoswyld_member::{
    End, Generations, HandleError, Input, Name, Released, Role, Settings, StartError,
};
use std::collections::BTreeMap;

/// An application that takes slowly: so many deliveries in so many microseconds.
#[derive(Clone, Copy, Debug)]
pub(crate) struct Slow {
    pub(crate) every: u64,
    pub(crate) count: usize,
}

/// A process.
pub(crate) struct Process {
    pub(crate) member: Guarded,
    pub(crate) name: Name,
    pub(crate) clock: Clock,
    pub(crate) batch: Batch,
    pub(crate) app: App,
    /// Its journal of each list.
    pub(crate) journals: BTreeMap<u32, Vec<u8>>,
    /// The list that is about to begin here, and the voter's file of it.
    pub(crate) begins: Option<(u32, Option<Vec<u8>>)>,
    /// Which process this is: no two have the same number.
    pub(crate) number: u64,
    pub(crate) paused_until: u64,
    pub(crate) release_at: Option<u64>,
    pub(crate) wake_at: u64,
    pub(crate) slow: Option<Slow>,
    /// How many deliveries the application hasn't taken.
    pub(crate) backlog: usize,
    pub(crate) ended: Option<End>,
    pub(crate) leaves: bool,
    /// A message of what runs over it, for which there was no room.
    pub(crate) unsent: Option<Vec<u8>>,
}

/// Where a process begins: on which machine, when, and in which list.
pub(crate) struct Begins<'a> {
    pub(crate) machine: &'a Machine,
    pub(crate) now: u64,
    pub(crate) generation: u32,
    pub(crate) list: &'a List,
}

/// The settings of a name in a plan.
fn settings_of(
    plan: &Plan,
    name: Name,
    begins: &Begins,
    draw: &mut Draw,
    slow: Option<Slow>,
) -> Settings {
    let mut settings = Settings::new(name, begins.list.founding, draw.word());
    settings.generation = begins.generation;
    settings.group = begins.list.group;
    settings.succeed_at = plan.succeed_at;
    settings.seed = draw.word();
    settings.least = plan.least;
    settings.most_waiting = 200_000;
    if !plan.waits_long {
        settings.silent_after = 700_000;
        settings.stuck_after = 1_500_000;
        settings.reset_step = 100_000;
    }
    settings.journal = plan.journal;
    settings.plant = plan.plant;
    settings.deliveries = slow.map_or(1000, |slow| 2 * slow.count);
    settings
}

impl Process {
    /// A process of an application's life that begins on a machine.
    pub(crate) fn new(
        plan: &Plan,
        app: App,
        number: u64,
        begins: &Begins,
        draw: &mut Draw,
    ) -> Result<Process, StartError> {
        let name = app.name;
        let (machine, now) = (begins.machine, begins.now);
        let clock = machine.clock.unwrap_or(Clock::REAL);
        let slow = draw.per_mille(plan.slow).then(|| Slow {
            every: draw.between(1_000, 30_000),
            count: draw.between(1, 10) as usize,
        });
        let settings = settings_of(plan, name, begins, draw, slow);
        let time = clock.time(now);
        let core = core_of(plan, begins, name, settings.process, time)?;
        let lists = Generations::new(settings.clone(), time)?;
        let plant = plan.fenced.as_ref().and_then(|fenced| fenced.plant);
        Ok(Process {
            member: Guarded::new(lists, core, &settings).with_plant(plant),
            name,
            clock,
            batch: Batch::default(),
            app,
            journals: BTreeMap::new(),
            begins: None,
            number,
            paused_until: 0,
            release_at: None,
            wake_at: u64::MAX,
            slow,
            backlog: 0,
            ended: None,
            leaves: false,
            unsent: None,
        })
    }

    /// Whether it runs, and is the only one of its name.
    pub(crate) fn counts(&self) -> bool {
        self.ended.is_none() && !self.app.is_twin
    }

    /// Whether it has a list.
    pub(crate) fn has_list(&self) -> bool {
        let role = self.member.member().info().standing.role;
        matches!(role, Role::Member | Role::Sequencer | Role::Coordinator)
    }

    /// Has the application send a message; whether the member took it.
    pub(crate) fn send(&mut self, plan: &Plan, now: u64, draw: &mut Draw) -> Result<bool, String> {
        if self.app.sent.len() >= plan.most_sends {
            return Ok(false);
        }
        let ticket = self.app.sent.len() as u64;
        let message = message_of(self.name, ticket, plan.sizes, draw);
        let input = Input::Send {
            ticket,
            message: message.clone(),
        };
        match self.member.handle(self.clock.time(now), input) {
            Ok(()) => {
                self.app.sent.push(message);
                Ok(true)
            }
            Err(HandleError::Full { .. } | HandleError::Leaving { .. } | HandleError::Ended) => {
                Ok(false)
            }
            Err(error) => Err(format!("{}: a send was refused: {error}", self.name)),
        }
    }

    /// Has the application take what it was given, if it isn't slow.
    pub(crate) fn take_at_once(&mut self) -> usize {
        match self.slow {
            None => std::mem::take(&mut self.backlog),
            Some(_) => 0,
        }
    }

    /// What comes of the inputs so far, where it may go out at once.
    pub(crate) fn release(&mut self, now: u64) -> Vec<Released> {
        let (mut out, now) = (Vec::new(), self.clock.time(now));
        self.member.fix(now);
        if self.member.look(now) {
            self.member.batch(now, &mut out);
            self.member.emitted(now);
        }
        out
    }
}

fn length_of(sizes: Sizes, draw: &mut Draw) -> usize {
    const EDGES: [usize; 12] = [
        0, 1, 1018, 1019, 1020, 1021, 1022, 1023, 1024, 1025, 2038, 2039,
    ];
    let length = match sizes {
        Sizes::Small => draw.below(101),
        Sizes::Mixed if draw.per_mille(300) => {
            return draw.one_of(&EDGES).unwrap_or(0);
        }
        Sizes::Mixed => draw.below(4_000),
        Sizes::Long if draw.per_mille(200) => draw.between(60_000, 65_535),
        Sizes::Long => draw.below(20_000),
    };
    length as usize
}

/// A message that no other is, as far as its length allows.
fn message_of(name: Name, ticket: u64, sizes: Sizes, draw: &mut Draw) -> Vec<u8> {
    let length = length_of(sizes, draw);
    let mut head = [&[name.byte()][..], &ticket.to_be_bytes()[2..]].concat();
    if draw.per_mille(100) {
        // as a body of another kind begins
        head.extend(draw.one_of(b"PRSC"));
    }
    head.iter().rev().cycle().take(length).copied().collect()
}
