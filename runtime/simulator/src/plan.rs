//! What is to happen in a run, drawn from its seed.

use crate::draw::Draw;
use muoswyld_failures::{Lease, Policy};
use muoswyld_member::{Founding, Limits, Name, Names, Plant};

/// What the network does.
#[derive(Clone, Copy, Debug, PartialEq, Eq)]
pub struct Faults {
    /// Of a thousand datagrams so many are lost.
    pub lost: u64,
    /// Of a thousand so many come twice.
    pub repeated: u64,
    /// Of a thousand so many come late, by up to 300 milliseconds.
    pub late: u64,
    /// The least delay, in microseconds.
    pub least_delay: u64,
    /// The most delay of one that isn't late, in microseconds.
    pub most_delay: u64,
}

impl Faults {
    /// A network that behaves.
    pub const NONE: Faults = Faults {
        lost: 0,
        repeated: 0,
        late: 0,
        least_delay: 50,
        most_delay: 200,
    };
}

/// Something that happens to a place at a time.
#[derive(Clone, Copy, Debug, PartialEq, Eq)]
pub enum Act {
    /// Its process crashes, if the run stays lawful; after so many microseconds its next life begins.
    Crash {
        /// After how long the place comes back; None: never.
        back: Option<u64>,
        /// Whether somebody starts the same life again meanwhile, by mistake.
        twin: bool,
    },
    /// Its process does nothing for so many microseconds.
    Pause(u64),
    /// It leaves, if another member stays.
    Leave,
    /// It leaves, also as the last one.
    LeaveAnyway,
    /// A new place joins.
    Join,
    /// It resets the group, with so much more resilience.
    Reset(u8),
    /// It ends the list, and another one follows.
    Succeed(NextList),
    /// These places and all others don't hear each other for so many microseconds.
    Split {
        /// The places, as bits.
        places: u16,
        /// For how long.
        micros: u64,
    },
    /// The whole network fails for so many microseconds.
    Outage(u64),
    /// What it sends to another place is lost for so many microseconds.
    Cut {
        /// The other place.
        to: u8,
        /// For how long.
        micros: u64,
    },
}

/// What the next list is to be.
#[derive(Clone, Copy, Debug, PartialEq, Eq)]
pub struct NextList {
    /// Its window.
    pub window: u16,
    /// How much less than the most resilience that its members bear, none below 0.
    pub less: u8,
    /// The places that are to vote, as far as they are members and odd in number; 0: those that vote now.
    pub voters: u16,
    /// How often it is asked for again if it can't be now.
    pub tries: u8,
}

/// A defect that a test plants in what drives the members.
#[derive(Clone, Copy, Debug, PartialEq, Eq)]
pub enum DriverPlant {
    /// It is told that a refusal is on disk before it is.
    TellsBeforeSync,
    /// A life begins before its beginning is on disk.
    BeginsBeforeSync,
}

/// How members find out by themselves who has stopped.
#[derive(Clone, Debug)]
pub struct FencedPlan {
    /// The policy.
    pub policy: Policy,
    /// The places that vote; None: all founders'.
    pub voters: Option<u16>,
    /// By how many thousandths clocks run off real time.
    pub drift: u64,
    /// Whether all clocks are as slow or as fast as that allows.
    pub at_bounds: bool,
    /// Of a hundred thousand steps so many are followed by a pause: between an input and what comes of it, before a look, or after it.
    pub stalls: u64,
    /// Of a hundred crashes so many lose the machine's disk, as long as no other one did.
    pub lost_disks: u64,
    /// A defect in how members are guarded.
    pub plant: Option<muoswyld_guarded::Plant>,
    /// A defect in what says who has stopped.
    pub core_plant: Option<muoswyld_failures::Plant>,
    /// A defect in what drives the members.
    pub driver_plant: Option<DriverPlant>,
}

impl FencedPlan {
    /// Without clocks.
    pub fn echo() -> FencedPlan {
        FencedPlan {
            policy: Policy::Echo,
            voters: None,
            drift: 100,
            at_bounds: false,
            stalls: 100,
            lost_disks: 10,
            plant: None,
            core_plant: None,
            driver_plant: None,
        }
    }

    /// Where somebody outside tells all members who has stopped, within half a second.
    pub fn told() -> FencedPlan {
        FencedPlan {
            policy: Policy::Told,
            ..FencedPlan::echo()
        }
    }

    /// Where programs end whoever a majority of the voters doesn't hear. Now and then one fails.
    pub fn command() -> FencedPlan {
        FencedPlan {
            policy: Policy::Command,
            ..FencedPlan::echo()
        }
    }

    /// Whether places vote, each with a file on its disk.
    pub fn has_files(&self) -> bool {
        matches!(self.policy, Policy::Echo | Policy::Lease(_))
    }

    /// With leases of 200 milliseconds, for clocks that drift by at most so many thousandths.
    pub fn lease(drift: u64) -> FencedPlan {
        FencedPlan {
            policy: Policy::Lease(Lease {
                length: 200_000,
                drift,
                granule: 1,
            }),
            drift,
            ..FencedPlan::echo()
        }
    }
}

/// How messages are made.
#[derive(Clone, Copy, Debug, PartialEq, Eq)]
pub enum Sizes {
    /// Up to 100 bytes.
    Small,
    /// Of all lengths up to some parts, and the edges.
    Mixed,
    /// Long ones, up to 65,535 bytes.
    Long,
}

/// What is to happen in a run.
#[derive(Clone, Debug)]
pub struct Plan {
    /// The seed.
    pub seed: u64,
    /// The group's founding.
    pub founding: Founding,
    /// The fewest members that a reset goes on with; None: a majority.
    pub least: Option<u8>,
    /// What the network does until the end phase.
    pub faults: Faults,
    /// When the end phase begins, in microseconds.
    pub ends: u64,
    /// Microseconds between two sends of a process.
    pub send_every: u64,
    /// How many messages a process sends at most.
    pub most_sends: usize,
    /// How messages are made.
    pub sizes: Sizes,
    /// Of a thousand processes so many have an application that takes slowly.
    pub slow: u64,
    /// What happens when, and to which place.
    pub acts: Vec<(u64, u8, Act)>,
    /// Whether datagrams of an earlier run of the same founding come, too.
    pub ghosts: bool,
    /// Whether more may stop than the resilience.
    pub is_lawful: bool,
    /// Whether members wait as long as they do by default, in place of shorter.
    pub waits_long: bool,
    /// Whether journals are kept.
    pub journal: bool,
    /// A defect that a test plants in each member.
    pub plant: Option<Plant>,
    /// How members find out by themselves who has stopped; None: everybody is told.
    pub fenced: Option<FencedPlan>,
    /// Whether lists end and others follow them.
    pub has_ends: bool,
    /// When a list ends by itself.
    pub succeed_at: Option<Limits>,
}

impl Plan {
    /// The plan of a seed.
    pub fn of(seed: u64) -> Plan {
        let mut draw = Draw::new(seed);
        let founders = draw.between(1, 6) as u8;
        let resilience = draw.one_of(&[0, 1, 1, 1, 2, 2, 3]).unwrap_or(1);
        let founding = Founding {
            founders: (0..founders).filter_map(Name::first).collect::<Names>(),
            resilience: resilience.min(founders.saturating_sub(1)),
            window: draw.one_of(&[1, 4, 16, 16, 64, 256]).unwrap_or(16),
            pb_up_to: draw.one_of(&[0, 256, 1024, 1024]).unwrap_or(1024),
        };
        let ends = draw.between(500_000, 2_500_000);
        let mut plan = Plan {
            seed,
            founding,
            least: draw.per_mille(300).then_some(1),
            faults: faults_of(&mut draw),
            ends,
            send_every: draw.one_of(&[5_000, 20_000, 100_000]).unwrap_or(20_000),
            most_sends: 80,
            sizes: draw
                .one_of(&[Sizes::Small, Sizes::Small, Sizes::Mixed, Sizes::Long])
                .unwrap_or(Sizes::Small),
            slow: draw.one_of(&[0, 0, 200, 1000]).unwrap_or(0),
            acts: Vec::new(),
            ghosts: draw.per_mille(250),
            is_lawful: !draw.per_mille(50),
            waits_long: false,
            journal: draw.per_mille(200),
            plant: None,
            fenced: None,
            has_ends: false,
            succeed_at: None,
        };
        if plan.sizes == Sizes::Mixed {
            plan.most_sends = 40;
        }
        if plan.sizes == Sizes::Long {
            plan.send_every *= 5;
            plan.most_sends = 4;
            if draw.per_mille(400) {
                // queues and windows fill
                plan.send_every = 10_000;
                plan.most_sends = 40;
            }
        }
        plan.draw_acts(&mut draw);
        plan
    }

    /// The plan of a seed in which nobody is told who has stopped: members find it out by themselves, over networks that split and
    /// fail, pauses, and machines that crash and come back. At most as many founders may stop as the resilience says.
    pub fn fenced(seed: u64, fenced: FencedPlan) -> Plan {
        let mut plan = Plan::of(seed);
        let mut draw = Draw::new(seed ^ 0x0f3e_c0de);
        let founders = draw.one_of(&[3, 3, 3, 5]).unwrap_or(3);
        plan.founding.founders = (0..founders).filter_map(Name::first).collect::<Names>();
        plan.founding.resilience = founders / 2;
        plan.least = None;
        plan.is_lawful = true;
        plan.ends = draw.between(1_500_000, 4_000_000);
        plan.faults.most_delay = plan.faults.most_delay.min(plan.faults.least_delay + 5_000);
        plan.faults.late = plan.faults.late.min(5);
        plan.fenced = Some(fenced);
        plan.acts.clear();
        plan.draw_fenced_acts(&mut draw, founders);
        plan
    }

    /// The plan of a seed as [`fenced`](Plan::fenced) has it, in which lists end, too: at random times amid all that, and at times by
    /// themselves.
    pub fn generations(seed: u64, fenced: FencedPlan) -> Plan {
        let mut plan = Plan::fenced(seed, fenced);
        let mut draw = Draw::new(seed ^ 0x6e65_7874);
        plan.has_ends = true;
        let founders = plan.founding.founders.len() as u64;
        for _ in 0..draw.between(2, 12) {
            let at = draw.between(600_000, plan.ends);
            let place = draw.below(founders + 1) as u8;
            let next = NextList {
                window: draw.one_of(&[4, 16, 64, 256]).unwrap_or(16),
                less: draw.one_of(&[0, 0, 0, 1]).unwrap_or(0),
                voters: match draw.per_mille(400) {
                    true => draw.word() as u16,
                    false => 0,
                },
                tries: 6,
            };
            plan.acts.push((at, place, Act::Succeed(next)));
        }
        plan.acts.sort_by_key(|(at, place, _)| (*at, *place));
        plan.succeed_at = match draw.below(10) {
            0 => Some(Limits {
                lives: 14,
                numbers: 0,
            }),
            // a long message has more parts than such a list has entries
            1 if plan.sizes != Sizes::Long => Some(Limits {
                lives: 0,
                numbers: 2_000_000_000 - 100,
            }),
            _ => None,
        };
        plan
    }

    fn draw_fenced_acts(&mut self, draw: &mut Draw, founders: u8) {
        let crashes = draw.per_mille(600);
        for _ in 0..draw.below(9) {
            let at = draw.between(700_000, self.ends);
            let place = draw.below(u64::from(founders)) as u8;
            let micros = draw
                .one_of(&[30_000, 150_000, 250_000, 400_000, 600_000, 1_200_000])
                .unwrap_or(250_000);
            let act = match draw.below(10) {
                0..=1 if crashes => Act::Crash {
                    back: Some(draw.between(1_000, 800_000)),
                    twin: false,
                },
                0..=3 => Act::Pause(micros),
                4..=5 => Act::Split {
                    places: draw.word() as u16,
                    micros,
                },
                6 => Act::Outage(micros),
                7 => Act::Cut {
                    to: draw.below(u64::from(founders)) as u8,
                    micros,
                },
                8 => Act::Join,
                _ => Act::Reset(0),
            };
            self.acts.push((at, place, act));
        }
        self.acts.sort_by_key(|(at, place, _)| (*at, *place));
    }

    fn draw_acts(&mut self, draw: &mut Draw) {
        let founders = self.founding.founders.len() as u64;
        let count = draw.below(9);
        for _ in 0..count {
            let at = draw.between(100_000, self.ends);
            let place = draw.below(founders) as u8;
            let act = match draw.below(10) {
                0..=2 => Act::Crash {
                    back: draw.per_mille(800).then(|| draw.between(1_000, 1_000_000)),
                    twin: draw.per_mille(200),
                },
                3..=4 => Act::Pause(draw.between(10_000, 1_500_000)),
                5 => Act::Leave,
                6..=7 => Act::Join,
                _ => Act::Reset(u8::from(draw.per_mille(200))),
            };
            self.acts.push((at, place, act));
        }
        self.acts.sort_by_key(|(at, place, _)| (*at, *place));
    }
}

fn faults_of(draw: &mut Draw) -> Faults {
    let least_delay = draw.between(20, 500);
    Faults {
        lost: draw.one_of(&[0, 10, 50, 200]).unwrap_or(0),
        repeated: draw.one_of(&[0, 10, 100]).unwrap_or(0),
        late: draw.one_of(&[0, 5, 50]).unwrap_or(0),
        least_delay,
        most_delay: least_delay + draw.one_of(&[10, 500, 5_000, 20_000]).unwrap_or(10),
    }
}
