//! How long a group takes from a crash to its next view, on networks where letters take long.

use muoswyld_member::{Founding, Name, Names};
use muoswyld_simulator::plan::{Act, Faults};
use muoswyld_simulator::{run, Plan};

/// How many networks of each delay are tried.
const SEEDS: u64 = 3;
const MEMBERS: u8 = 7;
/// When a member crashes, in microseconds.
const CRASH: u64 = 40_000_000;
/// Within which time everybody is told that it has stopped, in microseconds.
const TOLD: u64 = 500_000;

/// A group on a network where each letter takes the same time; one member crashes amid traffic.
fn plan(seed: u64, delay: u64, place: u8) -> Plan {
    let mut plan = Plan::of(seed);
    plan.founding = Founding {
        founders: (0..MEMBERS).filter_map(Name::first).collect::<Names>(),
        resilience: 1,
        window: 64,
        pb_up_to: 1024,
    };
    plan.faults = Faults {
        lost: 0,
        repeated: 0,
        late: 0,
        least_delay: delay,
        most_delay: delay,
    };
    plan.least = None;
    plan.ends = CRASH + 80_000_000;
    plan.send_every = 2_000_000;
    plan.slow = 0;
    plan.ghosts = false;
    plan.is_lawful = true;
    plan.waits_long = true;
    plan.journal = false;
    let back = None;
    let twin = false;
    plan.acts = vec![(CRASH, place, Act::Crash { back, twin })];
    plan
}

/// Microseconds from the crash to the first view without the member that crashed, at the last of the others.
fn time_to_view(plan: &Plan) -> Option<u64> {
    let report = run(plan).unwrap_or_else(|failure| panic!("{failure}"));
    let crashed = *report.crashes.first()?;
    let (_, place, _) = plan.acts.first()?;
    let survivors = (0..MEMBERS).filter(|other| other != place);
    let firsts = survivors.map(|survivor| {
        let is_next = |view: &&muoswyld_simulator::SeenView| {
            view.at > crashed && view.name.place() == survivor && view.members.at(*place).is_none()
        };
        report.views.iter().find(is_next).map(|view| view.at)
    });
    let last = firsts.collect::<Option<Vec<u64>>>()?.into_iter().max()?;
    Some(last - crashed)
}

/// Looks that each view comes within so many delays, and the time within which everybody is told.
fn views_come_within(delays: u64, delay: u64) {
    let mut most = 0;
    for seed in 1..=SEEDS {
        for place in [0, MEMBERS - 1] {
            let took = time_to_view(&plan(seed, delay, place));
            println!("delay {delay}, seed {seed}, place {place}: {took:?}");
            most = most.max(took.unwrap_or(u64::MAX));
        }
    }
    let bound = TOLD + delays * delay;
    assert!(most <= bound, "delay {delay}: {most} us, above {bound} us");
}

#[test]
fn a_delay_of_half_a_second() {
    views_come_within(8, 500_000);
}

#[test]
fn a_delay_of_a_second() {
    views_come_within(8, 1_000_000);
}

#[test]
fn a_delay_of_two_seconds() {
    views_come_within(8, 2_000_000);
}
