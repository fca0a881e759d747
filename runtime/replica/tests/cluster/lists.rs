//! Runs in which lists end: members find out by themselves who has stopped, over a network that fails, and replicas go on.

use super::plans::setting_of;
use super::Setting;
use muoswyld_simulator::draw::Draw;
use muoswyld_simulator::plan::{Act, FencedPlan, NextList, Sizes};
use muoswyld_simulator::Plan;

/// What a run is about.
#[derive(Clone, Copy, Debug, PartialEq, Eq)]
pub enum Ends {
    /// Ends at any time, and all that may happen.
    Any,
    /// Ends while a joiner is sent the state.
    AmidTransfer,
    /// The same, and who sends it stops.
    SourceStops,
    /// Places that stop at about an end, and come back.
    Returns,
    /// Joiners at the beginning of each list: Joins of several lists have the same number.
    SameNumbers,
}

const ALL: [Ends; 5] = [
    Ends::Any,
    Ends::AmidTransfer,
    Ends::SourceStops,
    Ends::Returns,
    Ends::SameNumbers,
];

/// An end of the list, asked for again so often if it can't be.
fn end(tries: u8) -> Act {
    Act::Succeed(NextList {
        window: 64,
        less: 0,
        voters: 0,
        tries,
    })
}

fn crash(back: u64) -> Act {
    Act::Crash {
        back: Some(back),
        twin: false,
    }
}

/// The plan of a seed, about something or else about what the seed says.
pub fn plan_of(seed: u64, about: Option<Ends>) -> Plan {
    let about = about.unwrap_or(ALL[(seed % 5) as usize]);
    let mut draw = Draw::new(seed ^ 0x656e_6473);
    let mut fenced = match draw.below(3) {
        0 => FencedPlan::lease(100),
        _ => FencedPlan::echo(),
    };
    // a place whose disk is lost is tried elsewhere
    fenced.lost_disks = 0;
    let mut plan = Plan::generations(seed, fenced);
    plan.sizes = Sizes::Small;
    plan.journal = false;
    plan.ghosts = false;
    plan.succeed_at = None;
    plan.send_every = plan.send_every.min(20_000);
    if about != Ends::Any {
        plan.acts.clear();
        plan.ends = 2_000_000;
        plan.faults.lost = plan.faults.lost.min(10);
        draw_acts(&mut plan, about, &mut draw);
    }
    let joins = draw.between(500_000, plan.ends - 200_000);
    plan.acts.push((joins, 0, Act::Join));
    plan.acts.sort_by_key(|(at, place, _)| (*at, *place));
    plan
}

/// Ends at two times, and what is at about each.
fn draw_acts(plan: &mut Plan, about: Ends, draw: &mut Draw) {
    for turn in 0..2 {
        let at = 500_000 + turn * 700_000 + draw.below(100_000);
        let place = draw.below(3) as u8;
        match about {
            Ends::Any | Ends::AmidTransfer => plan.acts.push((at, 0, Act::Join)),
            Ends::SourceStops => {
                plan.acts.push((at, 0, Act::Join));
                // its place comes back in another list
                let stops = at + draw.between(100_000, 400_000);
                let back = draw.between(200_000, 900_000);
                plan.acts.push((stops, 0, crash(back)));
            }
            Ends::Returns => {
                plan.acts.push((at, place, end(20)));
                let stops = at - 200_000 + draw.below(400_000);
                let back = draw.between(1_000, 400_000);
                plan.acts.push((stops, place, crash(back)));
            }
            Ends::SameNumbers => {
                plan.send_every = 100_000;
                plan.acts.push((at, 0, Act::Join));
                plan.acts.push((at + 350_000, place, end(20)));
            }
        }
    }
}

/// How the replicas of a seed are set: often a transfer takes long.
pub fn setting_over_lists(seed: u64) -> Setting {
    let mut setting = setting_of(seed);
    let mut draw = Draw::new(seed ^ 0x6c6f_6e67);
    setting.lost_stay = true;
    // groups are larger here: what all members send at each entry fills the window of a slow application, and the sequencer, whose own messages
    // wait then, doesn't come to its end in time
    setting.stalled = setting.stalled.min(20);
    setting.check_every = setting.check_every.max(10);
    setting.long = setting.long.min(100);
    setting.ends_amid = draw.below(4) as u32;
    if draw.per_mille(600) {
        setting.ballast = draw.between(100, 250) as usize;
        setting.chunks_ahead = setting.chunks_ahead.min(2);
    }
    setting
}
