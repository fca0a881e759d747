//! What is to happen in a run: a plan of the simulator, changed so that it is about replicas.

use super::{Cluster, Setting};
use muoswyld_member::{Name, Names};
use muoswyld_simulator::draw::Draw;
use muoswyld_simulator::plan::{Act, Sizes};
use muoswyld_simulator::{run_with, Failure, Plan, Report};

/// What a run is about.
#[derive(Clone, Copy, Debug, PartialEq, Eq)]
pub enum Theme {
    /// Anything.
    Any,
    /// Joiners amid load, whose source stops.
    SourceStops,
    /// Two joiners at once.
    TwoJoin,
    /// The source leaves amid a transfer.
    SourceLeaves,
    /// All that have the state leave.
    AllLeave,
    /// Places that stop and come back.
    Returns,
}

const THEMES: [Theme; 6] = [
    Theme::Any,
    Theme::SourceStops,
    Theme::TwoJoin,
    Theme::SourceLeaves,
    Theme::AllLeave,
    Theme::Returns,
];

fn first_lives(count: u8) -> Names {
    (0..count).filter_map(Name::first).collect()
}

fn crash(back: Option<u64>) -> Act {
    Act::Crash { back, twin: false }
}

/// The plan of a seed, of a theme or else of the seed's own.
pub fn plan_of(seed: u64, theme: Option<Theme>) -> Plan {
    let theme = theme.unwrap_or(THEMES[(seed % 6) as usize]);
    let mut plan = Plan::of(seed);
    let mut draw = Draw::new(seed ^ 0x7265_706c_6963_6173);
    plan.is_lawful = true;
    plan.sizes = Sizes::Small;
    plan.journal = false;
    plan.send_every = plan.send_every.min(20_000);
    let joins = draw.between(200_000, plan.ends - 200_000);
    let soon = |draw: &mut Draw| joins + draw.below(60_000);
    let founders = plan.founding.founders.len() as u8;
    match theme {
        Theme::Any => plan.acts.push((joins, 0, Act::Join)),
        Theme::SourceStops => {
            plan.founding.founders = first_lives(founders.max(3));
            plan.founding.resilience = plan.founding.resilience.max(1);
            plan.acts.push((joins, 0, Act::Join));
            let back = draw.per_mille(500).then(|| draw.between(10_000, 500_000));
            plan.acts.push((soon(&mut draw), 0, crash(back)));
        }
        Theme::TwoJoin => {
            plan.acts.push((joins, 0, Act::Join));
            plan.acts.push((joins + draw.below(5_000), 0, Act::Join));
        }
        Theme::SourceLeaves => {
            plan.founding.founders = first_lives(founders.max(2));
            plan.acts.push((joins, 0, Act::Join));
            plan.acts.push((soon(&mut draw), 0, Act::Leave));
        }
        Theme::AllLeave => {
            let founders = founders.min(2);
            plan.founding.founders = first_lives(founders);
            plan.founding.resilience = 0;
            plan.acts.retain(|(_, _, act)| *act == Act::Join);
            plan.acts.push((joins, 0, Act::Join));
            plan.acts.push((joins + draw.below(20_000), 0, Act::Join));
            for place in 0..founders {
                plan.acts.push((soon(&mut draw), place, Act::LeaveAnyway));
            }
        }
        Theme::Returns => {
            for (_, _, act) in &mut plan.acts {
                if matches!(act, Act::Pause(_) | Act::Reset(_)) {
                    *act = crash(Some(draw.between(1_000, 300_000)));
                }
            }
        }
    }
    plan.acts.sort_by_key(|(at, place, _)| (*at, *place));
    plan
}

/// How the replicas of a seed are set.
pub fn setting_of(seed: u64) -> Setting {
    let mut draw = Draw::new(seed ^ 0x73e7_7157);
    Setting {
        ballast: draw.one_of(&[0, 3, 20, 60]).unwrap_or(0),
        check_every: draw.one_of(&[1, 3, 10, 50]).unwrap_or(10),
        most_sessions: draw.one_of(&[1, 2, 100, 100]).unwrap_or(100),
        chunks_ahead: draw.one_of(&[1, 2, 8, 32]).unwrap_or(8),
        clients: draw.between(1, 4) as usize,
        commands: 40,
        long: draw.one_of(&[0, 100, 500]).unwrap_or(0),
        stalled: draw.one_of(&[0, 30, 200]).unwrap_or(0),
        plant: None,
        strays: None,
        lost_stay: false,
        ends_amid: 0,
    }
}

/// Runs a plan with replicas; what was found, and the replicas at the end.
pub fn run_replicas(plan: &Plan, setting: Setting) -> (Result<Report, Failure>, Cluster) {
    let mut cluster = Cluster::new(setting);
    let ran = run_with(plan, &mut cluster);
    (ran, cluster)
}
