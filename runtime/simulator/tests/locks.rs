//! What can make a group stand still for good though nothing is lost any more. Members know it, and come to rest each time.

use muoswyld_member::{Founding, Name, Names};
use muoswyld_simulator::plan::{Act, Faults, Sizes};
use muoswyld_simulator::{run, Plan};

/// On how many networks each is tried.
const SEEDS: u64 = 40;

const CRASH: Act = Act::Crash {
    back: None,
    twin: false,
};

const BACK: Act = Act::Crash {
    back: Some(50_000),
    twin: false,
};

/// How long a cut lasts that is to outlast what is tried, in microseconds.
const FOREVER: u64 = 3_000_000;

/// How often members reset since nothing was answered, and how many askers ended unwelcomed.
#[derive(Clone, Copy, Debug, Default)]
struct Helped {
    resets: u64,
    unwelcomed: u64,
}

/// Runs a group on many networks, with plans that are changed; each time it must come to rest.
fn rests_with(
    founders: u8,
    resilience: u8,
    acts: &[(u64, u8, Act)],
    change: impl Fn(&mut Plan),
) -> Helped {
    let mut helped = Helped::default();
    for seed in 1..=SEEDS {
        let mut plan = Plan::of(seed);
        plan.founding = Founding {
            founders: (0..founders).filter_map(Name::first).collect::<Names>(),
            resilience,
            ..plan.founding
        };
        plan.least = Some(1);
        plan.is_lawful = true;
        plan.acts = acts
            .iter()
            .map(|(at, place, act)| (400_000 + at, *place, *act))
            .collect();
        change(&mut plan);
        match run(&plan) {
            Ok(report) => {
                helped.resets += report.stuck_resets;
                helped.unwelcomed += report.unwelcomed;
            }
            Err(failure) => panic!("{acts:?}: {failure}"),
        }
    }
    helped
}

/// Runs a group on many networks; each time it must come to rest.
fn rests(founders: u8, resilience: u8, acts: &[(u64, u8, Act)]) {
    rests_with(founders, resilience, acts, |_| ());
}

/// A network that behaves, but for what the acts cut, and long enough for what has to wait.
fn behaves(plan: &mut Plan) {
    plan.faults = Faults::NONE;
    plan.ends = 12_000_000;
    plan.send_every = 200_000;
    plan.slow = 0;
    plan.ghosts = false;
    plan.sizes = Sizes::Small;
}

fn cut(to: u8, micros: u64) -> Act {
    Act::Cut { to, micros }
}

#[test]
fn the_last_two_leave_at_once() {
    rests(2, 1, &[(0, 0, Act::LeaveAnyway), (0, 1, Act::LeaveAnyway)]);
    rests(
        2,
        0,
        &[(0, 0, Act::LeaveAnyway), (5_000, 1, Act::LeaveAnyway)],
    );
}

#[test]
fn all_of_three_leave_at_once() {
    let all = [0, 1, 2].map(|place| (0, place, Act::LeaveAnyway));
    rests(3, 1, &all);
}

#[test]
fn a_stranger_asks_while_a_member_has_stopped() {
    rests(2, 1, &[(0, 1, CRASH), (1_000, 0, Act::Join)]);
    rests(3, 1, &[(0, 0, CRASH), (1_000, 0, Act::Join)]);
}

#[test]
fn a_stranger_asks_while_the_sequencer_leaves() {
    rests(3, 1, &[(0, 0, Act::Leave), (500, 0, Act::Join)]);
}

#[test]
fn a_stranger_asks_while_a_reset_raises_the_resilience() {
    rests(5, 1, &[(0, 0, Act::Join), (200, 2, Act::Reset(1))]);
}

#[test]
fn the_next_sequencer_stops_while_the_sequencer_leaves() {
    rests(3, 1, &[(0, 0, Act::Leave), (500, 1, CRASH)]);
    rests(3, 1, &[(0, 1, CRASH), (500, 0, Act::Leave)]);
}

#[test]
fn a_member_leaves_while_another_one_stops_or_resets() {
    rests(3, 1, &[(0, 1, Act::Leave), (500, 2, CRASH)]);
    rests(3, 1, &[(0, 1, Act::Leave), (500, 2, Act::Reset(0))]);
    rests(3, 1, &[(0, 0, Act::Leave), (300, 2, Act::Leave)]);
}

#[test]
fn a_place_comes_back_while_it_is_given_up() {
    rests(
        3,
        1,
        &[(0, 2, BACK), (1_000, 0, Act::Join), (900_000, 1, BACK)],
    );
    rests(4, 1, &[(0, 0, BACK), (1_000, 1, Act::Pause(400_000))]);
}

/// The Bcast of a Leave gets lost: the leaver is no member any more, so nothing asks for its storage, and where the resilience wants that
/// nothing is accepted any more. A member that waits in vain resets.
#[test]
fn the_letter_that_numbers_a_leave_is_lost() {
    let acts = [(0, 0, cut(1, 300_000)), (100, 1, Act::Leave)];
    let helped = rests_with(2, 1, &acts, behaves);
    assert!(helped.resets > 0, "no member was stuck: {helped:?}");
    rests(2, 1, &acts);
    rests(3, 2, &acts);
}

#[test]
fn a_leaver_stops_before_its_leave_is_accepted() {
    let acts = [
        (0, 0, cut(1, 300_000)),
        (100, 1, Act::Leave),
        (50_000, 1, CRASH),
    ];
    rests_with(2, 1, &acts, behaves);
    rests(3, 1, &acts);
}

/// As above, and the sequencer leaves while a stranger asks.
#[test]
fn a_stranger_asks_while_a_leave_is_stuck() {
    let acts = [
        (0, 0, cut(1, 300_000)),
        (100, 1, Act::Leave),
        (1_000, 0, Act::Join),
        (2_000, 0, Act::LeaveAnyway),
    ];
    rests_with(2, 1, &acts, behaves);
    rests(2, 1, &acts);
}

/// A leaver that has stored less than the others: it is more than eight entries behind when its Leave is numbered.
#[test]
fn a_leaver_is_far_behind() {
    let acts = [(0, 0, cut(1, 200_000)), (180_000, 1, Act::Leave)];
    rests_with(6, 5, &acts, |plan| {
        behaves(plan);
        plan.founding.window = 64;
        plan.send_every = 3_000;
    });
}

/// An asker is numbered and stays unwelcomed, while it gives its vote to two resets: it ends, and its place comes back as its next life.
#[test]
fn an_asker_that_stays_unwelcomed_comes_back() {
    let acts = [
        (0, 0, cut(3, FOREVER)),
        (0, 0, Act::Join),
        (20_000, 1, Act::Reset(0)),
        (20_300, 1, cut(3, FOREVER)),
        (40_000, 2, Act::Reset(0)),
        (40_300, 2, cut(3, FOREVER)),
    ];
    let helped = rests_with(3, 1, &acts, behaves);
    assert!(helped.unwelcomed > 0, "no asker ended: {helped:?}");
}

#[test]
fn the_sequencer_or_the_member_stops() {
    rests(2, 1, &[(0, 0, CRASH)]);
    rests(2, 1, &[(0, 1, CRASH)]);
    rests(3, 2, &[(0, 0, CRASH), (300, 1, CRASH)]);
}

#[test]
fn a_coordinator_stops_amid_its_reset() {
    rests(3, 1, &[(0, 2, Act::Reset(0)), (150, 2, CRASH)]);
    let acts = [
        (0, 2, cut(0, 100_000)),
        (10, 2, Act::Reset(0)),
        (600, 2, CRASH),
    ];
    rests_with(3, 1, &acts, behaves);
}

#[test]
fn a_member_leaves_and_the_sequencer_stops() {
    rests(2, 1, &[(0, 1, Act::LeaveAnyway), (200, 0, CRASH)]);
    rests(2, 1, &[(0, 1, CRASH), (200, 0, Act::LeaveAnyway)]);
}

#[test]
fn the_last_two_leave_without_room() {
    let acts = [(0, 1, Act::LeaveAnyway), (0, 0, Act::LeaveAnyway)];
    rests_with(2, 1, &acts, |plan| plan.founding.window = 1);
}

#[test]
fn a_stranger_asks_while_the_last_member_leaves() {
    rests(1, 0, &[(0, 0, Act::LeaveAnyway), (100, 0, Act::Join)]);
}

#[test]
fn a_full_group_of_a_small_window_resets() {
    let acts = [(0, 0, Act::Leave), (300_000, 11, CRASH)];
    rests_with(16, 1, &acts, |plan| {
        behaves(plan);
        plan.founding.window = 2;
        plan.ends = 3_000_000;
        plan.most_sends = 5;
    });
}
