//! Defects that are planted in how the lists of a group are guarded are found: tests of the test.

use muoswyld_guarded::Plant;
use muoswyld_simulator::plan::{Act, FencedPlan, NextList};
use muoswyld_simulator::{run, Plan};

/// Within how many seeds a defect must be found.
const SEEDS: u64 = 1000;

/// The first seed that finds a defect as it is expected, with plans that are changed so that they are about it. Seeds before it may find the
/// defect in one other way.
fn found_with(
    what: &str,
    fenced: &FencedPlan,
    plant: impl Fn(&mut Plan),
    change: impl Fn(&mut Plan),
    (expected, other): (&str, Option<&str>),
) {
    for seed in 1..=SEEDS {
        let mut plan = Plan::generations(seed, fenced.clone());
        plan.journal = false;
        change(&mut plan);
        let right = plan.clone();
        plant(&mut plan);
        if let Err(failure) = run(&plan) {
            println!("{what} is found by seed {seed}: {:.300}", failure.what);
            if other.is_some_and(|other| failure.what.contains(other)) {
                continue;
            }
            assert!(failure.what.contains(expected), "{}", failure.what);
            run(&right).expect("without the defect it runs");
            return;
        }
    }
    panic!("{what} isn't found by {SEEDS} seeds");
}

fn found(plant: Plant, fenced: &FencedPlan, change: impl Fn(&mut Plan), expected: &str) {
    let what = format!("{plant:?}");
    let set = |plan: &mut Plan| {
        let fenced = plan.fenced.iter_mut();
        fenced.for_each(|fenced| fenced.plant = Some(plant));
    };
    found_with(&what, fenced, set, change, (expected, None));
}

#[test]
fn the_next_list_speaks_before_its_beginning_is_on_disk() {
    let expected = "which didn't begin on its disk";
    found(
        Plant::BeginsBeforeDisk,
        &FencedPlan::echo(),
        |_| (),
        expected,
    );
}

#[test]
fn the_next_list_has_the_voters_file_of_the_old_one() {
    let expected = "doesn't vote";
    found(
        Plant::UsesOldFile,
        &FencedPlan::lease(100),
        |_| (),
        expected,
    );
}

#[test]
fn a_list_is_ended_while_somebody_is_refused() {
    let expected = "while somebody is suspected or refused";
    found(
        Plant::EndsWhileRefused,
        &FencedPlan::echo(),
        |_| (),
        expected,
    );
}

/// Lists of five end at a time, and at about that time one member is cut off for a while that is longer than a silence.
fn about_the_end(plan: &mut Plan) {
    plan.founding.founders = "0,1,2,3,4".parse().expect("names");
    plan.founding.resilience = 2;
    plan.founding.window = 64;
    plan.succeed_at = None;
    plan.faults.lost = plan.faults.lost.min(10);
    let next = NextList {
        window: 64,
        less: 0,
        voters: 0,
        tries: 0,
    };
    let mut acts = Vec::new();
    for turn in 0..3u64 {
        let at = 900_000 + turn * 1_500_000;
        let gone = ((plan.seed + turn) % 5) as u8;
        let asked = if plan.seed.is_multiple_of(2) {
            gone
        } else {
            (gone + 1) % 5
        };
        let begin = at + (plan.seed * 13 + turn * 7) % 60 * 500;
        let micros = 250_000 + (plan.seed * 7 + turn) % 30 * 15_000;
        acts.push((at, asked, Act::Succeed(next)));
        let places = 1 << gone;
        acts.push((begin, 0, Act::Split { places, micros }));
    }
    acts.sort_by_key(|(at, place, _)| (*at, *place));
    plan.acts = acts;
    plan.ends = 5_500_000;
}

fn quiet(mut fenced: FencedPlan) -> FencedPlan {
    fenced.stalls = 0;
    fenced
}

const SEEN: &str = "was given up at";

#[test]
fn a_give_up_is_carried_over_to_the_next_list() {
    found(
        Plant::CarriesGiveUps,
        &quiet(FencedPlan::lease(100)),
        about_the_end,
        SEEN,
    );
}

#[test]
fn an_old_list_goes_out_by_the_look_of_the_next_one() {
    found(
        Plant::LooksByNextLane,
        &quiet(FencedPlan::lease(100)),
        about_the_end,
        SEEN,
    );
}

/// Of five members three vote in the next list, of which two don't hear one member for a while, and all others do. A founder never comes to
/// it, so that the old list is served for long.
fn about_two_votes(plan: &mut Plan) {
    about_the_end(plan);
    let founders = 5;
    let mut acts = Vec::new();
    for turn in 0..3u64 {
        let at = 900_000 + turn * 1_500_000;
        let gone = ((plan.seed + turn) % founders) as u8;
        let dead = (gone + 1) % 5;
        let others = [(gone + 2) % 5, (gone + 3) % 5];
        let third = (gone + 4) % 5;
        let voters = 1 << others[0] | 1 << others[1] | 1 << third;
        let next = NextList {
            window: 64,
            less: 0,
            voters,
            tries: 0,
        };
        acts.push((at, gone, Act::Succeed(next)));
        let begin = at + (plan.seed * 13 + turn * 7) % 80 * 500;
        acts.push((begin, dead, Act::Pause(600_000)));
        for other in others {
            for (from, to) in [(gone, other), (other, gone)] {
                let micros = 500_000;
                acts.push((begin + 500, from, Act::Cut { to, micros }));
            }
        }
    }
    acts.sort_by_key(|(at, place, _)| (*at, *place));
    plan.acts = acts;
}

/// Of five members 0, 1 and 2 vote in the next list. 4 doesn't come to it, since it hears 3 alone. 3 does, and then it doesn't hear 0 and 1: it is
/// echoed by a majority in the old list, and given up in the next one.
fn about_the_old_look(plan: &mut Plan) {
    about_the_end(plan);
    let at = 900_000;
    let next = NextList {
        window: 64,
        less: 0,
        voters: 0b111,
        tries: 0,
    };
    let mut acts = vec![(at, 3, Act::Succeed(next))];
    let begin = at + 3_000 + (plan.seed * 13) % 60 * 500;
    let mut cut = |at, one: u8, other: u8| {
        let micros = 600_000;
        acts.push((at, one, Act::Cut { to: other, micros }));
        acts.push((at, other, Act::Cut { to: one, micros }));
    };
    for other in 0..3 {
        cut(at - 500, 4, other);
    }
    cut(begin, 3, 0);
    cut(begin, 3, 1);
    acts.sort_by_key(|(at, place, _)| (*at, *place));
    plan.acts = acts;
    plan.send_every = 5_000;
    plan.ends = 2_000_000;
}

#[test]
fn the_next_list_goes_out_by_the_look_of_the_old_one() {
    found(
        Plant::LooksByOldLane,
        &quiet(FencedPlan::lease(100)),
        about_the_old_look,
        SEEN,
    );
}

#[test]
fn an_echo_of_the_old_list_counts_in_the_next_one() {
    found_with(
        "EchoOfAnyList",
        &quiet(FencedPlan::lease(100)),
        |plan| {
            let fenced = plan.fenced.iter_mut();
            let plant = muoswyld_failures::Plant::EchoOfAnyList;
            fenced.for_each(|fenced| fenced.core_plant = Some(plant));
        },
        about_two_votes,
        (SEEN, None),
    );
}

/// Of five members 0, 1 and 2 vote. Their list ends, and 4 is cut off at that moment. 0 comes back in the next list: so it doesn't vote in the first
/// one any more, but 1 and 2 do.
fn about_a_return(plan: &mut Plan) {
    about_the_end(plan);
    if let Some(fenced) = &mut plan.fenced {
        fenced.voters = Some(0b111);
    }
    let next = NextList {
        window: 64,
        less: 0,
        voters: 0,
        tries: 0,
    };
    let at = 900_000;
    let micros = 60_000 + plan.seed % 20 * 10_000;
    let places = 1 << 4;
    let back = Some(5_000);
    let crash = at + 20_000 + plan.seed % 7 * 5_000;
    plan.acts = vec![
        (at, 3, Act::Succeed(next)),
        (at + 100, 0, Act::Split { places, micros }),
        (crash, 0, Act::Crash { back, twin: false }),
    ];
    plan.ends = 2_500_000;
}

#[test]
fn a_member_that_is_behind_ends_though_its_voters_may_echo_it() {
    found(
        Plant::EndsAtOneElsewhere,
        &quiet(FencedPlan::echo()),
        about_a_return,
        "though enough places may vote",
    );
}

#[test]
fn a_member_heeds_those_that_are_behind() {
    found(
        Plant::HeedsEarlierList,
        &FencedPlan::echo(),
        |_| (),
        "though enough places may vote",
    );
}

/// Lists of five end, 4 is cut off at that moment, and then the whole network fails for so long that all are frozen for more than ten silences.
/// Nobody is refused.
fn about_an_outage(plan: &mut Plan) {
    about_the_end(plan);
    let next = NextList {
        window: 64,
        less: 0,
        voters: 0,
        tries: 0,
    };
    let at = 900_000;
    let behind = Act::Split {
        places: 1 << 4,
        micros: 100_000,
    };
    plan.acts = vec![
        (at, 3, Act::Succeed(next)),
        (at + 100, 0, behind),
        (at + 90_000, 0, Act::Outage(4_000_000)),
    ];
    plan.ends = 5_500_000;
}

#[test]
fn a_list_that_has_ended_is_left_while_its_voters_may_echo() {
    found(
        Plant::LeavesListWhileEchoed,
        &quiet(FencedPlan::lease(100)),
        about_an_outage,
        "though it isn't Lost",
    );
}

/// Places join about when lists end, while members reset. Then whoever joined crashes: so it is gone, but what it was given is compared.
fn about_joins(plan: &mut Plan) {
    plan.succeed_at = None;
    plan.faults.lost = plan.faults.lost.min(50);
    plan.acts.retain(|(_, _, act)| matches!(act, Act::Pause(_)));
    let next = NextList {
        window: 16,
        less: 0,
        voters: 0,
        tries: 3,
    };
    for turn in 0..6u64 {
        let at = 700_000 + turn * 150_000;
        let place = ((plan.seed + turn) % 3) as u8;
        let about = (plan.seed * 13 + turn * 7) % 60 * 500;
        plan.acts.push((at, place, Act::Succeed(next)));
        plan.acts.push((at + about, place, Act::Join));
        plan.acts
            .push((at + about / 2, (place + 1) % 3, Act::Reset(0)));
    }
    for place in plan.founding.founders.len() as u8..16 {
        let (back, twin) = (Some(5_000), false);
        let crash = Act::Crash { back, twin };
        plan.acts.push((1_900_000, place, crash));
    }
    plan.acts.sort_by_key(|(at, place, _)| (*at, *place));
    plan.ends = 2_000_000;
}

/// A joiner whose join stands after the list's end is given that. Nobody else is, as the next list has begun. If it doesn't crash, it waits there for
/// ever.
#[test]
fn a_join_is_confirmed_by_another_entry() {
    found_with(
        "TakesByAnotherEntry",
        &FencedPlan::told(),
        |plan| plan.plant = Some(muoswyld_member::Plant::TakesByAnotherEntry),
        about_joins,
        ("wasn't given Position", Some("it doesn't come to rest")),
    );
}
