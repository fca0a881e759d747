//! Defects that are planted in how members are guarded, and in what drives them, are found: tests of the test.

use muoswyld_guarded::Plant;
use muoswyld_simulator::plan::{Act, DriverPlant, FencedPlan};
use muoswyld_simulator::{run, Plan};

/// Within how many seeds a defect must be found.
const SEEDS: u64 = 1000;

/// The first seed that finds a defect, and what it finds, with plans that are changed so that they are about it.
fn found_with(
    what: &str,
    fenced: &FencedPlan,
    plant: impl Fn(&mut FencedPlan),
    change: impl Fn(&mut Plan),
) -> String {
    for seed in 1..=SEEDS {
        let mut plan = Plan::fenced(seed, fenced.clone());
        change(&mut plan);
        let right = plan.clone();
        plan.fenced.iter_mut().for_each(&plant);
        if let Err(failure) = run(&plan) {
            println!("{what} is found by seed {seed}: {:.300}", failure.what);
            run(&right).expect("without the defect it runs");
            return failure.what;
        }
    }
    panic!("{what} isn't found by {SEEDS} seeds");
}

/// Plans in which processes pause often amid their steps.
fn stalling(mut fenced: FencedPlan) -> FencedPlan {
    fenced.stalls = 300;
    fenced
}

/// A defect in how members are guarded is found under both policies.
fn found(plant: Plant) {
    for (policy, fenced) in [
        ("echo", FencedPlan::echo()),
        ("lease", FencedPlan::lease(100)),
    ] {
        let what = found_with(
            &format!("{plant:?} under {policy}"),
            &stalling(fenced),
            |fenced| fenced.plant = Some(plant),
            |plan| plan.journal = false,
        );
        assert!(what.contains("was given up at"), "{what}");
    }
}

#[test]
fn a_batch_that_goes_out_without_a_look() {
    found(Plant::EmitsWithoutLook);
}

#[test]
fn an_input_that_is_read_between_look_and_emission() {
    found(Plant::ReadsAfterLook);
}

#[test]
fn a_batch_of_which_a_part_goes_out() {
    found(Plant::LetsOutInPart);
}

/// Of three voters two don't hear a member, 3, and refuse it. The third one hears it, and doesn't hear them. One of the two crashes before
/// its refusal is on disk, comes back, hears the member and the third voter alone, and echoes.
fn about_refusals(plan: &mut Plan) {
    plan.founding.founders = "0,1,2,3,4".parse().expect("names");
    plan.founding.resilience = 2;
    let mut acts = Vec::new();
    for turn in 0..2 {
        let begin = 700_000 + turn * 2_000_000;
        let refused = begin + 200_000 + (plan.seed * 7 + turn) % 45 * 1_000;
        let mut cut = |at, from: u8, to: u8, until: u64| {
            acts.push((
                at,
                from,
                Act::Cut {
                    to,
                    micros: until - at,
                },
            ));
        };
        for other in [0, 4] {
            cut(begin, 3, other, begin + 900_000);
            cut(begin, other, 3, begin + 900_000);
            cut(begin, other, 2, begin + 900_000);
            cut(refused, 1, other, begin + 900_000);
            cut(refused, other, 1, begin + 900_000);
        }
        cut(begin, 3, 1, refused);
        cut(begin, 1, 3, refused);
        cut(begin, 1, 2, refused);
        let (back, twin) = (Some(1_000), false);
        acts.push((refused, 1, Act::Crash { back, twin }));
    }
    acts.sort_by_key(|(at, place, _)| (*at, *place));
    plan.acts = acts;
    plan.ends = 4_500_000;
}

#[test]
fn a_refusal_that_is_told_before_it_is_synced() {
    let mut fenced = FencedPlan::echo();
    (fenced.voters, fenced.stalls) = (Some(0b111), 0);
    let what = found_with(
        "TellsBeforeSync",
        &fenced,
        |fenced| fenced.driver_plant = Some(DriverPlant::TellsBeforeSync),
        about_refusals,
    );
    assert!(what.contains("was given up at"), "{what}");
}

#[test]
fn a_life_that_begins_before_that_is_synced() {
    let what = found_with(
        "BeginsBeforeSync",
        &FencedPlan::echo(),
        |fenced| fenced.driver_plant = Some(DriverPlant::BeginsBeforeSync),
        |plan| {
            let crash = |at, place| {
                let (back, twin) = (Some(10_000), false);
                (at, place, Act::Crash { back, twin })
            };
            let often = |k: u64| crash(800_000 + 7_000 * k, (plan.seed % 3) as u8);
            plan.acts = (0..40).map(often).collect();
        },
    );
    assert!(what.contains("begins a second time"), "{what}");
}

#[test]
fn clocks_that_drift_beyond_the_bound() {
    let mut fenced = stalling(FencedPlan::lease(0));
    fenced.at_bounds = true;
    let what = found_with(
        "a drift beyond the bound",
        &fenced,
        |fenced| fenced.drift = 450,
        |_| (),
    );
    assert!(what.contains("was given up at"), "{what}");
    // without clocks the same ones do nothing
    for seed in 1..=150 {
        let mut fenced = stalling(FencedPlan::echo());
        (fenced.at_bounds, fenced.drift) = (true, 450);
        let plan = Plan::fenced(seed, fenced);
        run(&plan).unwrap_or_else(|failure| panic!("{failure}"));
    }
}
