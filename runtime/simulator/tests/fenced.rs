//! Groups whose members find out by themselves who has stopped: networks that split and fail, pauses, crashes, clocks that drift.

use muoswyld_simulator::plan::{Act, FencedPlan};
use muoswyld_simulator::{run, Failure, Fenced, Plan, Report, SeenView};
use std::collections::BTreeSet;
use std::sync::atomic::{AtomicU64, Ordering};
use std::thread;

/// How many seeds are run of each policy, or as many as SEEDS says.
fn seeds() -> u64 {
    let said = std::env::var("SEEDS").ok();
    said.and_then(|seeds| seeds.parse().ok()).unwrap_or(150)
}

/// Runs the plans of some seeds, on a thread of its own each.
fn run_all(plan_of: impl Fn(u64) -> Plan + Sync, seeds: u64) -> Vec<Result<Report, Failure>> {
    let next = AtomicU64::new(1);
    let threads = thread::available_parallelism().map_or(1, |count| count.get().min(4));
    let run_some = || {
        let mut ran = Vec::new();
        loop {
            let seed = next.fetch_add(1, Ordering::Relaxed);
            if seed > seeds {
                return ran;
            }
            ran.push(run(&plan_of(seed)));
        }
    };
    thread::scope(|scope| {
        let begun: Vec<_> = (0..threads).map(|_| scope.spawn(run_some)).collect();
        begun
            .into_iter()
            .flat_map(|thread| thread.join().expect("a run panicked"))
            .collect()
    })
}

fn sum(reports: &[Report]) -> Fenced {
    let mut all = Fenced::default();
    for one in reports.iter().map(|report| report.fenced) {
        all.batches += one.batches;
        all.held += one.held;
        all.late_looks += one.late_looks;
        all.frozen += one.frozen;
        all.refusals += one.refusals;
        all.given_up += one.given_up;
        all.ended += one.ended;
        all.operated += one.operated;
        all.lost_disks += one.lost_disks;
    }
    all
}

/// Runs seeds of a policy, and looks whether enough happened in them.
fn many_seeds(what: &str, fenced: &FencedPlan) {
    let ran = run_all(|seed| Plan::fenced(seed, fenced.clone()), seeds());
    let (good, bad): (Vec<_>, Vec<_>) = ran.into_iter().partition(Result::is_ok);
    for failure in bad.iter().filter_map(|it| it.as_ref().err()) {
        println!("{what}: {failure}");
    }
    let reports: Vec<Report> = good.into_iter().flatten().collect();
    let void = reports.iter().filter(|it| it.fenced.is_void).count();
    let delivered: usize = reports.iter().map(|it| it.delivered).sum();
    let all = sum(&reports);
    println!(
        "{what}: {} seeds, {void} void, {delivered} delivered, {all:?}",
        seeds()
    );
    assert!(bad.is_empty(), "{what}: {} seeds failed", bad.len());
    let least = seeds() / 3;
    assert!(all.given_up > least && all.frozen > least && all.held > least);
    assert!((void as u64) < least && delivered as u64 > seeds() * 50);
}

#[test]
fn many_seeds_by_echo() {
    many_seeds("echo", &FencedPlan::echo());
}

#[test]
fn many_seeds_by_lease() {
    for drift in [0, 100] {
        many_seeds(&format!("lease, drift {drift}"), &FencedPlan::lease(drift));
    }
}

#[test]
fn many_seeds_by_lease_with_clocks_at_their_bounds() {
    let mut fenced = FencedPlan::lease(100);
    fenced.at_bounds = true;
    many_seeds("lease, clocks at their bounds", &fenced);
}

/// Runs the seed that SEED names, by the policy that POLICY names.
#[test]
fn one_fenced_seed() {
    let seed = std::env::var("SEED").ok().and_then(|it| it.parse().ok());
    let fenced = match std::env::var("POLICY").as_deref() {
        Ok("lease") => FencedPlan::lease(100),
        _ => FencedPlan::echo(),
    };
    let plan = Plan::fenced(seed.unwrap_or(1), fenced);
    match run(&plan) {
        Ok(report) => println!("{:?}\n{}", plan.acts, report.text),
        Err(failure) => panic!("{:?}\n{failure}", plan.acts),
    }
}

/// Plans of three or five founders to which only these things happen.
fn quiet(seed: u64, fenced: &FencedPlan, acts: &[(u64, u8, Act)]) -> Plan {
    let mut fenced = fenced.clone();
    fenced.stalls = 0;
    let mut plan = Plan::fenced(seed, fenced);
    plan.faults.lost = plan.faults.lost.min(10);
    plan.acts = acts.to_vec();
    plan.ends = 3_500_000;
    plan
}

fn policies() -> [FencedPlan; 2] {
    [FencedPlan::echo(), FencedPlan::lease(100)]
}

#[test]
fn a_network_that_fails_as_a_whole_freezes_all_and_loses_nothing() {
    for fenced in policies() {
        let plan_of = |seed| {
            let micros = 150_000 + seed % 20 * 100_000;
            quiet(seed, &fenced, &[(1_000_000, 0, Act::Outage(micros))])
        };
        for seed in 1..=40 {
            let plan = plan_of(seed);
            let report = run(&plan).unwrap_or_else(|failure| panic!("{failure}"));
            let founders = plan.founding.founders;
            let all = report.fenced;
            assert_eq!((all.refusals, all.given_up), (0, 0), "seed {seed}");
            assert!(report.views.iter().all(|view| view.members == founders));
            // whoever begins first is frozen, and so are all in the outage if that is longer than a lease
            if seed % 20 > 1 {
                assert!(all.frozen > founders.len() as u64, "seed {seed}: {all:?}");
            }
        }
    }
}

#[test]
fn the_side_of_a_majority_goes_on_and_takes_the_other_one_back() {
    for fenced in policies() {
        let split = |seed: u64| {
            let founders = Plan::fenced(seed, fenced.clone()).founding.founders.len() as u64;
            // one of three, or one or two of five
            let more = if founders == 5 { seed / 7 % 2 } else { 0 };
            let first = seed % founders;
            let places = 1 << first | more << ((first + 1) % founders);
            let micros = 1_500_000;
            let places = places as u16;
            (places, (1_000_000, 0, Act::Split { places, micros }))
        };
        let plan_of = |seed| quiet(seed, &fenced, &[split(seed).1]);
        for seed in 1..=40 {
            let report = run(&plan_of(seed)).unwrap_or_else(|failure| panic!("{failure}"));
            let (gone, _) = split(seed);
            let is_without = |view: &SeenView| {
                view.at < 2_500_000
                    && view
                        .members
                        .iter()
                        .all(|name| gone >> name.place() & 1 == 0)
            };
            let went_on = report.views.iter().filter(|view| is_without(view));
            let went_on: BTreeSet<u8> = went_on.map(|view| view.name.place()).collect();
            let founders = plan_of(seed).founding.founders;
            let left = founders.iter().filter(|name| gone >> name.place() & 1 == 0);
            let left: BTreeSet<u8> = left.map(|name| name.place()).collect();
            assert_eq!(went_on, left, "seed {seed}");
            // at the end all are members again, as the run looks itself
            let given_up = u64::from(gone.count_ones());
            assert_eq!(report.fenced.given_up, given_up, "seed {seed}");
        }
    }
}
