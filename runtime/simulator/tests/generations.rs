//! Groups whose members find out by themselves who has stopped, and whose lists end: amid losses, pauses, splits, crashes and returns.
//!
//! What isn't asked of a run, and why:
//!
//! - A run ends where it gets void: where more have stopped in a list than its resilience. From there on two parts may go on with two lists, each
//!   by itself. What was seen before is checked.
//! - A list that all that run have come past doesn't make a run void, since nothing of it is wanted any more.
//! - A group needn't come to rest where too few members are left for a reset, or too few places have their voters' files of the latest list: such a
//!   group stands still for good. So a disk isn't lost where that would take away the majority of a list's voters.
//! - Members mustn't stay frozen where nobody crashed. But they may if a place that votes in the latest list has no file of it, as a founder that was
//!   given up before it came there. Then, and where somebody crashed, an operator ends whoever is frozen after 15 seconds.
//! - Where a list is to be ended, an operator ends whoever runs and was refused: refusals aren't taken back.
//! - Who asks to join may end as superseded though nobody's end of the list is known yet, if somebody crashed: what a process lets out amid its crash
//!   may say that the list has ended before the end itself is out.
//! - A member that was asked to end its list may refuse that because a voter that was named is a member no more.
//!
//! What is asked: whoever closes a list says why, and that is so. All founders of the next list have come to it or have stopped; or the place was
//! given up; or no majority of the voters may echo it again. A life that ends as unserved can't be echoed again either.

use muoswyld_failures::Policy;
use muoswyld_member::Limits;
use muoswyld_simulator::plan::{Act, Faults, FencedPlan, NextList, Sizes};
use muoswyld_simulator::{run, Failure, Fenced, Plan, Report};
use std::sync::atomic::{AtomicU64, Ordering};
use std::thread;

/// How many seeds are run of each policy, or as many as SEEDS says; from FROM on.
fn seeds() -> (u64, u64) {
    let said = |name| std::env::var(name).ok().and_then(|it| it.parse().ok());
    let from = said("FROM").unwrap_or(1);
    (from, from + said("SEEDS").unwrap_or(150))
}

/// Runs the plans of some seeds, on a thread of its own each.
fn run_all(plan_of: impl Fn(u64) -> Plan + Sync) -> Vec<Result<Report, Failure>> {
    let (from, to) = seeds();
    let next = AtomicU64::new(from);
    let threads = thread::available_parallelism().map_or(1, |count| count.get().min(4));
    let run_some = || {
        let mut ran = Vec::new();
        loop {
            let seed = next.fetch_add(1, Ordering::Relaxed);
            if seed >= to {
                return ran;
            }
            ran.push(run(&plan_of(seed)));
        }
    };
    thread::scope(|scope| {
        let begun: Vec<_> = (0..threads).map(|_| scope.spawn(run_some)).collect();
        begun
            .into_iter()
            .flat_map(|thread| thread.join().expect("a run panicked"))
            .collect()
    })
}

fn sum(reports: &[Report]) -> Fenced {
    let mut all = Fenced::default();
    for one in reports.iter().map(|report| report.fenced) {
        all.batches += one.batches;
        all.held += one.held;
        all.late_looks += one.late_looks;
        all.frozen += one.frozen;
        all.refusals += one.refusals;
        all.given_up += one.given_up;
        all.ended += one.ended;
        all.operated += one.operated;
        all.lost_disks += one.lost_disks;
        all.asked += one.asked;
        all.lists += one.lists;
        all.closed += one.closed;
        all.lists_lost += one.lists_lost;
    }
    all
}

/// The most of a hundred runs that may be void. Where programs end members, 35 of a hundred are (1,043 of the seeds 1 to 3,000), since a program
/// ends a member that runs, too. Of 150 such runs 52 are void, with a standard deviation of 6.
fn most_void(policy: Policy) -> u64 {
    match policy {
        Policy::Command => 50,
        _ => 33,
    }
}

/// Runs seeds of a policy, and looks whether enough happened in them.
fn many_seeds(what: &str, fenced: &FencedPlan) {
    let ran = run_all(|seed| Plan::generations(seed, fenced.clone()));
    let count = ran.len() as u64;
    let (good, bad): (Vec<_>, Vec<_>) = ran.into_iter().partition(Result::is_ok);
    for failure in bad.iter().filter_map(|it| it.as_ref().err()) {
        println!("{what}: {failure}");
    }
    let reports: Vec<Report> = good.into_iter().flatten().collect();
    let void = reports.iter().filter(|it| it.fenced.is_void).count();
    let delivered: usize = reports.iter().map(|it| it.delivered).sum();
    let all = sum(&reports);
    println!("{what}: {count} seeds, {void} void, {delivered} delivered, {all:?}");
    assert!(bad.is_empty(), "{what}: {} seeds failed", bad.len());
    assert!(all.lists > count && all.closed > all.lists);
    // where they are told nobody is given up that runs
    assert!(all.given_up > count / 4 || fenced.policy == Policy::Told);
    assert!(void as u64 * 100 < count * most_void(fenced.policy));
    assert!(delivered as u64 > count * 50);
}

#[test]
fn many_seeds_by_echo() {
    many_seeds("echo", &FencedPlan::echo());
}

#[test]
fn many_seeds_by_word() {
    many_seeds("told", &FencedPlan::told());
}

#[test]
fn many_seeds_by_command() {
    many_seeds("command", &FencedPlan::command());
}

#[test]
fn many_seeds_by_lease() {
    many_seeds("lease", &FencedPlan::lease(100));
}

#[test]
fn many_seeds_by_lease_with_clocks_at_their_bounds() {
    let mut fenced = FencedPlan::lease(100);
    fenced.at_bounds = true;
    many_seeds("lease, clocks at their bounds", &fenced);
}

/// How many lists end in a quiet run in which nobody asks for it, before the one that ends at its close; and how often a process crashed.
fn ends_by_itself(seed: u64, succeed_at: Option<Limits>, acts: &[(u64, u8, Act)]) -> (u64, usize) {
    let mut fenced = FencedPlan::echo();
    (fenced.stalls, fenced.lost_disks) = (0, 0);
    let mut plan = Plan::generations(seed, fenced);
    (plan.sizes, plan.send_every, plan.most_sends) = (Sizes::Small, 20_000, 80);
    plan.faults.lost = plan.faults.lost.min(10);
    // what waits for an application that is slow goes in few entries
    plan.slow = 0;
    plan.acts = acts.to_vec();
    plan.ends = 7_000_000;
    plan.succeed_at = succeed_at;
    let report = run(&plan).unwrap_or_else(|failure| panic!("{failure}"));
    assert!(!report.fenced.is_void);
    (report.fenced.lists - 1, report.crashes.len())
}

#[test]
fn a_list_ends_by_itself_before_its_lives_or_numbers_run_out() {
    let back = Some(300_000);
    let crash = (1_000_000, 1, Act::Crash { back, twin: false });
    let lives = |lives| Some(Limits { lives, numbers: 0 });
    let numbers = Some(Limits {
        lives: 0,
        numbers: 2_000_000_000 - 10,
    });
    let mut crashed = 0;
    for seed in 1..=6 {
        assert_eq!(ends_by_itself(seed, None, &[crash]).0, 0);
        // nobody has a second life, and then one has
        assert_eq!(ends_by_itself(seed, lives(14), &[]), (0, 0));
        assert_eq!(ends_by_itself(seed, lives(13), &[crash]).0, 0);
        let (lists, crashes) = ends_by_itself(seed, lives(14), &[crash]);
        assert_eq!(lists > 0, crashes > 0);
        crashed += crashes;
        assert!(ends_by_itself(seed, numbers, &[]).0 > 0, "{seed}");
    }
    assert!(crashed > 0, "nothing happened");
}

/// When the list of [`about_a_refusal`] ends, and for how long 1 and those that don't vote are apart after that, in microseconds.
const ENDS_AT: u64 = 1_000_000;
const APART: u64 = 5_000_000;

/// Of five members 0, 1 and 2 vote. Their list ends while 1 doesn't hear 0: so 1 is behind. Then 2 doesn't hear 0 either, and after a silence, which
/// is 264 milliseconds, both suspect it. 1 hears that 2 suspects it, and refuses it. 2 doesn't hear 1, and so it refuses nobody. It crashes, and
/// comes back in the next list. All are connected again after the lease that 2 gave 0 at last, but for 1 and those that don't vote.
fn about_a_refusal(seed: u64, at_bounds: bool) -> Plan {
    let mut fenced = FencedPlan::lease(100);
    fenced.drift = if at_bounds { fenced.drift } else { 0 };
    (fenced.at_bounds, fenced.stalls, fenced.lost_disks) = (at_bounds, 0, 0);
    fenced.voters = Some(0b111);
    let mut plan = Plan::generations(seed, fenced);
    plan.founding.founders = "0,1,2,3,4".parse().expect("names");
    plan.founding.resilience = 2;
    (plan.sizes, plan.slow, plan.ghosts) = (Sizes::Small, 0, false);
    (plan.faults, plan.succeed_at) = (Faults::NONE, None);
    let next = NextList {
        window: 64,
        less: 0,
        voters: 0,
        tries: 0,
    };
    let (back, twin) = (Some(5_000), false);
    let crash = Act::Crash { back, twin };
    let mut acts = vec![
        (ENDS_AT, 0, Act::Succeed(next)),
        (ENDS_AT + 325_000, 2, crash),
    ];
    let mut cut = |from: u8, to: u8, at: u64, until: u64| {
        let micros = until - at;
        acts.push((at, from, Act::Cut { to, micros }));
    };
    let connected = ENDS_AT + 545_000;
    cut(0, 1, ENDS_AT - 1_000, connected);
    cut(0, 2, ENDS_AT + 30_000, connected);
    // before 1 suspects 0
    let unheard = ENDS_AT + 235_000;
    cut(1, 2, unheard, connected);
    for other in [3, 4] {
        cut(1, other, unheard, ENDS_AT + APART);
        cut(other, 1, ENDS_AT + 300_000, ENDS_AT + APART);
    }
    acts.sort_by_key(|(at, place, _)| (*at, *place));
    (plan.acts, plan.ends) = (acts, ENDS_AT + APART);
    plan
}

/// 1 has refused 0, and 2 is in the next list for good. So 0 never acts in the list again, which has ended, and no majority can give it up there. It
/// leaves the list, and 1 ends, which waited for it. In few runs that doesn't come about, as where a disk is slow or fails.
#[test]
fn whoever_can_never_act_in_a_list_that_has_ended_leaves_it() {
    for at_bounds in [false, true] {
        let run = |seed| {
            let report = run(&about_a_refusal(seed, at_bounds));
            report.unwrap_or_else(|failure| panic!("{failure}")).fenced
        };
        let left = |it: &Fenced| it.lists_lost > 0 && it.ended > 0;
        let goes_on = |it: &Fenced| !it.is_void && it.operated == 0;
        let runs = (1..=10).map(run);
        let count = runs.filter(|it| left(it) && goes_on(it)).count();
        assert!(
            count >= 5,
            "clocks at bounds {at_bounds}: {count} of 10 runs"
        );
    }
}

/// The Welcome of 4 begins below the entry of its join, which stands after the list's end.
#[test]
fn a_joiner_asks_about_the_entry_of_its_own_join() {
    let report = run(&Plan::generations(651, FencedPlan::told()));
    report.unwrap_or_else(|failure| panic!("{failure}"));
}

/// Runs the seed that SEED names, by the policy that POLICY names.
#[test]
fn one_seed_of_generations() {
    let seed = std::env::var("SEED").ok().and_then(|it| it.parse().ok());
    let mut fenced = match std::env::var("POLICY").as_deref() {
        Ok("lease" | "bounds") => FencedPlan::lease(100),
        Ok("told") => FencedPlan::told(),
        Ok("command") => FencedPlan::command(),
        _ => FencedPlan::echo(),
    };
    fenced.at_bounds = std::env::var("POLICY").as_deref() == Ok("bounds");
    let plan = Plan::generations(seed.unwrap_or(1), fenced);
    match run(&plan) {
        Ok(report) => println!("{:?}\n{}", plan.acts, report.text),
        Err(failure) => panic!("{:?}\n{failure}", plan.acts),
    }
}
