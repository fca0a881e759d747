//! Defects that are planted are found, and without them nothing is.

use crate::acts::{replay, shrink, Kind, Part};
use crate::drawing::{run, Ran};
use muoswyld_failures::Plant;

/// Within how many seeds a defect must be found.
const SEEDS: u64 = 1000;

/// The first seed that finds something.
fn first(kind: &Kind, seeds: u64) -> Option<(u64, Ran)> {
    (1..=seeds)
        .map(|seed| (seed, run(kind, seed)))
        .find(|(_, ran)| ran.violation.is_some())
}

fn found(what: &str, kind: &Kind) {
    let Some((seed, ran)) = first(kind, SEEDS) else {
        panic!("{what} isn't found by {SEEDS} seeds");
    };
    let acts = shrink(kind, &ran.start, ran.acts);
    println!("{what}: seed {seed}, {} acts: {acts:?}", acts.len());
}

fn found_plant(plant: Plant, change: impl Fn(&mut Kind)) {
    let mut kind = Kind::planted(plant);
    change(&mut kind);
    found(&format!("{plant:?}"), &kind);
    kind.plant = None;
    if let Some((seed, ran)) = first(&kind, 300) {
        panic!("without {plant:?} seed {seed} finds {:?}", ran.violation);
    }
}

fn by_lease(kind: &mut Kind) {
    kind.echo = Some(false);
}

macro_rules! planted {
    ($($test:ident: $plant:ident, $change:expr;)*) => {$(
        #[test]
        fn $test() {
            found_plant(Plant::$plant, $change);
        }
    )*};
}

planted! {
    a_look_by_the_time_before_the_step: LooksBefore, by_lease;
    an_input_between_look_and_emission: OpensBatch, by_lease;
    a_lease_from_the_receipt_of_an_echo: LeaseFromReceipt, by_lease;
    a_lease_from_the_latest_echo: LeaseFromLatest, by_lease;
    held_effects_at_the_first_echo: OutAtFirstEcho, |_| ();
    a_refusal_that_is_forgotten: ForgetsRefusals, |kind| kind.emphasis = &[Part::RestartsLast];
    a_refusal_that_is_told_before_it_is_synced: TellsBeforeSync, |kind| kind.emphasis = &[Part::SlowSync, Part::NoSync, Part::RestartsLast];
    a_voter_that_echoes_again: EchoesAgain, |_| ();
    a_wait_from_the_decision: WaitsFromDecision, |kind| {
        by_lease(kind);
        kind.emphasis = &[Part::SlowSync, Part::BeatsLate];
    };
    a_refusals_time_on_disk: KeepsTimes, |kind| {
        by_lease(kind);
        kind.emphasis = &[Part::RestartsAmid, Part::NoWait];
    };
    a_voter_without_its_file: GoesOnWithoutFile, |kind| kind.emphasis = &[Part::RestartsLast];
    echoes_by_place: EchoByPlace, |kind| {
        by_lease(kind);
        kind.emphasis = &[Part::MemberAgain, Part::OldEchoes];
    };
    one_less_than_a_majority: OneLess, |kind| kind.voters = Some(3);
    voters_counted_by_life: CountsLives, |kind| {
        kind.echo = Some(true);
        kind.emphasis = &[Part::NoWait, Part::RestartsLast];
    };
    a_wait_since_the_first_refusal: WaitsSinceFirst, by_lease;
    an_asker_without_a_lease: AskerIsFree, by_lease;
    an_echo_from_before_the_step: ConfirmsBefore, |kind| {
        kind.echo = Some(true);
        kind.emphasis = &[Part::NoWait];
    };
    a_wait_of_the_length: WaitsLength, at_bounds;
    a_wait_of_the_length_and_the_drift: WaitsLengthAndDrift, at_bounds;
    a_wait_between_that_and_the_exact_one: WaitsBetween, at_bounds;
    the_majority_of_ones_own_view: MajorityOfView, |kind| {
        kind.voters = Some(5);
        kind.more_places = Some(0);
        kind.cliques = true;
    };
}

fn at_bounds(kind: &mut Kind) {
    kind.echo = Some(false);
    kind.drift = Some(100);
    kind.at_bounds = 100;
}

#[test]
fn half_of_an_even_number() {
    let mut kind = Kind::planted(Plant::HalfIsEnough);
    kind.voters = Some(2);
    found("half of two", &kind);
    kind.voters = Some(4);
    found("half of four", &kind);
}

/// Here the voter hears those who remember before it is asked for an echo: the same schedule finds nothing without the defect.
#[test]
fn an_older_file() {
    let mut kind = Kind::planted(Plant::GoesOnWithOlder);
    kind.older = true;
    kind.remembered = true;
    kind.emphasis = &[Part::RestartsLast];
    let mut right = kind.clone();
    right.plant = None;
    let is_found = |seed: &u64| {
        let mut ran = run(&kind, *seed);
        let is_wrong = ran.violation.is_some();
        ran.start.shape.plant = None;
        is_wrong && replay(&right, &ran.start, &ran.acts).is_none()
    };
    let seed = (1..=SEEDS).find(is_found);
    println!("GoesOnWithOlder: seed {seed:?}");
    assert!(seed.is_some());
}

/// A disk that goes back in time is beyond what is assumed: the voter may hear the refused name before anybody who remembers.
#[test]
fn an_older_file_that_nobody_remembers_in_time() {
    let mut kind = Kind::lawful();
    kind.older = true;
    kind.emphasis = &[Part::RestartsLast];
    found("an older file that nobody remembers in time", &kind);
}

fn beyond(what: &str, change: impl Fn(&mut Kind)) {
    let mut kind = Kind::lawful();
    by_lease(&mut kind);
    change(&mut kind);
    found(what, &kind);
    kind.echo = Some(true);
    if let Some((seed, ran)) = first(&kind, 300) {
        panic!(
            "{what}, without clocks: seed {seed} finds {:?}",
            ran.violation
        );
    }
}

#[test]
fn a_clock_that_stands_still() {
    beyond("a clock stands still", |kind| kind.stands = true);
}

#[test]
fn a_clock_that_is_set_back() {
    beyond("a clock is set back", |kind| kind.set_back = true);
}

#[test]
fn a_clock_that_is_set_forward() {
    beyond("a clock is set forward", |kind| kind.set_forward = true);
}

#[test]
fn clocks_that_drift_beyond_the_bound() {
    beyond("clocks drift beyond the bound", |kind| {
        kind.at_bounds = 100;
        kind.drift = Some(100);
        kind.beyond = 150;
    });
}

#[test]
fn two_processes_of_a_voter() {
    let mut kind = Kind::lawful();
    kind.ghosts = true;
    kind.emphasis = &[Part::RestartsFirst, Part::OldEchoes];
    found("two processes of a voter", &kind);
}

#[test]
fn a_life_that_runs_twice() {
    let mut kind = Kind::lawful();
    kind.echo = Some(false);
    kind.runs_twice = true;
    kind.emphasis = &[Part::MemberAgain, Part::OldEchoes];
    found("a life that runs twice", &kind);
}

/// Runs as many seeds as SEEDS says, 1,000 if it says nothing.
#[test]
fn nothing_is_found_without_a_defect() {
    let count = std::env::var("SEEDS").ok().and_then(|s| s.parse().ok());
    let count: u64 = count.unwrap_or(1000);
    let kind = Kind::lawful();
    let mut counts = crate::world::Counts::default();
    for seed in 1..=count {
        let ran = run(&kind, seed);
        if let Some(violation) = ran.violation {
            let acts = shrink(&kind, &ran.start, ran.acts);
            panic!("seed {seed}: {violation}: {:?} {acts:?}", ran.start);
        }
        counts.visible += ran.counts.visible;
        counts.held += ran.counts.held;
        counts.late_looks += ran.counts.late_looks;
        counts.given_up += ran.counts.given_up;
        counts.restarts += ran.counts.restarts;
    }
    println!("{count} schedules: {counts:?}");
    assert!(counts.visible > count / 2 && counts.held > count / 2);
    assert!(counts.given_up > count / 5 && counts.late_looks > count / 20);
}
