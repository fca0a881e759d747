//! Defects that are planted in each replica are found: tests of the test.

mod cluster;

use cluster::plans::{plan_of, run_replicas, setting_of, Theme};
use cluster::Setting;
use muoswyld_member::Name;
use muoswyld_replica::Plant;

/// Within how many seeds a defect must be found.
const SEEDS: u64 = 1_000;

/// What the first seed finds that finds a defect, in runs that are about it.
fn found_with(theme: Option<Theme>, change: impl Fn(&mut Setting)) -> String {
    for seed in 1..=SEEDS {
        let plan = plan_of(seed, theme);
        let mut setting = setting_of(seed);
        change(&mut setting);
        let (ran, _) = run_replicas(&plan, setting.clone());
        if let Err(failure) = ran {
            println!("seed {seed} finds it: {}", failure.what);
            setting.plant = None;
            setting.strays = None;
            let (ran, _) = run_replicas(&plan, setting);
            ran.expect("without the defect it runs");
            return failure.what;
        }
    }
    panic!("it isn't found by {SEEDS} seeds");
}

fn found(plant: Plant, theme: Option<Theme>) -> String {
    found_with(theme, |setting| setting.plant = Some(plant))
}

#[test]
fn a_chunk_that_is_taken_twice() {
    found_with(Some(Theme::Any), |setting| {
        setting.plant = Some(Plant::TakesChunkTwice);
        setting.ballast = 60;
        setting.stalled = 300;
    });
}

#[test]
fn a_command_that_is_held_and_dropped() {
    found(Plant::DropsHeld, Some(Theme::TwoJoin));
}

#[test]
fn sessions_that_are_not_in_the_snapshot() {
    found(Plant::LeavesSessionsOut, Some(Theme::TwoJoin));
}

#[test]
fn answers_that_are_not_in_the_snapshot() {
    found(Plant::LeavesAnswersOut, Some(Theme::TwoJoin));
}

#[test]
fn parts_that_are_not_in_the_snapshot() {
    found_with(Some(Theme::TwoJoin), |setting| {
        setting.plant = Some(Plant::LeavesPartsOut);
        setting.long = 700;
    });
}

#[test]
fn a_digest_that_is_compared_at_another_number() {
    let what = found(Plant::ChecksAnotherNumber, Some(Theme::TwoJoin));
    assert!(what.contains("the one that counts"), "{what}");
}

#[test]
fn a_snapshot_that_is_taken_late() {
    found(Plant::SnapshotIsLate, Some(Theme::TwoJoin));
}

#[test]
fn commands_that_are_done_as_often_as_they_come() {
    let what = found(Plant::NoSessions, None);
    assert!(
        what.contains("applied twice") || what.contains("has two answers"),
        "{what}"
    );
}

#[test]
fn a_command_of_an_expired_session_that_is_done() {
    let what = found_with(None, |setting| {
        setting.plant = Some(Plant::ExpiredIsNew);
        setting.most_sessions = 1;
    });
    assert!(what.contains("applied twice"), "{what}");
}

#[test]
fn a_replica_that_begins_with_an_empty_state() {
    found(Plant::BeginsEmpty, Some(Theme::AllLeave));
}

#[test]
fn a_source_that_leaves_a_chunk_out() {
    let what = found(Plant::SkipsAChunk, Some(Theme::SourceStops));
    assert!(what.contains("come to rest"), "{what}");
}

#[test]
fn a_read_that_does_not_wait_for_its_barrier() {
    // a joiner that doesn't wait answers before it has the state
    let what = found(Plant::ReadsEarly, None);
    let finds = ["doesn't see", "without the state"];
    assert!(finds.iter().any(|text| what.contains(text)), "{what}");
}

/// A machine that isn't deterministic is found by the digests, and the replica says where.
#[test]
fn a_machine_that_strays() {
    let what = found_with(Some(Theme::Any), |setting| {
        setting.strays = Name::first(1);
    });
    assert!(what.contains("the one that counts"), "{what}");
}
