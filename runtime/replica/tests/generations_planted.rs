//! Defects that are planted in how replicas go on over the ends of lists are found: tests of the test.

mod cluster;

use cluster::lists::{plan_of, setting_over_lists, Ends};
use cluster::plans::run_replicas;
use cluster::Setting;
use muoswyld_replica::Plant;

/// Within how many seeds a defect must be found.
const SEEDS: u64 = 1_000;

/// What the first seed finds that finds a defect, in runs that are about something.
fn found(plant: Plant, about: Option<Ends>, change: impl Fn(&mut Setting)) -> String {
    for seed in 1..=SEEDS {
        let plan = plan_of(seed, about);
        let mut setting = setting_over_lists(seed);
        change(&mut setting);
        setting.plant = Some(plant);
        let (ran, _) = run_replicas(&plan, setting.clone());
        if let Err(failure) = ran {
            println!("{plant:?}: seed {seed} finds it: {:.200}", failure.what);
            setting.plant = None;
            let (ran, _) = run_replicas(&plan, setting);
            ran.expect("without the defect it runs");
            return failure.what;
        }
    }
    panic!("{plant:?} isn't found by {SEEDS} seeds");
}

/// Long transfers, amid which lists end.
fn amid_transfers(setting: &mut Setting) {
    setting.ends_amid = 3;
    setting.ballast = 200;
    setting.chunks_ahead = 1;
}

#[test]
fn a_chunk_that_is_known_by_its_number_alone() {
    let what = found(Plant::ChunksByNumber, Some(Ends::SameNumbers), |setting| {
        amid_transfers(setting);
        setting.clients = 1;
        setting.commands = 4;
    });
    let finds = ["is spoilt", "come to rest", "another state", "that counts"];
    assert!(finds.iter().any(|text| what.contains(text)), "{what}");
}

#[test]
fn a_digest_that_is_compared_with_that_of_the_same_number_of_another_list() {
    let what = found(Plant::ChecksByNumber, None, |setting| {
        setting.check_every = 3;
    });
    assert!(what.contains("the one that counts"), "{what}");
}

#[test]
fn sessions_that_are_forgotten_at_the_end_of_a_list() {
    let what = found(Plant::ForgetsSessions, None, |setting| {
        setting.most_sessions = 100;
    });
    assert!(what.contains("was answered NoSession"), "{what}");
}

#[test]
fn parts_that_are_forgotten_at_the_end_of_a_list() {
    found(Plant::ForgetsParts, None, |setting| {
        (setting.long, setting.commands) = (900, 8);
        setting.check_every = 50;
    });
}

#[test]
fn a_transfer_that_skips_what_came_before_the_end() {
    let what = found(
        Plant::TransfersAnew,
        Some(Ends::AmidTransfer),
        amid_transfers,
    );
    let finds = ["another state", "that counts", "hasn't command"];
    assert!(finds.iter().any(|text| what.contains(text)), "{what}");
}

#[test]
fn a_command_that_the_replica_sends_anew_too() {
    let what = found(Plant::SendsAnew, None, |_| ());
    assert!(what.contains("applied twice"), "{what}");
}
