//! Defects that are planted in each member are found: tests of the test.

use muoswyld_member::Plant;
use muoswyld_simulator::plan::{Act, Sizes};
use muoswyld_simulator::{run, Plan};

/// Within how many seeds a defect must be found.
const SEEDS: u64 = 1000;

/// The first seed that finds a defect, and what it finds, with plans that are changed so that they are about it.
fn found_with(plant: Plant, change: impl Fn(&mut Plan)) -> (u64, String) {
    for seed in 1..=SEEDS {
        let mut plan = Plan::of(seed);
        plan.is_lawful = true;
        change(&mut plan);
        plan.plant = Some(plant);
        if let Err(failure) = run(&plan) {
            println!("{plant:?} is found by seed {seed}: {}", failure.what);
            plan.plant = None;
            run(&plan).expect("without the defect it runs");
            return (seed, failure.what);
        }
    }
    panic!("{plant:?} isn't found by {SEEDS} seeds");
}

fn found(plant: Plant) -> String {
    found_with(plant, |_| ()).1
}

#[test]
fn a_body_that_is_unpacked_twice() {
    found(Plant::UnpacksTwice);
}

#[test]
fn a_message_that_is_sent_anew_though_it_is_under_way() {
    found(Plant::SendsAnew);
}

#[test]
fn a_letter_that_the_node_is_given_without_its_contents() {
    let what = found_with(Plant::GivesWithoutBytes, |plan| plan.sizes = Sizes::Long).1;
    assert!(what.contains("ContentsLost"), "{what}");
}

#[test]
fn contents_that_are_given_up_before_all_have_them() {
    found_with(Plant::DropsBytesEarly, |plan| plan.sizes = Sizes::Long);
}

#[test]
fn a_last_chunk_that_is_named_and_not_cut() {
    let what = found_with(Plant::NamesBeforeCut, |plan| plan.sizes = Sizes::Long).1;
    assert!(what.contains("ContentsLost"), "{what}");
}

#[test]
fn a_chunk_of_another_offset() {
    let what = found_with(Plant::TakesAnyOffset, |plan| plan.sizes = Sizes::Long).1;
    assert!(what.contains("ContentsLost"), "{what}");
}

#[test]
fn a_delivery_that_is_skipped() {
    found_with(Plant::SkipsDelivery, |plan| plan.slow = 1000);
}

#[test]
fn a_ticket_that_is_settled_before_its_delivery() {
    let what = found(Plant::SettlesEarly);
    assert!(what.contains("wasn't delivered there before"), "{what}");
}

#[test]
fn a_letter_that_goes_out_before_its_line() {
    let (_, what) = found_with(Plant::LetterBeforeJournal, |plan| {
        plan.journal = true;
        plan.send_every = 5_000;
        let (back, twin) = (Some(100_000), false);
        let places = plan.founding.founders.len() as u64;
        // not a multiple of `send_every`, so each crash comes at another moment of a sending
        let crash = |k: u64| {
            let place = (k % places) as u8;
            (300_000 + 150_397 * k, place, Act::Crash { back, twin })
        };
        plan.acts = (0..12).map(crash).collect();
    });
    assert!(what.contains("whose journal has"), "{what}");
}

#[test]
fn a_name_that_is_given_up_though_it_runs() {
    found(Plant::GivesUpSilent);
}

#[test]
fn letters_of_an_earlier_run() {
    found_with(Plant::TakesAnyGroup, |plan| plan.ghosts = true);
}

#[test]
fn a_second_process_of_a_life() {
    found_with(Plant::TakesAnyProcess, |plan| {
        for (_, place, act) in &mut plan.acts {
            if let Act::Crash { back, twin } = act {
                *place = 1;
                *back = None;
                *twin = true;
            }
        }
    });
}
