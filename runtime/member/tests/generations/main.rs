//! Groups whose lists follow one another, by seeds: virtual time, losses, repeats, delays, crashes that are told, joiners, ends of lists amid all
//! that. Checked is what applications saw: one list over all generations. Planted defects are found.

mod world;

use muoswyld_member::Plant;
use world::World;

/// Runs a seed; how many lists there were, and how many processes.
fn run(seed: u64, plant: Option<Plant>) -> Result<(usize, usize), String> {
    let mut world = World::new(seed, plant);
    for k in 0..world.processes.len() {
        world.release(k)?;
    }
    world.go_to(50_000)?;
    for _ in 0..150 {
        let wait = world.draw.below(8_000);
        world.go_to(world.now + wait)?;
        world.act()?;
    }
    world.check()?;
    let rests = world.rest();
    world.check()?;
    rests?;
    Ok((world.cuts, world.processes.len()))
}

/// How many seeds the test runs.
fn seeds() -> u64 {
    std::env::var("SEEDS")
        .ok()
        .and_then(|text| text.parse().ok())
        .unwrap_or(200)
}

#[test]
fn lists_follow_one_another() {
    let (mut cuts, mut processes, mut failed) = (0, 0, Vec::new());
    for seed in 1..=seeds() {
        match run(seed, None) {
            Ok((more, others)) => {
                cuts += more;
                processes += others;
            }
            Err(what) => failed.push(format!("seed {seed}: {what}")),
        }
    }
    println!("{cuts} lists ended, {processes} processes");
    assert!(
        failed.is_empty(),
        "{} failed: {}",
        failed.len(),
        failed.join("\n")
    );
    assert!(cuts as u64 > seeds());
}

/// The first seed that finds a defect, and what it finds.
fn found(plant: Plant) -> (u64, String) {
    for seed in 1..=1_000 {
        if let Err(what) = run(seed, Some(plant)) {
            println!("{plant:?} is found by seed {seed}: {what}");
            return (seed, what);
        }
    }
    panic!("{plant:?} isn't found");
}

#[test]
fn a_list_that_ends_one_entry_late() {
    found(Plant::EndsListLate);
}

#[test]
fn a_message_that_is_sent_anew_though_it_was_delivered() {
    found(Plant::SendsAllAnew);
}

#[test]
fn founders_at_the_top_of_the_list() {
    found(Plant::FoundersAtTop);
}

#[test]
fn a_joiner_that_nobody_confirmed() {
    found(Plant::TakesUnconfirmed);
}
