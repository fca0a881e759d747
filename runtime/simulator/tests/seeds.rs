//! Many seeds are run, and what the applications saw is checked.

use muoswyld_simulator::{run, Plan};
use std::sync::atomic::{AtomicU64, Ordering};
use std::thread;

const SEEDS: u64 = 300;

#[test]
fn many_seeds() {
    let next = AtomicU64::new(1);
    let threads = thread::available_parallelism().map_or(1, |count| count.get().min(4));
    let run_some = || {
        let mut failures = Vec::new();
        loop {
            let seed = next.fetch_add(1, Ordering::Relaxed);
            if seed > SEEDS {
                return failures;
            }
            failures.extend(run(&Plan::of(seed)).err());
        }
    };
    let failures: Vec<_> = thread::scope(|scope| {
        let begun: Vec<_> = (0..threads).map(|_| scope.spawn(run_some)).collect();
        begun
            .into_iter()
            .flat_map(|thread| thread.join().expect("a run panicked"))
            .collect()
    });
    for failure in &failures {
        println!("{failure}");
    }
    assert!(failures.is_empty(), "seeds that failed: {}", failures.len());
}

/// Runs the seed that SEED names.
#[test]
fn one_seed() {
    let seed = std::env::var("SEED")
        .ok()
        .and_then(|seed| seed.parse().ok());
    match run(&Plan::of(seed.unwrap_or(1))) {
        Ok(report) => println!("{}", report.text),
        Err(failure) => panic!("{failure}"),
    }
}

#[test]
fn a_seed_runs_the_same_each_time() {
    for seed in [3, 8, 21] {
        let mut plan = Plan::of(seed);
        plan.journal = true;
        let first = run(&plan).expect("a run");
        assert!(first.delivered > 0, "nothing happened");
        assert_eq!(run(&plan).expect("a run"), first);
    }
}
