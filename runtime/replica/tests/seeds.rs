//! Replicas over many simulated runs: they are equal at equal positions, and each command is done once.

mod cluster;

use cluster::plans::{plan_of, run_replicas, setting_of};
use std::sync::atomic::{AtomicU64, AtomicUsize, Ordering};
use std::thread;

const SEEDS: u64 = 300;

#[test]
fn many_seeds() {
    let next = AtomicU64::new(1);
    let counts: [AtomicUsize; 5] = Default::default();
    let threads = thread::available_parallelism().map_or(1, |count| count.get().min(2));
    let run_some = || {
        let mut failures = Vec::new();
        loop {
            let seed = next.fetch_add(1, Ordering::Relaxed);
            if seed > SEEDS {
                return failures;
            }
            let (ran, cluster) = run_replicas(&plan_of(seed, None), setting_of(seed));
            failures.extend(ran.err());
            let all = [
                cluster.answered(),
                cluster.repeated,
                cluster.served,
                cluster.reads,
                usize::from(cluster.is_lost),
            ];
            for (count, more) in counts.iter().zip(all) {
                count.fetch_add(more, Ordering::Relaxed);
            }
        }
    };
    let failures: Vec<_> = thread::scope(|scope| {
        let begun: Vec<_> = (0..threads).map(|_| scope.spawn(run_some)).collect();
        begun
            .into_iter()
            .flat_map(|thread| thread.join().expect("a run panicked"))
            .collect()
    });
    for failure in &failures {
        println!("{failure}");
    }
    let [answered, repeated, served, reads, lost] = counts.map(AtomicUsize::into_inner);
    println!("{answered} commands answered, {repeated} again; {served} joiners served; {reads} reads; the state lost in {lost} runs");
    assert!(failures.is_empty(), "seeds that failed: {}", failures.len());
    // a run in which nothing happens shows nothing
    assert!(answered > 5_000 && repeated > 500 && served > 150 && reads > 2_000 && lost > 3);
}

/// Runs the seed that SEED names.
#[test]
fn one_seed() {
    let seed = std::env::var("SEED")
        .ok()
        .and_then(|seed| seed.parse().ok())
        .unwrap_or(1);
    let (ran, cluster) = run_replicas(&plan_of(seed, None), setting_of(seed));
    match ran {
        Ok(report) => println!(
            "{}: {} commands, {} joiners",
            report.text,
            cluster.answered(),
            cluster.served
        ),
        Err(failure) => panic!("{failure}"),
    }
}
