//! Replicas over many simulated runs in which lists end: they are equal at equal positions, and each command is done once.

mod cluster;

use cluster::lists::{plan_of, setting_over_lists};
use cluster::plans::run_replicas;
use std::sync::atomic::{AtomicU64, AtomicUsize, Ordering};
use std::thread;

/// How many seeds are run, or as many as SEEDS says; from FROM on.
fn seeds() -> (u64, u64) {
    let said = |name| std::env::var(name).ok().and_then(|it| it.parse().ok());
    let from = said("FROM").unwrap_or(1);
    (from, from + said("SEEDS").unwrap_or(300))
}

#[test]
fn many_seeds_over_lists() {
    let (from, to) = seeds();
    let next = AtomicU64::new(from);
    let counts: [AtomicUsize; 9] = Default::default();
    let threads = thread::available_parallelism().map_or(1, |count| count.get().min(2));
    let run_some = || {
        let mut failures = Vec::new();
        loop {
            let seed = next.fetch_add(1, Ordering::Relaxed);
            if seed >= to {
                return failures;
            }
            let (ran, cluster) = run_replicas(&plan_of(seed, None), setting_over_lists(seed));
            let is_void = ran.as_ref().is_ok_and(|report| report.fenced.is_void);
            failures.extend(ran.err());
            let all = [
                cluster.answered(),
                cluster.repeated,
                cluster.served,
                cluster.served_later,
                cluster.reads,
                cluster.ends,
                cluster.under_way,
                usize::from(cluster.is_lost),
                usize::from(is_void),
            ];
            for (count, more) in counts.iter().zip(all) {
                count.fetch_add(more, Ordering::Relaxed);
            }
        }
    };
    let failures: Vec<_> = thread::scope(|scope| {
        let begun: Vec<_> = (0..threads).map(|_| scope.spawn(run_some)).collect();
        begun
            .into_iter()
            .flat_map(|thread| thread.join().expect("a run panicked"))
            .collect()
    });
    for failure in &failures {
        println!("{failure}");
    }
    let counts = counts.map(AtomicUsize::into_inner);
    let [answered, repeated, served, later, reads, ends, under_way, lost, void] = counts;
    println!("{answered} commands answered, {repeated} again; {served} joiners served, {later} of them in a later list; {reads} reads");
    println!("{ends} ends of lists at replicas, {under_way} requests under way there; the state lost in {lost} runs; {void} runs void");
    assert!(failures.is_empty(), "seeds that failed: {}", failures.len());
    // a run in which nothing happens shows nothing
    let count = (to - from) as usize;
    assert!(answered > 20 * count && repeated > 2 * count && reads > 10 * count);
    assert!(served > count && later > count / 10 && ends > 5 * count && under_way > count);
    assert!(void < count / 3);
}

/// Runs the seed that SEED names.
#[test]
fn one_seed_over_lists() {
    let seed = std::env::var("SEED").ok().and_then(|it| it.parse().ok());
    let seed = seed.unwrap_or(1);
    let plan = plan_of(seed, None);
    let (ran, cluster) = run_replicas(&plan, setting_over_lists(seed));
    match ran {
        Ok(report) => println!(
            "{:?}\n{}: {} commands, {} joiners, {} of them later, {} ends",
            plan.acts,
            report.text,
            cluster.answered(),
            cluster.served,
            cluster.served_later,
            cluster.ends
        ),
        Err(failure) => panic!("{:?}\n{failure}\n{}", plan.acts, cluster.shown()),
    }
}
