use super::*;
use muoswyld::names::Name;
use muoswyld_simulator::{journals, run, Plan};
use std::collections::BTreeMap;

/// The time of a journal's line, in microseconds; None of its head.
fn time_of(line: &str) -> Option<u64> {
    line.split('\t').next()?.parse().ok()
}

/// The times of a journal's first step and of its last one.
fn times(journal: &[u8]) -> Option<(u64, u64)> {
    let text = String::from_utf8_lossy(journal);
    let mut times = text.lines().filter_map(time_of);
    let first = times.next()?;
    Some((first, times.next_back().unwrap_or(first)))
}

/// What stood in a journal at a time; nothing if its life had done nothing yet.
fn cut(journal: &[u8], at: u64) -> Option<Vec<u8>> {
    let text = String::from_utf8_lossy(journal);
    times(journal).filter(|(first, _)| *first <= at)?;
    let is_there = |line: &&str| time_of(line).is_none_or(|time| time <= at);
    let lines = text.lines().filter(is_there);
    Some(
        lines
            .flat_map(|line| [line, "\n"])
            .collect::<String>()
            .into_bytes(),
    )
}

/// A life of a place that came back in a seed's run, and all journals as they were while it ran; None if no place came back.
fn while_a_later_life_ran(seed: u64) -> Option<(Name, BTreeMap<Name, Vec<u8>>)> {
    let mut plan = Plan::of(seed);
    plan.journal = true;
    let all = run(&plan).ok()?.journals;
    let later = all.iter().rfind(|(name, _)| name.life() > 1)?;
    let (first, last) = times(later.1)?;
    let at = first + (last - first) / 2;
    let then = all
        .iter()
        .filter_map(|(name, it)| Some((*name, cut(it, at)?)));
    Some((*later.0, then.collect()))
}

/// A member that ran while its journal was followed hasn't stopped, also if its life begins here after the end of the following: as when
/// the stop of the life before is judged late.
#[test]
fn a_life_that_is_judged_after_the_following_may_still_run() {
    let folder = std::env::temp_dir().join(format!("muoswyld-judge-late-{}", std::process::id()));
    let mut count = 0;
    for (name, all) in (1..=60).filter_map(while_a_later_life_ran) {
        // what was there is of another run
        let _ = fs::remove_dir_all(&folder);
        fs::create_dir_all(&folder).expect("a folder");
        let asked = Asked {
            journals: journals::write(&folder, &all).expect("journals are written"),
            over: Over::new(false),
            play: None,
        };
        let mut bench = Bench::new(&asked);
        bench.scan().unwrap_or_else(|finding| panic!("{finding}"));
        let court = bench.courts.values_mut().next().expect("a list");
        court.open().unwrap_or_else(|finding| panic!("{finding}"));
        if court.lives.contains_key(&name) {
            continue;
        }
        asked.over.set();
        court.close();
        while court
            .go_on(true)
            .unwrap_or_else(|finding| panic!("{finding}"))
        {}
        assert!(!court.lives[&name].has_stopped(), "{name} ran");
        count += 1;
    }
    let _ = fs::remove_dir_all(&folder);
    assert!(count >= 3, "{count} lives began later");
}
