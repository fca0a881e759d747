//! Networks that fail in all shapes, in real time.

use crate::draw::Draw;
use crate::timed::{all, groups, Event, Timed};
use crate::world::{lease, Shape};
use muoswyld_failures::{Plant, Policy};

const SECOND: u64 = 1_000_000;

fn shapes(places: u8, voters: u16) -> Vec<Shape> {
    let policies = [lease(100), Policy::Echo];
    policies
        .iter()
        .map(|policy| Shape::new(places, voters, *policy))
        .collect()
}

fn right(timed: &Timed, seed: u64) {
    assert_eq!(timed.world.violation, None, "seed {seed}");
    assert_eq!(timed.lost(), None, "seed {seed}");
}

/// All that runs goes on by the end.
fn goes_on(timed: &mut Timed, seed: u64) {
    let until = timed.world.real;
    timed.run(until + 2 * SECOND);
    right(timed, seed);
    assert_eq!(timed.stuck(), None, "seed {seed}");
    let before = timed.visible();
    let until = timed.world.real;
    timed.run(until + SECOND / 2);
    right(timed, seed);
    for name in timed.view.iter() {
        let place = usize::from(name.place());
        let after = timed.visible()[place];
        assert!(
            after > before[place],
            "seed {seed}: {name} makes nothing visible"
        );
    }
}

/// The whole network fails for a time; what it comes to.
fn whole_network(shape: &Shape, seed: u64) -> Timed {
    let mut timed = Timed::new(shape.clone(), seed);
    let mut draw = Draw::new(seed ^ 77);
    timed.run(SECOND / 2);
    let places = shape.places;
    let until = SECOND / 2 + draw.between(150_000, 2 * SECOND);
    timed.at(SECOND / 2, Event::Links(groups(places, &[])));
    timed.at(until, Event::Links(all(places)));
    timed.run(until - 1);
    timed
}

#[test]
fn a_network_that_fails_as_a_whole_freezes_all_and_loses_nothing() {
    for seed in 1..=20 {
        for (places, voters) in [(3, 0b111), (4, 0b111), (5, 0b11111), (6, 0b111)] {
            for shape in shapes(places, voters) {
                let mut timed = whole_network(&shape, seed);
                let frozen = |timed: &Timed| {
                    let processes = timed.world.processes.iter().flatten();
                    processes
                        .filter(|p| p.core.info().frozen_since.is_some())
                        .count()
                };
                assert_eq!(frozen(&timed), usize::from(places), "seed {seed}");
                goes_on(&mut timed, seed);
                assert_eq!(timed.refusals, 0, "seed {seed}");
                assert_eq!(timed.view.len(), usize::from(places));
                assert!(timed.world.given_up.is_empty());
            }
        }
    }
}

/// A partition in groups; the places whose lives went on.
fn partition(places: u8, voters: u16, least: u8, parts: &[u16], stays: u16) {
    for seed in 1..=15 {
        for mut shape in shapes(places, voters) {
            shape.least = Some(least);
            let mut timed = Timed::new(shape, seed);
            timed.run(SECOND / 2);
            timed.at(SECOND / 2, Event::Links(groups(places, parts)));
            timed.run(2 * SECOND);
            right(&timed, seed);
            assert_eq!(timed.view.places(), stays, "seed {seed}");
            let minority = timed.world.processes.iter().flatten();
            for process in minority.filter(|p| stays >> p.name.place() & 1 == 0) {
                assert!(process.core.info().frozen_since.is_some(), "seed {seed}");
                assert!(!process.ended, "seed {seed}");
            }
            timed.at(2 * SECOND, Event::Links(all(places)));
            goes_on(&mut timed, seed);
            assert_eq!(timed.view.len(), usize::from(places), "seed {seed}");
        }
    }
}

#[test]
fn partitions() {
    // two and two of four, of which three vote: the part with two voters goes on if two members are enough
    partition(4, 0b0111, 2, &[0b0011, 0b1100], 0b0011);
    partition(4, 0b0111, 3, &[0b0011, 0b1100], 0b1111);
    partition(4, 0b0111, 3, &[0b0001, 0b1110], 0b1110);
    partition(5, 0b11111, 3, &[0b00011, 0b11100], 0b11100);
    partition(3, 0b111, 2, &[0b100, 0b011], 0b011);
    partition(5, 0b00111, 3, &[0b00111, 0b11000], 0b00111);
}

/// The network splits so that no side has both a majority of the voters and enough members: all wait, and nobody is refused in vain.
#[test]
fn whoever_could_not_go_on_without_them_refuses_nobody() {
    for seed in 1..=20 {
        for (places, voters, parts) in [
            (4, 0b0111, [0b0011, 0b1100]),
            (4, 0b0111, [0b0101, 0b1010]),
            (5, 0b00111, [0b00011, 0b11100]),
            (6, 0b11111, [0b001110, 0b110001]),
        ] {
            for shape in shapes(places, voters) {
                let mut timed = Timed::new(shape, seed);
                timed.at(SECOND / 2, Event::Links(groups(places, &parts)));
                timed.at(3 * SECOND, Event::Links(all(places)));
                timed.run(3 * SECOND);
                assert_eq!(timed.refusals, 0, "{places} places, seed {seed}");
                goes_on(&mut timed, seed);
                assert!(timed.world.given_up.is_empty(), "seed {seed}");
                assert_eq!(timed.view.len(), usize::from(places), "seed {seed}");
            }
        }
    }
}

/// Random phases of links without a crash.
fn phases(shape: Shape, seed: u64, one_way: bool) -> Timed {
    let mut draw = Draw::new(seed ^ 0x5a5a);
    let places = shape.places;
    let mut timed = Timed::new(shape, seed);
    let mut at = SECOND / 4;
    for _ in 0..draw.between(1, 8) {
        let mut links = all(places);
        if draw.percent(50) {
            let group = draw.word() as u16;
            links = groups(places, &[group, !group]);
        }
        for _ in 0..draw.between(0, 4) {
            let (one, other) = (draw.below(u64::from(places)), draw.below(u64::from(places)));
            links[one as usize] &= !(1 << other) | 1 << one;
            if !one_way {
                links[other as usize] &= !(1 << one) | 1 << other;
            }
        }
        timed.at(at, Event::Links(links));
        if draw.percent(30) {
            let place = draw.below(u64::from(places)) as u8;
            let micros = draw.between(1_000, 400_000);
            timed.at(at, Event::Pause(place, micros));
        }
        at += draw.one_of(&[20_000, 100_000, 140_000, 200_000, 300_000]);
    }
    timed.at(at, Event::Links(all(places)));
    timed.run(at);
    timed
}

#[test]
fn no_majority_stays_frozen_without_a_crash() {
    let count = std::env::var("SEEDS").ok().and_then(|s| s.parse().ok());
    let count: u64 = count.unwrap_or(50);
    let mut given_up = 0;
    for (places, voters) in [(3, 0b111), (4, 0b111), (5, 0b11111)] {
        let mut stuck = 0;
        for seed in 1..=count {
            for shape in shapes(places, voters) {
                let mut timed = phases(shape, seed, seed % 3 == 0);
                let until = timed.world.real + 3 * SECOND;
                timed.run(until);
                right(&timed, seed);
                given_up += timed.world.counts.given_up;
                if let Some(why) = timed.stuck() {
                    stuck += 1;
                    println!("{places} places, {voters:b} vote, seed {seed}: {why}");
                }
            }
        }
        println!("{places} places: {stuck} of {} stand", 2 * count);
        assert_eq!(stuck, 0);
    }
    assert!(given_up > count, "nobody was given up");
}

/// How many of some runs with a plant have something to complain of.
fn complaints(plant: Plant, run: impl Fn(Shape, u64) -> Timed, shape: &Shape) -> u64 {
    let mut planted = shape.clone();
    planted.plant = Some(plant);
    let mut count = 0;
    for seed in 1..=60 {
        let mut timed = run(planted.clone(), seed);
        let until = timed.world.real + 2 * SECOND;
        timed.run(until);
        let is_wrong = timed.stuck().is_some() || timed.refusals > 0;
        count += u64::from(is_wrong);
    }
    println!("{plant:?}: {count} of 60");
    count
}

#[test]
fn whoever_counts_by_anothers_word_how_long_it_was_frozen_refuses_after_an_outage() {
    let shape = Shape::new(3, 0b111, lease(100));
    let run = |shape: Shape, seed| whole_network(&shape, seed);
    assert!(complaints(Plant::FrozenByItsWord, run, &shape) > 0);
}

#[test]
fn whoever_suspects_after_a_pause_refuses_after_an_outage() {
    let shape = Shape::new(3, 0b111, lease(100));
    let run = |shape: Shape, seed| whole_network(&shape, seed);
    assert!(complaints(Plant::SuspectsAfterPause, run, &shape) > 0);
}

/// A candidate needs fresh words of a majority, so in an outage nobody is refused even if a silence is shorter than a lease.
#[test]
fn a_silence_shorter_than_a_lease_refuses_nobody_in_an_outage() {
    let mut shape = Shape::new(3, 0b111, lease(100));
    shape.silence = Some(60_000);
    shape.unchecked = true;
    for seed in 1..=60 {
        let mut timed = whole_network(&shape, seed);
        goes_on(&mut timed, seed);
        assert_eq!(timed.refusals, 0, "seed {seed}");
    }
}

#[test]
fn two_that_do_not_vote_may_stop_at_once() {
    let stop = |shape: Shape, seed| {
        let mut timed = Timed::new(shape, seed);
        timed.at(SECOND / 2, Event::Crash(4));
        timed.at(SECOND / 2, Event::Crash(5));
        timed.run(SECOND / 2);
        timed
    };
    let shape = Shape::new(6, 0b111, lease(100));
    for seed in 1..=40 {
        let mut timed = stop(shape.clone(), seed);
        goes_on(&mut timed, seed);
        assert_eq!(timed.view.places(), 0b001111, "seed {seed}");
        let mut planted = shape.clone();
        planted.plant = Some(Plant::LimitCountsAll);
        let mut timed = stop(planted, seed);
        timed.run(3 * SECOND);
        assert!(timed.stuck().is_some(), "seed {seed}");
    }
}

/// Places crash in phases, and each comes back as its next life, with the disk that it synced: all go on in the end.
#[test]
fn all_go_on_once_all_are_back() {
    let mut beyond = 0;
    for (places, voters) in [(3, 0b111), (4, 0b0111), (5, 0b11111)] {
        for seed in 1..=20 {
            for shape in shapes(places, voters) {
                let mut draw = Draw::new(seed ^ 0xc0ffee);
                let mut timed = Timed::new(shape, seed);
                let mut at = SECOND / 4;
                for _ in 0..draw.between(1, 4) {
                    let group = draw.word() as u16;
                    let links = groups(places, &[group, !group]);
                    timed.at(at, Event::Links(links));
                    let place = draw.below(u64::from(places)) as u8;
                    let crash = at + draw.between(0, 300_000);
                    timed.at(crash, Event::Crash(place));
                    timed.at(crash + draw.between(1, 600_000), Event::Restart(place));
                    at += draw.one_of(&[100_000, 200_000, 300_000]);
                    timed.at(at, Event::Links(all(places)));
                    at += draw.one_of(&[0, 100_000, 500_000]);
                }
                timed.run(at + SECOND);
                if timed.is_beyond() {
                    right(&timed, seed);
                    beyond += 1;
                    continue;
                }
                goes_on(&mut timed, seed);
                assert_eq!(timed.view.len(), usize::from(places), "seed {seed}");
            }
        }
    }
    println!("{beyond} of 120 runs have fewer members left than a reset goes on with");
    assert!(beyond < 30);
}

/// A voter that came back and isn't a member yet helps to give up who stopped before it began.
#[test]
fn a_voter_that_is_no_member_listens_for_the_members() {
    for seed in 1..=20 {
        for shape in shapes(5, 0b00111) {
            let mut timed = Timed::new(shape, seed);
            timed.at(SECOND / 2, Event::Crash(1));
            timed.at(SECOND / 2 + 1, Event::Restart(1));
            timed.run(3 * SECOND);
            assert_eq!(
                timed.view.iter().map(|n| n.life()).max(),
                Some(2),
                "seed {seed}"
            );
            timed.at(3 * SECOND, Event::Crash(1));
            timed.at(3 * SECOND, Event::Crash(2));
            timed.at(3 * SECOND + 50_000, Event::Restart(2));
            timed.run(4 * SECOND);
            goes_on(&mut timed, seed);
            assert_eq!(timed.view.places(), 0b11101, "seed {seed}");
        }
    }
}

/// Four places of which three vote, in two halves: two names more than may be are refused, if nothing bounds it.
#[test]
fn without_a_bound_too_many_are_given_up() {
    let mut shape = Shape::new(4, 0b111, lease(100));
    shape.plant = Some(Plant::NoLimit);
    let mut count = 0;
    for seed in 1..=20 {
        let mut timed = Timed::new(shape.clone(), seed);
        timed.at(SECOND / 2, Event::Links(groups(4, &[0b0011, 0b1100])));
        timed.at(SECOND, Event::Links(all(4)));
        timed.run(3 * SECOND);
        count += u64::from(timed.stuck().is_some());
    }
    assert!(count > 0);
}

#[test]
fn whoever_ends_because_it_is_refused_ends_though_it_runs() {
    let shape = Shape::new(3, 0b111, lease(100));
    let mut count = [0, 0];
    for seed in 1..=300 {
        for (at, plant) in [None, Some(Plant::EndsWhenRefused)].into_iter().enumerate() {
            let mut planted = shape.clone();
            planted.plant = plant;
            let mut timed = phases(planted, seed, false);
            let until = timed.world.real + 2 * SECOND;
            timed.run(until);
            right(&timed, seed);
            count[at] += timed
                .world
                .lives
                .iter()
                .map(|n| usize::from(n.life()) - 1)
                .sum::<usize>();
        }
    }
    println!("ends of lives without a crash: {count:?}");
    assert!(count[1] > count[0]);
}
