//! One core at a time: what it answers.

use muoswyld_failures::{
    new_file, Failures, Input, Lease, Message, Name, NameSet, NoVoter, Notice, Output, Policy,
    Settings, Time,
};

const ID: [u8; 16] = [3; 16];

fn core(place: u8, founders: u16, policy: Policy) -> Failures {
    let settings = Settings::new(
        ID,
        Name::first(place),
        u64::from(place) + 1,
        founders,
        policy,
    );
    let file = new_file(ID, place);
    Failures::new(settings, Some(&file), Time(0)).expect("settings")
}

fn messages(core: &mut Failures) -> Vec<Vec<u8>> {
    let sent = core.take().into_iter().filter_map(|output| match output {
        Output::Send { payload, .. } => Some(payload),
        _ => None,
    });
    sent.collect()
}

/// All hear all, at a time.
fn exchange(cores: &mut [Failures], now: Time) {
    for _ in 0..3 {
        for from in 0..cores.len() {
            cores[from].handle(now, Input::Time);
            for message in messages(&mut cores[from]) {
                for (_, core) in cores.iter_mut().enumerate().filter(|(to, _)| *to != from) {
                    core.handle(now, Input::Datagram(&message));
                }
            }
        }
    }
}

#[test]
fn told_holds_nothing_and_passes_on_what_it_is_told() {
    let mut core = core(0, 0b11, Policy::Told);
    assert_eq!(core.wake(), Time::NEVER);
    assert!(core.begin(Time(1)));
    core.fix(Time(2));
    assert!(core.look(Time(3)));
    core.emitted();
    core.handle(Time(4), Input::Told(Name::first(1)));
    core.handle(Time(5), Input::Told(Name::first(1)));
    let one = Name::first(1);
    assert_eq!(core.take(), [Output::Stopped(one), Output::Word(one)]);
}

/// Some cores wake and hear each other, and others are silent; who asks for a fence of whom.
fn fences(cores: &mut [Failures], now: Time) -> Vec<(Name, Name)> {
    let mut fences = Vec::new();
    for from in 0..cores.len() {
        cores[from].handle(now, Input::Time);
        for output in cores[from].take() {
            match output {
                Output::Send { payload, .. } => {
                    for core in cores.iter_mut() {
                        core.handle(now, Input::Datagram(&payload));
                    }
                }
                Output::Fence { name, .. } => fences.push((cores[from].name(), name)),
                _ => {}
            }
        }
    }
    fences
}

#[test]
fn a_command_is_asked_for_a_fence_and_its_word_is_taken() {
    let mut cores: Vec<Failures> = (0..3)
        .map(|place| core(place, 0b111, Policy::Command))
        .collect();
    exchange(&mut cores, Time(0));
    let gone = Name::first(2);
    let running = &mut cores[..2];
    let mut turns = (1..).map(|turn| Time(turn * 100_000));
    let mut asked = Vec::new();
    while asked.is_empty() {
        let now = turns.next().filter(|now| *now < Time(5_000_000));
        asked = fences(running, now.expect("nobody asks"));
    }
    assert_eq!(asked, [(Name::first(0), gone)]);
    let fenced = |done| Input::Fenced { name: gone, done };
    running[0].handle(Time(0), fenced(false));
    assert!(!running[0].take().contains(&Output::Stopped(gone)));
    // it is tried again later
    let mut again = Vec::new();
    while again.is_empty() {
        let now = turns.next().filter(|now| *now < Time(10_000_000));
        let asked = fences(running, now.expect("nobody asks again"));
        again.extend(asked.into_iter().filter(|(asker, _)| asker.place() == 0));
    }
    assert_eq!(again, [(Name::first(0), gone)]);
    running[0].handle(Time(0), fenced(true));
    assert!(running[0].take().contains(&Output::Stopped(gone)));
}

#[test]
fn a_lease_holds_a_batch_as_a_whole() {
    let lease = Lease {
        length: 1_000_000,
        drift: 100,
        granule: 1,
    };
    let mut cores: Vec<Failures> = (0..3)
        .map(|place| core(place, 0b111, Policy::Lease(lease)))
        .collect();
    assert!(!cores[0].begin(Time(0)), "nobody has echoed yet");
    exchange(&mut cores, Time(10));
    let end = cores[0].info().may_act_until.expect("a lease");
    assert_eq!(end, Time(10).after(1_000_000));
    assert!(cores[0].begin(Time(20)) && cores[0].begin(Time(21)));
    cores[0].fix(Time(30));
    assert!(
        !cores[0].begin(Time(40)),
        "a fixed batch takes nothing more"
    );
    assert!(!cores[0].look(end), "the lease is over");
    assert!(cores[0].is_held() && !cores[0].begin(end));
    exchange(&mut cores, end);
    assert!(cores[0].look(end.after(5)));
    assert!(!cores[0].begin(end.after(6)), "it isn't out yet");
    cores[0].emitted();
    assert!(cores[0].begin(end.after(7)));
}

#[test]
fn an_echo_is_of_a_heartbeat_behind_the_step() {
    let mut cores: Vec<Failures> = (0..3)
        .map(|place| core(place, 0b111, Policy::Echo))
        .collect();
    exchange(&mut cores, Time(10));
    assert!(cores[0].begin(Time(20)));
    cores[0].fix(Time(30));
    assert!(!cores[0].look(Time(31)));
    exchange(&mut cores, Time(40));
    assert!(cores[0].look(Time(41)));
}

#[test]
fn a_place_without_its_file_neither_echoes_nor_refuses() {
    let new = |file: Option<&[u8]>| {
        let settings = Settings::new(ID, Name::first(1), 9, 0b111, Policy::Echo);
        Failures::new(settings, file, Time(0)).expect("settings")
    };
    let file = new_file(ID, 1);
    let mut other = core(0, 0b111, Policy::Echo);
    other.handle(Time(0), Input::Time);
    let heartbeat = messages(&mut other).remove(0);
    let echoes = |core: &mut Failures| -> usize {
        core.handle(Time(1), Input::Datagram(&heartbeat));
        let sent = messages(core);
        let read = sent.iter().filter_map(|bytes| Message::read(bytes));
        read.filter(|message| matches!(message, Message::Echo(_)))
            .count()
    };
    assert_eq!(echoes(&mut new(Some(&file))), 1);
    for bad in [None, Some(&file[..50]), Some(new_file(ID, 2).as_slice())] {
        let mut core = new(bad);
        assert_eq!(echoes(&mut core), 0);
        assert!(core.info().no_voter.is_some());
    }
}

/// A voter whose file is older than others remember is no voter any more, once it hears them. If it hears the refused name first, it
/// echoes it: a disk that goes back in time isn't always found out.
#[test]
fn an_older_file_is_found_out_by_whoever_remembers() {
    let mut cores: Vec<Failures> = (0..3)
        .map(|place| core(place, 0b111, Policy::Echo))
        .collect();
    exchange(&mut cores, Time(10));
    cores[1].refuse_anyway(Time(20), Name::first(2));
    let writes: Vec<u64> = cores[1]
        .take()
        .into_iter()
        .filter_map(|output| match output {
            Output::Write { number, .. } => Some(number),
            _ => None,
        })
        .collect();
    assert_eq!(writes, [1]);
    cores[1].handle(Time(21), Input::Written(1));
    exchange(&mut cores, Time(30));
    assert_eq!(cores[0].info().refused, NameSet::default());
    let name = Name::first(1).next_life().expect("a life");
    let settings = Settings::new(ID, name, 77, 0b111, Policy::Echo);
    let older = new_file(ID, 1);
    let mut back = Failures::new(settings, Some(&older), Time(0)).expect("settings");
    assert_eq!(back.info().no_voter, None);
    cores[0].handle(Time(500_000), Input::Time);
    for message in messages(&mut cores[0]) {
        back.handle(Time(1), Input::Datagram(&message));
    }
    assert_eq!(back.info().no_voter, Some(NoVoter::OldFile));
    let notice = Output::Notice(Notice::NoVoter(NoVoter::OldFile));
    assert!(back.take().contains(&notice));
}

#[test]
fn the_next_life_of_a_place_says_that_the_one_before_has_ended() {
    let mut one = core(0, 0b111, Policy::Echo);
    let name = Name::first(1).next_life().expect("a life");
    let settings = Settings::new(ID, name, 77, 0b111, Policy::Echo);
    let mut next = Failures::new(settings, None, Time(0)).expect("settings");
    next.handle(Time(0), Input::Time);
    for message in messages(&mut next) {
        one.handle(Time(5), Input::Datagram(&message));
    }
    assert!(one.take().contains(&Output::Stopped(Name::first(1))));
}

#[test]
fn who_was_given_up_ends_and_lets_nothing_out() {
    let mut cores: Vec<Failures> = (0..3)
        .map(|place| core(place, 0b111, Policy::Echo))
        .collect();
    exchange(&mut cores, Time(10));
    assert!(cores[2].begin(Time(11)));
    cores[2].fix(Time(12));
    for core in &mut cores[..2] {
        core.refuse_anyway(Time(20), Name::first(2));
        core.handle(Time(21), Input::Written(1));
    }
    exchange(&mut cores, Time(30));
    cores[2].handle(Time(40), Input::Time);
    assert!(cores[0].info().stopped.has(Name::first(2)));
    assert!(!cores[2].look(Time(41)) && !cores[2].begin(Time(42)));
    assert_eq!(cores[2].wake(), Time::NEVER);
}

#[test]
fn a_failed_write_ends_the_vote() {
    let mut core = core(0, 0b111, Policy::Echo);
    core.handle(Time(1), Input::NotWritten);
    assert_eq!(core.info().no_voter, Some(NoVoter::NotWritten));
}

/// Founders that begin one after the other don't give up who hasn't begun; but who has run is suspected once it is silent.
#[test]
fn a_founder_that_never_ran_is_waited_for() {
    /// Whom the first of some cores suspects after ten seconds in which all hear each other.
    fn suspects(cores: &mut [Failures]) -> NameSet {
        for turn in 0..100 {
            exchange(cores, Time(turn * 100_000));
        }
        cores[0].info().suspects
    }
    let echo = |place| core(place, 0b111, Policy::Echo);
    let mut founders = [echo(0), echo(1)];
    assert!(suspects(&mut founders).is_empty());
    founders[0].note_ran(Name::first(2));
    founders[0].handle(Time(10_000_000), Input::Time);
    assert!(founders[0].info().suspects.has(Name::first(2)));
    // a later life hasn't been there from the beginning, and may have missed it
    let later = Name::first(0).next_life().expect("a life");
    let mut settings = Settings::new(ID, later, 9, 0b111, Policy::Echo);
    settings.silence = settings.least_silence();
    let back = Failures::new(settings, None, Time(0)).expect("settings");
    let found = suspects(&mut [back.clone(), echo(1)]);
    assert!(found.has(Name::first(2)), "{found:?}");
    let found = suspects(&mut [back, echo(1), echo(2)]);
    assert!(!found.has(Name::first(2)), "{found:?}");
}

/// Who comes again and again doesn't hide that another one is silent.
#[test]
fn a_member_that_comes_begins_its_own_silence_alone() {
    let mut cores: Vec<Failures> = (0..3)
        .map(|place| core(place, 0b111, Policy::Echo))
        .collect();
    exchange(&mut cores, Time(0));
    let mut gone = None;
    let mut name = Name::first(5);
    for turn in 1..40 {
        let now = Time(turn * 50_000);
        let running = &mut cores[..2];
        exchange(running, now);
        let members = [Name::first(0), Name::first(1), Name::first(2), name];
        name = match turn % 2 {
            0 => name.next_life().unwrap_or(name),
            _ => name,
        };
        let members: NameSet = members.into_iter().collect();
        running[0].handle(now, Input::View { members, least: 2 });
        if running[0].info().suspects.has(Name::first(2)) {
            gone = gone.or(Some(now));
        }
    }
    println!("suspected at {gone:?}");
    assert!(gone.is_some());
}
