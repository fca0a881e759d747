//! Guarded members, turn by turn.

use muoswyld_failures::{
    new_file, places_of, Failures, Heard, Heartbeat, Message, NameSet, Policy, Settings as Core,
    Time as CoreTime,
};
use muoswyld_guarded::{next_id, Closing, Deed, Ending, Guarded};
use muoswyld_member::{
    Delivery, Founding, Generations, HandleError, Input, Name, Next, Output, Settings, Time,
};

const ID: [u8; 16] = [4; 16];

fn guarded(place: u8, policy: Policy) -> Guarded {
    let name = Name::first(place).expect("a name");
    begun(name, policy, None)
}

/// One that begins in the first list, or in the next one with this group's id.
fn begun(name: Name, policy: Policy, next: Option<u64>) -> Guarded {
    let founding = Founding {
        founders: (0..3).filter_map(Name::first).collect(),
        resilience: 1,
        window: 64,
        pb_up_to: 1024,
    };
    let process = u64::from(name.byte()) + 1;
    let mut settings = Settings::new(name, founding, process);
    settings.group = next;
    settings.generation = u32::from(next.is_some());
    let lists = Generations::new(settings.clone(), Time(0)).expect("a member");
    let own = muoswyld_failures::Name::of_byte(name.byte());
    let id = next.map_or(ID, |group| next_id(ID, group));
    let core = Core::new(id, own, process, places_of(0..3), policy);
    let file = new_file(id, name.place());
    let failures = Failures::new(core, Some(&file), CoreTime(0)).expect("settings");
    Guarded::new(lists, failures, &settings)
}

/// What a turn of one brought: datagrams with their places, and whether the batch went out.
fn turn(one: &mut Guarded, now: Time) -> (Vec<(u16, Vec<u8>)>, Vec<Output>) {
    one.tick(now);
    one.fix(now);
    let mut sent = Vec::new();
    for deed in one.deeds(now) {
        if let Deed::Send { to, payload, .. } = deed {
            sent.push((to, payload));
        }
    }
    let mut out = Vec::new();
    if one.look(now) {
        one.batch(now, &mut out);
        one.emitted(now);
    }
    let out: Vec<Output> = out.into_iter().map(|released| released.output).collect();
    for output in &out {
        if let Output::Datagram { to, payload } = output {
            let places = to.iter().fold(0, |all, name| all | 1 << name.place());
            sent.push((places, payload.clone()));
        }
    }
    (sent, out)
}

/// All turn and hear each other for a while, but who is left out; what each let out.
fn run(all: &mut [Guarded], (from, to): (u64, u64), without: &[u8]) -> Vec<Vec<Output>> {
    let mut outs: Vec<Vec<Output>> = all.iter().map(|_| Vec::new()).collect();
    for step in from..to {
        let now = Time(step * 1_000);
        for place in (0..all.len()).filter(|place| !without.contains(&(*place as u8))) {
            let (sent, out) = turn(&mut all[place], now);
            outs[place].extend(out);
            for (places, payload) in sent {
                for other in (0..all.len()).filter(|other| places >> other & 1 == 1) {
                    if other != place && !without.contains(&(other as u8)) {
                        all[other].hear(now, &payload);
                    }
                }
            }
        }
    }
    outs
}

fn three(policy: Policy) -> Vec<Guarded> {
    let mut all: Vec<Guarded> = (0..3).map(|place| guarded(place, policy)).collect();
    run(&mut all, (0, 400), &[]);
    for one in &all {
        assert!(one.info().group.is_some(), "the group is known");
    }
    all
}

#[test]
fn what_is_told_is_let_out_in_the_same_turn() {
    let mut all = three(Policy::Told);
    let now = Time(400_000);
    let gone = Name::first(0).expect("a name");
    assert_eq!(all[1].told(now, gone), Ok(()));
    let itself = Name::first(1).expect("a name");
    assert_eq!(all[1].told(now, itself), Err(HandleError::Itself));
    let (sent, _) = turn(&mut all[1], now);
    assert!(!sent.is_empty(), "the lowest running member resets at once");
    let outs = run(&mut all, (401, 600), &[0]);
    let is_view = |output: &Output| matches!(output, Output::Deliver(Delivery::View { members, .. }) if !members.has(gone));
    assert!(outs[1].iter().any(is_view) && outs[2].iter().any(is_view));
}

#[test]
fn a_batch_is_held_until_it_is_echoed_and_nobody_is_told_of_it() {
    let mut all = three(Policy::Echo);
    let send = |one: &mut Guarded, now: u64| {
        let message = b"held".to_vec();
        one.handle(Time(now), Input::Send { ticket: 1, message })
    };
    // the sequencer is cut off: what it does stays with it
    assert_eq!(send(&mut all[0], 400_000), Ok(()));
    let before = all[0].info().standing;
    let outs = run(&mut all, (400, 450), &[1, 2]);
    assert!(outs[0].is_empty() && all[0].is_held());
    assert_eq!(all[0].info().standing, before);
    assert!(all[0].member().info().standing.top > before.top);
    assert_eq!(all[0].free(), 0);
    assert!(
        send(&mut all[0], 450_000).is_err(),
        "there is no room meanwhile"
    );
    // once it is heard again all of it goes out, in order
    let outs = run(&mut all, (451, 600), &[]);
    for out in &outs {
        let is_it = |output: &&Output| matches!(output, Output::Deliver(Delivery::Message { message, .. }) if message == b"held");
        assert_eq!(out.iter().filter(is_it).count(), 1);
    }
    assert!(outs[0].contains(&Output::Settled {
        ticket: 1,
        result: Ok(muoswyld_member::Position {
            generation: 0,
            number: 2,
            index: 0
        }),
    }));
}

// ---- lists that follow one another

/// A turn of one in which deeds are noted, too; a list that is to begin isn't answered.
fn deeds_of(one: &mut Guarded, now: Time) -> Vec<Deed> {
    one.tick(now);
    one.fix(now);
    let deeds = one.deeds(now);
    let mut out = Vec::new();
    if one.look(now) {
        one.batch(now, &mut out);
        one.emitted(now);
    }
    deeds
}

fn next_list(voters: Option<&str>) -> Next {
    Next {
        resilience: 1,
        window: 32,
        pb_up_to: 512,
        voters: voters.map(|names| names.parse().expect("names")),
    }
}

/// All turn and hear each other; what each was asked to begin.
fn begins(all: &mut [Guarded], (from, to): (u64, u64)) -> Vec<Vec<Deed>> {
    let mut begun: Vec<Vec<Deed>> = all.iter().map(|_| Vec::new()).collect();
    for step in from..to {
        let now = Time(step * 1_000);
        for place in 0..all.len() {
            let one = &mut all[place];
            one.tick(now);
            one.fix(now);
            let mut sent = Vec::new();
            for deed in one.deeds(now) {
                match deed {
                    Deed::Send { to, payload, .. } => sent.push((to, payload)),
                    deed @ (Deed::Begin { .. } | Deed::Closed { .. }) => begun[place].push(deed),
                    _ => {}
                }
            }
            let mut out = Vec::new();
            if one.look(now) {
                one.batch(now, &mut out);
                one.emitted(now);
            }
            for released in out {
                if let Output::Datagram { to, payload } = released.output {
                    let places = to.iter().fold(0, |all, name| all | 1 << name.place());
                    sent.push((places, payload));
                }
            }
            for (places, payload) in sent {
                for other in (0..all.len()).filter(|other| places >> other & 1 == 1) {
                    if other != place {
                        all[other].hear(now, &payload);
                    }
                }
            }
        }
    }
    begun
}

#[test]
fn the_next_list_begins_once_that_is_on_disk_with_voters_of_its_own() {
    let mut all = three(Policy::Echo);
    let now = Time(400_000);
    let voters = |names| Input::Succeed(next_list(Some(names)));
    assert_eq!(
        all[0].handle(now, voters("0,1")),
        Err(HandleError::EvenVoters(2))
    );
    let four = Name::first(4).expect("a name");
    assert_eq!(
        all[0].handle(now, voters("4")),
        Err(HandleError::Voter(four))
    );
    assert_eq!(all[0].handle(now, Input::Succeed(next_list(None))), Ok(()));
    let begun = begins(&mut all, (401, 460));
    for (place, (one, begun)) in all.iter_mut().zip(&begun).enumerate() {
        let [Deed::Begin {
            generation: 1,
            group,
            id,
            name,
            voter,
        }] = begun.as_slice()
        else {
            panic!("{begun:?}");
        };
        assert_eq!(Some(*name), Name::first(place as u8));
        assert_eq!(*id, next_id(ID, *group));
        assert_eq!(*voter, Some(new_file(*id, place as u8)));
        // nothing of the next list goes out, and nothing is taken for it
        assert_eq!((one.generation(), one.free()), (0, 0));
        let again = one.handle(Time(460_000), Input::Succeed(next_list(None)));
        assert_eq!(again, Err(HandleError::NotNow));
        one.begun(Time(460_000), 1, true);
        assert_eq!(one.generation(), 1);
    }
    let closed = begins(&mut all, (461, 700));
    for (one, closed) in all.iter().zip(closed) {
        assert_eq!(
            closed,
            [Deed::Closed {
                generation: 0,
                why: Closing::Over
            }]
        );
        let standing = one.info().standing;
        assert_eq!((standing.members.len(), one.lists().ended_lists()), (3, 0));
        assert_eq!(one.no_voter(), None);
    }
}

#[test]
fn what_waits_for_the_next_list_is_given_where_nothing_is_looked_at() {
    let mut all = three(Policy::Told);
    let succeed = Input::Succeed(next_list(None));
    assert_eq!(all[0].handle(Time(400_000), succeed), Ok(()));
    let begun = begins(&mut all, (401, 460));
    assert!(begun.iter().all(|deeds| deeds.len() == 1));
    // two begin it before the third one, which is asked to reset meanwhile
    for one in &mut all[..2] {
        one.begun(Time(460_000), 1, true);
    }
    begins(&mut all, (461, 480));
    let reset = Input::Reset {
        ticket: 7,
        least: Some(1),
        resilience: None,
    };
    assert_eq!(all[2].handle(Time(480_000), reset), Ok(()));
    all[2].begun(Time(480_000), 1, true);
    let outs = run(&mut all, (481, 700), &[]);
    let is_done = |output: &Output| {
        matches!(
            output,
            Output::ResetDone {
                ticket: 7,
                result: Ok(_)
            }
        )
    };
    assert!(outs[2].iter().any(is_done));
    for one in &all {
        assert!(
            one.wake() > Time(699_000),
            "nothing waits: {:?}",
            one.wake()
        );
    }
}

#[test]
fn a_life_whose_next_beginning_is_not_written_ends() {
    let mut all = three(Policy::Echo);
    let now = Time(400_000);
    assert_eq!(all[0].handle(now, Input::Succeed(next_list(None))), Ok(()));
    begins(&mut all, (401, 460));
    all[2].begun(Time(460_000), 1, false);
    let ended = Deed::Ended {
        generation: 1,
        why: Ending::NotBegun,
    };
    assert!(deeds_of(&mut all[2], Time(460_000)).contains(&ended));
    assert!(!all[2].look(Time(461_000)));
}

#[test]
fn a_fence_asks_a_majority_in_the_next_list_too() {
    let mut all = three(Policy::Command);
    assert_eq!(
        all[0].handle(Time(400_000), Input::Succeed(next_list(None))),
        Ok(())
    );
    begins(&mut all, (401, 460));
    for one in &mut all {
        one.begun(Time(460_000), 1, true);
    }
    begins(&mut all, (461, 700));
    // 0 hears nobody, and fences nobody: it is no majority
    let mut alone = Vec::new();
    for step in 700..4_000 {
        alone.extend(deeds_of(&mut all[0], Time(step * 1_000)));
    }
    let is_fence = |deed: &&Deed| matches!(deed, Deed::Fence { .. });
    assert_eq!(alone.iter().find(is_fence), None);
    // 1 and 2 hear each other, and fence it
    let (from, to) = (4_000, 8_000);
    let rest = &mut all[1..];
    let mut asked = Vec::new();
    for step in from..to {
        let now = Time(step * 1_000);
        for place in 0..2 {
            for deed in deeds_of(&mut rest[place], now) {
                match deed {
                    Deed::Send { payload, .. } => rest[1 - place].hear(now, &payload),
                    Deed::Fence {
                        generation, name, ..
                    } => asked.push((generation, name)),
                    _ => {}
                }
            }
        }
    }
    assert_eq!(asked.first().copied(), Name::first(0).map(|name| (1, name)));
}

#[test]
fn a_word_holds_in_both_lists_and_a_silence_is_found_in_each() {
    let mut all = three(Policy::Echo);
    let now = Time(400_000);
    assert_eq!(all[0].handle(now, Input::Succeed(next_list(None))), Ok(()));
    begins(&mut all, (401, 460));
    // 2 never begins the next list, so the old one is served
    for one in &mut all[..2] {
        one.begun(Time(460_000), 1, true);
    }
    let gone = Name::first(2).expect("a name");
    assert_eq!(all[0].told(Time(461_000), gone), Ok(()));
    let stopped: Vec<u32> = deeds_of(&mut all[0], Time(461_000))
        .into_iter()
        .filter_map(|deed| match deed {
            Deed::Stopped { generation, name } if name == gone => Some(generation),
            _ => None,
        })
        .collect();
    // it is told in the latest one, and passed on
    assert_eq!(stopped, [1, 0]);
}

/// The messages that one sends in a turn to a place.
fn sent_to(one: &mut Guarded, now: Time, place: u8) -> Vec<Vec<u8>> {
    let deeds = deeds_of(one, now).into_iter();
    let to_it = |deed| match deed {
        Deed::Send { to, payload, .. } if to >> place & 1 == 1 => Some(payload),
        _ => None,
    };
    deeds.filter_map(to_it).collect()
}

/// What one says that hears another one's heartbeats, but for its own heartbeats.
fn answers(one: &mut Guarded, other: &mut Guarded, now: u64, place: u8) -> Vec<Message> {
    for payload in sent_to(other, Time(now), one.info().name.place()) {
        one.hear(Time(now), &payload);
    }
    let said = sent_to(one, Time(now), place);
    let said = said.iter().filter_map(|payload| Message::read(payload));
    said.filter(|message| !matches!(message, Message::Heartbeat(_)))
        .collect()
}

/// Why one ends that hears a message.
fn end_by(one: &mut Guarded, now: u64, message: &Message) -> Option<Ending> {
    one.hear(Time(now), &message.to_bytes());
    let deeds = deeds_of(one, Time(now)).into_iter();
    let mut ends = deeds.filter_map(|deed| match deed {
        Deed::Ended { why, .. } => Some(why),
        _ => None,
    });
    ends.next()
}

/// What two say that began in the next list, and never served the first one, to one that speaks there.
fn said_elsewhere(behind: &mut Guarded) -> Vec<Message> {
    let place = behind.info().name.place();
    let mut all = Vec::new();
    for back in 0..2 {
        let name = Name::new(back, 2).expect("a name");
        let mut back = begun(name, Policy::Echo, Some(7));
        let now = 1_000_000 + u64::from(back.info().name.place()) * 200_000;
        // it says so to each heartbeat
        all.extend(answers(&mut back, behind, now, place).first().cloned());
    }
    all
}

#[test]
fn who_is_behind_ends_once_a_majority_of_its_voters_is_elsewhere() {
    let mut all = three(Policy::Echo);
    let said = said_elsewhere(&mut all[2]);
    let [one, other] = said.as_slice() else {
        panic!("{said:?}");
    };
    let now = 1_500_000;
    // one voter, however often it says so, takes away no majority
    assert_eq!(end_by(&mut all[2], now, one), None);
    assert_eq!(end_by(&mut all[2], now, one), None);
    // it isn't said to another one
    assert_eq!(end_by(&mut all[1], now, one), None);
    assert_eq!(end_by(&mut all[1], now, other), None);
    assert_eq!(end_by(&mut all[2], now, other), Some(Ending::Unserved));
}

#[test]
fn who_asks_to_join_a_list_that_nobody_serves_ends_as_superseded() {
    let asker = || begun(Name::first(3).expect("a name"), Policy::Echo, None);
    let mut one = asker();
    let said = said_elsewhere(&mut one);
    let ends: Vec<_> = said
        .iter()
        .map(|it| end_by(&mut one, 1_500_000, it))
        .collect();
    assert_eq!(ends, [None, Some(Ending::Superseded)]);
    let to = muoswyld_failures::Name::first(3);
    let closed = Message::Closed { id: ID, to };
    let end = end_by(&mut asker(), 1_000, &closed);
    assert_eq!(end, Some(Ending::Superseded));
}

#[test]
fn who_is_behind_says_nothing_of_a_later_list() {
    let mut all = three(Policy::Echo);
    let mut later = begun(Name::first(0).expect("a name"), Policy::Echo, Some(7));
    assert_eq!(answers(&mut all[2], &mut later, 1_000_000, 0), []);
    // and what such a one says counts for nothing
    for place in 0..2 {
        let id = next_id(ID, 7);
        let to = muoswyld_failures::Name::first(0);
        let generation = 1;
        let behind = Message::Elsewhere {
            id,
            to,
            place,
            generation,
        };
        assert_eq!(end_by(&mut later, 1_100_000, &behind), None);
    }
}

/// The heartbeat of a name of the first list that has refused another one.
fn refusing(place: u8, refused: u8) -> Vec<u8> {
    let none = NameSet::default();
    let name = muoswyld_failures::Name::first;
    let heartbeat = Heartbeat {
        id: ID,
        from: Heard {
            name: name(place),
            process: u64::from(place) + 1,
            sequence: 1_000_000,
        },
        asks: false,
        counter: Some(1),
        frozen_for: None,
        members: (0..3).map(name).collect(),
        suspects: none,
        wants: none,
        refuses: [name(refused)].into_iter().collect(),
        ripe: none,
        stopped: none,
        words: none,
        heard: Vec::new(),
        counters: Vec::new(),
    };
    Message::Heartbeat(Box::new(heartbeat)).to_bytes()
}

/// 0 and 2 come to the end of the first list, and 1 doesn't. 1 has refused 0, and 2 votes no more: so nobody may echo 0 again but itself.
#[test]
fn whoever_can_never_act_in_an_ended_list_leaves_it_after_a_while() {
    let mut all = three(Policy::Echo);
    let now = Time(400_000);
    assert_eq!(all[0].handle(now, Input::Succeed(next_list(None))), Ok(()));
    begins(&mut all, (401, 460));
    for one in [0, 2] {
        all[one].begun(Time(460_000), 1, true);
    }
    assert_eq!(all[0].served().collect::<Vec<u32>>(), [0, 1]);
    let mut closed = Vec::new();
    let mut step = |all: &mut [Guarded], now: u64, says: bool| {
        all[0].tick(Time(now));
        if says {
            all[0].hear(Time(now), &refusing(1, 0));
        }
        all[0].fix(Time(now));
        let deeds = deeds_of(&mut all[0], Time(now)).into_iter();
        closed.extend(deeds.filter(|deed| matches!(deed, Deed::Closed { .. })));
    };
    // it is frozen for long, but 1 and 2 may echo it again
    for now in (461..15_000).map(|milli| milli * 1_000) {
        step(&mut all, now, false);
    }
    // 1 has refused it, and 2 may echo it still
    step(&mut all, 15_000_000, true);
    step(&mut all, 15_100_000, false);
    // 2 began in a later list, and says so
    let elsewhere = Message::Elsewhere {
        id: ID,
        to: muoswyld_failures::Name::first(0),
        place: 2,
        generation: 1,
    };
    assert_eq!(all[0].served().count(), 2);
    all[0].hear(Time(15_200_000), &elsewhere.to_bytes());
    step(&mut all, 15_300_000, false);
    let why = Closing::Lost;
    assert_eq!(closed, [Deed::Closed { generation: 0, why }]);
    assert_eq!(all[0].served().collect::<Vec<u32>>(), [1]);
    // whoever speaks there is told that 0 is elsewhere, and not that the list is closed
    all[0].hear(Time(15_400_000), &refusing(1, 0));
    let said = sent_to(&mut all[0], Time(15_400_000), 1);
    let said: Vec<Message> = said.iter().filter_map(|it| Message::read(it)).collect();
    let is_elsewhere = |it: &Message| matches!(it, Message::Elsewhere { place: 0, .. });
    assert!(said.iter().any(is_elsewhere), "{said:?}");
}
