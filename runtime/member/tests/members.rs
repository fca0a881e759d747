//! Members by their public calls: limits, order, back pressure, ticks by need, and bytes that are none.

use muoswyld_member::{
    Delivery, End, Founding, HandleError, Input, Member, Name, Notice, Output, Position, Role,
    Settings, StartError, Time, MESSAGE_HEAD, MOST_MESSAGE,
};
use proptest::prelude::*;

fn founding(founders: &str, resilience: u8, window: u16) -> Founding {
    Founding {
        founders: founders.parse().expect("names"),
        resilience,
        window,
        pb_up_to: 1024,
    }
}

fn name(text: &str) -> Name {
    text.parse().expect("a name")
}

fn settings(text: &str, founding: Founding) -> Settings {
    let name = name(text);
    Settings::new(name, founding, 100 + u64::from(name.byte()))
}

fn member(name: &str, founding: Founding) -> Member {
    Member::new(settings(name, founding), Time(0)).expect("a member")
}

fn released(member: &mut Member, now: u64) -> Vec<Output> {
    let mut out = Vec::new();
    member.release(Time(now), &mut out);
    out
}

fn tick(member: &mut Member, now: u64) {
    member.handle(Time(now), Input::Time).expect("it runs");
}

fn send(member: &mut Member, now: u64, ticket: u64, message: &[u8]) {
    let message = message.to_vec();
    let input = Input::Send { ticket, message };
    member.handle(Time(now), input).expect("it is taken");
}

/// Carries all datagrams between members until there are none, and gives each the time that it wants; what else came out, of each.
fn carried(members: &mut [&mut Member], now: u64) -> Vec<Vec<Output>> {
    let mut others: Vec<Vec<Output>> = members.iter().map(|_| Vec::new()).collect();
    for _ in 0..300 {
        let mut datagrams = Vec::new();
        for (member, other) in members.iter_mut().zip(&mut others) {
            let mut outputs = released(member, now);
            if member.wake() <= Time(now) {
                tick(member, now);
                outputs.extend(released(member, now));
            }
            for output in outputs {
                match output {
                    Output::Datagram { to, payload } => datagrams.push((to, payload)),
                    output => other.push(output),
                }
            }
        }
        if datagrams.is_empty() {
            return others;
        }
        for (to, payload) in datagrams {
            for member in members.iter_mut() {
                if to.at(member.info().name.place()).is_some() {
                    let _ = member.handle(Time(now), Input::Datagram(&payload));
                }
            }
        }
    }
    panic!("datagrams don't end");
}

/// Two founders that know their group.
fn pair(resilience: u8, window: u16) -> [Member; 2] {
    let founding = founding("0,1", resilience, window);
    let [mut first, mut second] = ["0", "1"].map(|name| member(name, founding));
    carried(&mut [&mut first, &mut second], 0);
    assert!(first.info().group.is_some());
    assert_eq!(first.info().group, second.info().group);
    [first, second]
}

fn count(outputs: &[Output], is_one: fn(&Output) -> bool) -> usize {
    outputs.iter().filter(|output| is_one(output)).count()
}

fn is_delivery(output: &Output) -> bool {
    matches!(output, Output::Deliver(_))
}

#[test]
fn settings_that_are_none_are_refused() {
    let good = settings("0", founding("0,1,2", 1, 16));
    let with = |change: fn(&mut Settings)| {
        let mut settings = good.clone();
        change(&mut settings);
        Member::new(settings, Time(0)).err()
    };
    assert_eq!(with(|_| ()), None);
    let refused = [
        (
            with(|s| s.founding = founding("-", 0, 1)),
            StartError::NoFounders,
        ),
        (
            with(|s| s.founding = founding("0/2", 0, 1)),
            StartError::LaterLife,
        ),
        (with(|s| s.founding.resilience = 16), StartError::Resilience),
        (with(|s| s.founding.window = 0), StartError::Window),
        (with(|s| s.founding.window = 1009), StartError::Window),
        (with(|s| s.founding.pb_up_to = 1025), StartError::PbUpTo),
        (with(|s| s.most_streamed = 0x3_ffff), StartError::Streamed),
        (with(|s| s.most_streamed = 0x40_0001), StartError::Streamed),
        (with(|s| s.datagram = 1231), StartError::Datagram),
        (with(|s| s.most_waiting = 65_566), StartError::Waiting),
        (with(|s| s.deliveries = 0), StartError::Deliveries),
        (with(|s| s.least = Some(17)), StartError::Least),
        (with(|s| s.slow_tick = 0), StartError::Period),
    ];
    for (found, wanted) in refused {
        assert_eq!(found, Some(wanted));
    }
}

#[test]
fn messages_are_delivered_in_order_and_settled_behind() {
    let [mut first, mut second] = pair(1, 64);
    for (ticket, message) in [(7, &b"a"[..]), (8, b""), (9, b"c")] {
        send(&mut second, 10, ticket, message);
    }
    let outputs = carried(&mut [&mut first, &mut second], 20);
    let at = |number, index| Position {
        generation: 0,
        number,
        index,
    };
    let message = |number, index, text: &[u8]| {
        Output::Deliver(Delivery::Message {
            at: at(number, index),
            from: name("1"),
            message: text.to_vec(),
        })
    };
    let settled = |ticket, number, index| Output::Settled {
        ticket,
        result: Ok(at(number, index)),
    };
    // the first goes out alone, and the others gather meanwhile
    let wanted = [
        message(2, 0, b"a"),
        settled(7, 2, 0),
        message(3, 0, b""),
        message(3, 1, b"c"),
        settled(8, 3, 0),
        settled(9, 3, 1),
    ];
    assert_eq!(outputs[1], wanted);
    let theirs: Vec<Output> = wanted.into_iter().filter(is_delivery).collect();
    assert_eq!(outputs[0], theirs);
}

#[test]
fn a_message_of_every_edge_comes_whole() {
    let [mut first, mut second] = pair(0, 64);
    let lengths = [0, 1, 1019, 1020, 1021, 1022, 1023, 1024, 65_534, 65_535];
    for (ticket, length) in (0..).zip(lengths) {
        send(&mut second, 10, ticket, &vec![ticket as u8; length]);
    }
    let mut seen = Vec::new();
    for turn in 0..20 {
        let now = 20 + turn * 60_000;
        let outputs = carried(&mut [&mut first, &mut second], now);
        for output in &outputs[0] {
            if let Output::Deliver(Delivery::Message { message, .. }) = output {
                assert!(message.iter().all(|byte| usize::from(*byte) == seen.len()));
                seen.push(message.len());
            }
        }
        tick(&mut first, now + 59_000);
        tick(&mut second, now + 59_000);
    }
    assert_eq!(seen, lengths);
}

#[test]
fn what_is_too_long_or_too_much_comes_back() {
    let mut settings = settings("1", founding("0,1", 0, 16));
    settings.most_waiting = MOST_MESSAGE + MESSAGE_HEAD;
    let mut member = Member::new(settings, Time(0)).expect("a member");
    let put = |member: &mut Member, ticket, message: Vec<u8>| {
        member.handle(Time(3), Input::Send { ticket, message })
    };
    let message = vec![5; MOST_MESSAGE + 1];
    let refused = put(&mut member, 1, message.clone());
    assert_eq!(refused, Err(HandleError::TooLong { message }));
    assert_eq!(member.room(), MOST_MESSAGE);
    assert_eq!(put(&mut member, 1, vec![1; 65_000]), Ok(()));
    let room = MOST_MESSAGE - 65_000 - MESSAGE_HEAD;
    assert_eq!(member.room(), room);
    let message = vec![2; room + 1];
    let refused = put(&mut member, 2, message.clone());
    assert_eq!(refused, Err(HandleError::Full { message, room }));
    assert_eq!(member.info().unsettled, 1);
    assert_eq!(put(&mut member, 2, vec![2; room]), Ok(()));
    assert_eq!((member.room(), member.info().unsettled), (0, 2));
}

#[test]
fn an_application_that_takes_nothing_is_given_no_more() {
    let mut settings = settings("0", founding("0", 0, 16));
    settings.deliveries = 3;
    let mut member = Member::new(settings, Time(0)).expect("a member");
    let mut given = 0;
    for ticket in 0..10 {
        send(&mut member, 10 + ticket, ticket, b"x");
        given += count(&released(&mut member, 10 + ticket), is_delivery);
    }
    assert_eq!(given, 3);
    let standing = member.info().standing;
    assert!(standing.taken < standing.accepted);
    let more = member.handle(Time(100), Input::Consumed(1));
    assert_eq!(more, Ok(()));
    assert_eq!(count(&released(&mut member, 100), is_delivery), 1);
}

#[test]
fn an_idle_member_ticks_slowly_and_one_that_waits_doubles() {
    let [mut first, mut second] = pair(0, 64);
    for turn in 1..40 {
        tick(&mut first, turn * 50_000);
        tick(&mut second, turn * 50_000);
        carried(&mut [&mut first, &mut second], turn * 50_000);
    }
    let (now, before) = (second.wake().0, second.info().counts.ticks);
    tick(&mut second, now);
    assert_eq!(second.info().counts.ticks, before + 1);
    assert_eq!(second.wake(), Time(now + 50_000));
    released(&mut second, now);
    // nothing answers its send
    send(&mut second, now, 1, b"lost");
    released(&mut second, now);
    let mut periods = Vec::new();
    let mut last = now;
    for _ in 0..8 {
        let wake = second.wake().0;
        tick(&mut second, wake);
        assert!(!released(&mut second, wake).is_empty());
        periods.push(wake - last);
        last = wake;
    }
    assert!(
        periods[0] >= 1_000 && periods[1] == 2 * periods[0],
        "{periods:?}"
    );
    assert!(
        periods.iter().all(|period| *period <= 50_000),
        "{periods:?}"
    );
}

#[test]
fn a_sequencer_sends_one_body_a_turn_below_half_of_the_window() {
    let mut first = member("0", founding("0,1", 0, 16));
    send(&mut first, 1, 20, &[0; 1000]);
    for turn in 0..20 {
        // it waits for the next turn, since one has gone out in this one
        send(&mut first, 1, turn, &[0; 1000]);
        assert_eq!(first.info().counts.bodies_sent, (turn + 1).min(7), "{turn}");
        released(&mut first, 1);
        tick(&mut first, 1);
    }
    let standing = first.info().standing;
    assert_eq!((standing.base, standing.top), (0, 8));
}

#[test]
fn a_member_that_took_a_quarter_of_the_window_reports() {
    let [mut first, mut second] = pair(0, 16);
    let before = second.info().counts.ticks;
    for ticket in 0..8 {
        send(&mut first, 5, ticket, &[0; 1000]);
        carried(&mut [&mut first, &mut second], 5);
    }
    assert_eq!(second.info().counts.ticks, before + 2);
}

#[test]
fn who_takes_nothing_is_told_as_slow() {
    let founding = founding("0,1", 0, 8);
    let mut first = member("0", founding);
    let mut slow = settings("1", founding);
    slow.deliveries = 1;
    let mut second = Member::new(slow, Time(0)).expect("a member");
    carried(&mut [&mut first, &mut second], 0);
    let mut told = Vec::new();
    for turn in 0..300 {
        let now = turn * 50_000;
        send(&mut first, now, turn, &[0; 1000]);
        tick(&mut second, now);
        let outputs = carried(&mut [&mut first, &mut second], now);
        told.extend(outputs.into_iter().next().unwrap_or_default());
    }
    assert_eq!(first.info().slow.to_string(), "1");
    let is_slow = |output: &Output| *output == Output::Told(Notice::Slow(Name::of_byte(1)));
    assert_eq!(count(&told, is_slow), 1);
}

#[test]
fn the_last_member_closes_the_group() {
    let mut only = member("0", founding("0", 0, 16));
    send(&mut only, 1, 1, b"bye");
    assert_eq!(only.handle(Time(2), Input::Leave), Ok(()));
    let outputs = released(&mut only, 3);
    assert_eq!(outputs.last(), Some(&Output::Ended(End::Closed)));
    let is_settled = |output: &Output| matches!(output, Output::Settled { result: Ok(_), .. });
    assert_eq!(count(&outputs, is_settled), 1);
    assert_eq!(only.handle(Time(4), Input::Time), Err(HandleError::Ended));
    assert_eq!(only.wake(), Time::NEVER);
}

#[test]
fn a_member_leaves_and_the_other_one_stays() {
    let [mut first, mut second] = pair(0, 16);
    assert_eq!(second.handle(Time(10), Input::Leave), Ok(()));
    let (ticket, message) = (1, vec![1]);
    let refused = second.handle(Time(10), Input::Send { ticket, message });
    let message = vec![1];
    assert_eq!(refused, Err(HandleError::Leaving { message }));
    let outputs = carried(&mut [&mut first, &mut second], 20);
    assert_eq!(outputs[1].last(), Some(&Output::Ended(End::Left)));
    let is_left = |output: &Output| matches!(output, Output::Deliver(Delivery::Left { .. }));
    assert_eq!(count(&outputs[0], is_left), 1);
    assert_eq!(first.info().standing.members.to_string(), "0");
}

#[test]
fn who_stopped_is_given_up_by_the_lowest_that_runs() {
    let founding = founding("0,1,2", 1, 16);
    let [mut first, mut second, mut third] = ["0", "1", "2"].map(|name| member(name, founding));
    carried(&mut [&mut first, &mut second, &mut third], 0);
    for member in [&mut second, &mut third] {
        let told = member.handle(Time(100), Input::Stopped(name("0")));
        assert_eq!(told, Ok(()));
    }
    carried(&mut [&mut second, &mut third], 100);
    for member in [&second, &third] {
        let standing = member.info().standing;
        assert_eq!(standing.members.to_string(), "1,2");
        assert_eq!(standing.view.name, name("1"));
    }
    assert_eq!(second.info().standing.role, Role::Sequencer);
    let itself = second.handle(Time(200), Input::Stopped(name("1")));
    assert_eq!(itself, Err(HandleError::Itself));
}

#[test]
fn a_reset_by_hand_is_told() {
    let [mut first, mut second] = pair(0, 16);
    let reset = |ticket, least| Input::Reset {
        ticket,
        least,
        resilience: Some(1),
    };
    assert_eq!(second.handle(Time(10), reset(3, None)), Ok(()));
    let outputs = carried(&mut [&mut first, &mut second], 20);
    let done = |output: &Output| {
        matches!(
            output,
            Output::ResetDone {
                ticket: 3,
                result: Ok(2)
            }
        )
    };
    assert_eq!(count(&outputs[1], done), 1);
    assert_eq!(first.info().standing.resilience, 1);
    let refused = second.handle(Time(30), reset(4, Some(0)));
    assert_eq!(refused, Err(HandleError::OutOfRange));
    assert_eq!(second.handle(Time(30), reset(5, Some(3))), Ok(()));
    let outputs = carried(&mut [&mut first, &mut second], 40);
    let failed = |output: &Output| {
        matches!(
            output,
            Output::ResetDone {
                ticket: 5,
                result: Err(_)
            }
        )
    };
    assert_eq!(count(&outputs[1], failed), 1);
}

#[test]
fn a_second_process_of_a_name_is_not_heard() {
    let founding = founding("0,1", 0, 16);
    let [mut first, mut second] = pair(0, 16);
    send(&mut second, 1, 1, b"x");
    carried(&mut [&mut first, &mut second], 1);
    let mut again = settings("1", founding);
    again.process = 9;
    let mut again = Member::new(again, Time(5_000)).expect("a member");
    carried(&mut [&mut first, &mut again], 5_000);
    assert_eq!(again.info().group, None);
    assert_eq!(first.info().counts.other_process, 1);
}

proptest! {
    #![proptest_config(ProptestConfig::with_cases(64))]

    #[test]
    fn changed_datagrams_are_taken_or_dropped(changes in prop::collection::vec((0_usize..4000, any::<u8>(), 0_usize..3), 1..40)) {
        let [mut first, mut second] = pair(1, 16);
        let mut now = 10;
        for (at, byte, kind) in changes {
            let _ = second.handle(Time(now), Input::Send { ticket: 1, message: vec![byte; 40] });
            now += 3_000;
            let _ = second.handle(Time(now), Input::Time);
            for output in released(&mut second, now) {
                let Output::Datagram { mut payload, .. } = output else {
                    continue;
                };
                let length = payload.len();
                match kind {
                    0 => payload[at % length] = byte,
                    1 => payload.truncate(at % length),
                    _ => payload.push(byte),
                }
                let _ = first.handle(Time(now), Input::Datagram(&payload));
            }
            released(&mut first, now);
        }
    }

    #[test]
    fn any_bytes_are_dropped(payloads in prop::collection::vec(prop::collection::vec(any::<u8>(), 0..100), 1..20)) {
        let [mut first, _] = pair(0, 16);
        let before = first.info();
        for payload in &payloads {
            let _ = first.handle(Time(1), Input::Datagram(payload));
        }
        prop_assert_eq!(first.info().standing, before.standing);
    }
}
