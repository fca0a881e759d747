//! Contents beside the list: chunks before the letters that name them, letters that are held, what is asked for, and the window.

use muoswyld_member::{
    Delivery, Founding, Input, Member, Names, Output, Settings, Time, LEAST_STREAMED,
};

const LETTERS: u8 = 1;
const CHUNK: u8 = 8;
const WANT: u8 = 9;
/// The bytes of a chunk's payload before its own.
const CHUNK_HEAD: usize = 27;

type Datagram = (Names, Vec<u8>);

fn member(name: &str, change: fn(&mut Settings)) -> Member {
    let founding = Founding {
        founders: "0,1".parse().expect("names"),
        resilience: 0,
        window: 16,
        pb_up_to: 1024,
    };
    let mut settings = Settings::new(name.parse().expect("a name"), founding, 77);
    settings.process = 100 + u64::from(settings.name.byte());
    change(&mut settings);
    Member::new(settings, Time(0)).expect("a member")
}

fn send(member: &mut Member, now: u64, ticket: u64, message: Vec<u8>) {
    let input = Input::Send { ticket, message };
    member.handle(Time(now), input).expect("it is taken");
}

/// What a member gives out: its datagrams, and everything else.
fn released(member: &mut Member, now: u64) -> (Vec<Datagram>, Vec<Output>) {
    let (mut out, mut datagrams, mut others) = (Vec::new(), Vec::new(), Vec::new());
    member.release(Time(now), &mut out);
    for output in out {
        match output {
            Output::Datagram { to, payload } => datagrams.push((to, payload)),
            other => others.push(other),
        }
    }
    (datagrams, others)
}

fn give(member: &mut Member, now: u64, datagrams: &[Datagram]) {
    for (to, payload) in datagrams {
        if to.at(member.info().name.place()).is_some() {
            let _ = member.handle(Time(now), Input::Datagram(payload));
        }
    }
}

/// Carries all datagrams between two members until there are none; what else came out, of each.
fn carried(members: &mut [Member; 2], now: u64) -> [Vec<Output>; 2] {
    let mut others = [Vec::new(), Vec::new()];
    for _ in 0..3000 {
        let mut sent = Vec::new();
        for (member, other) in members.iter_mut().zip(&mut others) {
            if member.wake() <= Time(now) {
                let _ = member.handle(Time(now), Input::Time);
            }
            let (datagrams, outputs) = released(member, now);
            sent.extend(datagrams);
            other.extend(outputs);
        }
        if sent.is_empty() {
            return others;
        }
        members.iter_mut().for_each(|to| give(to, now, &sent));
    }
    panic!("datagrams don't end");
}

/// Two founders that know their group. The second one isn't the sequencer.
fn pair(change: fn(&mut Settings)) -> [Member; 2] {
    let mut both = ["0", "1"].map(|name| member(name, change));
    carried(&mut both, 0);
    both
}

fn messages(outputs: &[Output]) -> Vec<Vec<u8>> {
    let message = |output: &Output| match output {
        Output::Deliver(Delivery::Message { message, .. }) => Some(message.clone()),
        _ => None,
    };
    outputs.iter().filter_map(message).collect()
}

fn settled(outputs: &[Output]) -> Vec<u64> {
    let ticket = |output: &Output| match output {
        Output::Settled {
            ticket,
            result: Ok(_),
        } => Some(*ticket),
        _ => None,
    };
    outputs.iter().filter_map(ticket).collect()
}

fn kinds(datagrams: &[Datagram]) -> Vec<u8> {
    datagrams.iter().map(|(_, payload)| payload[0]).collect()
}

fn message(k: u64, length: usize) -> Vec<u8> {
    (0..length).map(|at| (k as usize * 7 + at) as u8).collect()
}

#[test]
fn contents_go_out_in_chunks_before_the_letter_that_names_them() {
    let mut both = pair(|_| ());
    send(&mut both[1], 5, 1, message(1, 5000));
    let (datagrams, _) = released(&mut both[1], 5);
    // 5,002 bytes with the length, 1,373 in a chunk
    assert_eq!(kinds(&datagrams), [CHUNK, CHUNK, CHUNK, CHUNK, LETTERS]);
    let sizes: Vec<usize> = datagrams.iter().map(|(_, it)| it.len()).collect();
    assert_eq!(sizes[..4], [1400, 1400, 1400, 5002 - 3 * 1373 + CHUNK_HEAD]);
    give(&mut both[0], 5, &datagrams);
    let outputs = carried(&mut both, 5);
    for outputs in &outputs {
        assert_eq!(messages(outputs), [message(1, 5000)]);
    }
    assert_eq!(settled(&outputs[1]), [1]);
    assert_eq!(both[0].info().counts.letters_held, 0);
}

#[test]
fn a_letter_is_held_until_its_contents_come_that_are_asked_for() {
    let mut both = pair(|_| ());
    let top = both[0].info().standing.top;
    send(&mut both[1], 5, 1, message(1, 5000));
    let (mut datagrams, _) = released(&mut both[1], 5);
    datagrams.remove(1);
    give(&mut both[0], 5, &datagrams);
    let info = both[0].info();
    assert_eq!((info.held, info.standing.top), (1, top));
    let (wants, _) = released(&mut both[0], 5);
    assert_eq!(kinds(&wants), [WANT]);
    assert_eq!(wants[0].0.to_string(), "1");
    // the range that is missing: 1,373 bytes from 1,373 on
    let range = [0, 0, 0, 0, 0, 0, 0x05, 0x5d, 0, 0, 0x05, 0x5d];
    assert_eq!(wants[0].1[19..], range);
    give(&mut both[1], 6, &wants);
    let (answers, _) = released(&mut both[1], 6);
    assert_eq!(kinds(&answers), [CHUNK]);
    assert_eq!(answers[0].1.len(), 1400);
    give(&mut both[0], 7, &answers);
    let info = both[0].info();
    assert_eq!((info.held, info.standing.top), (0, top + 1));
    for outputs in carried(&mut both, 7) {
        assert_eq!(messages(&outputs), [message(1, 5000)]);
    }
    assert_eq!(both[0].info().counts.bytes_asked, 1373);
    assert_eq!(both[1].info().counts.bytes_answered, 1373);
}

#[test]
fn a_letter_whose_contents_never_come_is_dropped_and_comes_again() {
    let mut both = pair(|_| ());
    send(&mut both[1], 5, 1, message(1, 5000));
    let (datagrams, _) = released(&mut both[1], 5);
    give(&mut both[0], 5, &datagrams[4..]);
    assert_eq!(both[0].info().held, 1);
    let (mut now, mut wants) = (5, 0);
    while both[0].info().held > 0 {
        let (datagrams, _) = released(&mut both[0], now);
        wants += kinds(&datagrams)
            .iter()
            .filter(|kind| **kind == WANT)
            .count();
        now += 1_000;
        let _ = both[0].handle(Time(now), Input::Time);
        assert!(now < 10_000_000, "it is held for good");
    }
    assert_eq!(wants, 10);
    for _ in 0..100 {
        now += 50_000;
        for outputs in carried(&mut both, now) {
            if !messages(&outputs).is_empty() {
                assert_eq!(messages(&outputs), [message(1, 5000)]);
                return;
            }
        }
    }
    panic!("the message doesn't come");
}

#[test]
fn all_that_waits_goes_in_one_body() {
    let mut both = pair(|_| ());
    let all: Vec<Vec<u8>> = (0..300).map(|k| message(k, 400)).collect();
    for (ticket, message) in (0..).zip(&all) {
        send(&mut both[1], 5, ticket, message.clone());
    }
    // full chunks go out while the first message is under way
    let (datagrams, _) = released(&mut both[1], 5);
    let chunks = kinds(&datagrams).iter().filter(|it| **it == CHUNK).count();
    assert_eq!(
        (both[1].info().counts.bodies_sent, chunks),
        (1, 299 * 402 / 1373)
    );
    assert_eq!(both[1].info().unsettled, 300);
    give(&mut both[0], 5, &datagrams);
    let outputs = carried(&mut both, 5);
    assert_eq!(both[1].info().counts.bodies_sent, 2);
    assert_eq!(messages(&outputs[0]), all);
    assert_eq!(messages(&outputs[1]), all);
    assert!(settled(&outputs[1]).into_iter().eq(0..300));
    assert_eq!(both[1].info().unsettled, 0);
}

#[test]
fn no_more_is_out_than_the_window_and_all_of_it_comes() {
    let mut both = pair(|settings| settings.most_streamed = LEAST_STREAMED);
    let all: Vec<Vec<u8>> = (0..60).map(|k| message(k, 60_000)).collect();
    for (ticket, message) in (0..).zip(&all) {
        send(&mut both[1], 5, ticket, message.clone());
    }
    let (datagrams, _) = released(&mut both[1], 5);
    let bytes: usize = datagrams.iter().map(|(_, it)| it.len() - CHUNK_HEAD).sum();
    let counted = both[1].info().counts.bytes_streamed as usize;
    assert!(counted <= LEAST_STREAMED && counted > LEAST_STREAMED - 60_002 - 1373);
    assert!(bytes >= counted, "{bytes} {counted}");
    give(&mut both[0], 5, &datagrams);
    let mut had = [Vec::new(), Vec::new()];
    for turn in 1..20 {
        for (had, outputs) in had.iter_mut().zip(carried(&mut both, 5 + turn * 60_000)) {
            had.extend(messages(&outputs));
        }
    }
    assert_eq!(had[0].len(), 60);
    assert!(had.iter().all(|had| *had == all));
}

#[test]
fn chunks_that_are_not_needed_are_dropped_and_counted() {
    let mut both = pair(|_| ());
    send(&mut both[1], 5, 1, message(1, 5000));
    let (datagrams, _) = released(&mut both[1], 5);
    give(&mut both[0], 5, &datagrams);
    give(&mut both[0], 5, &datagrams[..2]);
    assert_eq!(both[0].info().counts.chunks_dropped, 2);
    // of a stream of nobody who is a member
    let mut chunk = datagrams[0].clone();
    chunk.1[18] = 9;
    give(&mut both[0], 5, &[chunk]);
    assert_eq!(both[0].info().counts.chunks_dropped, 3);
}
