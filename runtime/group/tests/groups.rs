//! Groups of members in one process, over loopback.

mod common;

use common::{addresses, config, messages, name, three, SOON};
use muoswyld_group::{Config, CreateError, Delivery, End, Group, SendError};
use std::net::UdpSocket;
use std::time::Duration;

fn all_are_given_the_same(host: &str) {
    let (_, groups) = three(host, 1);
    std::thread::scope(|scope| {
        for group in &groups {
            scope.spawn(move || {
                for k in 0..50 {
                    group.send(format!("{} {k}", group.name())).unwrap();
                }
                group.send(vec![group.name().byte(); 65_535]).unwrap();
            });
        }
    });
    let first = messages(&groups[0], 153);
    for group in &groups[1..] {
        assert_eq!(messages(group, 153), first);
    }
    for group in &groups {
        let own: Vec<_> = first.iter().filter(|it| it.1 == group.name()).collect();
        let sent: Vec<_> = (0..50)
            .map(|k| format!("{} {k}", group.name()).into_bytes())
            .collect();
        assert!(own.iter().map(|it| &it.2).take(50).eq(sent.iter()));
        assert_eq!(own[50].2.len(), 65_535);
    }
}

#[test]
fn all_are_given_the_same_messages_in_one_order() {
    all_are_given_the_same("127.0.0.1");
}

#[test]
fn so_they_are_over_ipv6() {
    all_are_given_the_same("::1");
}

#[test]
fn a_stopped_member_is_left_out_and_its_place_comes_back() {
    let (all, mut groups) = three("127.0.0.1", 1);
    groups[1].send("first").unwrap();
    drop(groups.remove(0)); // the sequencer
    for group in &groups {
        group.stopped(name("0")).unwrap();
    }
    let at = groups[1].send_timeout("second", SOON).unwrap();
    let again = Group::join(config("0/2", "0,1,2", &all).resilience(1)).unwrap();
    assert!(matches!(
        again.receive_timeout(SOON),
        Ok(Delivery::Joined { .. })
    ));
    groups[0].send_timeout("third", SOON).unwrap();
    assert_eq!(messages(&again, 1)[0].2, b"third");
    let seen = messages(&groups[1], 3);
    assert_eq!(seen[1], (at.number, name("2"), b"second".to_vec()));
    assert!(groups[0].info().unwrap().standing.members.has(name("0/2")));
}

#[test]
fn who_leaves_has_left() {
    let (_, groups) = three("127.0.0.1", 0);
    let last = groups[2].submit("bye").unwrap();
    groups[2].leave(SOON).unwrap();
    last.wait().unwrap();
    assert_eq!(groups[2].ended(), Some(End::Left));
    assert!(matches!(
        groups[2].send("x"),
        Err(SendError::NotSent(End::Left))
    ));
    assert_eq!(messages(&groups[0], 1)[0].2, b"bye");
    let left = std::iter::from_fn(|| groups[0].receive_timeout(SOON).ok())
        .any(|it| matches!(it, Delivery::Left { name: who, .. } if who == name("2")));
    assert!(left);
}

#[test]
fn what_can_not_start_says_why() {
    let all = addresses(2, "127.0.0.1");
    let founder = Group::join(config("0", "0,1", &all));
    assert!(matches!(founder, Err(CreateError::Founder(_))));
    let stranger = Group::create(config("1/2", "0,1", &all));
    assert!(matches!(stranger, Err(CreateError::NoFounder(_))));
    let nowhere = Group::create(config("0", "0,1,2", &all));
    assert!(matches!(nowhere, Err(CreateError::NoAddress(2))));
    let open = Config::new(name("0"), "0".parse().unwrap())
        .address(0, all[0])
        .unwrap();
    assert!(matches!(Group::create(open), Err(CreateError::NoKey)));
    let alone = config("1", "0,1", &all).start_within(Duration::from_millis(200));
    assert!(matches!(Group::create(alone), Err(CreateError::Timeout)));
    let bound = UdpSocket::bind(all[0]).unwrap();
    let taken = Group::create(config("0", "0,1", &all));
    assert!(matches!(taken, Err(CreateError::System(_))));
    drop(bound);
}

#[test]
fn messages_that_are_too_long_or_too_many_are_refused() {
    let all = addresses(1, "127.0.0.1");
    let group = Group::create(config("0", "0", &all)).unwrap();
    assert!(matches!(
        group.send(vec![0; 65_536]),
        Err(SendError::TooLong)
    ));
    assert!(group.send(vec![0; 65_535]).is_ok());
    assert!(group.send(Vec::new()).is_ok());
    let all = addresses(2, "127.0.0.1");
    let other = config("1", "0,1", &all);
    let thread = std::thread::spawn(move || Group::create(other).unwrap());
    let first = Group::create(config("0", "0,1", &all).most_waiting(200_000)).unwrap();
    drop(thread.join().unwrap()); // nobody acknowledges any more, and the window fills
    let mut kept = Vec::new();
    let refused = loop {
        match first.try_submit(vec![0; 60_000]) {
            Ok(ticket) => kept.push(ticket),
            Err(error) => break error,
        }
        assert!(kept.len() < 100);
    };
    assert_eq!(refused, SendError::Full);
}

/// How many bytes of memory this process has.
#[test]
fn who_receives_nothing_holds_the_group_back_and_loses_nothing() {
    let all = addresses(2, "127.0.0.1");
    let slow = config("1", "0,1", &all).most_unreceived(10).window(16);
    let thread = std::thread::spawn(move || Group::create(slow).unwrap());
    let fast = Group::create(config("0", "0,1", &all).window(16)).unwrap();
    let slow = thread.join().unwrap();
    // more than two bodies name: of a megabyte each, which one that receives nothing may take before it has ten deliveries
    let mut tickets: Vec<_> = (0..2_000u32)
        .map(|k| fast.submit(vec![k as u8; 1_500]).unwrap())
        .collect();
    let last = tickets.pop().unwrap();
    assert!(matches!(
        last.wait_timeout(Duration::from_millis(300)),
        Err(SendError::Timeout)
    ));
    let received = messages(&slow, 2_000);
    last.wait_timeout(SOON).unwrap();
    assert!(received
        .iter()
        .enumerate()
        .all(|(k, it)| it.2 == vec![k as u8; 1_500]));
}

#[test]
fn a_journal_has_the_times_of_the_system_and_the_end_of_a_stopped_member() {
    let micros = || {
        let now = std::time::SystemTime::UNIX_EPOCH.elapsed().unwrap();
        now.as_micros() as u64
    };
    let own = addresses(1, "127.0.0.1");
    let file = std::env::temp_dir().join(format!("muoswyld-journal-{}", std::process::id()));
    let before = micros();
    let group = Group::create(config("0", "0", &own).journal(file.clone())).unwrap();
    group.send("hello").unwrap();
    group.stop();
    while group.ended().is_none() {
        std::thread::sleep(Duration::from_millis(1));
    }
    let after = micros();
    let journal = std::fs::read_to_string(&file).unwrap();
    std::fs::remove_file(&file).unwrap();
    let lines: Vec<&str> = journal.lines().collect();
    assert_eq!(lines.last(), Some(&"end"), "{journal}");
    let times: Vec<u64> = lines[1..lines.len() - 1]
        .iter()
        .map(|line| line.split_once('\t').unwrap().0.parse().unwrap())
        .collect();
    assert!(!times.is_empty() && times.windows(2).all(|two| two[0] <= two[1]));
    assert!(
        before <= times[0] && times[times.len() - 1] <= after + 1,
        "{before} {times:?} {after}"
    );
}

#[test]
fn a_wait_for_room_or_for_the_end_is_over_in_time() {
    let own = addresses(1, "127.0.0.1");
    let little = config("0", "0", &own).most_unreceived(1).window(8);
    let group = Group::create(little.most_waiting(1 << 17)).unwrap();
    let short = Duration::from_millis(100);
    assert_eq!(group.wait_timeout(short), None);
    let full = (0..1_000).find_map(|_| group.submit_timeout(vec![1; 60_000], short).err());
    assert_eq!(full, Some(SendError::Full));
    group.stop();
    assert_eq!(group.wait_timeout(SOON), Some(End::Stopped));
}
