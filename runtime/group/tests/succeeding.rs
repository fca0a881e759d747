//! Lists that follow one another, in one process, over loopback.

use muoswyld_group::{
    Config, Delivery, Facts, Group, Key, Limits, Name, NextList, Position, SucceedError,
};
use std::net::SocketAddr;
use std::os::unix::fs::PermissionsExt;
use std::path::PathBuf;
use std::sync::atomic::{AtomicBool, AtomicU16, AtomicU32, Ordering};
use std::time::{Duration, Instant};

const SOON: Duration = Duration::from_secs(30);

/// Addresses of this machine that no other test uses: a host of its own by this process's number.
fn addresses() -> Vec<SocketAddr> {
    static NEXT: AtomicU16 = AtomicU16::new(0);
    let (id, next) = (std::process::id(), NEXT.fetch_add(4, Ordering::SeqCst));
    let host = format!("127.{}.{}.5", 1 + id / 256 % 254, id % 256);
    let address = |place: u16| format!("{host}:{}", 20_000 + next + place);
    (0..4)
        .map(|place| address(place).parse().unwrap())
        .collect()
}

fn name(text: &str) -> Name {
    text.parse().unwrap()
}

fn config(me: &str, addresses: &[SocketAddr]) -> Config {
    let mut config = Config::new(name(me), "0,1,2".parse().unwrap())
        .key(Key::of([3; 32]))
        .resilience(1)
        .most_unreceived(1 << 20)
        .start_within(SOON);
    for (place, address) in (0..).zip(addresses) {
        config = config.address(place, *address).unwrap();
    }
    config
}

fn three(addresses: &[SocketAddr], change: impl Fn(Config) -> Config) -> Vec<Group> {
    let starts: Vec<_> = ["0", "1", "2"]
        .map(|me| change(config(me, addresses)))
        .into_iter()
        .map(|config| std::thread::spawn(move || Group::create(config).unwrap()))
        .collect();
    starts.into_iter().map(|it| it.join().unwrap()).collect()
}

/// Ends the list by a member, and again as long as that is refused for now.
fn succeed(group: &Group, next: NextList) -> Position {
    let began = Instant::now();
    loop {
        match group.succeed(next, SOON) {
            Ok(at) => return at,
            Err(SucceedError::NotNow | SucceedError::NotSucceeded) if began.elapsed() < SOON => {
                std::thread::sleep(Duration::from_millis(20));
            }
            Err(error) => panic!("{error}"),
        }
    }
}

/// A member's deliveries up to a message.
fn up_to(group: &Group, last: &[u8]) -> Vec<Delivery> {
    let mut found = Vec::new();
    loop {
        let delivery = group.receive_timeout(SOON).unwrap();
        let is_last = matches!(&delivery, Delivery::Message { message, .. } if message == last);
        found.push(delivery);
        if is_last {
            return found;
        }
    }
}

#[test]
fn calls_go_on_over_the_ends_of_lists() {
    let all = addresses();
    let folder = std::env::temp_dir().join(format!("succeeding-{}", std::process::id()));
    let _removed = std::fs::remove_dir_all(&folder);
    std::fs::create_dir_all(&folder).unwrap();
    let journal = |place: &str| -> PathBuf { folder.join(format!("journal-{place}")) };
    let groups = three(&all, |config| {
        let place = config_name(&config);
        config.journal(journal(&place))
    });
    // `lists` is in how many lists messages stand
    let (is_over, lists) = (AtomicBool::new(false), AtomicU32::new(0));
    let (positions, ends) = std::thread::scope(|scope| {
        let senders: Vec<_> = groups
            .iter()
            .map(|group| {
                let (is_over, lists) = (&is_over, &lists);
                scope.spawn(move || {
                    let mut sent = Vec::new();
                    while !is_over.load(Ordering::SeqCst) {
                        let text = format!("{} {}", group.name(), sent.len());
                        let long = text.clone() + &".".repeat(sent.len() % 7 * 700);
                        let at = group.send(long.clone()).unwrap();
                        lists.fetch_max(at.generation + 1, Ordering::SeqCst);
                        sent.push((at, long.into_bytes()));
                    }
                    sent
                })
            })
            .collect();
        // messages go on for a while in each list, and one of them stands in it for certain
        let go_on = |generation| {
            std::thread::sleep(Duration::from_millis(150));
            let began = Instant::now();
            while lists.load(Ordering::SeqCst) <= generation && began.elapsed() < SOON {
                std::thread::sleep(Duration::from_millis(1));
            }
        };
        let mut ends = Vec::new();
        for (generation, ender, window) in [(0, 1, 99), (1, 0, 33), (2, 2, 256)] {
            go_on(generation);
            ends.push(succeed(&groups[ender], NextList::new().window(window)));
        }
        go_on(3);
        is_over.store(true, Ordering::SeqCst);
        let sent = senders.into_iter().flat_map(|it| it.join().unwrap());
        (sent.collect::<Vec<_>>(), ends)
    });
    groups[0].send("last").unwrap();
    let logs: Vec<_> = groups.iter().map(|group| up_to(group, b"last")).collect();
    assert!(logs[1] == logs[0] && logs[2] == logs[0]);
    let at: Vec<Position> = logs[0].iter().map(Delivery::at).collect();
    assert!(at.is_sorted());
    let told: Vec<Position> = logs[0]
        .iter()
        .filter(|it| matches!(it, Delivery::Succeeded { .. }))
        .map(Delivery::at)
        .collect();
    assert_eq!(told, ends);
    // each message stands once, where its call said
    let messages = logs[0]
        .iter()
        .filter(|it| matches!(it, Delivery::Message { .. }));
    assert_eq!(messages.count(), positions.len() + 1);
    for (at, sent) in &positions {
        let found = logs[0].binary_search_by_key(at, Delivery::at).unwrap();
        assert!(matches!(&logs[0][found], Delivery::Message { message, .. } if message == sent));
    }
    for generation in 0..4 {
        assert!(positions.iter().any(|(at, _)| at.generation == generation));
    }
    let info = groups[2].info().unwrap();
    assert_eq!((info.generation, info.founding.window), (3, 256));
    // what was counted in ended lists stays counted
    let own = positions.iter().filter(|(_, sent)| sent.starts_with(b"2 "));
    let own = own.count();
    assert!(own > 0 && info.counts.messages_sent as usize >= own);
    drop(groups);
    for place in ["0", "1", "2"] {
        for end in ["", ".1", ".2", ".3"] {
            let mut path = journal(place).into_os_string();
            path.push(end);
            let text = std::fs::read_to_string(&path).unwrap();
            assert!(
                text.starts_with("node\t") && text.ends_with("end\n"),
                "{path:?}"
            );
            let mode = std::fs::metadata(&path).unwrap().permissions().mode();
            assert_eq!(mode & 0o777, 0o600);
        }
    }
    std::fs::remove_dir_all(&folder).unwrap();
}

fn config_name(config: &Config) -> String {
    let text = format!("{config:?}");
    let name = text.split("name: ").nth(1).unwrap();
    name.chars().take_while(char::is_ascii_digit).collect()
}

#[test]
fn a_place_that_comes_back_asks_for_the_latest_list() {
    let all = addresses();
    let mut groups = three(&all, |config| config);
    groups[0].send("first").unwrap();
    succeed(&groups[1], NextList::new().window(50));
    groups[0].send("second").unwrap();
    drop(groups.pop());
    // what is said of the list before holds for the process
    for group in &groups {
        group.stopped_in(0, name("2")).unwrap();
    }
    groups[1].send_timeout("third", SOON).unwrap();
    let seeds = [all[0], all[1]];
    let key = Key::of([3; 32]);
    let facts = Facts::ask(&seeds, (2, all[2]), Some(&key), SOON).unwrap();
    assert_eq!((facts.generation(), facts.next), (1, Some(name("2/2"))));
    let later = facts.later.unwrap();
    assert_eq!(later.group, groups[0].info().unwrap().group.unwrap());
    let config = facts.config(name("2/2")).unwrap();
    let back = Group::start(config.key(key).start_within(SOON)).unwrap();
    back.send_timeout("back", SOON).unwrap();
    let info = back.info().unwrap();
    assert_eq!((info.generation, info.founding.window), (1, 50));
    let seen = up_to(&back, b"back");
    assert!(matches!(seen[0], Delivery::Joined { at, .. } if at.generation == 1));
    up_to(&groups[0], b"back");
    // a word of a list that doesn't come is kept, and changes nothing
    groups[0].stopped_in(7, name("1")).unwrap();
    groups[0].send_timeout("still", SOON).unwrap();
}

#[test]
fn why_a_list_does_not_end_is_said() {
    let all = addresses();
    let groups = three(&all, |config| config);
    groups[0].send("first").unwrap();
    // as long as not all are heard nobody is asked what it wants
    let refused = |next: NextList| loop {
        match groups[0].try_succeed(next).unwrap_err() {
            SucceedError::NotNow => std::thread::sleep(Duration::from_millis(20)),
            error => break error,
        }
    };
    let error = refused(NextList::new().window(0));
    assert!(matches!(error, SucceedError::Founding(_)), "{error}");
    let voters = NextList::new().voters("0".parse().unwrap());
    assert_eq!(refused(voters), SucceedError::Unvoted);
    // a stop that the group can't get over: another member, which would have to vote for the next view, has ended, and isn't said to
    for group in &groups[1..] {
        group.stop();
        group.wait();
    }
    groups[0].stopped(name("2")).unwrap();
    let error = groups[0].try_succeed(NextList::new()).unwrap_err();
    assert_eq!(error, SucceedError::NotNow);
    groups[0].stop();
    groups[0].wait();
    let error = groups[0].succeed(NextList::new(), SOON).unwrap_err();
    assert!(matches!(error, SucceedError::Ended(_)), "{error}");
}

#[test]
fn a_list_ends_by_itself_before_lives_run_out() {
    let all = addresses();
    let limits = Limits {
        lives: 14,
        numbers: 0,
    };
    let mut groups = three(&all, |config| config.succeed_at(limits));
    groups[0].send("first").unwrap();
    drop(groups.pop());
    for group in &groups {
        group.stopped(name("2")).unwrap();
    }
    groups[0].send_timeout("second", SOON).unwrap();
    let config = config("2/2", &all).succeed_at(limits);
    let back = Group::join(config).unwrap();
    back.send_timeout("back", SOON).unwrap();
    // life 2 has 14 lives after it
    let began = Instant::now();
    while back.info().unwrap().generation == 0 {
        assert!(began.elapsed() < SOON);
        std::thread::sleep(Duration::from_millis(20));
    }
    assert_eq!(back.info().unwrap().name, name("2"));
    back.send_timeout("after", SOON).unwrap();
    for group in &groups {
        up_to(group, b"after");
    }
}
