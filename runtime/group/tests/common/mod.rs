//! Members of one process over loopback, for several files of tests.
#![allow(dead_code)]

use muoswyld_group::{Config, Delivery, Group, Key, Name};
use std::net::SocketAddr;
use std::sync::atomic::{AtomicU16, Ordering};
use std::time::Duration;

/// A limit of time that nothing reaches which goes well.
pub const SOON: Duration = Duration::from_secs(20);

/// Addresses of this machine that no other test uses: on IPv4 a host of its own by this process's number.
pub fn addresses(many: u8, host: &str) -> Vec<SocketAddr> {
    static NEXT: AtomicU16 = AtomicU16::new(0);
    let id = std::process::id();
    (0..many)
        .map(|_| {
            let next = NEXT.fetch_add(1, Ordering::SeqCst);
            let own = format!(
                "127.{}.{}.2:{}",
                1 + id / 256 % 254,
                id % 256,
                20_000 + next
            );
            match host {
                "::1" => SocketAddr::new(
                    [0, 0, 0, 0, 0, 0, 0, 1].into(),
                    20_000 + (id % 20_000) as u16 + next,
                ),
                _ => own.parse().unwrap(),
            }
        })
        .collect()
}

/// A name.
pub fn name(text: &str) -> Name {
    text.parse().unwrap()
}

/// The configuration of a member.
pub fn config(me: &str, founders: &str, addresses: &[SocketAddr]) -> Config {
    let mut config = Config::new(name(me), founders.parse().unwrap())
        .key(Key::of([3; 32]))
        .start_within(SOON);
    for (place, address) in addresses.iter().enumerate() {
        config = config.address(place as u8, *address).unwrap();
    }
    config
}

/// Three founders.
pub fn three(host: &str, resilience: u8) -> (Vec<SocketAddr>, Vec<Group>) {
    let all = addresses(4, host);
    let starts: Vec<_> = ["2", "0", "1"]
        .into_iter()
        .map(|me| {
            let config = config(me, "0,1,2", &all)
                .resilience(resilience)
                .most_unreceived(1 << 20);
            std::thread::spawn(move || Group::create(config).unwrap())
        })
        .collect();
    let mut groups: Vec<Group> = starts.into_iter().map(|it| it.join().unwrap()).collect();
    groups.sort_by_key(Group::name);
    (all, groups)
}

/// The next messages of a member, so many.
pub fn messages(group: &Group, many: usize) -> Vec<(u32, Name, Vec<u8>)> {
    let mut found = Vec::new();
    while found.len() < many {
        if let Delivery::Message { at, from, message } = group.receive_timeout(SOON).unwrap() {
            found.push((at.number, from, message));
        }
    }
    found
}
