//! What the policies of who has stopped cost a group of three members in one process, over loopback: how long one message takes that
//! is sent alone, and how many messages a second each member is given while all send.
//!
//!     cargo run --release --example policies -- [BYTES [SECONDS [RESILIENCE]]]

use muoswyld_group::{Config, Group, Key, Name, Names, Policy};
use std::net::{SocketAddr, UdpSocket};
use std::path::Path;
use std::sync::atomic::{AtomicBool, AtomicU64, Ordering};
use std::sync::Arc;
use std::time::{Duration, Instant};

type Failed = Box<dyn std::error::Error + Send + Sync>;
const MEMBERS: u8 = 3;

fn number(at: usize, otherwise: usize) -> usize {
    let word = std::env::args().nth(at);
    word.and_then(|word| word.parse().ok()).unwrap_or(otherwise)
}

fn started(policy: Policy, folder: &Path, counted: &Arc<AtomicU64>) -> Result<Vec<Group>, Failed> {
    let bound: Vec<UdpSocket> = (0..MEMBERS)
        .map(|_| UdpSocket::bind("127.0.0.1:0"))
        .collect::<Result<_, _>>()?;
    let all: Vec<SocketAddr> = bound
        .iter()
        .map(UdpSocket::local_addr)
        .collect::<Result<_, _>>()?;
    drop(bound);
    let founders: Names = (0..MEMBERS).filter_map(Name::first).collect();
    let mut starts = Vec::new();
    for name in founders.iter() {
        let mut config = Config::new(name, founders)
            .resilience(number(3, 1) as u8)
            .key(Key::of([1; 32]))
            .policy(policy.clone())
            .state(folder.join(name.to_string()));
        for (at, address) in all.iter().enumerate() {
            config = config.address(at as u8, *address)?;
        }
        let counted = counted.clone();
        let config = config.on_delivery(move |_| {
            counted.fetch_add(1, Ordering::Relaxed);
        });
        Group::found(&config)?;
        starts.push(std::thread::spawn(move || Group::create(config)));
    }
    let joined = starts.into_iter().map(|start| start.join());
    let groups = joined.map(|group| Ok(group.map_err(|_| "a thread ended")??));
    groups.collect()
}

/// How long a message takes that a member sends alone, in microseconds: half of them, and 99 of 100.
fn alone(group: &Group, bytes: usize) -> Result<(u128, u128), Failed> {
    let mut took = Vec::new();
    for _ in 0..1000 {
        let began = Instant::now();
        group.send(vec![7; bytes])?;
        took.push(began.elapsed().as_micros());
    }
    took.sort_unstable();
    Ok((took[took.len() / 2], took[took.len() * 99 / 100]))
}

/// How many messages a second each member is given while all send.
fn together(groups: &[Group], bytes: usize, counted: &AtomicU64) -> f64 {
    let (is_over, seconds) = (AtomicBool::new(false), number(2, 3) as u64);
    std::thread::scope(|scope| {
        for group in groups {
            let is_over = &is_over;
            scope.spawn(move || {
                while !is_over.load(Ordering::Relaxed) && group.submit(vec![7; bytes]).is_ok() {}
            });
        }
        std::thread::sleep(Duration::from_millis(500));
        let (before, began) = (counted.load(Ordering::Relaxed), Instant::now());
        std::thread::sleep(Duration::from_secs(seconds));
        let many = counted.load(Ordering::Relaxed) - before;
        let rate = many as f64 / f64::from(MEMBERS) / began.elapsed().as_secs_f64();
        is_over.store(true, Ordering::Relaxed);
        rate
    })
}

fn main() -> Result<(), Failed> {
    let bytes = number(1, 64);
    let lease = Policy::Lease {
        length: Duration::from_secs(1),
        drift: 100,
    };
    let folder = std::env::temp_dir().join(format!("policies-{}", std::process::id()));
    let policies = [
        ("told", Policy::Told),
        ("lease", lease),
        ("echo", Policy::Echo),
    ];
    for (what, policy) in policies {
        let counted = Arc::new(AtomicU64::new(0));
        let groups = started(policy, &folder.join(what), &counted)?;
        for name in [0, 1] {
            let (half, most) = alone(&groups[name], bytes)?;
            println!("{what}: member {name} alone: {half} us, 99 of 100 within {most} us");
        }
        let rate = together(&groups, bytes, &counted);
        println!("{what}: {rate:.0} messages a second at each member");
    }
    std::fs::remove_dir_all(&folder)?;
    Ok(())
}
