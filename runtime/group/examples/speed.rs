//! How many messages a second a group of members in one process gives each of them, over loopback:
//!
//!     cargo run --release --example speed -- [MEMBERS [BYTES [SECONDS [RESILIENCE [SENDERS]]]]]

use muoswyld_group::{Config, Group, Key, Name};
use std::net::{SocketAddr, UdpSocket};
use std::sync::atomic::{AtomicBool, AtomicU64, Ordering};
use std::sync::Arc;
use std::time::{Duration, Instant};

fn number(at: usize, otherwise: usize) -> usize {
    let word = std::env::args().nth(at);
    word.and_then(|word| word.parse().ok()).unwrap_or(otherwise)
}

fn started(
    place: u8,
    all: &[SocketAddr],
    resilience: u8,
    counted: Arc<AtomicU64>,
) -> Result<Group, Box<dyn std::error::Error + Send + Sync>> {
    let founders = (0..all.len() as u8).filter_map(Name::first).collect();
    let name = Name::first(place).ok_or("sixteen places")?;
    let mut config = Config::new(name, founders)
        .resilience(resilience)
        .key(Key::of([1; 32]));
    for (at, address) in all.iter().enumerate() {
        config = config.address(at as u8, *address)?;
    }
    let config = config.on_delivery(move |_| {
        counted.fetch_add(1, Ordering::Relaxed);
    });
    Ok(Group::create(config)?)
}

fn main() -> Result<(), Box<dyn std::error::Error + Send + Sync>> {
    let (members, bytes, seconds) = (number(1, 3), number(2, 64), number(3, 5));
    let (resilience, senders) = (number(4, 0), number(5, members));
    let bound: Vec<UdpSocket> = (0..members)
        .map(|_| UdpSocket::bind("127.0.0.1:0"))
        .collect::<Result<_, _>>()?;
    let all: Vec<SocketAddr> = bound
        .iter()
        .map(UdpSocket::local_addr)
        .collect::<Result<_, _>>()?;
    drop(bound);
    let counts: Vec<Arc<AtomicU64>> = (0..members).map(|_| Arc::default()).collect();
    let starts: Vec<_> = (0..members)
        .map(|place| {
            let (all, counted) = (all.clone(), counts[place].clone());
            std::thread::spawn(move || started(place as u8, &all, resilience as u8, counted))
        })
        .collect();
    let mut groups = Vec::new();
    for start in starts {
        groups.push(start.join().map_err(|_| "a thread ended")??);
    }
    let is_over = AtomicBool::new(false);
    std::thread::scope(|scope| {
        for group in &groups[..senders] {
            let is_over = &is_over;
            scope.spawn(move || {
                while !is_over.load(Ordering::Relaxed) {
                    if group.submit(vec![7; bytes]).is_err() {
                        break;
                    }
                }
            });
        }
        std::thread::sleep(Duration::from_millis(500));
        let before: Vec<u64> = counts.iter().map(|it| it.load(Ordering::Relaxed)).collect();
        let began = Instant::now();
        std::thread::sleep(Duration::from_secs(seconds as u64));
        let took = began.elapsed().as_secs_f64();
        for (place, (count, before)) in counts.iter().zip(before).enumerate() {
            let many = count.load(Ordering::Relaxed) - before;
            println!(
                "member {place}: {:.0} messages a second",
                many as f64 / took
            );
        }
        is_over.store(true, Ordering::Relaxed);
        let alone = Instant::now();
        drop(groups.first().map(|group| group.send("last")));
        println!(
            "the last message waited {:.1} ms",
            alone.elapsed().as_secs_f64() * 1e3
        );
    });
    Ok(())
}
