//! A group in a flood of datagrams that aren't its own. It has a process of its own, since that one's memory is looked at.

mod common;

use common::{messages, three, SOON};
use std::net::UdpSocket;
use std::sync::atomic::{AtomicBool, Ordering};
use std::time::{Duration, Instant};

fn memory() -> u64 {
    let text = std::fs::read_to_string("/proc/self/statm").unwrap();
    let pages: u64 = text.split(' ').nth(1).unwrap().parse().unwrap();
    pages * 4096
}

#[test]
fn a_flood_of_strangers_takes_no_message_and_no_memory() {
    let (all, groups) = three("127.0.0.1", 1);
    let stranger = UdpSocket::bind("127.0.0.1:0").unwrap();
    let before = memory();
    let is_over = AtomicBool::new(false);
    let (sent, flood) = std::thread::scope(|scope| {
        let flood = scope.spawn(|| {
            let began = Instant::now();
            let mut flood = 0u32;
            while !is_over.load(Ordering::SeqCst) {
                // short ones, long ones, and ones that begin as sealed ones do: 50,000 a second
                for _ in 0..50 {
                    let datagram = vec![0xa1; [8, 100, 1_400, 9_000][flood as usize % 4]];
                    let _sent = stranger.send_to(&datagram, all[flood as usize % 3]);
                    flood += 1;
                }
                let due = Duration::from_micros(u64::from(flood) * 20);
                std::thread::sleep(due.saturating_sub(began.elapsed()));
            }
            f64::from(flood) / began.elapsed().as_secs_f64()
        });
        let ends = Instant::now() + Duration::from_secs(1);
        let mut sent = 0;
        while Instant::now() < ends {
            groups[2].send_timeout("in a flood", SOON).unwrap();
            sent += 1;
        }
        is_over.store(true, Ordering::SeqCst);
        (sent, flood.join().unwrap())
    });
    println!("{sent} messages beside {flood:.0} datagrams a second");
    assert_eq!(messages(&groups[0], sent).len(), sent);
    assert!(memory() < before + (16 << 20));
}
