//! Messages that are given while lists end: none is refused, and each is delivered once, in its order.

use muoswyld_group::{Config, Delivery, Group, NextList, SucceedError};
use std::net::UdpSocket;
use std::time::{Duration, Instant};

/// How many messages are given, and after how many of them the list is ended.
const MESSAGES: u32 = 3_000;
const EVERY: u32 = 300;
const SOON: Duration = Duration::from_secs(30);

/// A member alone: its list ends in the turn in which that is asked for, and messages of the same turn come after it.
#[test]
fn none_is_refused_by_the_end_of_a_list() {
    let socket = UdpSocket::bind("127.0.0.1:0").expect("a port");
    let address = socket.local_addr().expect("an address");
    drop(socket);
    let config = Config::new("0".parse().expect("a name"), "0".parse().expect("names"))
        .address(0, address)
        .expect("a place")
        .insecure();
    let group = Group::create(config).expect("a group");
    let mut tickets = Vec::new();
    for number in 0..MESSAGES {
        if number % EVERY == EVERY - 1 {
            match group.try_succeed(NextList::new()) {
                Ok(()) | Err(SucceedError::NotNow) => {}
                Err(error) => panic!("{error}"),
            }
        }
        let ticket = group.submit(number.to_be_bytes());
        tickets.push(ticket.expect("it is taken"));
    }
    for (number, ticket) in tickets.into_iter().enumerate() {
        let sent = ticket.wait();
        sent.unwrap_or_else(|error| panic!("message {number}: {error}"));
    }
    let (began, mut next, mut ends) = (Instant::now(), 0, 0);
    while next < MESSAGES && began.elapsed() < SOON {
        match group.receive_timeout(SOON).expect("a delivery") {
            Delivery::Message { message, .. } => {
                assert_eq!(message, next.to_be_bytes());
                next += 1;
            }
            Delivery::Succeeded { .. } => ends += 1,
            _ => {}
        }
    }
    assert_eq!(next, MESSAGES);
    assert!(ends > 1, "{ends} lists ended");
}
