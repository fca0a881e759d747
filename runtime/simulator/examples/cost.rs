//! Members of one group in one thread, whose datagrams come at once: what a run costs without a network. Its instructions are the
//! same each time:
//!
//!     valgrind --tool=callgrind target/release/examples/cost [MEMBERS [RESILIENCE [BYTES [MESSAGES [AT_ONCE]]]]]
//!
//! All members send; AT_ONCE messages of each wait at a time. It tells how many deliveries, steps, letters and datagrams there were.

use muoswyld_member::{Founding, Input, Member, Name, Output, Settings, StartError, Time};
use std::io::Write;
use std::process::ExitCode;

struct Given {
    members: u8,
    resilience: u8,
    bytes: usize,
    messages: u64,
    at_once: u64,
}

/// A member, how many messages it sent, and how many of them were delivered.
struct One {
    member: Member,
    sent: u64,
    settled: u64,
    deliveries: u64,
}

fn started(given: &Given) -> Result<Vec<One>, StartError> {
    let founding = Founding {
        founders: (0..given.members).filter_map(Name::first).collect(),
        resilience: given.resilience,
        window: 256,
        pb_up_to: 1024,
    };
    let start = |name: Name| {
        let settings = Settings::new(name, founding, 1 + u64::from(name.byte()));
        Ok(One {
            member: Member::new(settings, Time(0))?,
            sent: 0,
            settled: 0,
            deliveries: 0,
        })
    };
    founding.founders.iter().map(start).collect()
}

/// Has a member send what it may; whether there is something to release.
fn send(one: &mut One, given: &Given, now: u64) {
    while one.sent < given.messages && one.sent - one.settled < given.at_once {
        let input = Input::Send {
            ticket: one.sent,
            message: vec![7; given.bytes],
        };
        if one.member.handle(Time(now), input).is_err() {
            break;
        }
        one.sent += 1;
    }
}

/// A turn of one member: what came is heard, and what comes of it is given to the others.
fn turn(ones: &mut [One], at: usize, came: &mut [Vec<Vec<u8>>], given: &Given, now: u64) {
    let one = &mut ones[at];
    for payload in std::mem::take(&mut came[at]) {
        // only messages can be refused
        let _taken = one.member.handle(Time(now), Input::Datagram(&payload));
    }
    send(one, given, now);
    if one.member.wake() <= Time(now) {
        let _taken = one.member.handle(Time(now), Input::Time);
    }
    let mut out = Vec::new();
    one.member.release(Time(now), &mut out);
    let mut delivered = 0;
    for output in out {
        match output {
            Output::Deliver(_) => delivered += 1,
            Output::Settled { .. } => one.settled += 1,
            Output::Datagram { to, payload } => {
                for name in to.iter() {
                    if let Some(place) = came.get_mut(usize::from(name.place())) {
                        place.push(payload.clone());
                    }
                }
            }
            _ => {}
        }
    }
    one.deliveries += delivered as u64;
    if delivered > 0 {
        let _taken = one.member.handle(Time(now), Input::Consumed(delivered));
    }
}

fn main() -> ExitCode {
    let words: Vec<u64> = std::env::args()
        .skip(1)
        .filter_map(|word| word.parse().ok())
        .collect();
    let word = |at: usize, otherwise: u64| words.get(at).copied().unwrap_or(otherwise);
    let given = Given {
        members: word(0, 3).clamp(1, 16) as u8,
        resilience: word(1, 1).min(15) as u8,
        bytes: word(2, 64).min(65_535) as usize,
        messages: word(3, 1_000),
        at_once: word(4, 20).max(1),
    };
    let mut ones = match started(&given) {
        Ok(ones) => ones,
        Err(error) => {
            eprintln!("cost: {error}");
            return ExitCode::FAILURE;
        }
    };
    let mut came: Vec<Vec<Vec<u8>>> = vec![Vec::new(); ones.len()];
    let mut now = 0;
    while ones.iter().any(|one| one.settled < given.messages) {
        for at in 0..ones.len() {
            now += 10;
            turn(&mut ones, at, &mut came, &given, now);
        }
    }
    let (mut deliveries, mut steps, mut letters, mut datagrams) = (0, 0, 0, 0);
    for one in &ones {
        let counts = one.member.info().counts;
        deliveries += one.deliveries;
        steps += counts.steps;
        letters += counts.letters_heard;
        datagrams += counts.datagrams_sent;
    }
    let told = format!("{deliveries} deliveries, {steps} steps, {letters} letters heard, {datagrams} datagrams, {now} us");
    // where nobody reads it any more, nothing is said
    let _ = writeln!(std::io::stdout(), "{told}");
    ExitCode::SUCCESS
}
