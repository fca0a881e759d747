//! What a replica does at the end of a list, delivery by delivery.

use muoswyld_member::{Delivery, Founding, Name, Names, Position};
use muoswyld_replica::{
    Answer, Ended, Output, Replica, Request, SessionId, Settings, StateMachine, Unreadable,
};
use std::collections::VecDeque;

/// Keeps its commands.
#[derive(Clone, Debug, Default, PartialEq, Eq)]
struct Kept(Vec<Vec<u8>>);

impl StateMachine for Kept {
    type Snapshot = std::vec::IntoIter<Vec<u8>>;

    fn apply(&mut self, _at: Position, command: &[u8]) -> Vec<u8> {
        self.0.push(command.to_vec());
        self.0.len().to_string().into_bytes()
    }

    fn snapshot(&self) -> Self::Snapshot {
        self.0.clone().into_iter()
    }

    fn restore(&mut self, record: &[u8]) -> Result<(), Unreadable> {
        self.0.push(record.to_vec());
        Ok(())
    }

    fn digest(&self) -> u64 {
        self.0.iter().flatten().map(|byte| u64::from(*byte)).sum()
    }
}

fn names(text: &str) -> Names {
    text.parse().unwrap()
}

fn name(text: &str) -> Name {
    text.parse().unwrap()
}

/// A replica, its name in the latest list, and what it sends.
struct One {
    replica: Replica<Kept>,
    name: Name,
    sends: VecDeque<Vec<u8>>,
    answers: Vec<(u64, Answer)>,
    is_ready: bool,
    ended: Option<Ended>,
}

impl One {
    fn new(text: &str) -> One {
        let mut settings = Settings::new(name(text), 7);
        settings.chunks_ahead = 1;
        One {
            replica: Replica::new(Kept::default(), settings),
            name: name(text),
            sends: VecDeque::new(),
            answers: Vec::new(),
            is_ready: false,
            ended: None,
        }
    }

    fn pump(&mut self) {
        while let Some(output) = self.replica.next_output() {
            match output {
                Output::Send(message) => self.sends.push_back(message),
                Output::Answered { token, answer } => self.answers.push((token, answer)),
                Output::Ready => self.is_ready = true,
                Output::Told(_) => {}
                Output::Ended(ended) => self.ended = Some(ended),
            }
        }
    }
}

/// A group without losses: its list, and who is given it.
struct Group {
    at: Position,
    members: Vec<One>,
}

impl Group {
    fn founded(all: &str) -> Group {
        let mut group = Group {
            at: Position {
                generation: 0,
                number: 0,
                index: 0,
            },
            members: all.split(',').map(One::new).collect(),
        };
        group.view();
        group
    }

    fn next(&mut self) -> Position {
        self.at.number += 1;
        self.at
    }

    fn all(&self) -> Names {
        self.members.iter().map(|one| one.name).collect()
    }

    fn deliver(&mut self, delivery: &Delivery) {
        for one in &mut self.members {
            one.replica.deliver(delivery.clone());
            one.pump();
        }
    }

    fn view(&mut self) {
        let (at, members) = (self.next(), self.all());
        let resilience = 0;
        self.deliver(&Delivery::View {
            at,
            members,
            resilience,
        });
    }

    /// A name stops, and the others go on without it.
    fn stops(&mut self, text: &str) {
        self.members.retain(|one| one.name != name(text));
        self.view();
    }

    fn joins(&mut self, text: &str) {
        self.members.push(One::new(text));
        let (at, name) = (self.next(), name(text));
        self.deliver(&Delivery::Joined { at, name });
    }

    /// The list ends: what wasn't delivered is sent in the next one.
    fn ends(&mut self) {
        let (at, members) = (self.next(), self.all());
        for one in &mut self.members {
            one.name = Name::first(one.name.place()).unwrap();
        }
        let founders = self.all();
        let founding = Founding {
            founders,
            resilience: 0,
            window: 16,
            pb_up_to: 1024,
        };
        let voters = Names::nobody();
        self.deliver(&Delivery::Succeeded {
            at,
            members,
            founding,
            voters,
        });
        self.at = Position {
            generation: at.generation + 1,
            number: 0,
            index: 0,
        };
        self.view();
    }

    fn of(&mut self, text: &str) -> &mut One {
        let wanted = name(text);
        let mut all = self.members.iter_mut();
        all.find(|one| one.name == wanted).unwrap()
    }

    fn submit(&mut self, text: &str, token: u64, request: Request) {
        let one = self.of(text);
        one.replica.submit(token, request).unwrap();
        one.pump();
    }

    /// So many messages of a name are delivered, as far as it has some.
    fn sends(&mut self, text: &str, most: usize) {
        for _ in 0..most {
            let from = name(text);
            let Some(message) = self.of(text).sends.pop_front() else {
                return;
            };
            let at = self.next();
            self.deliver(&Delivery::Message { at, from, message });
        }
    }

    /// Until nobody has anything to send.
    fn rests(&mut self) {
        while let Some(one) = self.members.iter().find(|one| !one.sends.is_empty()) {
            let text = one.name.to_string();
            self.sends(&text, 1);
        }
    }
}

fn command(text: &str) -> Request {
    Request::Command(text.into())
}

#[test]
fn a_command_that_goes_in_parts_goes_on_in_the_next_list() {
    let mut group = Group::founded("0,1");
    let long = vec![b'x'; 3_000];
    group.submit("1", 1, Request::Command(long.clone()));
    group.submit("1", 2, command("after"));
    group.sends("1", 2);
    group.ends();
    assert_eq!(group.of("1").answers, []);
    group.rests();
    let done = |text: &str| Answer::Done(text.into());
    assert_eq!(group.of("1").answers, [(1, done("1")), (2, done("2"))]);
    for text in ["0", "1"] {
        let machine = group.of(text).replica.machine();
        assert_eq!(machine, Some(&Kept(vec![long.clone(), b"after".to_vec()])));
        let checked = group.of(text).replica.status().checked.unwrap();
        assert_eq!((checked.0.generation, checked.0.number), (0, 4));
    }
}

#[test]
fn a_session_goes_on_in_the_next_list() {
    let mut group = Group::founded("0,1");
    group.submit("0", 1, Request::Open);
    group.rests();
    let Some((1, Answer::Opened(session))) = group.of("0").answers.pop() else {
        panic!("it isn't open");
    };
    let ask = |sequence, text: &str| Request::SessionCommand {
        session,
        sequence,
        answered: 0,
        command: text.into(),
    };
    group.submit("0", 2, ask(1, "a"));
    group.rests();
    // it is under way at one member when the list ends, and asked again by the other
    group.submit("0", 3, ask(2, "b"));
    group.ends();
    group.submit("1", 4, ask(2, "b"));
    group.sends("1", 2);
    group.rests();
    assert_eq!(group.of("1").answers, [(4, Answer::Done(b"2".to_vec()))]);
    let done = |text: &str| Answer::Done(text.into());
    assert_eq!(group.of("0").answers, [(2, done("1")), (3, done("2"))]);
    let other = SessionId {
        list: session.list + 1,
        ..session
    };
    group.submit("1", 5, Request::Close(other));
    group.submit("1", 6, Request::Close(session));
    group.rests();
    let last = &group.of("1").answers[1..];
    assert_eq!(last, [(5, Answer::NoSession), (6, Answer::Closed)]);
}

/// A group in which a joiner has some of the state, but not all, at the end of the list.
fn amid_a_transfer() -> Group {
    let mut group = Group::founded("0,1");
    for number in 0..4 {
        let text = vec![b'0' + number; 900];
        group.submit("0", 1, Request::Command(text));
    }
    group.rests();
    group.joins("2");
    group.submit("1", 2, command("meanwhile"));
    group.sends("1", 3);
    group.sends("0", 2);
    assert!(!group.of("2").is_ready && group.of("2").replica.status().chunks > 0);
    group
}

#[test]
fn a_joiner_goes_on_to_be_sent_the_state() {
    let mut group = amid_a_transfer();
    let before = group.of("2").replica.status().chunks;
    group.ends();
    group.submit("0", 3, command("later"));
    group.rests();
    assert!(group.of("2").is_ready && before > 0);
    let wanted = group.of("0").replica.machine().cloned();
    assert_eq!(wanted.as_ref().map(|kept| kept.0.len()), Some(6));
    assert_eq!(group.of("2").replica.machine().cloned(), wanted);
    let status = group.of("1").replica.status();
    assert_eq!(status.holders, names("0,1,2"));
}

#[test]
fn another_replica_goes_on_if_the_source_stops_with_the_list() {
    let mut group = amid_a_transfer();
    group.ends();
    group.stops("0");
    group.rests();
    assert!(group.of("2").is_ready);
    let wanted = group.of("1").replica.machine().cloned();
    assert_eq!(group.of("2").replica.machine().cloned(), wanted);
    // a place that comes back joins there, and is given the state
    group.joins("0/2");
    group.rests();
    assert!(group.of("0/2").is_ready);
    assert_eq!(group.of("0/2").replica.machine().cloned(), wanted);
}

#[test]
fn a_joiner_says_in_the_next_list_that_the_state_is_lost() {
    let mut group = amid_a_transfer();
    group.joins("3");
    group.sends("2", 9);
    group.ends();
    group.stops("0");
    assert_eq!(group.of("2").ended, None);
    group.stops("1");
    assert_eq!(group.of("2").ended, Some(Ended::Lost));
    assert_eq!(group.of("3").ended, Some(Ended::Lost));
}

#[test]
fn nobody_begins_a_later_list_with_an_empty_state() {
    let mut one = One::new("0");
    let at = Position {
        generation: 1,
        number: 1,
        index: 0,
    };
    one.replica.deliver(Delivery::View {
        at,
        members: names("0"),
        resilience: 0,
    });
    one.pump();
    assert_eq!(one.ended, Some(Ended::NoBeginning));
}
