//! The messages and their bytes. All numbers are big-endian.
//!
//! | kind | after the kind's byte |
//! |---|---|
//! | `10`, heartbeat | id (16), name (1), process (8), sequence (8), flags (1: bit 0 asks, bit 1 votes, bit 2 frozen), counter (8), frozen for (8), seven sets of names (32 each): members, suspects, wants, refuses, ripe, stopped, words; a count (1) and so many heard; a count (1) and so many counters |
//! | `11`, echo | id (16), the voter's name (1), its counter (8), then one heard |
//! | `12`, closed | id (16), the name that it is for (1) |
//! | `13`, elsewhere | id (16), the name that it is for (1), the speaker's place (1), how many lists came before its latest one (4) |
//!
//! A heard is a name (1), its process (8) and a sequence (8). A counter is a place (1) and a counter (8). A set of names has a bit for
//! each byte of a name: the first byte has bytes 63 to 56, the most significant bit first, as four words of 64 bits.

use crate::names::{Name, NameSet};

const HEARTBEAT: u8 = 0x10;
const ECHO: u8 = 0x11;
const CLOSED: u8 = 0x12;
const ELSEWHERE: u8 = 0x13;
const ASKS: u8 = 1;
const VOTES: u8 = 2;
const FROZEN: u8 = 4;
/// How many a message has heard, at most.
pub(crate) const MOST_HEARD: usize = 64;
const MOST_COUNTERS: usize = 16;

/// The latest heartbeat that was heard of a process.
#[derive(Clone, Copy, Debug, PartialEq, Eq)]
pub struct Heard {
    /// Its name.
    pub name: Name,
    /// Its process's random word.
    pub process: u64,
    /// The heartbeat's sequence number.
    pub sequence: u64,
}

/// A heartbeat. No time of a clock is in it: the sender keeps its own sending times by their sequence numbers.
#[derive(Clone, Debug, PartialEq, Eq)]
pub struct Heartbeat {
    /// The group's id.
    pub id: [u8; 16],
    /// Whose it is, with the heartbeat's own number.
    pub from: Heard,
    /// Whether it wants an echo at once.
    pub asks: bool,
    /// The counter of its voter file as it is on disk; None if it is no voter.
    pub counter: Option<u64>,
    /// For how many microseconds it hasn't been allowed to act; None if it may.
    pub frozen_for: Option<u64>,
    /// The members of its view, if it is one of them: so voters that aren't know whom to listen for.
    pub members: NameSet,
    /// Whom it hasn't heard for too long. It takes that back.
    pub suspects: NameSet,
    /// Whom it wants to be refused, as a candidate.
    pub wants: NameSet,
    /// Whom it has refused, on disk.
    pub refuses: NameSet,
    /// Of these, whom it hasn't echoed for long enough.
    pub ripe: NameSet,
    /// Who has stopped for certain.
    pub stopped: NameSet,
    /// Of which names it is known that their processes have ended, not only that this group gave them up.
    pub words: NameSet,
    /// The echoes: the latest heartbeat of each process that it hasn't refused.
    pub heard: Vec<Heard>,
    /// The greatest counter that it knows of each voter's file.
    pub counters: Vec<(u8, u64)>,
}

/// The answer to a heartbeat that asks.
#[derive(Clone, Copy, Debug, PartialEq, Eq)]
pub struct Echo {
    /// The group's id.
    pub id: [u8; 16],
    /// The voter.
    pub voter: Name,
    /// The counter of its file.
    pub counter: u64,
    /// What it heard.
    pub heard: Heard,
}

/// A message.
#[derive(Clone, Debug, PartialEq, Eq)]
pub enum Message {
    /// A heartbeat, for all.
    Heartbeat(Box<Heartbeat>),
    /// An echo, for one.
    Echo(Echo),
    /// The list of this id has ended, and nobody serves it any more: whoever hasn't come to its end was given up.
    Closed {
        /// The list's id.
        id: [u8; 16],
        /// Whom it is for.
        to: Name,
    },
    /// The speaker doesn't serve the list of this id. If its latest list is a later one, its place never will: a place that began in a later
    /// list serves no earlier one.
    Elsewhere {
        /// The list's id.
        id: [u8; 16],
        /// Whom it is for.
        to: Name,
        /// The speaker's place.
        place: u8,
        /// How many lists came before the speaker's latest one.
        generation: u32,
    },
}

/// Whether a payload is a message of this crate, by its first byte.
pub fn is_message(payload: &[u8]) -> bool {
    matches!(payload.first(), Some(HEARTBEAT..=ELSEWHERE))
}

struct Bytes<'a>(&'a [u8]);

impl Bytes<'_> {
    fn take<const N: usize>(&mut self) -> Option<[u8; N]> {
        let (head, rest) = self.0.split_first_chunk::<N>()?;
        self.0 = rest;
        Some(*head)
    }

    fn u8(&mut self) -> Option<u8> {
        self.take().map(u8::from_be_bytes)
    }

    fn u64(&mut self) -> Option<u64> {
        self.take().map(u64::from_be_bytes)
    }

    fn set(&mut self) -> Option<NameSet> {
        self.take().map(NameSet::of_bytes)
    }

    fn heard(&mut self) -> Option<Heard> {
        Some(Heard {
            name: Name::of_byte(self.u8()?),
            process: self.u64()?,
            sequence: self.u64()?,
        })
    }

    fn counter(&mut self) -> Option<(u8, u64)> {
        let place = self.u8().filter(|place| *place < 16)?;
        Some((place, self.u64()?))
    }

    fn several<T>(&mut self, most: usize, one: impl Fn(&mut Self) -> Option<T>) -> Option<Vec<T>> {
        let count = usize::from(self.u8()?);
        if count > most {
            return None;
        }
        (0..count).map(|_| one(self)).collect()
    }

    fn heartbeat(&mut self) -> Option<Heartbeat> {
        let id = self.take()?;
        let from = self.heard()?;
        let flags = self.u8()?;
        if flags & !(ASKS | VOTES | FROZEN) != 0 {
            return None;
        }
        let (counter, frozen) = (self.u64()?, self.u64()?);
        Some(Heartbeat {
            id,
            from,
            asks: flags & ASKS != 0,
            counter: flag_of(flags, VOTES, counter)?,
            frozen_for: flag_of(flags, FROZEN, frozen)?,
            members: self.set()?,
            suspects: self.set()?,
            wants: self.set()?,
            refuses: self.set()?,
            ripe: self.set()?,
            stopped: self.set()?,
            words: self.set()?,
            heard: self.several(MOST_HEARD, Bytes::heard)?,
            counters: self.several(MOST_COUNTERS, Bytes::counter)?,
        })
    }

    fn echo(&mut self) -> Option<Echo> {
        Some(Echo {
            id: self.take()?,
            voter: Name::of_byte(self.u8()?),
            counter: self.u64()?,
            heard: self.heard()?,
        })
    }
}

/// A number that counts only if its flag is set, and else is 0.
fn flag_of(flags: u8, flag: u8, number: u64) -> Option<Option<u64>> {
    match flags & flag != 0 {
        true => Some(Some(number)),
        false => (number == 0).then_some(None),
    }
}

fn put_heard(bytes: &mut Vec<u8>, heard: &Heard) {
    bytes.push(heard.name.byte());
    bytes.extend(heard.process.to_be_bytes());
    bytes.extend(heard.sequence.to_be_bytes());
}

impl Heartbeat {
    fn put(&self, bytes: &mut Vec<u8>) {
        bytes.push(HEARTBEAT);
        bytes.extend(self.id);
        put_heard(bytes, &self.from);
        let flag = |is: bool, flag: u8| if is { flag } else { 0 };
        let votes = flag(self.counter.is_some(), VOTES);
        bytes.push(flag(self.asks, ASKS) | votes | flag(self.frozen_for.is_some(), FROZEN));
        bytes.extend(self.counter.unwrap_or(0).to_be_bytes());
        bytes.extend(self.frozen_for.unwrap_or(0).to_be_bytes());
        let sets = [
            self.members,
            self.suspects,
            self.wants,
            self.refuses,
            self.ripe,
        ];
        for set in sets.iter().chain([&self.stopped, &self.words]) {
            bytes.extend(set.bytes());
        }
        let heard = &self.heard[..self.heard.len().min(MOST_HEARD)];
        bytes.push(heard.len() as u8);
        for one in heard {
            put_heard(bytes, one);
        }
        let counters = &self.counters[..self.counters.len().min(MOST_COUNTERS)];
        bytes.push(counters.len() as u8);
        for (place, counter) in counters {
            bytes.push(*place);
            bytes.extend(counter.to_be_bytes());
        }
    }
}

impl Message {
    /// Its bytes.
    pub fn to_bytes(&self) -> Vec<u8> {
        let mut bytes = Vec::with_capacity(256);
        match self {
            Message::Heartbeat(heartbeat) => heartbeat.put(&mut bytes),
            Message::Echo(echo) => {
                bytes.push(ECHO);
                bytes.extend(echo.id);
                bytes.push(echo.voter.byte());
                bytes.extend(echo.counter.to_be_bytes());
                put_heard(&mut bytes, &echo.heard);
            }
            Message::Closed { id, to } => {
                bytes.push(CLOSED);
                bytes.extend(id);
                bytes.push(to.byte());
            }
            Message::Elsewhere {
                id,
                to,
                place,
                generation,
            } => {
                bytes.push(ELSEWHERE);
                bytes.extend(id);
                bytes.extend([to.byte(), *place]);
                bytes.extend(generation.to_be_bytes());
            }
        }
        bytes
    }

    /// The message of some bytes; None if they are none by their form. There is one form for each message.
    pub fn read(bytes: &[u8]) -> Option<Message> {
        let mut bytes = Bytes(bytes);
        let message = match bytes.u8()? {
            HEARTBEAT => Message::Heartbeat(Box::new(bytes.heartbeat()?)),
            ECHO => Message::Echo(bytes.echo()?),
            CLOSED => Message::Closed {
                id: bytes.take()?,
                to: Name::of_byte(bytes.u8()?),
            },
            ELSEWHERE => Message::Elsewhere {
                id: bytes.take()?,
                to: Name::of_byte(bytes.u8()?),
                place: bytes.u8().filter(|place| *place < 16)?,
                generation: bytes.take().map(u32::from_be_bytes)?,
            },
            _ => return None,
        };
        bytes.0.is_empty().then_some(message)
    }
}
