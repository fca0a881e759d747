//! A node of a group (docs/NETWORK.md) as a safe type over the proved library of crates/am_c.
//!
//! ```
//! use muoswyld::Node;
//!
//! let mut node = Node::open("--name 1 --founders 0,1,2")?;
//! let answer = node.step("tick")?;
//! assert_eq!(answer.said, "ticked");
//! for letter in &answer.letters {
//!     // each goes to the names that it has: `letter.heard()` is the line by which they hear it
//!     assert_eq!(letter.names().collect::<Vec<_>>(), ["0"]);
//! }
//! # Ok::<(), muoswyld::Refusal>(())
//! ```
//!
//! The contracts of the four calls stand in `crates/am_c/src/lib.rt`. This crate's types guarantee what they ask of a caller: only
//! the calls write to a handle, slices are there and apart, and calls on one handle come one after another, on its thread.
//! Nothing compares the declarations below with that file.

pub mod answer;
mod binary;
#[cfg(test)]
mod by_lines;
pub mod event;
pub mod names;

use answer::Did;
use event::Event;
use std::ffi::c_void;
use std::{error, fmt, ptr};

/// The handle: null while it is closed. The pointer keeps it on its thread, since no proof says that a node may go to another.
///
/// ```compile_fail
/// fn goes<T: Send>(_: T) {}
/// goes(muoswyld::Node::open("--name 0 --founders 0"));
/// ```
#[repr(C)]
struct Handle {
    at: *mut c_void,
}

extern "C" {
    fn muoswyld_open(node: *mut Handle, options: *const u8, n: usize) -> i32;
    fn muoswyld_step(
        node: *mut Handle,
        line: *const u8,
        n: usize,
        answer: *mut u8,
        room: usize,
        length: *mut usize,
    ) -> i32;
    fn muoswyld_do(
        node: *mut Handle,
        event: *const u8,
        n: usize,
        answer: *mut u8,
        room: usize,
        length: *mut usize,
    ) -> i32;
    fn muoswyld_close(node: *mut Handle) -> i32;
}

/// A call that answers bytes.
type Call = unsafe extern "C" fn(*mut Handle, *const u8, usize, *mut u8, usize, *mut usize) -> i32;

const DONE: i32 = 0;
const NO_ROOM: i32 = 2;
const BAD_OPTIONS: i32 = 5;

/// The reason why a node wasn't opened, or why a line has no answer.
#[derive(Clone, Copy, Debug, PartialEq, Eq)]
pub enum Refusal {
    /// There was no memory. A node that gave it once gives no answer any more.
    NoMemory,
    /// These aren't options.
    BadOptions,
    /// The library wrote something that is no answer of a node. A library of another version does this.
    NoAnswer,
}

impl fmt::Display for Refusal {
    fn fmt(&self, f: &mut fmt::Formatter<'_>) -> fmt::Result {
        f.write_str(match self {
            Refusal::NoMemory => "there is no memory for the node",
            Refusal::BadOptions => "these are no options of a node",
            Refusal::NoAnswer => "what the library wrote is no answer of a node",
        })
    }
}

impl error::Error for Refusal {}

/// A letter that a node sends.
#[derive(Clone, Debug, PartialEq, Eq)]
pub struct Letter {
    /// The names that it is for, printed as a set of names, with a star before it if any life of their places hears it.
    pub to: String,
    /// Its bytes, two digits each.
    pub data: String,
}

impl Letter {
    /// The names that it is for; of a letter for any life, names of some life of their places.
    pub fn names(&self) -> impl Iterator<Item = &str> {
        self.to
            .trim_start_matches('*')
            .split(',')
            .filter(|name| *name != "-")
    }

    /// The line by which a node hears it.
    pub fn heard(&self) -> String {
        format!("hear {} {}", self.to, self.data)
    }
}

/// A node's answer to a line.
#[derive(Clone, Debug, PartialEq, Eq)]
pub struct Answer {
    /// The outcome.
    pub said: String,
    /// The letters that the node sends, in order.
    pub letters: Vec<Letter>,
}

impl Answer {
    fn of(text: &str) -> Answer {
        let mut parts = text.split(" | ");
        let said = parts.next().unwrap_or_default().to_string();
        let letter = |part: &str| {
            part.split_once(' ').map(|(to, data)| Letter {
                to: to.into(),
                data: data.into(),
            })
        };
        Answer {
            said,
            letters: parts.filter_map(letter).collect(),
        }
    }
}

/// The resilience that options say, 0 if they say none.
fn resilience_in(options: &str) -> u8 {
    let mut words = options
        .split(' ')
        .skip_while(|word| *word != "--resilience");
    words.nth(1).and_then(|word| word.parse().ok()).unwrap_or(0)
}

/// A node. It is closed when it is dropped, and its state ends with it.
pub struct Node {
    handle: Handle,
    /// The resilience of the founding.
    founded: u8,
    event: Vec<u8>,
    answer: Vec<u8>,
}

impl Node {
    /// A node by the options of the program's word `node`, with one blank between two words.
    pub fn open(options: &str) -> Result<Node, Refusal> {
        let mut node = Node {
            handle: Handle {
                at: ptr::null_mut(),
            },
            founded: resilience_in(options),
            event: Vec::new(),
            answer: vec![0; 4096],
        };
        // SAFETY: the handle is closed, and nothing else has it; the options are read for the call.
        match unsafe { muoswyld_open(&mut node.handle, options.as_ptr(), options.len()) } {
            DONE => Ok(node),
            BAD_OPTIONS => Err(Refusal::BadOptions),
            _ => Err(Refusal::NoMemory),
        }
    }

    /// A call's answer to bytes, which is valid until the next call.
    fn ask(&mut self, call: Call, asked: &[u8]) -> Result<&[u8], Refusal> {
        let mut length = 0;
        loop {
            let answer = &mut self.answer;
            // SAFETY: the handle came from `muoswyld_open`, and `&mut self` makes this the only call on it. What is asked is read for
            // the call, and the answer has as many bytes as are said.
            let number = unsafe {
                call(
                    &mut self.handle,
                    asked.as_ptr(),
                    asked.len(),
                    answer.as_mut_ptr(),
                    answer.len(),
                    &mut length,
                )
            };
            match number {
                DONE => return Ok(&self.answer[..length]),
                // nothing has changed, and the answer waits for so much room
                NO_ROOM => self.answer.resize(length, 0),
                _ => return Err(Refusal::NoMemory),
            }
        }
    }

    /// The answer to a line, without a newline, as it stands until the next call.
    pub fn tell(&mut self, line: &[u8]) -> Result<&[u8], Refusal> {
        self.ask(muoswyld_step, line)
    }

    /// The answer to an event as bytes, as it stands until the next call (docs/EMBEDDING.md, "The binary call").
    pub fn ask_bytes(&mut self, event: &[u8]) -> Result<&[u8], Refusal> {
        self.ask(muoswyld_do, event)
    }

    /// The node's answer to an event.
    ///
    /// ```
    /// use muoswyld::answer::Outcome;
    /// use muoswyld::event::Event;
    ///
    /// let mut node = muoswyld::Node::open("--name 0 --founders 0")?;
    /// let did = node.handle(&Event::Send(b"hello"))?;
    /// assert_eq!(did.outcome, Outcome::Queued { request: 1 });
    /// assert_eq!(did.standing.accepted, 2);
    /// # Ok::<(), muoswyld::Refusal>(())
    /// ```
    pub fn handle(&mut self, event: &Event) -> Result<Did, Refusal> {
        let mut bytes = std::mem::take(&mut self.event);
        bytes.clear();
        binary::push_event(&mut bytes, event);
        let founded = self.founded;
        let did = self
            .ask_bytes(&bytes)
            .map(|answer| binary::did_of(answer, founded));
        self.event = bytes;
        did?.ok_or(Refusal::NoAnswer)
    }

    /// The answer to a line, taken apart.
    pub fn step(&mut self, line: &str) -> Result<Answer, Refusal> {
        self.tell(line.as_bytes())
            .map(|answer| Answer::of(&String::from_utf8_lossy(answer)))
    }
}

impl Drop for Node {
    fn drop(&mut self) {
        // SAFETY: nothing else has the handle, and no call follows.
        unsafe { muoswyld_close(&mut self.handle) };
    }
}

#[cfg(test)]
mod tests {
    use super::*;
    use answer::Outcome;
    use event::To;
    use names::{Name, Names};

    /// Numbers that look random: a linear congruence of 64 bits.
    struct Numbers(u64);

    impl Numbers {
        fn below(&mut self, bound: u64) -> u64 {
            self.0 = self
                .0
                .wrapping_mul(6_364_136_223_846_793_005)
                .wrapping_add(1_442_695_040_888_963_407);
            (self.0 >> 33) % bound
        }
    }

    /// What a node answers by lines.
    fn by_lines(node: &mut Node, event: &Event) -> Option<Did> {
        let (outcome, letters) = match event {
            Event::Look => (Outcome::Looked, Vec::new()),
            _ => by_lines::did_of(
                std::str::from_utf8(node.tell(event.line().as_bytes()).ok()?).ok()?,
            )?,
        };
        Some(Did {
            outcome,
            standing: by_lines::standing_of(std::str::from_utf8(node.tell(b"info").ok()?).ok()?)?,
            letters,
        })
    }

    /// An event to try: of each kind, with a packet that was sent, or with one that was changed.
    fn drawn<'a>(numbers: &mut Numbers, body: &'a [u8], packet: &'a [u8], to: To) -> Event<'a> {
        match numbers.below(22) {
            0..=2 => Event::Send(body),
            3 => Event::Done(1 + numbers.below(4) as u32),
            4 | 5 => Event::Take,
            6 => Event::Join,
            7 => Event::State,
            8 => Event::Leave,
            9 => Event::Reset {
                least: 1 + numbers.below(3) as u8,
                resilience: numbers.below(3) as u8,
            },
            10 => Event::Ask(1 + numbers.below(3) as u32),
            11 => Event::GiveUp(Name::of_byte(numbers.below(20) as u8)),
            12 | 13 => Event::Tick,
            14 => Event::Look,
            _ => Event::Hear { to, packet },
        }
    }

    #[test]
    fn events_are_answered_as_lines() {
        for seed in 0..40 {
            let mut numbers = Numbers(seed);
            let options =
                |place: u64| format!("--name {place} --founders 0,1 --resilience {}", seed % 2);
            let open = |place| Node::open(&options(place)).expect("there is memory");
            let mut bytes: Vec<Node> = (0..3).map(open).collect();
            let mut lines: Vec<Node> = (0..3).map(open).collect();
            let everybody = To {
                any: false,
                names: Names::of_parts(7, 0).expect("it is a set"),
            };
            let mut sent = vec![(everybody, vec![65, 71])];
            let mut kinds = std::collections::HashSet::new();
            for _ in 0..1500 {
                let place = numbers.below(3) as usize;
                let last = numbers.below(8.min(sent.len() as u64)) as usize;
                let (to, mut packet) = sent[sent.len() - 1 - last].clone();
                if numbers.below(20) == 0 {
                    let at = numbers.below(packet.len() as u64) as usize;
                    packet[at] = numbers.below(256) as u8;
                }
                let body = vec![98; numbers.below(1025) as usize];
                // a room that is mostly too short, so that the answer waits for another
                bytes[place].answer.resize(numbers.below(100) as usize, 0);
                let event = drawn(&mut numbers, &body, &packet, to);
                let did = bytes[place].handle(&event).expect("there is memory");
                assert_eq!(Some(&did), by_lines(&mut lines[place], &event).as_ref());
                kinds.insert(std::mem::discriminant(&did.outcome));
                sent.extend(
                    did.letters
                        .into_iter()
                        .map(|letter| (letter.to, letter.bytes)),
                );
            }
            assert!(kinds.len() > 8, "seed {seed}: {} kinds", kinds.len());
        }
    }

    #[test]
    fn bad_events() {
        let mut node = Node::open("--name 0 --founders 0").expect("there is memory");
        let long = [16; 4097];
        for (event, cause) in [
            (&b""[..], 1),
            (&[7], 1),
            (&[1, 0], 2),
            (&[17, 0, 0, 1], 2),
            (&[17, 0, 0, 0, 0], 3),
            (&[20, 17, 0], 3),
            (&[21, 2, 0, 0, 0, 0, 0, 0, 0, 0, 0, 0], 2),
            (&[21, 1, 0, 0, 0, 0, 0, 0, 0, 0, 0, 1], 2),
            (&long[..1026], 3),
            (&long, 4),
        ] {
            let answer = node.ask_bytes(event).expect("there is memory");
            let did = binary::did_of(answer, 0).expect("it is an answer");
            assert_eq!(did.outcome, Outcome::Bad { cause });
        }
    }
}
