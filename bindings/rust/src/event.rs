//! What a node is asked to do, or hears (docs/NETWORK.md, "A node that speaks lines").

use crate::names::{Name, Names};
use std::fmt;

/// For whom a letter is.
#[derive(Clone, Copy, Debug, PartialEq, Eq)]
pub struct To {
    /// Whether it is for any life of the places of these names.
    pub any: bool,
    /// The names.
    pub names: Names,
}

impl To {
    /// Whether it is for a name.
    pub fn is_for(&self, name: Name) -> bool {
        if self.any {
            return self.names.at(name.place()).is_some();
        }
        self.names.has(name)
    }
}

impl fmt::Display for To {
    fn fmt(&self, f: &mut fmt::Formatter<'_>) -> fmt::Result {
        write!(f, "{}{}", if self.any { "*" } else { "" }, self.names)
    }
}

/// A call to a node, a tick, or a packet that it hears.
#[derive(Clone, Copy, Debug, PartialEq, Eq)]
pub enum Event<'a> {
    /// Sends a body of at most 1,024 bytes to the group.
    Send(&'a [u8]),
    /// Asks for the outcome of the send with this request number, 1 to 2,000,000,000.
    Done(u32),
    /// Takes the next accepted entry.
    Take,
    /// Asks to join.
    Join,
    /// Asks how the node stands.
    State,
    /// Asks to leave.
    Leave,
    /// Begins a ballot for a view of at least `least` members, 1 to 16, with this resilience, 0 to 15.
    Reset {
        /// The least number of members.
        least: u8,
        /// How many may stop after it.
        resilience: u8,
    },
    /// Asks how the ballot of a round stands, 1 to 2,000,000,000.
    Ask(u32),
    /// Gives up a name that has stopped.
    GiveUp(Name),
    /// Time passed.
    Tick,
    /// A letter came, for these names.
    Hear {
        /// For whom it is.
        to: To,
        /// The packet.
        packet: &'a [u8],
    },
    /// Asks for the node's state and its view of the group, and changes nothing.
    Look,
}

/// Writes digits, two for each byte, or `-` for none.
fn push_digits(line: &mut String, bytes: &[u8]) {
    const DIGITS: &[u8; 16] = b"0123456789abcdef";
    if bytes.is_empty() {
        line.push('-');
    }
    for byte in bytes {
        line.push(char::from(DIGITS[usize::from(byte >> 4)]));
        line.push(char::from(DIGITS[usize::from(byte & 15)]));
    }
}

impl Event<'_> {
    /// The line by which a node that speaks lines is asked for it.
    pub fn line(&self) -> String {
        match self {
            Event::Send(body) => {
                let mut line = String::from("send ");
                push_digits(&mut line, body);
                line
            }
            Event::Done(request) => format!("done {request}"),
            Event::Take => "take".into(),
            Event::Join => "join".into(),
            Event::State => "state".into(),
            Event::Leave => "leave".into(),
            Event::Reset { least, resilience } => format!("reset {least} r{resilience}"),
            Event::Ask(round) => format!("ask {round}"),
            Event::GiveUp(name) => format!("giveup {name}"),
            Event::Tick => "tick".into(),
            Event::Hear { to, packet } => {
                let mut line = format!("hear {to} ");
                push_digits(&mut line, packet);
                line
            }
            Event::Look => "info".into(),
        }
    }
}
