//! Events as bytes, and answers read from their bytes (docs/EMBEDDING.md, "The binary call").

use crate::answer::{Did, Entry, Outcome, Packet, Role, Standing};
use crate::event::{Event, To};
use crate::names::{Name, Names, Stamp};

/// Writes a set of names: its places, and their lives.
fn push_names(bytes: &mut Vec<u8>, names: Names) {
    let (mask, lives) = names.parts();
    bytes.extend(mask.to_be_bytes());
    bytes.extend(lives.to_be_bytes());
}

/// Writes an event: its kind, and the kind's fields.
pub(crate) fn push_event(bytes: &mut Vec<u8>, event: &Event) {
    match event {
        Event::Tick => bytes.push(1),
        Event::Take => bytes.push(2),
        Event::Join => bytes.push(3),
        Event::Leave => bytes.push(4),
        Event::State => bytes.push(5),
        Event::Look => bytes.push(6),
        Event::Send(body) => {
            bytes.push(16);
            bytes.extend(*body);
        }
        Event::Done(request) => {
            bytes.push(17);
            bytes.extend(request.to_be_bytes());
        }
        Event::Ask(round) => {
            bytes.push(18);
            bytes.extend(round.to_be_bytes());
        }
        Event::GiveUp(name) => bytes.extend([19, name.byte()]),
        Event::Reset { least, resilience } => bytes.extend([20, *least, *resilience]),
        Event::Hear { to, packet } => {
            bytes.extend([21, u8::from(to.any)]);
            push_names(bytes, to.names);
            bytes.extend(*packet);
        }
    }
}

/// Bytes that are read from the front.
struct Reader<'a> {
    rest: &'a [u8],
}

impl<'a> Reader<'a> {
    fn bytes(&mut self, length: usize) -> Option<&'a [u8]> {
        let (read, rest) = (self.rest.get(..length)?, self.rest.get(length..)?);
        self.rest = rest;
        Some(read)
    }

    fn array<const LENGTH: usize>(&mut self) -> Option<[u8; LENGTH]> {
        self.bytes(LENGTH)?.try_into().ok()
    }

    fn byte(&mut self) -> Option<u8> {
        self.array().map(u8::from_be_bytes)
    }

    fn short(&mut self) -> Option<u16> {
        self.array().map(u16::from_be_bytes)
    }

    fn number(&mut self) -> Option<u32> {
        self.array().map(u32::from_be_bytes)
    }

    /// A number of four bytes that is below 256.
    fn small(&mut self) -> Option<u8> {
        self.number()?.try_into().ok()
    }

    fn flag(&mut self) -> Option<bool> {
        match self.byte()? {
            0 => Some(false),
            1 => Some(true),
            _ => None,
        }
    }

    fn name(&mut self) -> Option<Name> {
        self.byte().map(Name::of_byte)
    }

    fn names(&mut self) -> Option<Names> {
        Names::of_parts(self.short()?, self.array().map(u64::from_be_bytes)?)
    }

    fn stamp(&mut self) -> Option<Stamp> {
        Some(Stamp {
            round: self.number()?,
            name: self.name()?,
        })
    }

    /// Bytes with their number before them.
    fn counted(&mut self) -> Option<Vec<u8>> {
        let length = self.short()?;
        self.bytes(length.into()).map(Vec::from)
    }

    fn role(&mut self) -> Option<Role> {
        Some(match self.byte()? {
            0 => Role::Stranger,
            1 => Role::Asking,
            2 => Role::Member,
            3 => Role::Sequencer,
            4 => Role::Coordinator,
            5 => Role::Departed,
            _ => return None,
        })
    }

    fn standing(&mut self) -> Option<Standing> {
        let role = self.role()?;
        let _flags = self.byte()?;
        Some(Standing {
            role,
            view: self.stamp()?,
            view_number: self.number()?,
            members: self.names()?,
            resilience: self.byte()?,
            base: self.number()?,
            taken: self.number()?,
            accepted: self.number()?,
            top: self.number()?,
            waits_for: self.names()?,
        })
    }

    fn entry(&mut self, founded: u8) -> Option<Entry> {
        Some(match self.byte()? {
            1 => Entry::Data {
                from: self.name()?,
                request: self.number()?,
                body: self.counted()?,
            },
            2 => Entry::Join(self.name()?),
            3 => Entry::Leave(self.name()?),
            4 => Entry::View {
                stamp: self.stamp()?,
                members: self.names()?,
                resilience: Some(self.byte()?).filter(|resilience| *resilience != founded),
            },
            _ => return None,
        })
    }

    /// What came of an event, but for what has its number alone.
    fn outcome(&mut self, founded: u8) -> Option<Outcome> {
        let kind = self.byte()?;
        match bare(kind) {
            Some(outcome) => Some(outcome),
            None => self.fields(kind, founded),
        }
    }

    /// An outcome of a kind that has fields.
    fn fields(&mut self, kind: u8, founded: u8) -> Option<Outcome> {
        Some(match kind {
            4 => Outcome::Sent {
                request: self.number()?,
                number: self.number()?,
            },
            6 => Outcome::Took {
                number: self.number()?,
                entry: self.entry(founded)?,
            },
            16 => Outcome::PutOff {
                request: self.number()?,
                base: self.number()?,
                top: self.number()?,
            },
            20 => Outcome::Held {
                base: self.number()?,
                top: self.number()?,
            },
            52 => Outcome::Occupied { name: self.name()? },
            25 => Outcome::NoBody {
                from: self.name()?,
                request: self.number()?,
            },
            37 => Outcome::Newer {
                promise: self.stamp()?,
            },
            39 => Outcome::Waiting {
                names: self.names()?,
            },
            40 => Outcome::Fetching {
                from: self.name()?,
                want: self.number()?,
            },
            41 => Outcome::TooFew {
                got: self.number()?,
                least: self.number()?,
            },
            42 => Outcome::Crowded {
                base: self.number()?,
                top: self.number()?,
            },
            43 => Outcome::Overtaken { by: self.stamp()? },
            44 => Outcome::NotIn {
                best: self.stamp()?,
            },
            45 => Outcome::Decided {
                number: self.number()?,
                members: self.names()?,
            },
            255 => Outcome::Bad {
                cause: self.byte()?,
            },
            _ => self.numbered(kind)?,
        })
    }

    /// An outcome of a kind that has one number.
    fn numbered(&mut self, kind: u8) -> Option<Outcome> {
        Some(match kind {
            1 => Outcome::Queued {
                request: self.number()?,
            },
            2 => Outcome::Busy {
                queued: self.small()?,
            },
            3 => Outcome::Pending {
                request: self.number()?,
            },
            9 => Outcome::Joined {
                number: self.number()?,
            },
            17 => Outcome::Numbered {
                number: self.number()?,
            },
            19 => Outcome::Early {
                last: self.number()?,
            },
            23 => Outcome::Stored {
                number: self.number()?,
            },
            24 => Outcome::Gap {
                want: self.number()?,
            },
            28 => Outcome::Advanced {
                accepted: self.number()?,
            },
            30 => Outcome::Accepted {
                accepted: self.number()?,
            },
            31 => Outcome::Served {
                count: self.number()?,
            },
            32 => Outcome::Welcomed {
                number: self.number()?,
            },
            33 => Outcome::LetGo {
                number: self.number()?,
            },
            35 => Outcome::Refused {
                cause: self.small()?,
            },
            38 => Outcome::Catching {
                want: self.number()?,
            },
            _ => return None,
        })
    }

    fn letters(&mut self) -> Option<Vec<Packet>> {
        let count = self.byte()?;
        (0..count)
            .map(|_| {
                Some(Packet {
                    to: To {
                        any: self.flag()?,
                        names: self.names()?,
                    },
                    bytes: self.counted()?,
                })
            })
            .collect()
    }
}

/// What came of an event, where its kind says all.
fn bare(kind: u8) -> Option<Outcome> {
    Some(match kind {
        0 => Outcome::Looked,
        5 => Outcome::Unknown,
        7 => Outcome::Empty,
        8 => Outcome::Asked,
        10 => Outcome::Leaving,
        11 => Outcome::Departed,
        12 => Outcome::Stranger,
        13 => Outcome::NotMember,
        14 => Outcome::Ticked,
        15 => Outcome::Idle,
        18 => Outcome::Again,
        21 => Outcome::Kept,
        22 => Outcome::Known,
        26 => Outcome::Behind,
        27 => Outcome::Unfit,
        29 => Outcome::Noted,
        34 => Outcome::Elsewhere,
        36 => Outcome::Voted,
        46 => Outcome::NotCoordinator,
        49 => Outcome::NotAddressed,
        254 => Outcome::NoNumbersLeft,
        _ => return None,
    })
}

/// What a node of a group that was founded with this resilience answered; nothing if the bytes are no answer of a node.
pub(crate) fn did_of(bytes: &[u8], founded: u8) -> Option<Did> {
    let mut reader = Reader { rest: bytes };
    let standing = reader.standing()?;
    let outcome = reader.outcome(founded)?;
    let letters = reader.letters()?;
    reader.rest.is_empty().then_some(Did {
        outcome,
        standing,
        letters,
    })
}

#[cfg(test)]
mod tests {
    use super::*;

    /// Bytes that are none end in nothing, and never in a panic: each beginning of an answer, and answers with each byte changed.
    #[test]
    fn bytes_that_are_no_answer() {
        let mut answer = vec![0; 38];
        answer.extend([0; 10]);
        answer.extend([6, 0, 0, 0, 2, 1, 1, 0, 0, 0, 1, 0, 1, 97]);
        answer.extend([1, 0, 0, 1, 0, 0, 0, 0, 0, 0, 0, 0, 0, 2, 7, 8]);
        let did = did_of(&answer, 0).expect("it is one");
        assert_eq!(did.letters[0].bytes, [7, 8]);
        for length in 0..answer.len() {
            assert_eq!(did_of(&answer[..length], 0), None, "{length}");
        }
        for at in 0..answer.len() {
            for byte in 0..=255 {
                let mut other = answer.clone();
                other[at] = byte;
                let _ = did_of(&other, 0);
            }
        }
        answer.push(0);
        assert_eq!(did_of(&answer, 0), None);
    }
}
