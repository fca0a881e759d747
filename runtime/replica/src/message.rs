//! The messages of replicas (docs/REPLICAS.md). Numbers have the most significant byte first.

use crate::event::SessionId;
use muoswyld_member::{Name, Position};

/// The most bytes of a message: it goes in one body, so that nobody is given the end of one that began before its join.
pub const MOST_MESSAGE: usize = 1_021;
/// The most bytes of a command.
pub const MOST_COMMAND: usize = 1 << 20;
/// The bytes before a part's share.
const PART_HEAD: usize = 4;
/// The most bytes of a part's share.
pub(crate) const SHARE: usize = MOST_MESSAGE - PART_HEAD;
/// The bytes before a chunk's own.
const CHUNK_HEAD: usize = 22;
/// The bytes of each chunk but the last.
pub(crate) const CHUNK: usize = MOST_MESSAGE - CHUNK_HEAD;

const COMMAND: u8 = b'A';
const BARRIER: u8 = b'B';
const SESSION_COMMAND: u8 = b'C';
const DIGEST: u8 = b'D';
const CLOSE: u8 = b'E';
const WAITING: u8 = b'N';
const OPEN: u8 = b'O';
const PART: u8 = b'P';
const RESUME: u8 = b'R';
const CHUNK_KIND: u8 = b'T';

/// A piece of a snapshot.
#[derive(Clone, Copy, Debug, PartialEq, Eq)]
pub(crate) struct Chunk<'a> {
    /// The Join of the joiner that it is for.
    pub(crate) to: Position,
    /// Which piece it is, from 0.
    pub(crate) index: u32,
    /// The digest of the state at the Join.
    pub(crate) digest: u64,
    /// Whether it is the last.
    pub(crate) is_last: bool,
    /// Its bytes.
    pub(crate) bytes: &'a [u8],
}

/// A message.
#[derive(Clone, Copy, Debug, PartialEq, Eq)]
pub(crate) enum Message<'a> {
    Command(&'a [u8]),
    Barrier,
    SessionCommand {
        session: SessionId,
        sequence: u64,
        answered: u64,
        command: &'a [u8],
    },
    Digest {
        at: Position,
        digest: u64,
    },
    Close(SessionId),
    /// The sender's own Join.
    Waiting(Position),
    /// The id of the list in which the sender began.
    Open(u64),
    Resume {
        to: Position,
        next: u32,
    },
    Part {
        index: u16,
        is_last: bool,
        share: &'a [u8],
    },
    Chunk(Chunk<'a>),
}

/// Takes numbers from the front of bytes.
#[derive(Clone, Copy)]
pub(crate) struct Reader<'a>(pub(crate) &'a [u8]);

impl<'a> Reader<'a> {
    pub(crate) fn array<const N: usize>(&mut self) -> Option<[u8; N]> {
        let (first, rest) = self.0.split_first_chunk::<N>()?;
        self.0 = rest;
        Some(*first)
    }

    pub(crate) fn u8(&mut self) -> Option<u8> {
        self.array().map(u8::from_be_bytes)
    }

    pub(crate) fn u16(&mut self) -> Option<u16> {
        self.array().map(u16::from_be_bytes)
    }

    pub(crate) fn u32(&mut self) -> Option<u32> {
        self.array().map(u32::from_be_bytes)
    }

    pub(crate) fn u64(&mut self) -> Option<u64> {
        self.array().map(u64::from_be_bytes)
    }

    /// A byte that is 0 or 1.
    pub(crate) fn flag(&mut self) -> Option<bool> {
        match self.u8()? {
            0 => Some(false),
            1 => Some(true),
            _ => None,
        }
    }

    pub(crate) fn name(&mut self) -> Option<Name> {
        self.u8().map(Name::of_byte)
    }

    pub(crate) fn position(&mut self) -> Option<Position> {
        let (generation, number, index) = (self.u32()?, self.u32()?, self.u32()?);
        Some(Position {
            generation,
            number,
            index,
        })
    }

    /// The position of an entry.
    pub(crate) fn entry(&mut self) -> Option<Position> {
        let (generation, number) = (self.u32()?, self.u32()?);
        Some(Position {
            generation,
            number,
            index: 0,
        })
    }

    pub(crate) fn session(&mut self) -> Option<SessionId> {
        let (list, at) = (self.u64()?, self.position()?);
        Some(SessionId { list, at })
    }

    pub(crate) fn bytes(&mut self, length: usize) -> Option<&'a [u8]> {
        let (bytes, rest) = self.0.split_at_checked(length)?;
        self.0 = rest;
        Some(bytes)
    }

    /// Nothing, if nothing is left.
    pub(crate) fn end(self) -> Option<()> {
        self.0.is_empty().then_some(())
    }
}

/// What a message says; None if it is none of a replica's.
pub(crate) fn read(message: &[u8]) -> Option<Message<'_>> {
    let mut rest = Reader(message);
    let kind = rest.u8()?;
    let message = match kind {
        COMMAND => Message::Command(rest.0),
        SESSION_COMMAND => Message::SessionCommand {
            session: rest.session()?,
            sequence: rest.u64()?,
            answered: rest.u64()?,
            command: rest.0,
        },
        PART => Message::Part {
            index: rest.u16()?,
            is_last: rest.flag()?,
            share: rest.0,
        },
        CHUNK_KIND => Message::Chunk(Chunk {
            to: rest.entry()?,
            index: rest.u32()?,
            digest: rest.u64()?,
            is_last: rest.flag()?,
            bytes: rest.0,
        }),
        _ => return read_short(kind, rest),
    };
    Some(message)
}

/// Those behind which nothing stands.
fn read_short(kind: u8, mut rest: Reader) -> Option<Message> {
    let message = match kind {
        BARRIER => Message::Barrier,
        OPEN => Message::Open(rest.u64()?),
        WAITING => Message::Waiting(rest.entry()?),
        CLOSE => Message::Close(rest.session()?),
        RESUME => Message::Resume {
            to: rest.entry()?,
            next: rest.u32()?,
        },
        DIGEST => Message::Digest {
            at: rest.entry()?,
            digest: rest.u64()?,
        },
        _ => return None,
    };
    rest.end()?;
    Some(message)
}

/// Adds a position to bytes.
pub(crate) fn put_position(to: &mut Vec<u8>, at: Position) {
    put_entry(to, at);
    to.extend(at.index.to_be_bytes());
}

/// Adds the position of an entry to bytes.
pub(crate) fn put_entry(to: &mut Vec<u8>, at: Position) {
    to.extend(at.generation.to_be_bytes());
    to.extend(at.number.to_be_bytes());
}

/// Adds a session's id to bytes.
pub(crate) fn put_session(to: &mut Vec<u8>, session: SessionId) {
    to.extend(session.list.to_be_bytes());
    put_position(to, session.at);
}

impl Message<'_> {
    /// Its bytes.
    pub(crate) fn bytes(&self) -> Vec<u8> {
        let mut to = Vec::with_capacity(64);
        match self {
            Message::Command(command) => {
                to.push(COMMAND);
                to.extend(*command);
            }
            Message::Barrier => to.push(BARRIER),
            Message::Open(list) => {
                to.push(OPEN);
                to.extend(list.to_be_bytes());
            }
            Message::Waiting(at) => {
                to.push(WAITING);
                put_entry(&mut to, *at);
            }
            Message::SessionCommand {
                session,
                sequence,
                answered,
                command,
            } => {
                to.push(SESSION_COMMAND);
                put_session(&mut to, *session);
                to.extend(sequence.to_be_bytes());
                to.extend(answered.to_be_bytes());
                to.extend(*command);
            }
            Message::Close(session) => {
                to.push(CLOSE);
                put_session(&mut to, *session);
            }
            Message::Digest { at, digest } => {
                to.push(DIGEST);
                put_entry(&mut to, *at);
                to.extend(digest.to_be_bytes());
            }
            Message::Resume { to: join, next } => {
                to.push(RESUME);
                put_entry(&mut to, *join);
                to.extend(next.to_be_bytes());
            }
            Message::Part {
                index,
                is_last,
                share,
            } => {
                to.push(PART);
                to.extend(index.to_be_bytes());
                to.push(u8::from(*is_last));
                to.extend(*share);
            }
            Message::Chunk(chunk) => chunk.put(&mut to),
        }
        to
    }
}

impl Chunk<'_> {
    fn put(&self, to: &mut Vec<u8>) {
        to.push(CHUNK_KIND);
        put_entry(to, self.to);
        to.extend(self.index.to_be_bytes());
        to.extend(self.digest.to_be_bytes());
        to.push(u8::from(self.is_last));
        to.extend(self.bytes);
    }
}

#[cfg(test)]
mod tests {
    use super::*;
    use proptest::prelude::*;

    #[test]
    fn messages_have_the_bytes_that_the_page_says() {
        let at = Position {
            generation: 6,
            number: 0x0102_0304,
            index: 5,
        };
        let session = SessionId { list: 0x0c0d, at };
        let entry = |generation, number| Position {
            generation,
            number,
            index: 0,
        };
        let cases: Vec<(Message, Vec<u8>)> = vec![
            (Message::Command(b"xy"), b"Axy".to_vec()),
            (Message::Barrier, b"B".to_vec()),
            (
                Message::SessionCommand {
                    session,
                    sequence: 2,
                    answered: 1,
                    command: b"x",
                },
                b"C\0\0\0\0\0\0\x0c\x0d\0\0\0\x06\x01\x02\x03\x04\0\0\0\x05\0\0\0\0\0\0\0\x02\0\0\0\0\0\0\0\x01x"
                    .to_vec(),
            ),
            (
                Message::Digest {
                    at: entry(3, 9),
                    digest: 0x0a0b,
                },
                b"D\0\0\0\x03\0\0\0\x09\0\0\0\0\0\0\x0a\x0b".to_vec(),
            ),
            (
                Message::Close(session),
                b"E\0\0\0\0\0\0\x0c\x0d\0\0\0\x06\x01\x02\x03\x04\0\0\0\x05".to_vec(),
            ),
            (
                Message::Waiting(entry(1, 7)),
                b"N\0\0\0\x01\0\0\0\x07".to_vec(),
            ),
            (
                Message::Open(0x0102),
                b"O\0\0\0\0\0\0\x01\x02".to_vec(),
            ),
            (
                Message::Resume {
                    to: entry(2, 8),
                    next: 3,
                },
                b"R\0\0\0\x02\0\0\0\x08\0\0\0\x03".to_vec(),
            ),
            (
                Message::Part {
                    index: 3,
                    is_last: true,
                    share: b"s",
                },
                b"P\0\x03\x01s".to_vec(),
            ),
            (
                Message::Chunk(Chunk {
                    to: entry(4, 7),
                    index: 1,
                    digest: 2,
                    is_last: false,
                    bytes: b"c",
                }),
                b"T\0\0\0\x04\0\0\0\x07\0\0\0\x01\0\0\0\0\0\0\0\x02\0c".to_vec(),
            ),
        ];
        for (message, bytes) in cases {
            assert_eq!(message.bytes(), bytes);
            assert_eq!(read(&bytes), Some(message));
        }
    }

    #[test]
    fn what_is_no_message_is_told() {
        for bytes in [
            &b""[..],
            b"x",
            b"Bx",
            b"O\0\0\0\0\0\0\0",
            b"O\0\0\0\0\0\0\0\0\0",
            b"N\0\0\0\0\0\0\0",
            b"N\0\0\0\0\0\0\0\0\0",
            b"E\0\0\0\0\0\0\0\0\0\0\0\0\0\0\0\0\0\0\0",
            b"E\0\0\0\0\0\0\0\0\0\0\0\0\0\0\0\0\0\0\0\0\0",
            b"D\0",
            b"C\0\0\0\0\0\0\0\0\0\0\0\0\0\0\0\0\0\0\0\0\0\0\0\0\0\0\0\0\0\0\0\0\0\0\0",
            b"P\0\0",
            b"P\0\0\x02",
            b"T\0\0\0\0\0\0\0\0\0\0\0\0\0\0\0\0\0\0\0\0\x02",
        ] {
            assert_eq!(read(bytes), None, "{bytes:?}");
        }
    }

    proptest! {
        #[test]
        fn what_is_read_is_written_again(bytes in prop::collection::vec(any::<u8>(), 0..60), kind in prop::sample::select(&b"ABCDENOPRT"[..])) {
            let bytes = [&[kind][..], &bytes].concat();
            if let Some(message) = read(&bytes) {
                prop_assert_eq!(message.bytes(), bytes);
            }
        }
    }
}
