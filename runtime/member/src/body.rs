//! What a body holds: packed small messages, or a part of a long one (docs/MESSAGES.md).
//!
//! | first byte | a body is |
//! |---|---|
//! | `P` | messages, each its length (2 bytes) and its bytes: one at least, and nothing behind the last one |
//! | `R` | the messages in bytes of the sender's stream: where they start (8), how many bytes (4), and their CRC-32 (4) |
//! | `S` | a part of a message, as an earlier version of this program sends it |
//! | `C` | control, which no application is given: its kind (1), and what that has. A member that doesn't know a kind of 128 or more ends |
//!
//! Any other body, and one that isn't of its form, is a message as it is. So a message goes out that fits into a body, but not with the
//! head of a packed one: a kilobyte is one body, if it doesn't begin as one of these.

use muoswyld::names::Name;
use std::ops::Range;

/// The most bytes of a message.
pub const MOST_MESSAGE: usize = 65_535;
/// The most bytes of a body.
pub(crate) const MOST_BODY: usize = 1024;
/// The bytes of a part beside its share.
const PART_HEAD: usize = 5;
/// The share of each part but the last.
const SHARE: usize = MOST_BODY - PART_HEAD;
/// The most parts of a message.
const MOST_PARTS: usize = MOST_MESSAGE.div_ceil(SHARE);
/// The bytes before a packed message.
const LENGTH: usize = 2;
/// The longest message that can be packed: it fills a body.
pub(crate) const MOST_PACKED: usize = MOST_BODY - 1 - LENGTH;

/// The bytes of a reference.
const REFERENCE_SIZE: usize = 1 + 8 + 4 + 4;

/// No stream has an offset above.
const MOST_OFFSET: u64 = 1 << 62;

const PACKED: u8 = b'P';
const PART: u8 = b'S';
pub(crate) const REFERENCE: u8 = b'R';
pub(crate) const CONTROL: u8 = b'C';

/// A body of packed messages that takes more.
#[derive(Debug)]
pub(crate) struct Packing {
    body: Vec<u8>,
}

impl Packing {
    pub(crate) fn new() -> Packing {
        let mut body = Vec::with_capacity(MOST_BODY);
        body.push(PACKED);
        Packing { body }
    }

    /// Whether a message of so many bytes fits.
    pub(crate) fn fits(&self, length: usize) -> bool {
        self.body.len() + LENGTH + length <= MOST_BODY
    }

    /// Adds a message that fits.
    pub(crate) fn push(&mut self, message: &[u8]) {
        debug_assert!(self.fits(message.len()));
        self.body.extend(head_of(message));
        self.body.extend(message);
    }

    pub(crate) fn into_body(self) -> Vec<u8> {
        self.body
    }
}

/// The bytes before a message in a packed body or a stream: its length.
pub(crate) fn head_of(message: &[u8]) -> [u8; LENGTH] {
    (message.len() as u16).to_be_bytes()
}

/// How many bytes a message of so many bytes takes in a packed body or a stream.
pub(crate) const fn size_of(length: usize) -> usize {
    LENGTH + length
}

/// Whether messages that take so many bytes in all fit into one packed body.
pub(crate) const fn fit_into_one(size: usize) -> bool {
    MOST_BODY > size
}

/// A body that names bytes of its sender's stream.
#[derive(Clone, Copy, Debug, PartialEq, Eq)]
pub(crate) struct Reference {
    pub(crate) start: u64,
    pub(crate) length: u32,
    /// Their CRC-32, as IEEE 802.3 has it.
    pub(crate) sum: u32,
}

impl Reference {
    pub(crate) fn body(&self) -> Vec<u8> {
        let mut body = Vec::with_capacity(REFERENCE_SIZE);
        body.push(REFERENCE);
        body.extend(self.start.to_be_bytes());
        body.extend(self.length.to_be_bytes());
        body.extend(self.sum.to_be_bytes());
        body
    }

    /// Which bytes of the stream it names.
    pub(crate) fn range(&self) -> Range<u64> {
        self.start..self.start + u64::from(self.length)
    }

    /// What a body names, if it is a reference.
    pub(crate) fn read(body: &[u8]) -> Option<Reference> {
        let rest: &[u8; REFERENCE_SIZE - 1] = match body.split_first() {
            Some((&REFERENCE, rest)) => rest.try_into().ok()?,
            _ => return None,
        };
        let (start, rest) = rest.split_first_chunk()?;
        let (length, sum) = rest.split_first_chunk()?;
        let reference = Reference {
            start: u64::from_be_bytes(*start),
            length: u32::from_be_bytes(*length),
            sum: u32::from_be_bytes(sum.try_into().ok()?),
        };
        let end = reference.start.checked_add(u64::from(reference.length))?;
        (reference.length > 0 && end <= MOST_OFFSET).then_some(reference)
    }
}

/// The messages in bytes of a stream; None if it isn't whole messages that they are.
pub(crate) fn messages_in(bytes: &[u8]) -> Option<Unpacking<'_>> {
    packed_of(bytes)
}

/// How many parts a message of so many bytes has.
#[cfg(test)]
pub(crate) fn part_count(length: usize) -> usize {
    length.div_ceil(SHARE).max(1)
}

/// A part of a message.
#[cfg(test)]
pub(crate) fn part_of(message: &[u8], index: usize) -> Vec<u8> {
    let begin = (index * SHARE).min(message.len());
    let share = &message[begin..(begin + SHARE).min(message.len())];
    let mut body = Vec::with_capacity(PART_HEAD + share.len());
    body.push(PART);
    body.extend((index as u16).to_be_bytes());
    body.extend((part_count(message.len()) as u16).to_be_bytes());
    body.extend(share);
    body
}

/// What a body is.
#[derive(Debug, PartialEq, Eq)]
pub(crate) enum Body<'a> {
    Packed(Unpacking<'a>),
    Part {
        index: usize,
        count: usize,
        share: &'a [u8],
    },
    Reference(Reference),
    Control(&'a [u8]),
    Plain,
}

/// The messages of a packed body, whose form was looked at.
#[derive(Clone, Debug, PartialEq, Eq)]
pub(crate) struct Unpacking<'a>(&'a [u8]);

impl<'a> Iterator for Unpacking<'a> {
    type Item = &'a [u8];

    fn next(&mut self) -> Option<&'a [u8]> {
        let (message, rest) = next_packed(self.0)?;
        self.0 = rest;
        Some(message)
    }
}

fn next_packed(bytes: &[u8]) -> Option<(&[u8], &[u8])> {
    let (length, rest) = bytes.split_first_chunk::<LENGTH>()?;
    rest.split_at_checked(usize::from(u16::from_be_bytes(*length)))
}

fn packed_of(mut bytes: &[u8]) -> Option<Unpacking<'_>> {
    let messages = Unpacking(bytes);
    (_, bytes) = next_packed(bytes)?;
    while !bytes.is_empty() {
        (_, bytes) = next_packed(bytes)?;
    }
    Some(messages)
}

fn part_in(body: &[u8]) -> Option<(usize, usize, &[u8])> {
    let (head, share) = body.split_first_chunk::<PART_HEAD>()?;
    let index = usize::from(u16::from_be_bytes([head[1], head[2]]));
    let count = usize::from(u16::from_be_bytes([head[3], head[4]]));
    let is_last = index + 1 == count;
    let is_one = index < count
        && count <= MOST_PARTS
        && (if is_last {
            (index == 0 || !share.is_empty()) && index * SHARE + share.len() <= MOST_MESSAGE
        } else {
            share.len() == SHARE
        });
    (is_one && share.len() <= SHARE).then_some((index, count, share))
}

/// What a body is.
pub(crate) fn read(body: &[u8]) -> Body<'_> {
    match body.split_first() {
        Some((&PACKED, rest)) => packed_of(rest).map_or(Body::Plain, Body::Packed),
        Some((&PART, _)) => match part_in(body) {
            Some((index, count, share)) => Body::Part {
                index,
                count,
                share,
            },
            None => Body::Plain,
        },
        Some((&REFERENCE, _)) => Reference::read(body).map_or(Body::Plain, Body::Reference),
        Some((&CONTROL, rest)) => Body::Control(rest),
        _ => Body::Plain,
    }
}

/// Whether a message is a body as it is: too long to be packed, short enough for a body, and not read as anything else.
pub(crate) fn is_whole_body(message: &[u8]) -> bool {
    (MOST_PACKED + 1..=MOST_BODY).contains(&message.len()) && read(message) == Body::Plain
}

/// What has begun at a place: the parts of a message so far.
#[derive(Debug, Default)]
struct Begun {
    from: Option<Name>,
    count: usize,
    parts: usize,
    message: Vec<u8>,
}

/// Puts the parts of long messages together, one of each place. It keeps a message of each place at most.
#[derive(Debug, Default)]
pub(crate) struct Assembler {
    begun: [Begun; 16],
}

impl Assembler {
    /// Forgets what has begun at a place, since a body that is no part came from there.
    pub(crate) fn give_up(&mut self, place: u8) {
        self.begun[usize::from(place % 16)] = Begun::default();
    }

    /// Takes a part; the message, if it ends.
    pub(crate) fn part(
        &mut self,
        from: Name,
        index: usize,
        count: usize,
        share: &[u8],
    ) -> Option<Vec<u8>> {
        let begun = &mut self.begun[usize::from(from.place())];
        if index == 0 {
            *begun = Begun {
                from: Some(from),
                count,
                ..Begun::default()
            };
        } else if begun.from != Some(from) || begun.count != count || begun.parts != index {
            *begun = Begun::default();
            return None;
        }
        begun.message.extend(share);
        begun.parts += 1;
        (begun.parts == count).then(|| std::mem::take(begun).message)
    }
}

#[cfg(test)]
mod tests {
    use super::*;
    use proptest::prelude::*;

    fn name(place: u8) -> Name {
        Name::first(place).expect("a place")
    }

    fn parts(message: &[u8]) -> Vec<Vec<u8>> {
        (0..part_count(message.len()))
            .map(|index| part_of(message, index))
            .collect()
    }

    fn put_together(bodies: &[Vec<u8>]) -> Option<Vec<u8>> {
        let mut assembler = Assembler::default();
        let mut whole = None;
        for body in bodies {
            let Body::Part {
                index,
                count,
                share,
            } = read(body)
            else {
                panic!("no part");
            };
            assert_eq!(whole, None);
            whole = assembler.part(name(3), index, count, share);
        }
        whole
    }

    #[test]
    fn parts_are_as_the_page_says() {
        assert_eq!(parts(b""), [b"\x53\0\0\0\x01"]);
        assert_eq!(parts(b"ab"), [b"\x53\0\0\0\x01ab"]);
        let long = parts(&[b'a'; 1020]);
        assert_eq!(long[0][..5], *b"\x53\0\0\0\x02");
        assert_eq!(long[0].len(), 1024);
        assert_eq!(long[1], b"\x53\0\x01\0\x02a");
        assert_eq!(part_count(65_535), 65);
    }

    #[test]
    fn messages_of_the_edges_come_back() {
        for length in [
            0, 1, 1018, 1019, 1020, 1021, 1022, 1023, 1024, 2038, 2039, 65_535,
        ] {
            let message: Vec<u8> = (0..length).map(|k| k as u8).collect();
            assert_eq!(put_together(&parts(&message)).as_ref(), Some(&message));
            if length <= MOST_PACKED {
                let mut packing = Packing::new();
                assert!(packing.fits(length));
                packing.push(&message);
                let body = packing.into_body();
                let Body::Packed(messages) = read(&body) else {
                    panic!("not packed");
                };
                assert_eq!(messages.collect::<Vec<_>>(), [&message[..]]);
            } else {
                assert!(!Packing::new().fits(length), "{length}");
            }
        }
    }

    #[test]
    fn a_body_takes_511_empty_messages() {
        let mut packing = Packing::new();
        let mut count = 0;
        while packing.fits(0) {
            packing.push(b"");
            count += 1;
        }
        assert_eq!(count, (1024 - 1) / 2);
        let body = packing.into_body();
        assert_eq!(body.len(), 1023);
        let Body::Packed(messages) = read(&body) else {
            panic!("not packed");
        };
        assert_eq!(messages.count(), count);
    }

    #[test]
    fn what_is_of_no_form_is_plain() {
        let plains: [&[u8]; 9] = [
            b"",
            b"hello",
            b"P",
            b"P\0",
            b"P\0\x02a",
            b"P\0\x01ab",
            b"S\0\0\0",
            b"S\0\x01\0\x01a",
            b"S\0\0\0\x02a",
        ];
        for body in plains {
            assert_eq!(read(body), Body::Plain, "{body:?}");
        }
        assert_eq!(read(b"S\0\x01\0\x02"), Body::Plain, "an empty last share");
        assert_eq!(read(b"C anything"), Body::Control(b" anything"));
    }

    #[test]
    fn a_reference_is_as_the_page_says() {
        let reference = Reference {
            start: 258,
            length: 3,
            sum: 0x0102_0304,
        };
        let body = b"R\0\0\0\0\0\0\x01\x02\0\0\0\x03\x01\x02\x03\x04";
        assert_eq!(reference.body(), body);
        assert_eq!(read(body), Body::Reference(reference));
        assert_eq!(reference.range(), 258..261);
        for length in 0..body.len() {
            assert_eq!(Reference::read(&body[..length]), None);
        }
        assert_eq!(read(&[&body[..], b"x"].concat()), Body::Plain);
        let none = Reference {
            length: 0,
            ..reference
        };
        assert_eq!(read(&none.body()), Body::Plain, "of no bytes");
        let beyond = Reference {
            start: u64::MAX,
            ..reference
        };
        assert_eq!(read(&beyond.body()), Body::Plain, "beyond all streams");
    }

    #[test]
    fn a_lost_or_mixed_part_is_no_message() {
        let message = [5; 3000];
        let parts = parts(&message);
        let feed = |assembler: &mut Assembler, from, body: &[u8]| match read(body) {
            Body::Part {
                index,
                count,
                share,
            } => assembler.part(from, index, count, share),
            _ => None,
        };
        let mut assembler = Assembler::default();
        assert_eq!(feed(&mut assembler, name(1), &parts[0]), None);
        assert_eq!(feed(&mut assembler, name(1), &parts[2]), None);
        assert_eq!(feed(&mut assembler, name(1), &parts[1]), None);
        assert_eq!(feed(&mut assembler, name(1), &parts[2]), None);
        // another life of the place goes on with nothing
        assert_eq!(feed(&mut assembler, name(1), &parts[0]), None);
        let later = Name::new(1, 2).expect("a name");
        assert_eq!(feed(&mut assembler, later, &parts[1]), None);
        // another place doesn't disturb, a plain body does
        for (k, part) in parts.iter().enumerate() {
            assert_eq!(feed(&mut assembler, name(2), &parts[0]), None);
            let whole = feed(&mut assembler, name(1), part);
            assert_eq!(whole.is_some(), k == 2);
        }
        feed(&mut assembler, name(1), &parts[0]);
        assembler.give_up(1);
        assert_eq!(feed(&mut assembler, name(1), &parts[1]), None);
    }

    proptest! {
        #[test]
        fn any_body_is_something(bytes in prop::collection::vec(any::<u8>(), 0..60), first in prop::sample::select(b"PRSCx".to_vec())) {
            let mut body = vec![first];
            body.extend(bytes);
            match read(&body) {
                Body::Packed(messages) => {
                    let mut packing = Packing::new();
                    for message in messages {
                        packing.push(message);
                    }
                    prop_assert_eq!(packing.into_body(), body);
                }
                Body::Part { index, count, share } => {
                    prop_assert!(index < count && share.len() <= SHARE);
                }
                Body::Reference(reference) => prop_assert_eq!(reference.body(), body),
                Body::Control(_) => prop_assert_eq!(first, b'C'),
                Body::Plain => {}
            }
        }
    }
}
