//! The payload of a datagram: letters, or what is said about the group's id. All numbers are big-endian.
//!
//! | kind | behind the kind's byte |
//! |---|---|
//! | 1, letters | group id (8), sender's name (1), its process word (8), then letters to the end |
//! | 2, asks for the group's id | digest of the founding (8), name (1), process word (8), nonce (8) |
//! | 3, tells it | nonce (8), group id (8), name (1), process word (8) |
//! | 4, refuses it, since the founding is another one | nonce (8), name (1), process word (8) |
//! | 5, a joiner asks whether the entry of its join stands; of number 0, who is there | group id (8), name (1), process word (8), number (4) |
//! | 6, confirms it | group id (8), name (1), process word (8), number (4) |
//! | 7, says that the list ended before it | group id (8), name (1), process word (8), number (4) |
//! | 8, a chunk of a stream | group id (8), sender's name (1), its process word (8), the name whose stream it is (1), an offset (8), then bytes to the end |
//! | 9, wants bytes of a stream | group id (8), sender's name (1), its process word (8), the name whose stream it is (1), then ranges to the end, each an offset (8) and a length (4) |
//! | 10, refuses the group's id, since that list has ended: the latest one has so many before it | nonce (8), generation (4), name (1), process word (8) |
//!
//! A letter is its number (4), flags (1: bit 0 any life of the places, bit 1 lives follow), the mask of the places (2), the lives
//! (8, if they follow), a length (2), and so many bytes of a packet, 12 to 1,152.

use muoswyld::event::To;
use muoswyld::names::{Name, Names};
use std::ops::Range;

/// The most bytes of a letter before its packet.
const LETTER_HEAD: usize = 17;
/// The fewest bytes of a packet.
pub(crate) const LEAST_PACKET: usize = 12;
/// The most bytes of a packet.
pub(crate) const MOST_PACKET: usize = 1152;
/// The fewest bytes that a datagram may be limited to: one packet with its heads, and some more.
pub const LEAST_DATAGRAM: usize = 1232;

const LETTERS: u8 = 1;
const ASK: u8 = 2;
const TELL: u8 = 3;
const REFUSE: u8 = 4;
const CONFIRM: u8 = 5;
const CONFIRMED: u8 = 6;
const ENDED: u8 = 7;
const CHUNK: u8 = 8;
const WANT: u8 = 9;
/// The bytes of a chunk's payload before its own.
pub(crate) const CHUNK_HEAD: usize = 1 + 8 + 9 + 1 + 8;
const LATER: u8 = 10;
const ANY: u8 = 1;
const LIVES: u8 = 2;

/// Who speaks: a name and the random word of its process.
#[derive(Clone, Copy, Debug, PartialEq, Eq)]
pub(crate) struct Speaker {
    pub(crate) name: Name,
    pub(crate) process: u64,
}

/// A letter in a datagram.
#[derive(Clone, Copy, Debug, PartialEq, Eq)]
pub(crate) struct Letter<'a> {
    pub(crate) number: u32,
    pub(crate) to: To,
    pub(crate) packet: &'a [u8],
}

/// A datagram's payload.
#[derive(Clone, Copy, Debug, PartialEq, Eq)]
pub(crate) enum Frame<'a> {
    Letters {
        group: u64,
        from: Speaker,
        letters: Letters<'a>,
    },
    Ask {
        digest: u64,
        from: Speaker,
        nonce: u64,
    },
    Tell {
        nonce: u64,
        group: u64,
        from: Speaker,
    },
    Refuse {
        nonce: u64,
        from: Speaker,
    },
    /// The group's latest list has so many before it: an earlier one has ended.
    Later {
        nonce: u64,
        generation: u32,
        from: Speaker,
    },
    /// Something about an entry of a group's list.
    Entry {
        group: u64,
        from: Speaker,
        number: u32,
        said: Said,
    },
    /// Bytes of a name's stream.
    Chunk {
        group: u64,
        from: Speaker,
        owner: Name,
        start: u64,
        bytes: &'a [u8],
    },
    /// Bytes of a name's stream are wanted.
    Want {
        group: u64,
        from: Speaker,
        owner: Name,
        ranges: Ranges<'a>,
    },
}

/// What is said about the entry of a joiner's join.
#[derive(Clone, Copy, Debug, PartialEq, Eq)]
pub(crate) enum Said {
    /// The joiner asks whether it stands.
    Asked,
    /// Somebody delivered it.
    Stands,
    /// The list ended before it.
    IsAbove,
}

/// The group that a payload is of, if it says one.
pub(crate) fn group_of(payload: &[u8]) -> Option<u64> {
    let mut bytes = Bytes(payload);
    let kind = bytes.u8()?;
    let has_one = matches!(kind, LETTERS | CONFIRM | CONFIRMED | ENDED | CHUNK | WANT);
    has_one.then(|| bytes.u64())?
}

/// Bytes that are read from the front.
#[derive(Clone, Copy, Debug, PartialEq, Eq)]
struct Bytes<'a>(&'a [u8]);

impl<'a> Bytes<'a> {
    fn take(&mut self, count: usize) -> Option<&'a [u8]> {
        let head = self.0.get(..count)?;
        self.0 = self.0.get(count..)?;
        Some(head)
    }

    fn number<const N: usize>(&mut self) -> Option<[u8; N]> {
        self.take(N)?.try_into().ok()
    }

    fn u8(&mut self) -> Option<u8> {
        self.number().map(u8::from_be_bytes)
    }

    fn u16(&mut self) -> Option<u16> {
        self.number().map(u16::from_be_bytes)
    }

    fn u32(&mut self) -> Option<u32> {
        self.number().map(u32::from_be_bytes)
    }

    fn u64(&mut self) -> Option<u64> {
        self.number().map(u64::from_be_bytes)
    }

    fn speaker(&mut self) -> Option<Speaker> {
        Some(Speaker {
            name: Name::of_byte(self.u8()?),
            process: self.u64()?,
        })
    }

    /// A range of a stream, of one byte at least.
    fn range(&mut self) -> Option<Range<u64>> {
        let start = self.u64()?;
        let length = self.u32()?;
        let end = start.checked_add(u64::from(length))?;
        (length > 0).then_some(start..end)
    }

    fn letter(&mut self) -> Option<Letter<'a>> {
        let number = self.u32()?;
        let flags = self.u8()?;
        if flags & !(ANY | LIVES) != 0 {
            return None;
        }
        let mask = self.u16()?;
        let lives = if flags & LIVES != 0 { self.u64()? } else { 0 };
        let to = To {
            any: flags & ANY != 0,
            names: Names::of_parts(mask, lives)?,
        };
        let length = usize::from(self.u16()?);
        if !(LEAST_PACKET..=MOST_PACKET).contains(&length) {
            return None;
        }
        let packet = self.take(length)?;
        Some(Letter { number, to, packet })
    }
}

/// The letters of a datagram. All of them were looked at when it was read.
#[derive(Clone, Copy, Debug, PartialEq, Eq)]
pub(crate) struct Letters<'a>(Bytes<'a>);

impl<'a> Iterator for Letters<'a> {
    type Item = Letter<'a>;

    fn next(&mut self) -> Option<Letter<'a>> {
        self.0.letter()
    }
}

/// The ranges of a stream that are wanted. All of them were looked at when they were read.
#[derive(Clone, Copy, Debug, PartialEq, Eq)]
pub(crate) struct Ranges<'a>(Bytes<'a>);

impl Iterator for Ranges<'_> {
    type Item = Range<u64>;

    fn next(&mut self) -> Option<Range<u64>> {
        self.0.range()
    }
}

/// What a payload is; None if it is none of the kinds by its form.
pub(crate) fn read(payload: &[u8]) -> Option<Frame<'_>> {
    let mut bytes = Bytes(payload);
    let frame = match bytes.u8()? {
        LETTERS => Frame::Letters {
            group: bytes.u64()?,
            from: bytes.speaker()?,
            letters: letters_of(&mut bytes)?,
        },
        ASK => Frame::Ask {
            digest: bytes.u64()?,
            from: bytes.speaker()?,
            nonce: bytes.u64()?,
        },
        TELL => Frame::Tell {
            nonce: bytes.u64()?,
            group: bytes.u64()?,
            from: bytes.speaker()?,
        },
        REFUSE => Frame::Refuse {
            nonce: bytes.u64()?,
            from: bytes.speaker()?,
        },
        LATER => Frame::Later {
            nonce: bytes.u64()?,
            generation: bytes.u32()?,
            from: bytes.speaker()?,
        },
        kind @ (CONFIRM | CONFIRMED | ENDED) => Frame::Entry {
            group: bytes.u64()?,
            from: bytes.speaker()?,
            number: bytes.u32()?,
            said: match kind {
                CONFIRM => Said::Asked,
                CONFIRMED => Said::Stands,
                _ => Said::IsAbove,
            },
        },
        CHUNK => Frame::Chunk {
            group: bytes.u64()?,
            from: bytes.speaker()?,
            owner: Name::of_byte(bytes.u8()?),
            start: bytes.u64()?,
            bytes: std::mem::take(&mut bytes.0),
        },
        WANT => Frame::Want {
            group: bytes.u64()?,
            from: bytes.speaker()?,
            owner: Name::of_byte(bytes.u8()?),
            ranges: ranges_of(&mut bytes)?,
        },
        _ => return None,
    };
    let is_empty = matches!(frame, Frame::Chunk { bytes: [], .. });
    (bytes.0.is_empty() && !is_empty).then_some(frame)
}

/// One range at least, and nothing behind the last one.
fn ranges_of<'a>(bytes: &mut Bytes<'a>) -> Option<Ranges<'a>> {
    let ranges = Ranges(*bytes);
    bytes.range()?;
    while !bytes.0.is_empty() {
        bytes.range()?;
    }
    Some(ranges)
}

/// One letter at least, and nothing behind the last one.
fn letters_of<'a>(bytes: &mut Bytes<'a>) -> Option<Letters<'a>> {
    let letters = Letters(*bytes);
    bytes.letter()?;
    while !bytes.0.is_empty() {
        bytes.letter()?;
    }
    Some(letters)
}

fn push_speaker(payload: &mut Vec<u8>, from: Speaker) {
    payload.push(from.name.byte());
    payload.extend(from.process.to_be_bytes());
}

/// A payload without letters yet.
pub(crate) fn begin(group: u64, from: Speaker, room: usize) -> Vec<u8> {
    let mut payload = Vec::with_capacity(room);
    payload.push(LETTERS);
    payload.extend(group.to_be_bytes());
    push_speaker(&mut payload, from);
    payload
}

/// How many bytes a letter has at most.
pub(crate) const fn most_letter(packet: usize) -> usize {
    LETTER_HEAD + packet
}

/// Adds a letter. The packet has at most 1,152 bytes, as each packet of a node has.
pub(crate) fn push_letter(payload: &mut Vec<u8>, letter: &Letter) {
    let (mask, lives) = letter.to.names.parts();
    let any = if letter.to.any { ANY } else { 0 };
    let follow = if lives != 0 { LIVES } else { 0 };
    payload.extend(letter.number.to_be_bytes());
    payload.push(any | follow);
    payload.extend(mask.to_be_bytes());
    if lives != 0 {
        payload.extend(lives.to_be_bytes());
    }
    let length = letter.packet.len().min(MOST_PACKET);
    payload.extend((length as u16).to_be_bytes());
    payload.extend(&letter.packet[..length]);
}

/// The payload that asks for the group's id.
pub(crate) fn ask(digest: u64, from: Speaker, nonce: u64) -> Vec<u8> {
    let mut payload = vec![ASK];
    payload.extend(digest.to_be_bytes());
    push_speaker(&mut payload, from);
    payload.extend(nonce.to_be_bytes());
    payload
}

/// The payload that tells the group's id.
pub(crate) fn tell(nonce: u64, group: u64, from: Speaker) -> Vec<u8> {
    let mut payload = vec![TELL];
    payload.extend(nonce.to_be_bytes());
    payload.extend(group.to_be_bytes());
    push_speaker(&mut payload, from);
    payload
}

/// The payload that refuses the group's id, since the founding is another one.
pub(crate) fn refuse(nonce: u64, from: Speaker) -> Vec<u8> {
    let mut payload = vec![REFUSE];
    payload.extend(nonce.to_be_bytes());
    push_speaker(&mut payload, from);
    payload
}

/// The payload that refuses the group's id, since the list has ended that was asked for.
pub(crate) fn later(nonce: u64, generation: u32, from: Speaker) -> Vec<u8> {
    let mut payload = vec![LATER];
    payload.extend(nonce.to_be_bytes());
    payload.extend(generation.to_be_bytes());
    push_speaker(&mut payload, from);
    payload
}

/// The payload that says something about an entry of a group's list.
pub(crate) fn entry(group: u64, from: Speaker, number: u32, said: Said) -> Vec<u8> {
    let mut payload = vec![match said {
        Said::Asked => CONFIRM,
        Said::Stands => CONFIRMED,
        Said::IsAbove => ENDED,
    }];
    payload.extend(group.to_be_bytes());
    push_speaker(&mut payload, from);
    payload.extend(number.to_be_bytes());
    payload
}

fn begin_of_stream(kind: u8, group: u64, from: Speaker, owner: Name, room: usize) -> Vec<u8> {
    let mut payload = Vec::with_capacity(room);
    payload.push(kind);
    payload.extend(group.to_be_bytes());
    push_speaker(&mut payload, from);
    payload.push(owner.byte());
    payload
}

/// The payload of a chunk of a name's stream.
pub(crate) fn chunk(group: u64, from: Speaker, owner: Name, start: u64, bytes: &[u8]) -> Vec<u8> {
    let mut payload = begin_of_stream(CHUNK, group, from, owner, CHUNK_HEAD + bytes.len());
    payload.extend(start.to_be_bytes());
    payload.extend(bytes);
    payload
}

/// The payload that wants ranges of a name's stream.
pub(crate) fn want(group: u64, from: Speaker, owner: Name, ranges: &[Range<u64>]) -> Vec<u8> {
    let mut payload = begin_of_stream(WANT, group, from, owner, CHUNK_HEAD + 12 * ranges.len());
    for range in ranges {
        let length = range.end.saturating_sub(range.start);
        payload.extend(range.start.to_be_bytes());
        payload.extend(u32::try_from(length).unwrap_or(u32::MAX).to_be_bytes());
    }
    payload
}

#[cfg(test)]
mod tests {
    use super::*;
    use proptest::prelude::*;

    /// The bytes before the letters.
    const HEAD: usize = 18;

    const ME: Speaker = Speaker {
        name: Name::of_byte(0x21),
        process: 0x0102_0304_0506_0708,
    };

    fn to(text: &str, any: bool) -> To {
        To {
            any,
            names: text.parse().expect("names"),
        }
    }

    #[test]
    fn letters_are_read_as_they_were_written() {
        let packets = [vec![7; 12], vec![8; 1152]];
        let tos = [to("0,2,15", true), to("0/2,3", false)];
        let letters: Vec<Letter> = (0..2)
            .map(|k| Letter {
                number: u32::MAX - k as u32,
                to: tos[k],
                packet: &packets[k],
            })
            .collect();
        let mut payload = begin(99, ME, 0);
        assert_eq!(payload.len(), HEAD);
        for letter in &letters {
            push_letter(&mut payload, letter);
        }
        let Some(Frame::Letters {
            group,
            from,
            letters: found,
        }) = read(&payload)
        else {
            panic!("letters");
        };
        assert_eq!((group, from), (99, ME));
        assert_eq!(found.collect::<Vec<_>>(), letters);
        for short in 0..payload.len() {
            // cut between two letters it is a datagram of the first one
            let is_whole = short == HEAD + 4 + 1 + 2 + 2 + 12;
            assert_eq!(read(&payload[..short]).is_some(), is_whole, "{short}");
        }
    }

    #[test]
    fn bytes_are_as_the_page_says() {
        let mut payload = begin(1, ME, 0);
        let packet = [9; 12];
        let letter = Letter {
            number: 5,
            to: to("0/2", false),
            packet: &packet,
        };
        push_letter(&mut payload, &letter);
        let mut wanted = vec![1, 0, 0, 0, 0, 0, 0, 0, 1, 0x21, 1, 2, 3, 4, 5, 6, 7, 8];
        wanted.extend([0, 0, 0, 5, 2, 0, 1, 0, 0, 0, 0, 0, 0, 0, 1, 0, 12]);
        wanted.extend(packet);
        assert_eq!(payload, wanted);
        let asks = [
            2, 0, 0, 0, 0, 0, 0, 0, 3, 0x21, 1, 2, 3, 4, 5, 6, 7, 8, 0, 0, 0, 0, 0, 0, 0, 4,
        ];
        assert_eq!(ask(3, ME, 4), asks);
        let tells = [
            3, 0, 0, 0, 0, 0, 0, 0, 4, 0, 0, 0, 0, 0, 0, 0, 5, 0x21, 1, 2, 3, 4, 5, 6, 7, 8,
        ];
        assert_eq!(tell(4, 5, ME), tells);
        let refuses = [4, 0, 0, 0, 0, 0, 0, 0, 4, 0x21, 1, 2, 3, 4, 5, 6, 7, 8];
        assert_eq!(refuse(4, ME), refuses);
        let read_again = Frame::Refuse { nonce: 4, from: ME };
        assert_eq!(read(&refuses), Some(read_again));
        let laters = [
            10, 0, 0, 0, 0, 0, 0, 0, 4, 0, 0, 1, 2, 0x21, 1, 2, 3, 4, 5, 6, 7, 8,
        ];
        assert_eq!(later(4, 258, ME), laters);
        let (nonce, generation, from) = (4, 258, ME);
        let read_again = Frame::Later {
            nonce,
            generation,
            from,
        };
        assert_eq!(read(&laters), Some(read_again));
        assert_eq!(group_of(&laters), None);
    }

    #[test]
    fn what_is_said_of_an_entry_has_the_bytes_that_the_page_says() {
        for (kind, said) in [(5, Said::Asked), (6, Said::Stands), (7, Said::IsAbove)] {
            let bytes = [
                kind, 0, 0, 0, 0, 0, 0, 0, 9, 0x21, 1, 2, 3, 4, 5, 6, 7, 8, 0, 0, 1, 2,
            ];
            assert_eq!(entry(9, ME, 258, said), bytes);
            let (group, from, number) = (9, ME, 258);
            let wanted = Frame::Entry {
                group,
                from,
                number,
                said,
            };
            assert_eq!(read(&bytes), Some(wanted));
            assert_eq!(group_of(&bytes), Some(9));
            for length in 0..bytes.len() {
                assert_eq!(read(&bytes[..length]), None);
            }
        }
        assert_eq!(group_of(&begin(7, ME, 0)), Some(7));
        assert_eq!(group_of(&ask(3, ME, 4)), None);
        assert_eq!(group_of(&[5, 1]), None);
    }

    #[test]
    fn bytes_of_streams_are_as_the_page_says() {
        let head = [
            0, 0, 0, 0, 0, 0, 0, 9, 0x21, 1, 2, 3, 4, 5, 6, 7, 8, 0x13, 0, 0, 0, 0, 0, 0, 1, 2,
        ];
        let owner = Name::of_byte(0x13);
        let (group, from) = (9, ME);
        let wanted = [&[8][..], &head, b"abc"].concat();
        assert_eq!(chunk(9, ME, owner, 258, b"abc"), wanted);
        assert_eq!(wanted.len(), CHUNK_HEAD + 3);
        let (start, bytes) = (258, &b"abc"[..]);
        let frame = Frame::Chunk {
            group,
            from,
            owner,
            start,
            bytes,
        };
        assert_eq!((read(&wanted), group_of(&wanted)), (Some(frame), Some(9)));
        for length in 0..=CHUNK_HEAD {
            assert_eq!(read(&wanted[..length]), None, "{length}");
        }
        let ranges = [258..263, 1000..1001];
        let second = [0, 0, 0, 0, 0, 0, 3, 232, 0, 0, 0, 1];
        let wanted = [&[9][..], &head, &[0, 0, 0, 5], &second].concat();
        assert_eq!(want(9, ME, owner, &ranges), wanted);
        let Some(Frame::Want { ranges: found, .. }) = read(&wanted) else {
            panic!("not a want");
        };
        assert_eq!(found.collect::<Vec<_>>(), ranges);
        assert_eq!(group_of(&wanted), Some(9));
        for length in 0..wanted.len() {
            // cut between the two ranges it wants the first one
            let is_whole = length == wanted.len() - 12;
            assert_eq!(read(&wanted[..length]).is_some(), is_whole, "{length}");
        }
        let none = want(9, ME, owner, std::slice::from_ref(&(258..258)));
        assert_eq!(read(&none), None, "a range of no bytes");
        let mut beyond = want(9, ME, owner, std::slice::from_ref(&(258..263)));
        beyond[19..27].fill(255);
        assert_eq!(read(&beyond), None, "a range beyond all numbers");
    }

    #[test]
    fn wrong_forms_are_refused() {
        let packet = [0; 12];
        let letter = Letter {
            number: 1,
            to: to("1", false),
            packet: &packet,
        };
        let mut good = begin(1, ME, 0);
        assert_eq!(read(&good), None, "no letter");
        push_letter(&mut good, &letter);
        assert!(read(&good).is_some());
        let with = |at: usize, byte: u8| {
            let mut bad = good.clone();
            bad[at] = byte;
            read(&bad).is_none()
        };
        assert!(with(0, 0) && with(0, 5), "a kind");
        assert!(with(HEAD + 4, 4), "a flag");
        assert!(with(HEAD + 8, 11) && with(HEAD + 8, 13), "a length");
        let mut lives = begin(1, ME, 0);
        let later = Letter {
            to: to("1/2", false),
            ..letter
        };
        push_letter(&mut lives, &later);
        lives[HEAD + 6] = 1;
        assert_eq!(read(&lives), None, "lives that don't go with the mask");
    }

    proptest! {
        #[test]
        fn any_bytes_are_read_or_refused(bytes in prop::collection::vec(any::<u8>(), 0..200), kind in 0_u8..12) {
            let mut bytes = bytes;
            if let Some(first) = bytes.first_mut() {
                *first = kind;
            }
            if let Some(Frame::Letters { group, from, letters }) = read(&bytes) {
                let mut again = begin(group, from, 0);
                let mut count = 0;
                for letter in letters {
                    prop_assert!((LEAST_PACKET..=MOST_PACKET).contains(&letter.packet.len()));
                    push_letter(&mut again, &letter);
                    count += 1;
                }
                prop_assert!(count > 0);
                prop_assert!(again.len() <= bytes.len());
            }
            match read(&bytes) {
                Some(Frame::Chunk { group, from, owner, start, bytes: had }) => {
                    prop_assert_eq!(chunk(group, from, owner, start, had), bytes);
                }
                Some(Frame::Want { group, from, owner, ranges }) => {
                    let ranges: Vec<_> = ranges.collect();
                    prop_assert!(!ranges.is_empty());
                    prop_assert_eq!(want(group, from, owner, &ranges), bytes);
                }
                _ => {}
            }
        }

        #[test]
        fn a_changed_byte_never_panics(at in 0_usize..400, byte: u8, count in 1_usize..10) {
            let packet = [3; 20];
            let mut payload = begin(1, ME, 0);
            for number in 0..count {
                push_letter(&mut payload, &Letter { number: number as u32, to: to("0,1/3", false), packet: &packet });
            }
            let length = payload.len();
            payload[at % length] = byte;
            if let Some(Frame::Letters { letters, .. }) = read(&payload) {
                prop_assert!(letters.count() <= count);
            }
        }
    }
}
