//! Commands that are longer than a message: their parts, and what has begun at each place.

use crate::digest::Digest;
use crate::message::{Message, Reader, MOST_COMMAND, MOST_MESSAGE, SHARE};
use crate::roll::next_name;
use muoswyld_member::{Name, Names};

/// The most bytes of a request: a command with what stands before it.
const MOST_REQUEST: usize = MOST_COMMAND + 64;

/// The messages of a request: itself, or its parts.
pub(crate) fn messages_of(request: Vec<u8>) -> Vec<Vec<u8>> {
    if request.len() <= MOST_MESSAGE {
        return vec![request];
    }
    let count = request.len().div_ceil(SHARE);
    let shares = request.chunks(SHARE).enumerate();
    shares
        .map(|(index, share)| {
            let part = Message::Part {
                index: index as u16,
                is_last: index + 1 == count,
                share,
            };
            part.bytes()
        })
        .collect()
}

/// What has begun at a place.
#[derive(Clone, Debug, PartialEq, Eq)]
struct Begun {
    from: Name,
    next: u16,
    bytes: Vec<u8>,
}

/// What has begun at each place, at most a request each.
#[derive(Clone, Debug, Default, PartialEq, Eq)]
pub(crate) struct Parts {
    begun: [Option<Begun>; 16],
}

impl Parts {
    /// Takes a part: the request, if it ends.
    pub(crate) fn part(
        &mut self,
        from: Name,
        index: u16,
        is_last: bool,
        share: &[u8],
    ) -> Option<Vec<u8>> {
        let place = &mut self.begun[usize::from(from.place())];
        let begun = place.take();
        let mut begun = match index {
            0 => Begun {
                from,
                next: 0,
                bytes: Vec::new(),
            },
            _ => begun.filter(|begun| begun.from == from && begun.next == index)?,
        };
        if begun.bytes.len() + share.len() > MOST_REQUEST {
            return None;
        }
        begun.bytes.extend(share);
        if is_last {
            return Some(begun.bytes);
        }
        begun.next = index.checked_add(1)?;
        *place = Some(begun);
        None
    }

    /// Forgets what names have begun that are no members any more.
    pub(crate) fn keep(&mut self, members: Names) {
        for place in &mut self.begun {
            if place.as_ref().is_some_and(|begun| !members.has(begun.from)) {
                *place = None;
            }
        }
    }

    /// The list has ended: each sender has another name in the next one, and sends there the parts that weren't delivered.
    pub(crate) fn succeed(&mut self) {
        for begun in self.begun.iter_mut().flatten() {
            begun.from = next_name(begun.from);
        }
    }

    /// With what has begun.
    pub(crate) fn digest(&self, digest: Digest) -> Digest {
        self.begun.iter().flatten().fold(digest, |digest, begun| {
            let digest = digest.number(begun.from.byte().into());
            digest.number(begun.next.into()).bytes(&begun.bytes)
        })
    }

    /// What has begun, a record each.
    pub(crate) fn records(&self) -> impl Iterator<Item = Vec<u8>> + '_ {
        self.begun.iter().flatten().map(|begun| {
            let mut record = vec![begun.from.byte()];
            record.extend(begun.next.to_be_bytes());
            record.extend(&begun.bytes);
            record
        })
    }

    /// Takes a record.
    pub(crate) fn restore(&mut self, record: &[u8]) -> Option<()> {
        let mut rest = Reader(record);
        let from = rest.name()?;
        let next = rest.u16()?;
        let bytes = rest.0.to_vec();
        let place = &mut self.begun[usize::from(from.place())];
        if place.is_some() || next == 0 {
            return None;
        }
        *place = Some(Begun { from, next, bytes });
        Some(())
    }
}

#[cfg(test)]
mod tests {
    use super::*;
    use crate::message::read;

    fn name(place: u8) -> Name {
        Name::first(place).unwrap()
    }

    fn feed(parts: &mut Parts, from: Name, message: &[u8]) -> Option<Vec<u8>> {
        match read(message) {
            Some(Message::Part {
                index,
                is_last,
                share,
            }) => parts.part(from, index, is_last, share),
            other => panic!("{other:?}"),
        }
    }

    #[test]
    fn a_request_is_put_together_from_its_parts() {
        for length in [MOST_MESSAGE + 1, 2 * SHARE, 2 * SHARE + 1, MOST_COMMAND + 1] {
            let request: Vec<u8> = (0..length).map(|k| (k % 251) as u8).collect();
            let messages = messages_of(request.clone());
            let mut parts = Parts::default();
            let (last, first) = messages.split_last().unwrap();
            for message in first {
                assert_eq!(feed(&mut parts, name(2), message), None);
            }
            assert!(messages.iter().all(|message| message.len() <= MOST_MESSAGE));
            assert_eq!(feed(&mut parts, name(2), last), Some(request));
            assert_eq!(parts, Parts::default());
        }
        assert_eq!(messages_of(vec![b'A'; MOST_MESSAGE]).len(), 1);
    }

    #[test]
    fn a_part_that_is_not_the_next_gives_up_what_has_begun() {
        let messages = messages_of(vec![b'A'; 3 * SHARE]);
        let mut parts = Parts::default();
        assert_eq!(feed(&mut parts, name(0), &messages[0]), None);
        assert_eq!(feed(&mut parts, name(0), &messages[2]), None);
        assert_eq!(parts, Parts::default());
        assert_eq!(feed(&mut parts, name(0), &messages[0]), None);
        let later = Name::new(0, 2).unwrap();
        assert_eq!(feed(&mut parts, later, &messages[1]), None);
        assert_eq!(parts, Parts::default());
    }

    #[test]
    fn what_has_begun_goes_on_in_the_next_list() {
        let request = vec![b'A'; 3 * SHARE];
        let messages = messages_of(request.clone());
        let mut parts = Parts::default();
        let before = Name::new(2, 3).unwrap();
        assert_eq!(feed(&mut parts, before, &messages[0]), None);
        assert_eq!(feed(&mut parts, before, &messages[1]), None);
        parts.succeed();
        assert_eq!(feed(&mut parts, name(2), &messages[2]), Some(request));
    }

    #[test]
    fn what_has_begun_goes_with_its_name_and_is_restored() {
        let messages = messages_of(vec![b'A'; 3 * SHARE]);
        let mut parts = Parts::default();
        feed(&mut parts, name(0), &messages[0]);
        feed(&mut parts, name(1), &messages[0]);
        let mut other = Parts::default();
        for record in parts.records() {
            other.restore(&record).unwrap();
        }
        assert_eq!(other, parts);
        assert_eq!(
            other.digest(Digest::new()).end(),
            parts.digest(Digest::new()).end()
        );
        let record = parts.records().next().unwrap();
        assert_eq!(other.restore(&record), None);
        parts.keep("1".parse().unwrap());
        assert_eq!(parts.records().count(), 1);
    }
}
