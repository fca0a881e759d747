//! Who is a member, who has the state, and who is being sent it: what the list tells, the same at each replica that has the state.

use crate::digest::Digest;
use crate::event::Plant;
use crate::message::{put_entry, Chunk, Reader};
use muoswyld_member::{Name, Names, Position};
use std::collections::VecDeque;

/// The name in the next list of a name that is a member at a list's end: the first life of its place.
pub(crate) fn next_name(name: Name) -> Name {
    Name::of_byte(name.place())
}

/// The same, of all of them.
fn next_names(names: Names) -> Names {
    names.iter().map(next_name).collect()
}

/// By what a Join is known: its position, unless a test planted a defect.
pub(crate) fn key_of(at: Position, plant: Option<Plant>) -> Position {
    match plant {
        Some(Plant::ChunksByNumber) => Position {
            generation: 0,
            ..at
        },
        _ => at,
    }
}

/// A joiner that is being sent the state, or waits for that.
#[derive(Clone, Copy, Debug, PartialEq, Eq)]
pub(crate) struct Transfer {
    /// The joiner.
    pub(crate) to: Name,
    /// Its Join.
    pub(crate) at: Position,
    /// How many chunks were delivered.
    pub(crate) next: u32,
}

/// Who is what.
#[derive(Clone, Debug, PartialEq, Eq)]
pub(crate) struct Roll {
    pub(crate) members: Names,
    /// The members that have the state.
    pub(crate) holders: Names,
    /// In the order of their Joins; the first is being sent.
    pub(crate) transfers: VecDeque<Transfer>,
    /// Who sends: as long as it is a member it stays the same one.
    pub(crate) source: Option<Name>,
}

impl Roll {
    /// That of founders.
    pub(crate) fn founded(members: Names) -> Roll {
        Roll {
            members,
            holders: members,
            transfers: VecDeque::new(),
            source: members.iter().next(),
        }
    }

    /// A name joins.
    pub(crate) fn join(&mut self, to: Name, at: Position) {
        self.set_members(self.members.with(to));
        self.transfers.push_back(Transfer { to, at, next: 0 });
    }

    /// These are the members from here on.
    pub(crate) fn set_members(&mut self, members: Names) {
        self.members = members;
        self.holders = self
            .holders
            .iter()
            .filter(|name| members.has(*name))
            .collect();
        self.transfers.retain(|transfer| members.has(transfer.to));
        let stays = |source: &Name| self.holders.has(*source);
        self.source = self
            .source
            .filter(stays)
            .or_else(|| self.holders.iter().next());
    }

    /// The list has ended: each member has another name in the next one, and all else goes on.
    pub(crate) fn succeed(&mut self) {
        self.members = next_names(self.members);
        self.holders = next_names(self.holders);
        self.source = self.source.map(next_name);
        for transfer in &mut self.transfers {
            transfer.to = next_name(transfer.to);
        }
    }

    /// Counts a chunk, if it is the next one of the first transfer; whether it is.
    pub(crate) fn count(&mut self, chunk: &Chunk, plant: Option<Plant>) -> bool {
        let Some(first) = self.transfers.front_mut() else {
            return false;
        };
        let key = |at| key_of(at, plant);
        if (key(first.at), first.next) != (key(chunk.to), chunk.index) {
            return false;
        }
        first.next += 1;
        if chunk.is_last {
            self.holders = self.holders.with(first.to);
            self.transfers.pop_front();
        }
        true
    }

    /// A joiner had no chunk for a while: the next holder goes on, if nothing came meanwhile.
    pub(crate) fn resume(&mut self, from: Name, at: Position, next: u32) {
        let asked = Transfer { to: from, at, next };
        let (Some(first), Some(source)) = (self.transfers.front(), self.source) else {
            return;
        };
        if *first == asked {
            let mut later = self
                .holders
                .iter()
                .filter(|name| name.place() > source.place());
            self.source = later.next().or_else(|| self.holders.iter().next());
        }
    }

    /// With all of it.
    pub(crate) fn digest(&self, digest: Digest) -> Digest {
        let mut bytes = Vec::new();
        self.put(&mut bytes);
        digest.bytes(&bytes)
    }

    /// Adds its bytes.
    pub(crate) fn put(&self, to: &mut Vec<u8>) {
        put_names(to, self.members);
        put_names(to, self.holders);
        put_names(to, self.source.into_iter().collect());
        to.push(self.transfers.len() as u8);
        for transfer in &self.transfers {
            to.push(transfer.to.byte());
            put_entry(to, transfer.at);
            to.extend(transfer.next.to_be_bytes());
        }
    }

    /// Reads its bytes.
    pub(crate) fn read(rest: &mut Reader) -> Option<Roll> {
        let (members, holders) = (names(rest)?, names(rest)?);
        let source = names(rest)?.iter().next();
        let mut transfers = VecDeque::new();
        for _ in 0..rest.u8()? {
            transfers.push_back(Transfer {
                to: rest.name()?,
                at: rest.entry()?,
                next: rest.u32()?,
            });
        }
        Some(Roll {
            members,
            holders,
            transfers,
            source,
        })
    }
}

fn put_names(to: &mut Vec<u8>, names: Names) {
    let (mask, lives) = names.parts();
    to.extend(mask.to_be_bytes());
    to.extend(lives.to_be_bytes());
}

fn names(rest: &mut Reader) -> Option<Names> {
    Names::of_parts(rest.u16()?, rest.u64()?)
}

#[cfg(test)]
mod tests {
    use super::*;

    fn name(text: &str) -> Name {
        text.parse().unwrap()
    }

    fn at(generation: u32, number: u32) -> Position {
        Position {
            generation,
            number,
            index: 0,
        }
    }

    fn chunk(number: u32, index: u32, is_last: bool) -> Chunk<'static> {
        Chunk {
            to: at(0, number),
            index,
            digest: 0,
            is_last,
            bytes: &[],
        }
    }

    #[test]
    fn joiners_get_the_state_one_after_the_other() {
        let mut roll = Roll::founded("0,1".parse().unwrap());
        roll.join(name("2"), at(0, 5));
        roll.join(name("3/2"), at(0, 6));
        assert!(!roll.count(&chunk(6, 0, true), None));
        assert!(!roll.count(&chunk(5, 1, false), None));
        assert!(roll.count(&chunk(5, 0, false), None));
        assert!(!roll.count(&chunk(5, 0, false), None));
        // the source stops: the next one goes on where it stands
        roll.set_members("1,2,3/2".parse().unwrap());
        assert_eq!(roll.source, Some(name("1")));
        assert_eq!(roll.transfers[0].next, 1);
        assert!(roll.count(&chunk(5, 1, true), None));
        assert_eq!(roll.holders, "1,2".parse().unwrap());
        roll.set_members("3/2".parse().unwrap());
        assert_eq!((roll.source, roll.transfers.len()), (None, 1));
    }

    #[test]
    fn the_next_holder_goes_on_where_the_joiner_asks() {
        let mut roll = Roll::founded("0,1,2".parse().unwrap());
        roll.join(name("3"), at(0, 5));
        roll.resume(name("3"), at(0, 5), 1);
        assert_eq!(roll.source, Some(name("0")));
        roll.resume(name("3"), at(0, 5), 0);
        assert_eq!(roll.source, Some(name("1")));
        roll.resume(name("3"), at(0, 5), 0);
        roll.resume(name("3"), at(0, 5), 0);
        assert_eq!(roll.source, Some(name("0")));
    }

    #[test]
    fn at_the_end_of_a_list_all_goes_on_by_the_next_names() {
        let mut roll = Roll::founded("0,1/3".parse().unwrap());
        roll.join(name("2/2"), at(0, 5));
        roll.join(name("3"), at(0, 6));
        assert!(roll.count(&chunk(5, 0, false), None));
        roll.set_members("1/3,2/2,3".parse().unwrap());
        roll.succeed();
        assert_eq!(roll.members, "1,2,3".parse().unwrap());
        assert_eq!(roll.holders, "1".parse().unwrap());
        assert_eq!(roll.source, Some(name("1")));
        // a place that comes back joins at the same number of the next list
        roll.set_members("1,2".parse().unwrap());
        roll.join(name("3/2"), at(1, 5));
        let of_next = Chunk {
            to: at(1, 5),
            ..chunk(5, 1, true)
        };
        assert!(!roll.count(&of_next, None));
        assert!(roll.count(&chunk(5, 1, true), None));
        assert_eq!(roll.holders, "1,2".parse().unwrap());
        assert_eq!(roll.transfers[0].at, at(1, 5));
    }

    #[test]
    fn it_is_read_as_it_is_written() {
        let mut roll = Roll::founded("0,1,4".parse().unwrap());
        roll.join(name("2/3"), at(4, 5));
        let mut bytes = Vec::new();
        roll.put(&mut bytes);
        let mut rest = Reader(&bytes);
        assert_eq!(Roll::read(&mut rest), Some(roll));
        assert!(rest.end().is_some());
        for length in 0..bytes.len() {
            assert_eq!(Roll::read(&mut Reader(&bytes[..length])), None);
        }
    }
}
