//! Digests of the replicas' states after the same entries, compared.

use crate::event::Plant;
use crate::roll::next_name;
use muoswyld_member::{Name, Names, Position};
use std::collections::{BTreeMap, BTreeSet};

/// How many comparisons are kept.
const KEPT: usize = 16;

/// A comparison after an entry. All names are of the latest list.
#[derive(Clone, Debug)]
struct Check {
    own: u64,
    /// Who had the state then.
    holders: Names,
    said: BTreeMap<Name, u64>,
    /// What those said that were no members any more at the end of a list.
    gone: Vec<u64>,
    /// Whose digest was told as another one.
    told: BTreeSet<Name>,
}

impl Check {
    /// The digest that counts: that of most, or of the lowest name among as many. None as long as a member hasn't said its own.
    fn counts(&self, members: Names) -> Option<u64> {
        let mut asked = self.holders.iter().filter(|name| members.has(*name));
        if !asked.all(|name| self.said.contains_key(&name)) {
            return None;
        }
        let all = || self.said.values().chain(&self.gone);
        let mut best: Option<(usize, u64)> = None;
        for digest in all() {
            let count = all().filter(|said| *said == digest).count();
            if best.is_none_or(|(most, _)| count > most) {
                best = Some((count, *digest));
            }
        }
        best.map(|(_, digest)| digest)
    }

    /// The list has ended, with these members: each has another name in the next one.
    fn succeed(&mut self, members: Names) {
        let stay = |name: &Name| members.has(*name);
        self.holders = self.holders.iter().filter(stay).map(next_name).collect();
        let told = std::mem::take(&mut self.told).into_iter();
        self.told = told.filter(stay).map(next_name).collect();
        for (name, digest) in std::mem::take(&mut self.said) {
            match stay(&name) {
                true => drop(self.said.insert(next_name(name), digest)),
                false => self.gone.push(digest),
            }
        }
    }
}

/// What came of a comparison.
#[derive(Clone, Copy, Debug, PartialEq, Eq)]
pub(crate) enum Found {
    /// This replica's state isn't the one that counts.
    Own {
        /// After which entry.
        at: Position,
        /// Its digest.
        own: u64,
        /// The one that counts.
        other: u64,
    },
    /// Another replica's isn't.
    Other(Name, Position),
}

/// Comparisons, by the positions of their entries.
#[derive(Clone, Debug, Default)]
pub(crate) struct Checks {
    checks: BTreeMap<Position, Check>,
    /// A defect that a test planted.
    plant: Option<Plant>,
}

impl Checks {
    /// None yet.
    pub(crate) fn new(plant: Option<Plant>) -> Checks {
        Checks {
            plant,
            ..Checks::default()
        }
    }

    /// The last comparison: its entry, and the own digest.
    pub(crate) fn last(&self) -> Option<(Position, u64)> {
        let last = self.checks.last_key_value();
        last.map(|(at, check)| (*at, check.own))
    }

    fn key(&self, at: Position) -> Position {
        match self.plant {
            Some(Plant::ChecksByNumber) => Position {
                generation: 0,
                ..at
            },
            _ => at,
        }
    }

    /// Begins a comparison: this is the own digest after an entry, and these have the state.
    pub(crate) fn begin(&mut self, at: Position, own: u64, holders: Names) {
        let at = self.key(at);
        self.checks.entry(at).or_insert(Check {
            own,
            holders,
            said: BTreeMap::new(),
            gone: Vec::new(),
            told: BTreeSet::new(),
        });
        while self.checks.len() > KEPT {
            self.checks.pop_first();
        }
    }

    /// A replica says its digest after an entry.
    pub(crate) fn said(
        &mut self,
        from: Name,
        at: Position,
        digest: u64,
        members: Names,
    ) -> Vec<Found> {
        let at = self.key(at);
        match self.checks.get_mut(&at) {
            Some(check) => {
                check.said.insert(from, digest);
                self.look_at(at, members)
            }
            None => Vec::new(),
        }
    }

    /// The list has ended, with these members: what isn't decided goes on in the next one.
    pub(crate) fn succeed(&mut self, members: Names) {
        for check in self.checks.values_mut() {
            check.succeed(members);
        }
    }

    /// The members are others now.
    pub(crate) fn look(&mut self, members: Names) -> Vec<Found> {
        let all: Vec<Position> = self.checks.keys().copied().collect();
        let found = all.into_iter().map(|at| self.look_at(at, members));
        found.collect::<Vec<_>>().concat()
    }

    fn look_at(&mut self, at: Position, members: Names) -> Vec<Found> {
        let Some(check) = self.checks.get_mut(&at) else {
            return Vec::new();
        };
        let Some(other) = check.counts(members) else {
            return Vec::new();
        };
        let own = check.own;
        let mut found = Vec::new();
        for (name, digest) in &check.said {
            if *digest != other && check.told.insert(*name) {
                found.push(Found::Other(*name, at));
            }
        }
        if own != other {
            found.push(Found::Own { at, own, other });
        }
        found
    }
}

#[cfg(test)]
mod tests {
    use super::*;

    fn name(place: u8) -> Name {
        Name::first(place).unwrap()
    }

    fn all() -> Names {
        "0,1,2".parse().unwrap()
    }

    fn at(generation: u32, number: u32) -> Position {
        Position {
            generation,
            number,
            index: 0,
        }
    }

    /// What a replica with this digest finds where others say theirs.
    fn found(own: u64, said: &[(u8, u64)]) -> Vec<Found> {
        let mut checks = Checks::default();
        checks.begin(at(0, 10), own, all());
        let said = said
            .iter()
            .map(|(place, digest)| checks.said(name(*place), at(0, 10), *digest, all()));
        said.collect::<Vec<_>>().concat()
    }

    #[test]
    fn the_digest_of_most_counts() {
        assert_eq!(found(7, &[(0, 7), (1, 7), (2, 7)]), []);
        let other = Found::Other(name(1), at(0, 10));
        assert_eq!(found(7, &[(0, 7), (1, 8), (2, 7)]), [other]);
        let own = Found::Own {
            at: at(0, 10),
            own: 8,
            other: 7,
        };
        assert_eq!(found(8, &[(0, 7), (1, 8), (2, 7)]), [other, own]);
        assert_eq!(found(8, &[(0, 7), (1, 8)]), []);
    }

    #[test]
    fn of_as_many_the_lowest_names_counts() {
        let mut checks = Checks::default();
        checks.begin(at(0, 10), 8, all());
        assert_eq!(checks.said(name(1), at(0, 10), 8, all()), []);
        assert_eq!(checks.said(name(0), at(0, 10), 7, all()), []);
        // place 2 has stopped
        let found = checks.look("0,1".parse().unwrap());
        let own = Found::Own {
            at: at(0, 10),
            own: 8,
            other: 7,
        };
        assert_eq!(found, [Found::Other(name(1), at(0, 10)), own]);
        assert_eq!(checks.said(name(0), at(0, 99), 1, all()), []);
    }

    #[test]
    fn a_comparison_goes_on_in_the_next_list() {
        let mut checks = Checks::default();
        let before: Names = "0/2,1,2/3".parse().unwrap();
        let gone: Name = "1".parse().unwrap();
        checks.begin(at(0, 10), 8, before);
        assert_eq!(checks.said(gone, at(0, 10), 7, before), []);
        // place 1 stops, and the list ends
        let members = before.without(gone);
        assert_eq!(checks.look(members), []);
        checks.succeed(members);
        // the same number of another list is another entry
        checks.begin(at(1, 10), 9, "0,2".parse().unwrap());
        assert_eq!(checks.last(), Some((at(1, 10), 9)));
        // a place that came back isn't the one that spoke
        let members = all();
        assert_eq!(checks.said(name(0), at(0, 10), 8, members), []);
        let found = checks.said(name(2), at(0, 10), 7, members);
        let own = Found::Own {
            at: at(0, 10),
            own: 8,
            other: 7,
        };
        assert_eq!(found, [Found::Other(name(0), at(0, 10)), own]);
        assert_eq!(checks.said(name(0), at(1, 10), 9, members), []);
        assert_eq!(checks.said(name(2), at(1, 10), 9, members), []);
    }
}
