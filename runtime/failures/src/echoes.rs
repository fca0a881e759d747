//! One's own heartbeats: when each was sent, and which of them each voter has echoed.

use crate::message::Heard;
use crate::names::Name;
use crate::settings::{Plant, Settings};
use crate::time::Time;
use std::collections::{BTreeMap, VecDeque};

/// Of how many heartbeats the sending times are kept. An echo of an older one is dropped: that only shortens a lease.
const MOST_SENT: usize = 4096;

/// A heartbeat that was echoed.
#[derive(Clone, Copy, Debug, PartialEq, Eq, PartialOrd, Ord)]
struct Echoed {
    sent: Time,
    sequence: u64,
}

/// What a process knows of its own heartbeats.
#[derive(Clone, Debug)]
pub(crate) struct Echoes {
    plant: Option<Plant>,
    me: Heard,
    sent: VecDeque<Time>,
    /// The greatest heartbeat that each voter echoed: by the voter's name, of which a place counts once.
    by_voter: BTreeMap<Name, Echoed>,
    /// How often an echo said something new.
    pub(crate) count: u64,
}

impl Echoes {
    pub(crate) fn new(settings: &Settings) -> Echoes {
        Echoes {
            plant: settings.plant,
            me: Heard {
                name: settings.name,
                process: settings.process,
                sequence: 0,
            },
            sent: VecDeque::new(),
            by_voter: BTreeMap::new(),
            count: 0,
        }
    }

    /// The number of the last heartbeat.
    pub(crate) fn last(&self) -> u64 {
        self.me.sequence
    }

    /// The last heartbeat.
    pub(crate) fn latest(&self) -> Heard {
        self.me
    }

    /// A heartbeat is about to be sent. The time is one that was read before the sending: a lease runs from there, and a pause in
    /// between makes it only shorter.
    pub(crate) fn send(&mut self, now: Time) -> Heard {
        self.me.sequence += 1;
        if self.sent.len() == MOST_SENT {
            self.sent.pop_front();
        }
        self.sent.push_back(now);
        self.me
    }

    fn sent_at(&self, sequence: u64) -> Option<Time> {
        let back = usize::try_from(self.me.sequence.checked_sub(sequence)?).ok()?;
        let index = self.sent.len().checked_sub(back + 1)?;
        self.sent.get(index).copied()
    }

    /// A voter says what it heard. It counts if it is this very process's heartbeat, and one that was sent: time is of one boot, and
    /// a place's next process has another clock.
    pub(crate) fn hear(&mut self, voter: Name, heard: Heard, now: Time) {
        let is_mine = heard.name == self.me.name && heard.process == self.me.process;
        let is_places = heard.name.place() == self.me.name.place();
        if !(is_mine || is_places && self.plant == Some(Plant::EchoByPlace)) {
            return;
        }
        let Some(sent) = self.sent_at(heard.sequence) else {
            return;
        };
        let sent = match self.plant {
            Some(Plant::LeaseFromReceipt) => now,
            _ => sent,
        };
        let echoed = Echoed {
            sent,
            sequence: heard.sequence,
        };
        let known = self.by_voter.get(&voter);
        if known.is_none_or(|known| *known < echoed) {
            self.by_voter.insert(voter, echoed);
            self.count += 1;
        }
    }

    /// The latest heartbeat that a majority of voters echoed, that one or a later one: its number, and when it was sent. The voters
    /// are places: lives of one place count once.
    pub(crate) fn confirmed(&self, voters: u16, majority: usize) -> Option<(u64, Time)> {
        let mut best: BTreeMap<u8, Echoed> = BTreeMap::new();
        for (voter, echoed) in &self.by_voter {
            if voters >> voter.place() & 1 == 0 {
                continue;
            }
            let key = match self.plant {
                Some(Plant::CountsLives) => voter.byte(),
                _ => voter.place(),
            };
            let known = best.entry(key).or_insert(*echoed);
            *known = (*known).max(*echoed);
        }
        let mut all: Vec<Echoed> = best.into_values().collect();
        all.sort_unstable_by(|one, other| other.cmp(one));
        let at = all.get(majority.checked_sub(1)?)?;
        let at = match self.plant {
            Some(Plant::LeaseFromLatest) => all.first()?,
            _ => at,
        };
        Some((at.sequence, at.sent))
    }
}

#[cfg(test)]
mod tests {
    use super::*;
    use crate::settings::Policy;

    #[test]
    fn a_majority_counts_from_its_own_sending() {
        let settings = Settings::new([0; 16], Name::first(0), 5, 0b111, Policy::Echo);
        let mut echoes = Echoes::new(&settings);
        let first = echoes.send(Time(10));
        let second = echoes.send(Time(20));
        echoes.hear(Name::first(0), second, Time(20));
        assert_eq!(echoes.confirmed(0b111, 2), None);
        echoes.hear(Name::first(5), second, Time(21));
        assert_eq!(echoes.confirmed(0b111, 2), None);
        echoes.hear(Name::first(1), first, Time(30));
        assert_eq!(echoes.confirmed(0b111, 2), Some((1, Time(10))));
        echoes.hear(Name::first(2), second, Time(31));
        echoes.hear(Name::first(2), first, Time(32));
        assert_eq!(echoes.confirmed(0b111, 2), Some((2, Time(20))));
        let strange = Heard {
            process: 6,
            ..second
        };
        let mut other = Echoes::new(&settings);
        other.send(Time(10));
        for heard in [
            strange,
            Heard {
                sequence: 9,
                ..second
            },
        ] {
            other.hear(Name::first(1), heard, Time(40));
            other.hear(Name::first(2), heard, Time(40));
        }
        assert_eq!(other.confirmed(0b111, 1), None);
    }
}
