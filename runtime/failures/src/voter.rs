//! A place's vote, and its file.
//!
//! The file is 96 bytes: `MuosVot1` (8), the group's id (16), the place (1), 23 zeros, the counter (8), the refusals (32, a set of
//! names), and the 64-bit FNV-1a of all before (8). It is made once, when the group is founded. A place whose file isn't there, isn't
//! whole, or is of another id or place is no voter of this group any more.

use crate::event::NoVoter;
use crate::message::Heard;
use crate::names::{Name, NameSet};
use crate::settings::{Plant, Settings};
use crate::time::Time;
use std::collections::{BTreeMap, VecDeque};

/// How many bytes a voter's file has.
pub const FILE_BYTES: usize = 96;
const MAGIC: &[u8; 8] = b"MuosVot1";

/// A file that isn't a voter's.
#[derive(Clone, Copy, Debug, PartialEq, Eq)]
pub struct BadFile;

/// The bytes of a voter's file at the founding: it has refused nobody. It is made once for each voter, and never again for the same
/// id: a second one would forget what the first one has refused.
pub fn new_file(id: [u8; 16], place: u8) -> Vec<u8> {
    file_of(id, place, 0, &NameSet::default())
}

fn file_of(id: [u8; 16], place: u8, counter: u64, refused: &NameSet) -> Vec<u8> {
    let mut bytes = Vec::with_capacity(FILE_BYTES);
    bytes.extend(MAGIC);
    bytes.extend(id);
    bytes.push(place);
    bytes.extend([0; 23]);
    bytes.extend(counter.to_be_bytes());
    bytes.extend(refused.bytes());
    bytes.extend(sum_of(&bytes).to_be_bytes());
    bytes
}

fn sum_of(bytes: &[u8]) -> u64 {
    bytes.iter().fold(0xcbf2_9ce4_8422_2325, |sum, byte| {
        (sum ^ u64::from(*byte)).wrapping_mul(0x0100_0000_01b3)
    })
}

/// The counter and the refusals of a file of this id and place.
fn read_file(bytes: &[u8], id: [u8; 16], place: u8) -> Result<(u64, NameSet), BadFile> {
    let (body, sum) = bytes.split_last_chunk::<8>().ok_or(BadFile)?;
    if bytes.len() != FILE_BYTES || u64::from_be_bytes(*sum) != sum_of(body) {
        return Err(BadFile);
    }
    let (body, refused) = body.split_last_chunk::<32>().ok_or(BadFile)?;
    let (head, counter) = body.split_last_chunk::<8>().ok_or(BadFile)?;
    let mut expected = Vec::from(MAGIC.as_slice());
    expected.extend(id);
    expected.push(place);
    expected.extend([0; 23]);
    if head != expected {
        return Err(BadFile);
    }
    Ok((u64::from_be_bytes(*counter), NameSet::of_bytes(*refused)))
}

/// Whom a voter's file of this id and place says that it has refused; None if it isn't such a file.
pub fn refused_in(file: &[u8], id: [u8; 16], place: u8) -> Option<NameSet> {
    let read = read_file(file, id, place).ok();
    read.map(|(_, refused)| refused)
}

/// What a voter keeps.
#[derive(Clone, Debug)]
pub(crate) struct Voter {
    id: [u8; 16],
    place: u8,
    plant: Option<Plant>,
    started: Time,
    /// The counter of the last write, and of the last one that is on disk.
    written: u64,
    pub(crate) counter: u64,
    /// Whom it has refused, and whom of these on disk.
    refused: NameSet,
    synced: NameSet,
    under_way: VecDeque<(u64, NameSet)>,
    last_echo: BTreeMap<Name, Time>,
    heard: BTreeMap<Name, Heard>,
    decided: BTreeMap<Name, Time>,
    /// Refusals that an earlier process made.
    inherited: NameSet,
}

impl Voter {
    /// The voter of a place, with its file's bytes. A voter is a place that the founding names as one, with a whole file of this id.
    pub(crate) fn new(
        settings: &Settings,
        file: Option<&[u8]>,
        now: Time,
    ) -> Result<Voter, NoVoter> {
        let place = settings.name.place();
        if settings.voters >> place & 1 == 0 {
            return Err(NoVoter::NotNamed);
        }
        let read = match file {
            None => Err(NoVoter::NoFile),
            Some(bytes) => read_file(bytes, settings.id, place).map_err(|_| NoVoter::BadFile),
        };
        let (counter, mut refused) = match (read, settings.plant) {
            (Err(_), Some(Plant::GoesOnWithoutFile)) => (0, NameSet::default()),
            (read, _) => read?,
        };
        if settings.plant == Some(Plant::ForgetsRefusals) {
            refused = NameSet::default();
        }
        Ok(Voter {
            id: settings.id,
            place,
            plant: settings.plant,
            started: now,
            written: counter,
            counter,
            refused,
            synced: refused,
            under_way: VecDeque::new(),
            last_echo: BTreeMap::new(),
            heard: BTreeMap::new(),
            decided: BTreeMap::new(),
            inherited: refused,
        })
    }

    /// Hears a heartbeat; whether it is echoed. A voter echoes each name that it hasn't refused, and notes when: by a clock that is
    /// read after the heartbeat was received. A name that it has refused it never echoes again.
    pub(crate) fn hear(&mut self, heard: Heard, now: Time) -> bool {
        let name = heard.name;
        if self.plant == Some(Plant::EchoesAgain) && self.refused.remove(name) {
            self.synced.remove(name);
        }
        let is_late = self.plant == Some(Plant::WaitsFromDecision) && !self.synced.has(name);
        if self.refused.has(name) && !is_late {
            return false;
        }
        self.last_echo.insert(name, now);
        let known = self.heard.entry(name).or_insert(heard);
        if known.process == heard.process {
            known.sequence = known.sequence.max(heard.sequence);
        }
        true
    }

    /// The echoes for a heartbeat of its own: of each place's latest life, so that a heartbeat fits in a datagram.
    pub(crate) fn echoes(&self) -> Vec<Heard> {
        let mut latest: BTreeMap<u8, Heard> = BTreeMap::new();
        // lives of a place stand in their order
        for heard in self.heard.values() {
            latest.insert(heard.name.place(), *heard);
        }
        let refused = |heard: &Heard| !self.refused.has(heard.name);
        latest.into_values().filter(refused).collect()
    }

    /// Whether it has refused a name.
    pub(crate) fn has_refused(&self, name: Name) -> bool {
        self.refused.has(name)
    }

    /// Whom it has refused.
    pub(crate) fn refused(&self) -> NameSet {
        self.refused
    }

    /// Whom it has refused on disk. Others aren't told of any other refusal: one that is told and then lost would be echoed again.
    pub(crate) fn told(&self) -> NameSet {
        match self.plant {
            Some(Plant::TellsBeforeSync) => self.refused,
            _ => self.synced,
        }
    }

    /// Refuses a name, for ever: its echoes end now. What is to be written, and the write's number.
    pub(crate) fn refuse(&mut self, name: Name, now: Time) -> Option<(u64, Vec<u8>)> {
        if name.place() == self.place || !self.refused.insert(name) {
            return None;
        }
        self.decided.insert(name, now);
        self.written += 1;
        self.under_way.push_back((self.written, self.refused));
        let bytes = file_of(self.id, self.place, self.written, &self.refused);
        Some((self.written, bytes))
    }

    /// A write is on disk, its folder's entry too.
    pub(crate) fn is_written(&mut self, number: u64) {
        while let Some((written, refused)) = self.under_way.front() {
            if *written > number {
                break;
            }
            self.counter = *written;
            self.synced = *refused;
            self.under_way.pop_front();
        }
    }

    /// When a refusal of a name is ripe: so long after the last echo, not after the refusal. A voter that hasn't echoed it in this
    /// process counts from the process's start: an earlier process may have echoed it up to then, and its clock meant nothing to this
    /// one.
    fn ripe_at(&self, name: Name, wait: u64) -> Time {
        let last = self.last_echo.get(&name).copied();
        match self.plant {
            Some(Plant::WaitsSinceFirst) => return Time(0),
            Some(Plant::KeepsTimes) if self.inherited.has(name) => return Time(0),
            Some(Plant::WaitsFromDecision) => {
                let decided = self.decided.get(&name).copied();
                return decided.unwrap_or(self.started).after(wait);
            }
            _ => {}
        }
        last.unwrap_or(self.started).after(wait)
    }

    /// The refusals that are told as ripe.
    pub(crate) fn ripe(&self, now: Time, wait: u64) -> NameSet {
        let told = self.told();
        told.iter()
            .filter(|name| now >= self.ripe_at(*name, wait))
            .collect()
    }

    /// When the next refusal gets ripe.
    pub(crate) fn next_ripe(&self, now: Time, wait: u64) -> Time {
        let told = self.told();
        let times = told.iter().map(|name| self.ripe_at(name, wait));
        times.filter(|at| *at > now).min().unwrap_or(Time::NEVER)
    }
}

#[cfg(test)]
mod tests {
    use super::*;
    use crate::settings::Policy;

    #[test]
    fn a_file_is_read_as_it_was_written_and_nothing_else_is() {
        let refused: NameSet = [Name::first(2), Name::of_byte(200)].into_iter().collect();
        let file = file_of([9; 16], 1, 5, &refused);
        assert_eq!(file.len(), FILE_BYTES);
        assert_eq!(read_file(&file, [9; 16], 1), Ok((5, refused)));
        assert_eq!(refused_in(&file, [9; 16], 1), Some(refused));
        assert_eq!(refused_in(&file, [9; 16], 2), None);
        assert_eq!(read_file(&file, [8; 16], 1), Err(BadFile));
        assert_eq!(read_file(&file, [9; 16], 2), Err(BadFile));
        for at in 0..file.len() {
            let mut torn = file.clone();
            torn[at] ^= 1;
            assert_eq!(read_file(&torn, [9; 16], 1), Err(BadFile));
            assert_eq!(read_file(&file[..at], [9; 16], 1), Err(BadFile));
        }
    }

    #[test]
    fn a_refusal_is_told_once_it_is_on_disk_and_ripe_after_the_last_echo() {
        let settings = Settings::new([9; 16], Name::first(0), 1, 0b111, Policy::Echo);
        let file = new_file([9; 16], 0);
        let mut voter = Voter::new(&settings, Some(&file), Time(100)).expect("a voter");
        let name = Name::first(2);
        let heard = Heard {
            name,
            process: 7,
            sequence: 1,
        };
        assert!(voter.hear(heard, Time(200)));
        let (number, bytes) = voter.refuse(name, Time(250)).expect("a write");
        assert!(!voter.hear(heard, Time(260)) && voter.told().is_empty());
        voter.is_written(number);
        assert!(voter.told().has(name));
        assert!(voter.ripe(Time(299), 100).is_empty());
        assert!(voter.ripe(Time(300), 100).has(name));
        let mut next = Voter::new(&settings, Some(&bytes), Time(5)).expect("a voter");
        assert!(!next.hear(heard, Time(6)) && next.counter == 1);
        assert_eq!(next.next_ripe(Time(6), 100), Time(105));
    }
}
