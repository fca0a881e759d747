//! The state at a number, and its bytes in chunks.

use crate::digest::Digest;
use crate::event::{Plant, Settings};
use crate::machine::StateMachine;
use crate::message::{put_position, CHUNK};
use crate::parts::Parts;
use crate::roll::Roll;
use crate::sessions::{Limits, Sessions};
use muoswyld_member::Position;
use std::collections::VecDeque;

/// The form of snapshots.
pub(crate) const VERSION: u8 = 2;

/// What a record of a snapshot is.
pub(crate) mod kind {
    /// The head: version, position, limits and roll.
    pub(crate) const HEAD: u8 = b'I';
    /// A session.
    pub(crate) const SESSION: u8 = b'S';
    /// What has begun at a place.
    pub(crate) const PART: u8 = b'P';
    /// A record of the machine.
    pub(crate) const MACHINE: u8 = b'M';
    /// The end.
    pub(crate) const END: u8 = b'E';
}

/// All that replicas have in common.
#[derive(Clone, Debug)]
pub(crate) struct State<S> {
    pub(crate) machine: S,
    pub(crate) sessions: Sessions,
    pub(crate) parts: Parts,
    pub(crate) roll: Roll,
    pub(crate) check_every: u32,
}

impl<S: StateMachine> State<S> {
    /// That of founders.
    pub(crate) fn founded(machine: S, settings: &Settings, roll: Roll) -> State<S> {
        State {
            machine,
            sessions: Sessions::new(Limits::of(settings)),
            parts: Parts::default(),
            roll,
            check_every: settings.check_every.max(1),
        }
    }

    /// What two equal states have in common.
    pub(crate) fn digest(&self, plant: Option<Plant>) -> u64 {
        let digest = Digest::new().number(self.check_every.into());
        let digest = self.sessions.digest(digest, plant);
        let digest = match plant {
            Some(Plant::LeavesPartsOut) => digest,
            _ => self.parts.digest(digest),
        };
        let digest = self.roll.digest(digest);
        digest.number(self.machine.digest()).end()
    }

    fn head(&self, at: Position) -> Vec<u8> {
        let mut record = vec![VERSION];
        put_position(&mut record, at);
        let limits = self.sessions.limits;
        let numbers = [
            limits.sessions,
            limits.answers,
            limits.bytes,
            self.check_every,
        ];
        record.extend(numbers.map(u32::to_be_bytes).concat());
        self.roll.put(&mut record);
        record
    }

    /// The snapshot at a position.
    pub(crate) fn cut(&self, at: Position, plant: Option<Plant>) -> Cutter<S::Snapshot> {
        let mut records = VecDeque::from([(kind::HEAD, self.head(at))]);
        let sessions = self.sessions.records(plant);
        records.extend(sessions.map(|record| (kind::SESSION, record)));
        if plant != Some(Plant::LeavesPartsOut) {
            records.extend(self.parts.records().map(|record| (kind::PART, record)));
        }
        Cutter {
            records,
            machine: Some(self.machine.snapshot()),
            bytes: VecDeque::new(),
            next: 0,
            is_over: false,
            digest: self.digest(plant),
        }
    }
}

/// Cuts a snapshot into chunks, one after the other.
#[derive(Debug)]
pub(crate) struct Cutter<I> {
    records: VecDeque<(u8, Vec<u8>)>,
    /// None once the end is in `bytes`.
    machine: Option<I>,
    bytes: VecDeque<u8>,
    /// The index of the next chunk.
    pub(crate) next: u32,
    /// Whether the last chunk was cut.
    pub(crate) is_over: bool,
    /// The digest of the state.
    pub(crate) digest: u64,
}

impl<I: Iterator<Item = Vec<u8>>> Cutter<I> {
    /// Adds a record; false if there is none any more.
    fn fill(&mut self) -> bool {
        let (kind, record) = match (self.records.pop_front(), &mut self.machine) {
            (Some(record), _) => record,
            (None, None) => return false,
            (None, Some(machine)) => match machine.next() {
                Some(record) => (kind::MACHINE, record),
                None => {
                    self.machine = None;
                    (kind::END, Vec::new())
                }
            },
        };
        self.bytes.push_back(kind);
        self.bytes.extend((record.len() as u32).to_be_bytes());
        self.bytes.extend(record);
        true
    }

    /// The next chunk: its index, whether it is the last, and its bytes.
    pub(crate) fn cut(&mut self) -> Option<(u32, bool, Vec<u8>)> {
        if self.is_over {
            return None;
        }
        while self.bytes.len() <= CHUNK && self.fill() {}
        let length = self.bytes.len().min(CHUNK);
        let chunk: Vec<u8> = self.bytes.drain(..length).collect();
        let index = self.next;
        self.next += 1;
        self.is_over = self.bytes.is_empty();
        Some((index, self.is_over, chunk))
    }
}
