//! The state as it comes in chunks.

use crate::event::{Ended, Plant, Settings};
use crate::machine::StateMachine;
use crate::message::{Chunk, Reader};
use crate::parts::Parts;
use crate::roll::{key_of, Roll};
use crate::sessions::{Limits, Sessions};
use crate::snapshot::{kind, State, VERSION};
use muoswyld_member::Position;

/// The most bytes of a record.
const MOST_RECORD: usize = 16 << 20;

/// A state that isn't whole.
#[derive(Debug)]
pub(crate) struct Restoring<S> {
    machine: S,
    /// The Join.
    at: Position,
    /// The index of the next chunk.
    pub(crate) next: u32,
    digest: Option<u64>,
    bytes: Vec<u8>,
    sessions: Sessions,
    parts: Parts,
    head: Option<(Roll, u32)>,
    is_whole: bool,
}

impl<S: StateMachine> Restoring<S> {
    /// Nothing yet, of a Join.
    pub(crate) fn new(machine: S, settings: &Settings, at: Position) -> Restoring<S> {
        Restoring {
            machine,
            at,
            next: 0,
            digest: None,
            bytes: Vec::new(),
            sessions: Sessions::new(Limits::of(settings)),
            parts: Parts::default(),
            head: None,
            is_whole: false,
        }
    }

    /// Takes a chunk; one that isn't the next changes nothing. Whether the state is whole.
    pub(crate) fn chunk(&mut self, chunk: &Chunk, plant: Option<Plant>) -> Result<bool, Ended> {
        let is_again = plant == Some(Plant::TakesChunkTwice) && chunk.index + 1 == self.next;
        let is_own = key_of(chunk.to, plant) == key_of(self.at, plant);
        if !is_own || (chunk.index != self.next && !is_again) {
            return Ok(false);
        }
        let spoilt = self.spoilt(chunk.index);
        if *self.digest.get_or_insert(chunk.digest) != chunk.digest {
            return Err(spoilt);
        }
        self.next = chunk.index + 1;
        self.bytes.extend(chunk.bytes);
        self.read_records().ok_or(spoilt)?;
        match (chunk.is_last, self.is_whole) {
            (true, false) => Err(spoilt),
            _ => Ok(chunk.is_last),
        }
    }

    fn spoilt(&self, chunk: u32) -> Ended {
        Ended::Spoilt { at: self.at, chunk }
    }

    /// The state, once it is whole, if its digest is the one that was said.
    pub(crate) fn into_state(self, plant: Option<Plant>) -> Result<State<S>, Ended> {
        let spoilt = self.spoilt(self.next.saturating_sub(1));
        let (roll, check_every) = self.head.ok_or(spoilt)?;
        let state = State {
            machine: self.machine,
            sessions: self.sessions,
            parts: self.parts,
            roll,
            check_every,
        };
        match Some(state.digest(plant)) == self.digest {
            true => Ok(state),
            false => Err(spoilt),
        }
    }

    /// The machine as it is.
    pub(crate) fn into_machine(self) -> S {
        self.machine
    }

    /// Reads the records that are whole.
    fn read_records(&mut self) -> Option<()> {
        let bytes = std::mem::take(&mut self.bytes);
        let mut rest = Reader(&bytes);
        loop {
            let before = rest;
            let Some(kind) = rest.u8() else {
                return Some(());
            };
            let record = match rest.u32().map(|length| length as usize) {
                Some(length) if length > MOST_RECORD => return None,
                Some(length) => rest.bytes(length),
                None => None,
            };
            match record {
                Some(record) => self.record(kind, record)?,
                None => {
                    self.bytes = before.0.to_vec();
                    return Some(());
                }
            }
        }
    }

    fn record(&mut self, kind: u8, record: &[u8]) -> Option<()> {
        if self.is_whole || self.head.is_some() == (kind == kind::HEAD) {
            return None;
        }
        match kind {
            kind::HEAD => self.head = Some(self.read_head(record)?),
            kind::SESSION => self.sessions.restore(record)?,
            kind::PART => self.parts.restore(record)?,
            kind::MACHINE => self.machine.restore(record).ok()?,
            kind::END if record.is_empty() => self.is_whole = true,
            _ => return None,
        }
        Some(())
    }

    fn read_head(&mut self, record: &[u8]) -> Option<(Roll, u32)> {
        let mut rest = Reader(record);
        let version = rest.u8()?;
        let at: Position = rest.position()?;
        self.sessions = Sessions::new(Limits {
            sessions: rest.u32()?,
            answers: rest.u32()?,
            bytes: rest.u32()?,
        });
        let check_every = rest.u32()?;
        let roll = Roll::read(&mut rest)?;
        rest.end()?;
        (version == VERSION && at == self.at && check_every > 0).then_some((roll, check_every))
    }
}
