//! The machine of the tests: it notes each command, and how often it was applied.

use muoswyld_member::Position;
use muoswyld_replica::{Digest, StateMachine, Unreadable};
use std::collections::BTreeMap;
use std::rc::Rc;

/// What became of a command.
#[derive(Clone, Debug, PartialEq, Eq)]
pub struct Done {
    /// How often it was applied.
    pub times: u32,
    /// What was answered the first time.
    pub answer: Vec<u8>,
}

/// Notes commands, adds to registers, and keeps what it was founded with.
#[derive(Clone, Debug, Default, PartialEq, Eq)]
pub struct Ledger {
    pub done: BTreeMap<u64, Done>,
    registers: BTreeMap<u8, u64>,
    ballast: Vec<Rc<[u8]>>,
    /// A defect: from so many commands on, it adds one too many.
    pub strays_after: Option<usize>,
}

/// A command: its number among all of the run, what it adds to which register, which attempt of its caller this is, and bytes that
/// make it longer.
pub fn command(id: u64, register: u8, attempt: u16, length: usize) -> Vec<u8> {
    let mut bytes = id.to_be_bytes().to_vec();
    bytes.push(register);
    bytes.extend(attempt.to_be_bytes());
    bytes.resize(bytes.len() + length, register);
    bytes
}

impl Ledger {
    /// One with something to send to joiners.
    pub fn founded(kilobytes: usize) -> Ledger {
        let block = |k: usize| vec![k as u8; 1024].into();
        Ledger {
            ballast: (0..kilobytes).map(block).collect(),
            ..Ledger::default()
        }
    }

    fn read(command: &[u8]) -> Option<(u64, u8)> {
        let (id, rest) = command.split_first_chunk::<8>()?;
        Some((u64::from_be_bytes(*id), *rest.first()?))
    }
}

impl StateMachine for Ledger {
    type Snapshot = std::vec::IntoIter<Vec<u8>>;

    fn apply(&mut self, _at: Position, command: &[u8]) -> Vec<u8> {
        let Some((id, register)) = Ledger::read(command) else {
            return Vec::new();
        };
        let stray = u64::from(
            self.strays_after
                .is_some_and(|most| self.done.len() >= most),
        );
        let count = self.done.len() as u64;
        let value = self.registers.entry(register).or_default();
        *value += id + 1 + stray;
        let answer = [count.to_be_bytes(), value.to_be_bytes()].concat();
        let done = self.done.entry(id).or_insert(Done {
            times: 0,
            answer: answer.clone(),
        });
        done.times += 1;
        answer
    }

    fn snapshot(&self) -> Self::Snapshot {
        let mut records = Vec::new();
        for block in &self.ballast {
            records.push([b"b", &block[..]].concat());
        }
        for (id, done) in &self.done {
            let head = [&b"d"[..], &id.to_be_bytes(), &done.times.to_be_bytes()].concat();
            records.push([head, done.answer.clone()].concat());
        }
        for (register, value) in &self.registers {
            records.push([&[b'r', *register][..], &value.to_be_bytes()].concat());
        }
        records.into_iter()
    }

    fn restore(&mut self, record: &[u8]) -> Result<(), Unreadable> {
        let (kind, rest) = record.split_first().ok_or(Unreadable)?;
        match kind {
            b'b' => self.ballast.push(rest.into()),
            b'd' => {
                let (id, rest) = rest.split_first_chunk::<8>().ok_or(Unreadable)?;
                let (times, answer) = rest.split_first_chunk::<4>().ok_or(Unreadable)?;
                let done = Done {
                    times: u32::from_be_bytes(*times),
                    answer: answer.to_vec(),
                };
                self.done.insert(u64::from_be_bytes(*id), done);
            }
            _ => {
                let (register, value) = rest.split_first().ok_or(Unreadable)?;
                let value = value.try_into().map_err(|_| Unreadable)?;
                self.registers.insert(*register, u64::from_be_bytes(value));
            }
        }
        Ok(())
    }

    fn digest(&self) -> u64 {
        let digest = Digest::new().number(self.ballast.len() as u64);
        let digest = self.done.iter().fold(digest, |digest, (id, done)| {
            let digest = digest.number(*id).number(done.times.into());
            digest.bytes(&done.answer)
        });
        let digest = self
            .registers
            .iter()
            .fold(digest, |digest, (register, value)| {
                digest.number((*register).into()).number(*value)
            });
        digest.end()
    }
}
