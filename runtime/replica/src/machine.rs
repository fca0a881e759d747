//! What is replicated.

use muoswyld_member::Position;
use thiserror::Error;

/// A record of a snapshot isn't one of the machine's.
#[derive(Clone, Copy, Debug, PartialEq, Eq, Error)]
#[error("a record of the snapshot can't be read")]
pub struct Unreadable;

/// A deterministic machine: what it does depends on its state, the command and the position alone. It reads no clock, draws no
/// random numbers, and doesn't depend on the order of a hash table.
pub trait StateMachine {
    /// The state at a moment, as records in an order that is the same at all replicas. A record has at most 1 MiB.
    type Snapshot: Iterator<Item = Vec<u8>>;

    /// Applies a command, and gives its answer. A command that it can't read changes nothing, and has an answer too.
    fn apply(&mut self, at: Position, command: &[u8]) -> Vec<u8>;

    /// The state now. It is kept while a joiner is sent it, and commands are applied meanwhile: share what is large.
    fn snapshot(&self) -> Self::Snapshot;

    /// Takes the next record of a snapshot. The machine is a new one before the first.
    fn restore(&mut self, record: &[u8]) -> Result<(), Unreadable>;

    /// A number that two machines of the same state have in common, and two of different states don't but by accident.
    fn digest(&self) -> u64;
}
