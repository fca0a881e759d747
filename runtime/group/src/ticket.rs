//! Messages on their way.

use crate::error::SendError;
use crate::shared::Sent;
use crate::slot::{deadline, Slot};
use muoswyld_member::Position;
use std::sync::Arc;
use std::time::Duration;

/// A message on its way. Dropping it takes nothing back.
#[must_use = "a ticket tells what became of the message; `submit` alone doesn't wait for it"]
pub struct Ticket {
    pub(crate) slot: Arc<Slot<Sent>>,
}

impl Ticket {
    /// Waits until the message is delivered at this member, and gives its position.
    pub fn wait(&self) -> Result<Position, SendError> {
        self.slot.wait(None).unwrap_or(Err(SendError::Timeout))
    }

    /// As [`Ticket::wait`], at most so long: [`SendError::Timeout`] after that.
    pub fn wait_timeout(&self, most: Duration) -> Result<Position, SendError> {
        let until = deadline(Some(most));
        self.slot.wait(until).unwrap_or(Err(SendError::Timeout))
    }

    /// The result of the message; None while there is none.
    pub fn look(&self) -> Option<Result<Position, SendError>> {
        self.slot.look()
    }
}
