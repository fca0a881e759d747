//! Inputs that wait until the member may be given something.

use muoswyld_member::{HandleError, Input, Name};
use std::collections::VecDeque;

/// How many bytes of datagrams wait at most: what comes beyond that is lost, as a network loses it.
const MOST_BYTES: usize = 1 << 20;
/// What a datagram counts beside its bytes.
const HEAD: usize = 64;

/// An input that waits.
#[derive(Debug)]
pub(crate) enum Late {
    Datagram(Box<[u8]>),
    Leave,
    Reset {
        ticket: u64,
        least: Option<u8>,
        resilience: Option<u8>,
    },
    Stopped(Name),
}

impl Late {
    /// The input.
    pub(crate) fn input(&self) -> Input<'_> {
        match self {
            Late::Datagram(payload) => Input::Datagram(payload),
            Late::Leave => Input::Leave,
            Late::Stopped(name) => Input::Stopped(*name),
            Late::Reset {
                ticket,
                least,
                resilience,
            } => Input::Reset {
                ticket: *ticket,
                least: *least,
                resilience: *resilience,
            },
        }
    }

    /// The ticket of a reset.
    pub(crate) fn ticket(&self) -> Option<u64> {
        match self {
            Late::Reset { ticket, .. } => Some(*ticket),
            Late::Datagram(_) | Late::Leave | Late::Stopped(_) => None,
        }
    }
}

/// Inputs that wait, in their order.
#[derive(Debug, Default)]
pub(crate) struct Waiting {
    late: VecDeque<Late>,
    bytes: usize,
    /// How many deliveries the application has taken meanwhile.
    pub(crate) consumed: usize,
}

impl Waiting {
    pub(crate) fn is_empty(&self) -> bool {
        self.late.is_empty() && self.consumed == 0
    }

    /// Keeps an input. A message isn't kept: there is no room for it now. Time isn't either, since it comes again.
    pub(crate) fn put(&mut self, input: Input<'_>) -> Result<(), HandleError> {
        match input {
            Input::Datagram(payload) => self.put_datagram(payload),
            Input::Send { message, .. } => return Err(HandleError::Full { message, room: 0 }),
            Input::Leave => self.late.push_back(Late::Leave),
            Input::Reset {
                least, resilience, ..
            } if least.is_some_and(|least| !(1..=16).contains(&least))
                || resilience.is_some_and(|resilience| resilience > 15) =>
            {
                return Err(HandleError::OutOfRange);
            }
            Input::Reset {
                ticket,
                least,
                resilience,
            } => self.late.push_back(Late::Reset {
                ticket,
                least,
                resilience,
            }),
            Input::Stopped(name) => self.late.push_back(Late::Stopped(name)),
            // who may not act doesn't end a list
            Input::Succeed(_) => return Err(HandleError::NotNow),
            Input::Consumed(count) => self.consumed += count,
            Input::Time => {}
        }
        Ok(())
    }

    fn put_datagram(&mut self, payload: &[u8]) {
        let more = payload.len() + HEAD;
        if self.bytes + more <= MOST_BYTES {
            self.bytes += more;
            self.late.push_back(Late::Datagram(payload.into()));
        }
    }

    /// Takes out what callers ask for: leaves and resets.
    pub(crate) fn take_calls(&mut self) -> Vec<Late> {
        let is_call = |late: &Late| matches!(late, Late::Leave | Late::Reset { .. });
        let late = std::mem::take(&mut self.late);
        let (calls, rest): (VecDeque<Late>, VecDeque<Late>) = late.into_iter().partition(is_call);
        self.late = rest;
        calls.into()
    }

    /// Adds what waited somewhere else.
    pub(crate) fn add(&mut self, calls: Vec<Late>) {
        self.late.extend(calls);
    }

    /// The next one.
    pub(crate) fn take(&mut self) -> Option<Late> {
        let late = self.late.pop_front()?;
        if let Late::Datagram(payload) = &late {
            self.bytes -= payload.len() + HEAD;
        }
        Some(late)
    }
}

#[cfg(test)]
mod tests {
    use super::*;

    #[test]
    fn inputs_wait_in_their_order_and_messages_are_given_back() {
        let mut waiting = Waiting::default();
        assert!(waiting.is_empty());
        assert_eq!(waiting.put(Input::Datagram(b"one")), Ok(()));
        assert_eq!(waiting.put(Input::Leave), Ok(()));
        assert_eq!(waiting.put(Input::Consumed(2)), Ok(()));
        assert_eq!(waiting.put(Input::Consumed(3)), Ok(()));
        let message = b"x".to_vec();
        let sent = waiting.put(Input::Send { ticket: 1, message });
        let full = HandleError::Full {
            message: b"x".to_vec(),
            room: 0,
        };
        assert_eq!(sent, Err(full));
        let reset = Input::Reset {
            ticket: 1,
            least: Some(0),
            resilience: None,
        };
        assert_eq!(waiting.put(reset), Err(HandleError::OutOfRange));
        assert!(matches!(waiting.take(), Some(Late::Datagram(bytes)) if *bytes == *b"one"));
        assert!(matches!(waiting.take(), Some(Late::Leave)));
        assert!(waiting.take().is_none() && !waiting.is_empty());
        assert_eq!((waiting.consumed, waiting.bytes), (5, 0));
    }

    #[test]
    fn datagrams_beyond_the_room_are_lost() {
        let mut waiting = Waiting::default();
        let datagram = vec![0; 1000];
        for _ in 0..2000 {
            assert_eq!(waiting.put(Input::Datagram(&datagram)), Ok(()));
        }
        let mut count = 0;
        while waiting.take().is_some() {
            count += 1;
        }
        assert_eq!(count, MOST_BYTES / 1064);
    }
}
