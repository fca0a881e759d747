//! A replicated service at a member of a group: it carries what the member delivers to a replica, and what that sends to the group
//! (docs/REPLICAS.md). Nothing of it waits, so it goes into any loop: [`Config::on_arrival`](muoswyld_group::Config::on_arrival) tells
//! when there is something to do.

#![warn(missing_docs)]

use muoswyld_group::{End, Group, Info, Position, ReceiveError, SendError};
use muoswyld_replica::{Ended, Output, Refused, Replica, Request, Settings, StateMachine, Status};
use std::collections::VecDeque;
use std::sync::Arc;
use std::time::{Duration, Instant};
use thiserror::Error;

/// How long a joiner that is sent nothing waits before another replica is asked to go on.
const STALLED_AFTER: Duration = Duration::from_secs(3);

/// Why a service ends.
#[derive(Clone, Debug, PartialEq, Eq, Error)]
pub enum Stop {
    /// Its member has ended.
    #[error("the member ended: {0}")]
    Member(End),
    /// Its replica has ended. The member still runs: it is to leave, or to be stopped.
    #[error("{0}")]
    Replica(Ended),
}

/// A replicated service at a member. It goes on over the ends of the group's lists.
pub struct Service<S: StateMachine> {
    group: Arc<Group>,
    replica: Replica<S>,
    /// Messages for which the member had no room.
    unsent: VecDeque<Vec<u8>>,
    knows_members: bool,
    /// How many chunks a joiner has, and since when.
    chunks: (u32, Instant),
}

impl<S: StateMachine> Service<S> {
    /// A service at a member that is in its group and was asked for no delivery yet. `change` sets limits, which are the same at all
    /// members of the group.
    pub fn new(
        group: Arc<Group>,
        machine: S,
        change: impl FnOnce(&mut Settings),
    ) -> Result<Service<S>, Stop> {
        let info = group.info().map_err(Stop::Member)?;
        let mut settings = Settings::new(info.name, info.group.unwrap_or_default());
        change(&mut settings);
        Ok(Service {
            group,
            replica: Replica::new(machine, settings),
            unsent: VecDeque::new(),
            knows_members: false,
            chunks: (0, Instant::now()),
        })
    }

    /// The machine, once there is a state. It may be behind what was delivered.
    pub fn machine(&self) -> Option<&S> {
        self.replica.machine()
    }

    /// How the replica stands.
    pub fn status(&self) -> Status {
        self.replica.status()
    }

    /// How the member stands.
    pub fn info(&self) -> Result<Info, Stop> {
        self.group.info().map_err(Stop::Member)
    }

    /// How many messages wait since the member has no room for them.
    pub fn unsent(&self) -> usize {
        self.unsent.len()
    }

    /// Asks for something. It goes out with the next [`turn`](Service::turn).
    pub fn submit(&mut self, token: u64, request: Request) -> Result<(), Refused> {
        self.replica.submit(token, request)
    }

    /// Answers the token once the machine has applied the list up to a position.
    pub fn wait_for(&mut self, token: u64, at: Position) {
        self.replica.wait_for(token, at);
    }

    /// Does what can be done now. `take` is given what comes of it, with the machine as it is at that moment.
    pub fn turn(&mut self, mut take: impl FnMut(Option<&S>, Output)) -> Result<(), Stop> {
        self.take_outputs(&mut take)?;
        self.send()?;
        let group = self.group.clone();
        let deliveries = match group.receive_all() {
            Ok(deliveries) => deliveries,
            Err(ReceiveError::Ended(end)) => return Err(Stop::Member(end)),
            Err(_) => return Ok(()),
        };
        for delivery in deliveries {
            self.replica.deliver(delivery);
            self.take_outputs(&mut take)?;
        }
        self.look_at_members()?;
        self.look_at_chunks();
        self.take_outputs(&mut take)?;
        self.send()
    }

    fn take_outputs(&mut self, take: &mut impl FnMut(Option<&S>, Output)) -> Result<(), Stop> {
        while let Some(output) = self.replica.next_output() {
            match output {
                Output::Send(message) => self.unsent.push_back(message),
                Output::Ended(ended) => return Err(Stop::Replica(ended)),
                other => take(self.replica.machine(), other),
            }
        }
        Ok(())
    }

    /// Gives messages to the member, as long as it has room.
    fn send(&mut self) -> Result<(), Stop> {
        while let Some(message) = self.unsent.pop_front() {
            match self.group.try_submit(message.clone()) {
                // the replica is told by the delivery
                Ok(_ticket) => {}
                Err(SendError::Full) => {
                    self.unsent.push_front(message);
                    return Ok(());
                }
                // one that leaves takes nothing more, and ends soon
                Err(SendError::Leaving) => return Ok(()),
                Err(SendError::NotSent(end) | SendError::Ended(end)) => {
                    return Err(Stop::Member(end));
                }
                Err(_) => {}
            }
        }
        Ok(())
    }

    /// Tells a joiner's replica once who is a member.
    fn look_at_members(&mut self) -> Result<(), Stop> {
        if !self.knows_members && self.replica.status().given.is_some() {
            self.knows_members = true;
            let info = self.info()?;
            let top = Position {
                generation: info.generation,
                number: info.standing.top,
                index: 0,
            };
            self.replica.know_members(top, info.standing.members);
        }
        Ok(())
    }

    fn look_at_chunks(&mut self) {
        let chunks = self.replica.status().chunks;
        let (before, since) = self.chunks;
        let now = Instant::now();
        if chunks != before {
            self.chunks = (chunks, now);
        } else if now.duration_since(since) > STALLED_AFTER {
            self.chunks = (chunks, now);
            self.replica.stalled();
        }
    }
}
