//! The seven calls.

use crate::config::Config;
use crate::error::{
    CreateError, End, LeaveError, ReceiveError, ResetError, SendError, SucceedError, ToldError,
};
use crate::failures::FailuresInfo;
use crate::next::NextList;
use crate::shared::{Command, Shared, Succeeded};
use crate::shell;
use crate::slot::{deadline, Slot};
use crate::state::State;
use crate::ticket::Ticket;
use muoswyld::names::Name;
use muoswyld_member::{Delivery, Info, Position, MOST_MESSAGE};
use std::collections::VecDeque;
use std::sync::Arc;
use std::thread::JoinHandle;
use std::time::{Duration, Instant};

/// A member of a group. All members are given the same deliveries in the same order.
///
/// Calls may be made from any thread. Dropping it ends the member without leaving, as if its process had stopped: the others
/// go on without it once they are told so.
pub struct Group {
    shared: Arc<Shared>,
    thread: Option<JoinHandle<()>>,
    name: Name,
}

impl Group {
    /// Creates a group, or takes part in creating it: the member's name is one of the founders. It gives the member once it is
    /// in the group.
    pub fn create(config: Config) -> Result<Group, CreateError> {
        match config.founding.founders.has(config.name) {
            true => Group::start(config),
            false => Err(CreateError::NoFounder(config.name)),
        }
    }

    /// Joins a group: the member's name is none of the founders, or a later life of a founder's place. It gives the member once
    /// it is in the group.
    pub fn join(config: Config) -> Result<Group, CreateError> {
        match config.founding.founders.has(config.name) {
            true => Err(CreateError::Founder(config.name)),
            false => Group::start(config),
        }
    }

    /// Makes the folder of state of a name that runs for the first time: once for each place, when the group is founded. A founder's
    /// place that votes has its voter's file in it. A place that lost its disk has a new folder made with a life that was never begun:
    /// it votes no more.
    pub fn found(config: &Config) -> Result<(), CreateError> {
        config.check_failures()?;
        let folder = config.failures.state.as_ref().ok_or(CreateError::NoState)?;
        Ok(State::make(folder, config.name, config.voter_id()?)?)
    }

    /// Creates a group or joins one, as the name says: a founder's first life creates, any other name joins.
    pub fn start(config: Config) -> Result<Group, CreateError> {
        let until = deadline(config.start_within);
        let name = config.name;
        let (shared, thread) = shell::start(config)?;
        let group = Group {
            shared,
            thread: Some(thread),
            name,
        };
        match group.shared.is_in.wait(until) {
            Some(true) => Ok(group),
            Some(false) => Err(CreateError::Ended(group.wait())),
            None => Err(CreateError::Timeout),
        }
    }

    /// The member's name in the list in which it began. [`Group::info`] has its name in the latest one.
    pub fn name(&self) -> Name {
        self.name
    }

    /// Sends a message to the group. It returns once the message is delivered at this member too, with its position in the one
    /// order: from then on it survives as many stops as the resilience says.
    pub fn send(&self, message: impl Into<Vec<u8>>) -> Result<Position, SendError> {
        self.push(message.into(), None)?.wait()
    }

    /// As [`Group::send`], at most so long. After [`SendError::Timeout`] the message may still be sent.
    pub fn send_timeout(
        &self,
        message: impl Into<Vec<u8>>,
        most: Duration,
    ) -> Result<Position, SendError> {
        let until = deadline(Some(most));
        let ticket = self.push(message.into(), until)?;
        let sent = ticket.slot.wait(until);
        sent.unwrap_or(Err(SendError::Timeout))
    }

    /// Gives a message to the group and doesn't wait for its delivery: the ticket tells of it. It waits while too many messages
    /// wait.
    pub fn submit(&self, message: impl Into<Vec<u8>>) -> Result<Ticket, SendError> {
        self.push(message.into(), None)
    }

    /// As [`Group::submit`], at most so long: [`SendError::Full`] if too many messages wait until then.
    pub fn submit_timeout(
        &self,
        message: impl Into<Vec<u8>>,
        most: Duration,
    ) -> Result<Ticket, SendError> {
        self.push(message.into(), deadline(Some(most)))
    }

    /// As [`Group::submit`], and [`SendError::Full`] if too many messages wait.
    pub fn try_submit(&self, message: impl Into<Vec<u8>>) -> Result<Ticket, SendError> {
        self.push(message.into(), Some(Instant::now()))
    }

    fn push(&self, message: Vec<u8>, until: Option<Instant>) -> Result<Ticket, SendError> {
        if message.len() > MOST_MESSAGE {
            return Err(SendError::TooLong);
        }
        let slot = Slot::new();
        let command = Command::Send {
            message,
            slot: slot.clone(),
        };
        self.shared.command(command, until)?;
        Ok(Ticket { slot })
    }

    /// The next delivery, once there is one.
    pub fn receive(&self) -> Result<Delivery, ReceiveError> {
        self.shared.receive(None)
    }

    /// As [`Group::receive`], at most so long.
    pub fn receive_timeout(&self, most: Duration) -> Result<Delivery, ReceiveError> {
        self.shared.receive(deadline(Some(most)))
    }

    /// The next delivery, if one is there; [`ReceiveError::Empty`] if none is.
    pub fn try_receive(&self) -> Result<Delivery, ReceiveError> {
        match self.shared.receive(Some(Instant::now())) {
            Err(ReceiveError::Timeout) => Err(ReceiveError::Empty),
            received => received,
        }
    }

    /// All deliveries that are there now, in order: none if there are none.
    pub fn receive_all(&self) -> Result<impl Iterator<Item = Delivery>, ReceiveError> {
        self.shared.receive_all().map(VecDeque::into_iter)
    }

    /// Deliveries one after the other, until the member ends.
    pub fn deliveries(&self) -> impl Iterator<Item = Delivery> + '_ {
        std::iter::from_fn(|| self.receive().ok())
    }

    /// Resets the group: a new view without the names of which this member was told that they have stopped. `least` is the
    /// fewest members that it goes on with, the one of the configuration if it is None. It gives the number of the new view in
    /// the one order; the view itself is a delivery.
    pub fn reset(&self, least: Option<u8>, most: Duration) -> Result<u32, ResetError> {
        let slot = Slot::new();
        let command = Command::Reset {
            least,
            resilience: None,
            slot: slot.clone(),
        };
        if self.shared.command(command, None).is_err() {
            return Err(ResetError::Ended(self.wait()));
        }
        let reset = slot.wait(deadline(Some(most)));
        reset.unwrap_or(Err(ResetError::Timeout))
    }

    /// Ends the group's list, and has another one follow it (docs/MEMBER.md, "Generations"): before a place's lives run out, or to change the
    /// window, the resilience or the voters. It returns once the list has ended here, with the position of its end; that is a delivery, too.
    /// All calls go on over it: what wasn't delivered in the old list is sent in the next one.
    ///
    /// ```no_run
    /// # fn main() -> Result<(), Box<dyn std::error::Error>> {
    /// # let group: muoswyld_group::Group = todo!();
    /// use muoswyld_group::NextList;
    /// use std::time::Duration;
    ///
    /// let end = group.succeed(NextList::new().window(1000), Duration::from_secs(5))?;
    /// println!("the list of generation {} ended at {}", end.generation, end.number);
    /// assert_eq!(group.info()?.founding.window, 1000);
    /// # Ok(())
    /// # }
    /// ```
    ///
    /// # Errors
    ///
    /// [`SucceedError`] says why the list goes on. After [`SucceedError::Timeout`] it may still end.
    pub fn succeed(&self, next: NextList, most: Duration) -> Result<Position, SucceedError> {
        let slot = self.ask_to_succeed(next, true)?;
        match slot.wait(deadline(Some(most))) {
            Some(Ok(Some(at))) => Ok(at),
            Some(Err(error)) => Err(error),
            Some(Ok(None)) | None => Err(SucceedError::Timeout),
        }
    }

    /// As [`Group::succeed`], but it doesn't wait for the end of the list: that is a delivery, if it comes.
    ///
    /// # Errors
    ///
    /// As [`Group::succeed`], as far as it is known at once. The list may still go on, as somebody joins or stops meanwhile.
    pub fn try_succeed(&self, next: NextList) -> Result<(), SucceedError> {
        let slot = self.ask_to_succeed(next, false)?;
        // a command that is taken is answered, also at the member's end
        let answer = slot.wait(None);
        answer.map_or(Err(SucceedError::Ended(End::Stopped)), |it| it.map(|_| ()))
    }

    fn ask_to_succeed(
        &self,
        next: NextList,
        waits: bool,
    ) -> Result<Arc<Slot<Succeeded>>, SucceedError> {
        let slot = Slot::new();
        let command = Command::Succeed {
            next,
            waits,
            slot: slot.clone(),
        };
        match self.shared.command(command, None) {
            Ok(()) => Ok(slot),
            Err(_) => Err(SucceedError::Ended(self.wait())),
        }
    }

    /// Tells that a name has stopped for certain: its process has ended, or can't act any more. The group is then reset
    /// without it. A name that still runs must never be given here: two parts of the group could go on with two lists.
    ///
    /// The name is one of the latest list that this member knows. Where another list may follow meanwhile, say by [`Group::stopped_in`] which
    /// list the name is of.
    pub fn stopped(&self, name: Name) -> Result<(), ToldError> {
        self.tell_stopped(name, None)
    }

    /// As [`Group::stopped`], for a name of the list of a generation: in another list the same process has another name. If this member hasn't
    /// come to that list, the word is kept until it has.
    pub fn stopped_in(&self, generation: u32, name: Name) -> Result<(), ToldError> {
        self.tell_stopped(name, Some(generation))
    }

    fn tell_stopped(&self, name: Name, generation: Option<u32>) -> Result<(), ToldError> {
        let slot = Slot::new();
        let command = Command::Stopped {
            name,
            generation,
            slot: slot.clone(),
        };
        let told = self
            .shared
            .command(command, None)
            .ok()
            .and_then(|()| slot.wait(None));
        told.unwrap_or_else(|| Err(ToldError::Ended(self.wait())))
    }

    /// Waits until the member ends, and gives how.
    pub fn wait(&self) -> End {
        self.shared.ended.wait(None).unwrap_or(End::Stopped)
    }

    /// As [`Group::wait`], at most so long; None if the member still runs then.
    pub fn wait_timeout(&self, most: Duration) -> Option<End> {
        self.shared.ended.wait(deadline(Some(most)))
    }

    /// Leaves the group once all that was sent before is delivered. After it, only what is delivered and not received can be
    /// received.
    pub fn leave(&self, most: Duration) -> Result<(), LeaveError> {
        // an ended member takes no command, and says so below
        let _taken = self.shared.command(Command::Leave, None);
        match self.shared.ended.wait(deadline(Some(most))) {
            Some(End::Left | End::Closed) => Ok(()),
            Some(end) => Err(LeaveError::Ended(end)),
            None => Err(LeaveError::Timeout),
        }
    }

    /// What the member knows of itself and of its group; an error if it has ended.
    pub fn info(&self) -> Result<Info, End> {
        let slot = Slot::new();
        let asked = self.shared.command(Command::Info(slot.clone()), None);
        // a command that is taken is answered, also at the member's end
        match asked.ok().and_then(|()| slot.wait(None)) {
            Some(info) => Ok(info),
            None => Err(self.wait()),
        }
    }

    /// Whom the member suspects, whom its place has refused, who has stopped, and for how long it may act; an error if it has ended.
    pub fn failures(&self) -> Result<FailuresInfo, End> {
        let slot = Slot::new();
        let asked = self.shared.command(Command::Failures(slot.clone()), None);
        // a command that is taken is answered, also at the member's end
        match asked.ok().and_then(|()| slot.wait(None)) {
            Some(info) => Ok(info),
            None => Err(self.wait()),
        }
    }

    /// Ends the member without leaving, as if its process had stopped.
    pub fn stop(&self) {
        // an ended member takes no command
        let _taken = self.shared.command(Command::Stop, None);
    }

    /// How the member ended; None while it runs.
    pub fn ended(&self) -> Option<End> {
        self.shared.ended.look()
    }
}

impl Drop for Group {
    fn drop(&mut self) {
        self.stop();
        if let Some(thread) = self.thread.take() {
            let _ended = thread.join();
        }
    }
}
