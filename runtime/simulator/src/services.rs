//! What runs over the members of a run.

use crate::draw::Draw;
use crate::plan::NextList;
use crate::world::World;
use muoswyld_member::{Delivery, HandleError, Info, Input, Name, Successor};

/// What runs over the members of a run, in place of applications that send random messages: one value for all of them.
///
/// A life is named as in the list in which it begins, also after that has ended: no two lives that run have the same name by that.
pub trait Services {
    /// A life begins.
    fn begins(&mut self, name: Name);

    /// A life's member delivers; ends of lists, too. `info` is how the member stands, which may be further already. An error is what is wrong.
    fn delivered(&mut self, name: Name, delivery: &Delivery, info: &Info) -> Result<(), String>;

    /// The next message that a life sends.
    fn next_message(&mut self, name: Name) -> Option<Vec<u8>>;

    /// Now and then a life may do something by itself. In the end phase nothing new begins.
    fn acts(&mut self, name: Name, now: u64, is_calm: bool, draw: &mut Draw) -> Result<(), String>;

    /// Whether a life's member is to leave.
    fn leaves(&self, name: Name) -> bool;

    /// What the next list is to be, if a life's member is to end its list now. It may be refused, as it is by any member.
    fn succeeds(&mut self, name: Name) -> Option<NextList> {
        let _ = name;
        None
    }

    /// A life has ended.
    fn ended(&mut self, name: Name);

    /// Whether nothing more is to happen, of the lives that run.
    fn is_at_rest(&self, running: &[Name]) -> bool;

    /// Looks at all of it at the end. `is_over` says that the group can't go on: it has no members, or too few. An error is what is wrong.
    /// It isn't asked if more have stopped than the resilience: from then on nothing is served.
    fn check(&mut self, is_over: bool) -> Result<(), String>;
}

impl World<'_> {
    /// The name of a place's life, if something runs over it.
    fn served(&self, place: u8) -> Option<Name> {
        self.services.as_ref().filter(|_| !self.is_void)?;
        let process = self.places[usize::from(place)].as_ref()?;
        process.counts().then_some(process.app.name)
    }

    /// Tells what runs over a place that a list has ended.
    pub(crate) fn serve_end(&mut self, place: u8, next: &Successor) -> Result<(), String> {
        let end = Delivery::Succeeded {
            at: next.at,
            members: next.members,
            founding: next.founding,
            voters: next.voters,
        };
        self.serve_delivery(place, &end)
    }

    /// Tells what runs over a place what its member delivers.
    pub(crate) fn serve_delivery(&mut self, place: u8, delivery: &Delivery) -> Result<(), String> {
        let Some(name) = self.served(place) else {
            return Ok(());
        };
        let info = self.process(place)?.member.member().info();
        match &mut self.services {
            Some(services) => services.delivered(name, delivery, &info),
            None => Ok(()),
        }
    }

    /// Lets what runs over a place do something by itself; false if nothing runs there.
    pub(crate) fn serve_act(&mut self, place: u8) -> Result<bool, String> {
        let Some(name) = self.served(place) else {
            return Ok(self.services.is_some());
        };
        let mut next = None;
        if let Some(services) = &mut self.services {
            services.acts(name, self.now, self.is_calm, &mut self.draw)?;
            next = services.succeeds(name).filter(|_| self.plan.has_ends);
        }
        self.serve_sends(place)?;
        if let Some(next) = next {
            self.succeed(place, next)?;
        }
        Ok(true)
    }

    /// Sends what is to be sent at a place, as far as there is room.
    pub(crate) fn serve_sends(&mut self, place: u8) -> Result<(), String> {
        let Some(name) = self.served(place) else {
            return Ok(());
        };
        let now = self.now;
        let mut has_sent = false;
        while let (Some(services), Some(process)) = (
            self.services.as_mut(),
            self.places[usize::from(place)].as_mut(),
        ) {
            let next = process.unsent.take();
            let Some(message) = next.or_else(|| services.next_message(name)) else {
                break;
            };
            let ticket = process.app.sent.len() as u64;
            let input = Input::Send {
                ticket,
                message: message.clone(),
            };
            match process.member.handle(process.clock.time(now), input) {
                Ok(()) => process.app.sent.push(message),
                Err(HandleError::Full { message, .. }) => {
                    process.unsent = Some(message);
                    break;
                }
                Err(HandleError::Leaving { .. } | HandleError::Ended) => break,
                Err(error) => return Err(format!("{name}: a send was refused: {error}")),
            }
            has_sent = true;
        }
        if has_sent {
            self.plan_release(place);
        }
        let leaves = self
            .services
            .as_ref()
            .is_some_and(|services| services.leaves(name));
        if leaves && !self.process(place)?.leaves {
            self.leave(place, true);
        }
        Ok(())
    }

    /// Whether nothing more is to happen in what runs over the members.
    pub(crate) fn services_rest(&self) -> bool {
        let running = self.places.iter().flatten();
        let running = running.map(|process| process.app.name);
        let running: Vec<Name> = running.collect();
        self.services
            .as_ref()
            .is_none_or(|services| services.is_at_rest(&running))
    }
}
