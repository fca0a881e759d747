//! What a member's thread does for lists that follow one another.

use super::starting::journal_of;
use super::{Shell, Waiter};
use crate::asking;
use crate::error::{End, SucceedError, ToldError};
use crate::later::LaterList;
use crate::next::{is_as_asked, NextList};
use crate::shared::{Command, Succeeded, Told};
use crate::slot::Slot;
use muoswyld::names::Name;
use muoswyld_guarded::Closing;
use muoswyld_member::{Before, Delivery, HandleError, Input, Next, Successor};
use std::collections::btree_map::Entry;
use std::io::Write;
use std::sync::Arc;

/// Of how many ended lists the members are kept, and how many words that names have stopped wait for later lists.
const MOST_ENDED: usize = 256;
const MOST_WORDS: usize = 256;

/// Somebody who waits for the end of the list.
pub(super) struct Ender {
    asked: Next,
    slot: Arc<Slot<Succeeded>>,
}

impl Ender {
    /// Tells that the member has ended.
    pub(super) fn close(self, end: &End) {
        self.slot.fill(Err(SucceedError::Ended(end.clone())));
    }
}

impl Shell {
    /// Asks the member to end the list.
    pub(super) fn succeed(&mut self, next: NextList, waits: bool, slot: Arc<Slot<Succeeded>>) {
        let info = self.member.info();
        let asked = next.after(&info.founding, info.standing.resilience);
        match self.member.handle(self.now(), Input::Succeed(asked)) {
            Err(refusal) => slot.fill(Err(refusal.into())),
            Ok(()) if waits => self.enders.push(Ender { asked, slot }),
            Ok(()) => slot.fill(Ok(None)),
        }
    }

    /// What this member asked for didn't end the list.
    pub(super) fn not_succeeded(&mut self) {
        for ender in self.enders.drain(..) {
            ender.slot.fill(Err(SucceedError::NotSucceeded));
        }
    }

    /// How many bytes of messages may be taken of callers: none as long as one waits that was taken before.
    pub(super) fn room(&self) -> usize {
        match self.put_off.is_empty() {
            true => self.member.free(),
            false => 0,
        }
    }

    /// Does what a caller wants after what it wanted before.
    pub(super) fn do_in_order(&mut self, command: Command) {
        match command {
            command if !self.put_off.is_empty() => self.put_off.push_back(command),
            Command::Send { message, slot } => self.send(message, slot),
            _ => self.handle(Input::Leave),
        }
    }

    /// The list has ended since a message was taken, and there was room for it then: it waits for the next one.
    pub(super) fn put_off(&mut self, ticket: u64, message: Vec<u8>) {
        if let Some(Waiter::Send(slot)) = self.waiters.remove(&ticket) {
            self.put_off.push_front(Command::Send { message, slot });
        }
    }

    /// Does what was put off, as far as there is room.
    pub(super) fn do_put_off(&mut self) {
        for command in std::mem::take(&mut self.put_off) {
            // after one for which there is no room all others wait
            self.do_in_order(command);
        }
    }

    /// The list has ended here: the application is told, and who asked for it.
    pub(super) fn succeeded(&mut self, generation: u32, next: Successor) {
        let at = next.at;
        tracing::info!(
            "the list of generation {generation} ended at entry {}; the next one has the founders {}",
            at.number,
            next.founding.founders
        );
        for ender in self.enders.drain(..) {
            let is_as_asked = is_as_asked(&ender.asked, &next.founding, next.voters);
            ender.slot.fill(match is_as_asked {
                true => Ok(Some(at)),
                false => Err(SucceedError::Otherwise(at)),
            });
        }
        self.deliver(Delivery::Succeeded {
            at,
            members: next.members,
            founding: next.founding,
            voters: next.voters,
        });
        self.ended.insert(generation, next.members);
        if self.ended.len() > MOST_ENDED {
            self.ended.pop_first();
        }
        self.successor = Some(next);
    }

    /// The next list begins here: that is written before anything of it goes out.
    pub(super) fn begin_list(&mut self, generation: u32, id: [u8; 16], voter: Option<Vec<u8>>) {
        let ended = self.member.info().group;
        let (Some(next), Some(group)) = (self.successor.take(), ended) else {
            // an end that isn't known can't be begun
            return self.member.begun(self.clock.now(), generation, false);
        };
        let list = LaterList {
            generation,
            group: next.group,
            before: Before {
                group,
                number: next.at.number,
            },
            failures: id,
            founding: next.founding,
            voters: next.voters,
        };
        self.config = self.config.clone().later(list);
        self.known = asking::known(&self.config);
        self.fencing.begin(list, voter);
    }

    /// That the next list begins here is on disk, or can't be written.
    pub(super) fn begun(&mut self, generation: u32, done: bool) {
        let counts = self.member.info().counts;
        self.member.begun(self.clock.now(), generation, done);
        if self.member.generation() == generation {
            self.counts = self.counts.plus(&counts);
        }
        for (of, name) in std::mem::take(&mut self.told_early) {
            // a word of this member itself was refused when it was given
            let _told = self.stopped(name, Some(of));
        }
    }

    /// Somebody says that a name of a list has stopped; of the latest one if none is said.
    pub(super) fn stopped(&mut self, name: Name, generation: Option<u32>) -> Told {
        let latest = self.member.generation();
        let of = generation.unwrap_or(latest);
        if of > latest {
            if self.told_early.len() < MOST_WORDS {
                self.told_early.push((of, name));
            }
            return Ok(());
        }
        let mut name = name;
        for earlier in of..latest {
            let members = self.ended.get(&earlier);
            let Some(first) = Name::first(name.place()) else {
                return Ok(());
            };
            match members {
                Some(members) if members.has(name) => name = first,
                // it is none in the lists that follow, or that isn't known here
                _ => return Ok(()),
            }
        }
        match self.member.told(self.now(), name) {
            Err(HandleError::Itself) => Err(ToldError::Itself),
            // nothing else is refused while the member runs
            _ => Ok(()),
        }
    }

    /// An ended list isn't served any more: its journal ends, and its files aren't needed. The end, if the journal can't be written.
    pub(super) fn close_list(&mut self, generation: u32, why: Closing) -> Option<End> {
        let of = format!("the list of generation {generation}");
        match why {
            Closing::Over => {
                tracing::info!("{of} is closed: all are heard in the next one, or have stopped")
            }
            Closing::GivenUp => {
                tracing::warn!("{of} isn't served any more: this member was given up in it")
            }
            Closing::Lost => tracing::warn!(
                "{of} isn't served any more: too few of its voters may echo this member"
            ),
        }
        self.fencing.close(generation);
        match self.end_journal(generation) {
            Ok(()) => None,
            Err(error) => Some(End::Failed(format!(
                "the journal can't be written: {error}"
            ))),
        }
    }

    /// Writes lines to the journal of a list. The first ones make its file.
    pub(super) fn write(&mut self, generation: u32, lines: &[u8]) -> std::io::Result<()> {
        let Some(path) = &self.config.journal else {
            return Ok(());
        };
        let file = match self.journals.entry(generation) {
            Entry::Occupied(there) => there.into_mut(),
            Entry::Vacant(none) => none.insert(journal_of(path, generation)?),
        };
        file.write_all(lines)
    }

    /// Ends the journal of a list whose node does nothing more: the line tells this from a crash.
    fn end_journal(&mut self, generation: u32) -> std::io::Result<()> {
        match self.journals.remove(&generation) {
            Some(mut file) => file.write_all(b"end\n"),
            None => Ok(()),
        }
    }

    /// Ends the journals of lists that are served, as the process ends by itself: of the latest one only if it says so.
    pub(super) fn end_journals(&mut self, ends_latest: bool) {
        let latest = self.member.generation();
        let served: Vec<u32> = self.journals.keys().copied().collect();
        for generation in served {
            if generation == latest && !ends_latest {
                continue;
            }
            if let Err(error) = self.end_journal(generation) {
                tracing::error!("the journal's end can't be written: {error}");
            }
        }
    }
}
