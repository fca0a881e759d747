//! Lists that aren't served any more: when that is, and how those learn it that are behind.
//!
//! Whoever closed a list says so to all that still speak in it: they were given up in the next one. But nobody may be left that remembers it: a
//! process that began in a later list never served it. Such a process says that its place is elsewhere. If that is so of so many voters that no
//! majority of them can ever echo a member that is behind, it can't act in the list any more. What is held there never goes out, so it ends.
//!
//! Who has come to a list's end may be lost in that list: so many voters have refused its name or are elsewhere that no majority can echo it.
//! Nobody can give it up there either where too few others vote. Then those that are behind would wait for it for ever. So after a while it
//! serves the list no more, and says that it is elsewhere.

use crate::deed::{Closing, Deed, Ending, Plant};
use crate::guarded::Guarded;
use crate::lane::Lane;
use muoswyld_failures::{Info, Message};
use muoswyld_member::Names;

/// Of how many lists that aren't served any more the ids are kept.
const MOST_CLOSED: usize = 64;
/// For how many silences a member is frozen in a list that has ended before it looks whether it is lost there. Meanwhile others may bring those
/// that are behind to the end, for which its echoes may be needed.
const LOST_AFTER: u64 = 10;

/// A list that isn't served here any more.
#[derive(Clone, Copy, Debug)]
pub(crate) struct Left {
    generation: u32,
    /// The id of its failures.
    id: [u8; 16],
    /// Whether it is known that nobody wants anything of it any more.
    is_over: bool,
}

/// A list that has ended, and that is served still, for those that are behind.
#[derive(Clone, Debug)]
pub struct EndedList {
    /// How many lists came before it.
    pub generation: u32,
    /// The founders of the next list that haven't come to it, by their names there.
    pub awaited: Names,
    /// Who has stopped in it, whom any voter has refused, and since when this member is frozen in it.
    pub failures: Info,
}

impl Guarded {
    /// The lists that have ended and are served still.
    pub fn ended_lists(&self) -> impl Iterator<Item = EndedList> + '_ {
        let ended = &self.lanes[..self.latest()];
        ended.iter().map(|lane| EndedList {
            generation: lane.generation,
            awaited: self.lists.awaited(lane.generation),
            failures: lane.failures.info(),
        })
    }

    /// Ended lists that nobody wants anything of any more, or in which this place can't act any more, aren't served from now on.
    pub(crate) fn close_over(&mut self) {
        for left in self.left.iter_mut().filter(|left| !left.is_over) {
            left.is_over = self.lists.has_come_from(left.generation);
        }
        while let Some(why) = self.why_close() {
            let lane = self.lanes.remove(0);
            let generation = lane.generation;
            self.lists.close(generation);
            if self.has(Plant::LooksByOldLane) {
                // what came of the next list isn't lost with that defect
                let rest = lane.held.into_iter();
                let rest = rest.filter(|held| held.generation > generation);
                self.lanes[0].held.extend(rest);
            }
            if self.left.len() == MOST_CLOSED {
                self.left.pop_front();
            }
            self.left.push_back(Left {
                generation,
                id: lane.failures.settings().id,
                is_over: why == Closing::Over,
            });
            self.deeds.push(Deed::Closed { generation, why });
        }
    }

    /// Why the earliest list that is served isn't to be served any more; None if it is.
    fn why_close(&self) -> Option<Closing> {
        let lane = self.lanes.first().filter(|_| self.lanes.len() > 1)?;
        if lane.is_closed || self.lists.has_come_from(lane.generation) {
            return Some(Closing::Over);
        }
        if lane.failures.is_ended() || self.lists.is_over(lane.generation) {
            return Some(Closing::GivenUp);
        }
        self.is_lost_in(lane).then_some(Closing::Lost)
    }

    /// Whether this place can't act any more in a list that has ended.
    fn is_lost_in(&self, lane: &Lane) -> bool {
        let is_long = self.is_gated && lane.failures.is_frozen_for(LOST_AFTER);
        let is_lost = lane.failures.is_lost(lane.elsewhere);
        is_long && (is_lost || self.has(Plant::LeavesListWhileEchoed))
    }

    /// Tells whoever speaks in a list that isn't served here; whether it is one that was closed.
    pub(crate) fn answers_other_list(&mut self, payload: &[u8]) -> bool {
        let is_it = |left: &&Left| payload.get(1..17) == Some(left.id.as_slice());
        let left = self.left.iter().find(is_it).copied();
        let Some(Message::Heartbeat(heartbeat)) = Message::read(payload) else {
            return left.is_some();
        };
        let (id, to) = (heartbeat.id, heartbeat.from.name);
        let generation = self.lists.generation();
        let answer = match left {
            Some(left) if left.is_over => Message::Closed { id, to },
            // of the first list there is no earlier one
            None if generation == 0 && !self.has(Plant::HeedsEarlierList) => return false,
            _ => Message::Elsewhere {
                id,
                to,
                place: self.lanes[self.latest()].failures.name().place(),
                generation,
            },
        };
        self.deeds.push(Deed::Send {
            generation,
            to: 1 << to.place(),
            payload: answer.to_bytes(),
        });
        left.is_some()
    }

    /// Hears that a list is closed, or that a voter is elsewhere. Whether nothing more is to be done for that: the list's own failures heed
    /// it if a member is told that its list is closed.
    pub(crate) fn hears_of_end(&mut self, index: usize, payload: &[u8]) -> bool {
        let (is_closed, id, to) = match Message::read(payload) {
            Some(Message::Closed { id, to }) => (true, id, to),
            Some(Message::Elsewhere { id, to, .. }) => (false, id, to),
            _ => return false,
        };
        let own = self.lanes[index].failures.settings();
        if (own.id, own.name) != (id, to) {
            return true;
        }
        let is_latest = index == self.latest();
        if is_closed && !is_latest {
            self.lanes[index].is_closed = true;
            return true;
        }
        let ends = is_closed || self.is_unserved(index, payload);
        // whoever has come to the list's end goes on in the next one
        if !ends || !is_latest || self.follows.is_some() {
            return true;
        }
        match self.lists.current().is_member() {
            true if is_closed => return false,
            true => self.end(Ending::Unserved),
            false => self.end(Ending::Superseded),
        }
        true
    }

    /// Hears that a place is elsewhere; whether too few voters of the list may still echo this name.
    fn is_unserved(&mut self, index: usize, payload: &[u8]) -> bool {
        let Some(Message::Elsewhere {
            place, generation, ..
        }) = Message::read(payload)
        else {
            return false;
        };
        let heeds_any = self.has(Plant::HeedsEarlierList);
        let ends_at_one = self.has(Plant::EndsAtOneElsewhere);
        let lane = &mut self.lanes[index];
        if !self.is_gated || generation <= lane.generation && !heeds_any {
            return false;
        }
        lane.elsewhere |= 1 << place;
        let one = lane.failures.settings().voters & lane.elsewhere != 0;
        lane.failures.is_lost(lane.elsewhere) || ends_at_one && one
    }

    /// The life ends: what is held is dropped.
    pub(crate) fn end(&mut self, why: Ending) {
        if !std::mem::replace(&mut self.is_over, true) {
            let generation = self.lists.generation();
            self.deeds.push(Deed::Ended { generation, why });
        }
    }
}
