//! The list that follows another one: it begins, and what holds in all of them is passed on.

use crate::deed::{Deed, Ending, Plant};
use crate::guarded::{core_name, name_of, set_of, Guarded};
use crate::ids::{next_id, next_process};
use crate::lane::{at, Lane};
use crate::waiting::Waiting;
use muoswyld_failures::{self as failures, new_file, Failures, Message};
use muoswyld_member::{HandleError, Input, Name, Successor, Time};

/// A list that is about to begin: that its life began is being written.
#[derive(Debug)]
pub(crate) struct Follows {
    generation: u32,
    group: u64,
    settings: failures::Settings,
    voter: Option<Vec<u8>>,
    /// What came for its member meanwhile.
    pub(crate) waiting: Waiting,
}

impl Follows {
    /// Whether a datagram is of this list's group.
    pub(crate) fn is_for(&self, payload: &[u8]) -> bool {
        payload.get(1..9) == Some(&self.group.to_be_bytes())
    }
}

impl Guarded {
    /// The latest list has ended, and its end is out. The next one begins once that is on disk.
    pub(crate) fn follow(&mut self, now: Time, next: &Successor) {
        let latest = self.latest();
        self.lanes[latest].failures.note_list_ended();
        let lane = &self.lanes[latest];
        let generation = lane.generation + 1;
        let core = lane.failures.settings();
        let (place, members) = (core.name.place(), set_of(next.founding.founders));
        let majority = members.len() as u8 / 2 + 1;
        let settings = failures::Settings {
            id: next_id(core.id, next.group),
            name: failures::Name::first(place),
            process: next_process(core.process, next.group),
            members,
            least: self.least.unwrap_or(majority),
            voters: set_of(next.voters).places(),
            awaits_founders: false,
            ..core.clone()
        };
        let name = name_of(settings.name);
        let votes = self.is_voting() && next.voters.has(name);
        let voter = votes.then(|| match self.has(Plant::UsesOldFile) {
            true => new_file(core.id, place),
            false => new_file(settings.id, place),
        });
        let mut waiting = Waiting::default();
        waiting.add(self.lanes[latest].take_calls());
        self.deeds.push(Deed::Begin {
            generation,
            group: next.group,
            id: settings.id,
            name,
            voter: voter.clone(),
        });
        self.follows = Some(Follows {
            generation,
            group: next.group,
            settings,
            voter,
            waiting,
        });
        if self.has(Plant::BeginsBeforeDisk) {
            self.begun(now, generation, true);
        }
    }

    fn is_voting(&self) -> bool {
        matches!(
            self.policy,
            failures::Policy::Echo | failures::Policy::Lease(_)
        )
    }

    /// That the next list's life began is on disk, and the voter's file too; or it couldn't be written, and then this life ends: it lets
    /// nothing out in the next list, and its place comes back there as its next life.
    pub fn begun(&mut self, now: Time, generation: u32, is_written: bool) {
        let Some(follows) = self.follows.take_if(|it| it.generation == generation) else {
            return;
        };
        if !is_written || self.begin_next(now, follows).is_none() {
            self.is_over = true;
            let why = Ending::NotBegun;
            self.deeds.push(Deed::Ended { generation, why });
        }
    }

    /// Begins the next list; None if that can't be done.
    fn begin_next(&mut self, now: Time, follows: Follows) -> Option<()> {
        let (settings, voter) = (follows.settings, follows.voter);
        let failures = Failures::new(settings, voter.as_deref(), at(now)).ok()?;
        self.lists.succeed(now).ok()?;
        let before = self.latest();
        let shown = Some(self.lists.current().info());
        let mut lane = Lane::new(follows.generation, failures, self.is_gated, shown);
        lane.reads_after_look = self.has(Plant::ReadsAfterLook);
        lane.waiting = follows.waiting;
        self.lanes.push(lane);
        // a word holds for a process, in each list; what this list gave up is of this list
        let old = &self.lanes[before].failures;
        let carried = match self.has(Plant::CarriesGiveUps) {
            true => old.info().stopped,
            false => old.words(),
        };
        for name in carried.iter() {
            self.pass_to_next(now, before, name_of(name));
        }
        Some(())
    }

    /// What callers ask for while the next list is about to begin is for that one.
    pub(crate) fn put_for_next(&mut self, input: Input<'_>) -> Result<(), HandleError> {
        match &mut self.follows {
            Some(follows) => follows.waiting.put(input),
            None => Err(HandleError::NotNow),
        }
    }

    // ---- what holds in several lists

    /// Takes a heartbeat or an echo: it is of one list, which it names.
    pub(crate) fn hear_failures(&mut self, now: Time, payload: &[u8]) {
        let id = payload.get(1..17);
        let mut indices = (0..self.lanes.len()).rev();
        let is_of = |index: &usize| {
            let settings = self.lanes[*index].failures.settings();
            id == Some(settings.id.as_slice())
        };
        let found = indices.find(is_of);
        let of_any = self.lanes[0].failures.settings().plant;
        if of_any == Some(failures::Plant::EchoOfAnyList) {
            for index in (0..self.lanes.len()).filter(|index| Some(*index) != found) {
                self.heed(now, index, failures::Input::Datagram(payload));
            }
        }
        if found.is_none() && self.answers_other_list(payload) {
            return;
        }
        let index = found.unwrap_or(self.latest());
        if found.is_some() {
            self.note_sign(now, index, payload);
        }
        if self.hears_of_end(index, payload) {
            return;
        }
        self.heed(now, index, failures::Input::Datagram(payload));
    }

    /// A heartbeat in an ended list says that its process runs: in the next list that counts against its silence, and as nothing else. It
    /// doesn't where it says that it is frozen.
    fn note_sign(&mut self, now: Time, index: usize, payload: &[u8]) {
        let Some(next) = self.lanes.get(index + 1) else {
            return;
        };
        let next = next.generation;
        let Some(Message::Heartbeat(heartbeat)) = Message::read(payload) else {
            return;
        };
        let name = self.in_next(index, name_of(heartbeat.from.name));
        if let (Some(name), None) = (name, heartbeat.frozen_for) {
            let lanes = self.lanes.iter_mut();
            for lane in lanes.filter(|lane| lane.generation == next) {
                lane.failures.note_sign(at(now), core_name(name));
            }
        }
    }

    /// The name in the next list of a member of an ended one.
    fn in_next(&self, index: usize, name: Name) -> Option<Name> {
        let members = self.lists.members_at_end(self.lanes[index].generation)?;
        let first = Name::first(name.place());
        first.filter(|_| members.has(name))
    }

    /// It is known that a name's process has ended. That is told in the lists before and after, where it has a name.
    pub(crate) fn pass_on(&mut self, now: Time, index: usize, name: Name) {
        self.pass_to_next(now, index, name);
        if let (Some(before), 1) = (index.checked_sub(1), name.life()) {
            let members = self.lists.members_at_end(self.lanes[before].generation);
            let earlier = members.and_then(|members| members.at(name.place()));
            if let Some(earlier) = earlier {
                let told = failures::Input::Told(core_name(earlier));
                self.heed(now, before, told);
            }
        }
    }

    fn pass_to_next(&mut self, now: Time, index: usize, name: Name) {
        if self.lanes.len() <= index + 1 {
            return;
        }
        if let Some(next) = self.in_next(index, name) {
            self.heed(now, index + 1, failures::Input::Told(core_name(next)));
        }
    }

    /// A process has stopped, as the member is told without its failures: in ended lists too, where its place may have had another name.
    pub(crate) fn stopped(&mut self, now: Time, name: Name) -> Result<(), HandleError> {
        self.give(now, Input::Stopped(name))?;
        let mut name = Some(name);
        for index in (0..self.latest()).rev() {
            let members = self.lists.members_at_end(self.lanes[index].generation);
            name = name.filter(|name| name.life() == 1);
            name = name.and_then(|name| members?.at(name.place()));
            if let Some(name) = name {
                let lane = &mut self.lanes[index];
                // it isn't this member, since the latest one isn't
                let _taken = lane.handle(&mut self.lists, now, Input::Stopped(name));
            }
        }
        Ok(())
    }

    /// As defects that tests plant: what came of one list goes out by the look of another one.
    pub(crate) fn mix_lanes(&mut self, now: Time) {
        let latest = self.latest();
        let (from, to) = match self.plant {
            Some(Plant::LooksByOldLane) => (latest, latest.wrapping_sub(1)),
            Some(Plant::LooksByNextLane) => (latest.wrapping_sub(1), latest),
            _ => return,
        };
        if latest == 0 || self.lanes[to].is_held {
            return;
        }
        let generation = self.lanes[from].generation;
        let mut taken = Vec::new();
        self.lists.release_in(now, generation, &mut taken);
        self.lanes[to].held.extend(taken);
    }
}
