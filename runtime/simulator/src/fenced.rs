//! Processes that find out by themselves who has stopped: their clocks, their disks, and what of their batches may be seen.
//!
//! Between a batch's end, the look and the emission any time passes: each is a happening of its own, and a process that pauses does them
//! when it goes on. What becomes visible is checked: it was complete, and under a lease it was looked at, before anybody gave its name
//! up.

use crate::happening::Happening;
use crate::machine::{clock_of, id_of};
use crate::plan::{DriverPlant, FencedPlan};
use crate::report::Fenced;
use crate::world::World;
use muoswyld_failures::{self as failures, Policy};
use muoswyld_guarded::{Deed, Ending};
use muoswyld_member::{End, Name};
use std::collections::{BTreeMap, BTreeSet};
use std::rc::Rc;

impl World<'_> {
    pub(crate) fn fenced(&self) -> Option<&FencedPlan> {
        self.plan.fenced.as_ref()
    }

    /// Whether places vote, each with a file on its disk.
    pub(crate) fn has_files(&self) -> bool {
        self.fenced().is_some_and(FencedPlan::has_files)
    }

    /// Whether a test planted a defect in what drives the members.
    fn drives_with(&self, plant: DriverPlant) -> bool {
        self.fenced()
            .is_some_and(|it| it.driver_plant == Some(plant))
    }

    /// The voters' files are made, when the group is founded.
    pub(crate) fn found(&mut self) {
        if !self.has_files() {
            return;
        }
        for name in self.plan.founding.founders.iter() {
            let file = failures::new_file(id_of(self.plan), name.place());
            let voters = &mut self.machines[usize::from(name.place())].voters;
            voters.insert(0, file);
        }
    }

    /// A place's next life is written to its disk, and begins once that is synced. A machine that began again has another clock.
    pub(crate) fn start_fenced(&mut self, place: u8) -> Result<(), String> {
        let now = self.now;
        let is_begun = self.machines[usize::from(place)].begins.is_some();
        if self.places[usize::from(place)].is_some() || is_begun {
            return Ok(());
        }
        let (generation, life) = self.next_life(place);
        let machine = &mut self.machines[usize::from(place)];
        let Some(fenced) = &self.plan.fenced else {
            return Ok(());
        };
        if life > 16 {
            return Ok(());
        }
        if machine.clock.is_none() || self.draw.per_mille(500) {
            machine.clock = Some(clock_of(fenced, now, &mut self.draw));
        }
        machine.begins = Some((generation, life));
        let took = self.draw.between(200, 20_000);
        self.plan_at(
            now + took,
            Happening::Begins {
                place,
                generation,
                life,
            },
        );
        match self.drives_with(DriverPlant::BeginsBeforeSync) {
            true => self.begin_life(place, generation, life),
            false => Ok(()),
        }
    }

    /// A machine crashes: what it didn't sync is lost, and at times all of its disk. Then an operator says which life was never begun.
    pub(crate) fn crash_machine(&mut self, place: u8) {
        let begun = self.begun.iter().filter(|(_, name)| name.place() == place);
        let mut lives = BTreeMap::new();
        for (generation, name) in begun {
            let last = lives.entry(*generation).or_insert(0);
            *last = name.life().max(*last);
        }
        let has_lost = self.machines.iter().any(|machine| machine.is_lost);
        let Some(lost) = self.fenced().map(|it| it.lost_disks) else {
            return;
        };
        let is_lost = !has_lost && self.draw.below(100) < lost && !self.is_vote_needed(place);
        let machine = &mut self.machines[usize::from(place)];
        machine.begins = None;
        if is_lost {
            (machine.lives, machine.is_lost) = (lives, true);
            machine.voters.clear();
            self.counts.lost_disks += 1;
        }
    }

    /// Whether the loss of a place's disk would leave too few voters of a list for good.
    fn is_vote_needed(&self, place: u8) -> bool {
        self.plan.has_ends
            && self.has_files()
            && self.lists.iter().enumerate().any(|(generation, list)| {
                let generation = generation as u32;
                let has_file = |other: &u8| {
                    let machine = &self.machines[usize::from(*other)];
                    list.voters >> other & 1 == 1 && machine.voters.contains_key(&generation)
                };
                let left = (0..16).filter(|other| *other != place).filter(has_file);
                list.voters >> place & 1 == 1
                    && left.count() <= list.voters.count_ones() as usize / 2
            })
    }

    /// A life is on its place's disk, and begins.
    pub(crate) fn life_is_written(
        &mut self,
        place: u8,
        (generation, life): (u32, u8),
    ) -> Result<(), String> {
        let machine = &mut self.machines[usize::from(place)];
        if machine.begins != Some((generation, life)) {
            // the machine crashed before
            return Ok(());
        }
        machine.begins = None;
        machine.lives.insert(generation, life);
        // a process that begins serves no other list
        machine.voters.retain(|list, _| *list == generation);
        match self.drives_with(DriverPlant::BeginsBeforeSync) {
            true => Ok(()),
            false => self.begin_life(place, generation, life),
        }
    }

    fn begin_life(&mut self, place: u8, generation: u32, life: u8) -> Result<(), String> {
        let Some(name) = Name::new(place, life) else {
            return Ok(());
        };
        if !self.begun.insert((generation, name)) {
            return Err(format!("{name} begins a second time"));
        }
        self.lives[usize::from(place)] = life;
        self.counts.lives += 1;
        self.start_process(generation, name, false)?;
        self.tell_of_ended(place);
        self.look_at_vote(place, generation)
    }

    // ---- batches

    /// Now and then a process pauses here.
    pub(crate) fn stall(&mut self, place: u8) {
        let Some(stalls) = self.fenced().map(|it| it.stalls) else {
            return;
        };
        let is_now = self.draw.below(100_000) < stalls;
        if self.is_calm || self.now < 700_000 || !is_now {
            return;
        }
        let micros = self
            .draw
            .one_of(&[5_000, 150_000, 300_000, 600_000, 1_200_000]);
        let until = self.now + micros.unwrap_or(0);
        if let Some(process) = &mut self.places[usize::from(place)] {
            process.paused_until = process.paused_until.max(until);
            self.counts.pauses += 1;
        }
    }

    /// A process's inputs are complete, and a look is planned for what came of them.
    pub(crate) fn release_fenced(&mut self, place: u8) -> Result<(), String> {
        let (now, order) = (self.now, self.counts.events);
        let process = self.process(place)?;
        process.release_at = None;
        let time = process.clock.time(now);
        let lists: Vec<u32> = process.member.served().collect();
        let before = lists.iter().map(|list| process.member.held_in(*list));
        let before: Vec<usize> = before.collect();
        process.member.fix(time);
        for (list, before) in lists.into_iter().zip(before) {
            let size = process.member.held_in(list);
            if size > before {
                process.batch.fixed.insert(list, (order, size));
            }
        }
        self.do_deeds(place)?;
        let Some(process) = &mut self.places[usize::from(place)] else {
            return Ok(());
        };
        let batch = &mut process.batch;
        let is_held = process.member.is_held() || process.member.held() > 0;
        if is_held && !batch.is_look_planned && batch.looked.is_none() {
            batch.is_look_planned = true;
            let number = process.number;
            let at = now + self.draw.below(100);
            self.plan_at(at, Happening::Looks { place, number });
            self.stall(place);
        }
        self.plan_wake(place);
        Ok(())
    }

    /// A process looks whether its batch may go out.
    pub(crate) fn look(&mut self, place: u8) -> Result<(), String> {
        let (now, order) = (self.now, self.counts.events);
        let process = self.process(place)?;
        process.batch.is_look_planned = false;
        let time = process.clock.time(now);
        if !process.member.look(time) {
            self.counts.held += 1;
            return Ok(());
        }
        process.batch.looked = Some(order);
        let number = process.number;
        let named = process.app.names.clone();
        let is_late = named
            .into_iter()
            .any(|named| self.given_up.contains_key(&named));
        self.counts.late_looks += u64::from(is_late);
        let wait = match self.draw.per_mille(950) {
            true => 0,
            false => self.draw.below(2_000),
        };
        self.plan_at(now + wait, Happening::Emits { place, number });
        self.stall(place);
        Ok(())
    }

    /// A batch becomes visible, or so many of its outputs do before the process crashes.
    pub(crate) fn emit(&mut self, place: u8, most: Option<u64>) -> Result<(), String> {
        let (now, order) = (self.now, self.counts.events);
        let process = self.process(place)?;
        let Some(looked) = process.batch.looked.take() else {
            return Ok(());
        };
        let time = process.clock.time(now);
        let mut outputs = Vec::new();
        process.member.batch(time, &mut outputs);
        let lists: BTreeSet<u32> = outputs.iter().map(|one| one.generation).collect();
        for list in lists {
            let size = outputs.iter().filter(|one| one.generation == list).count();
            let process = self.process(place)?;
            let fixed = process.batch.fixed.entry(list).or_insert((order, size));
            if size > fixed.1 {
                fixed.0 = order;
            }
            let fixed = fixed.0;
            self.may_be_seen(place, list, (fixed, looked))?;
        }
        let most = most.map_or(outputs.len(), |most| most as usize);
        let is_whole = most >= outputs.len();
        for released in outputs.into_iter().take(most) {
            self.output(place, released)?;
        }
        self.counts.batches += 1;
        if !is_whole {
            return Ok(());
        }
        let process = self.process(place)?;
        process.member.emitted(time);
        for (list, fixed) in &mut process.batch.fixed {
            fixed.1 = process.member.held_in(*list);
        }
        let taken = process.take_at_once();
        self.serve_sends(place)?;
        if taken > 0 {
            self.give(place, muoswyld_member::Input::Consumed(taken));
        }
        self.plan_release(place);
        self.plan_wake(place);
        self.look_at_end(place)
    }

    /// What a name lets out was complete before anybody gave it up, and under a lease it was looked at before, too.
    fn may_be_seen(
        &self,
        place: u8,
        generation: u32,
        (fixed, looked): (u64, u64),
    ) -> Result<(), String> {
        let process = self.places[usize::from(place)].as_ref();
        let name = process.and_then(|process| process.app.names.get(&generation));
        let Some(name) = name.copied() else {
            return Err(format!("place {place} has no name in list {generation}"));
        };
        let Some(gone) = self.given_up.get(&(generation, name)) else {
            return Ok(());
        };
        let is_lease = matches!(self.fenced().map(|it| it.policy), Some(Policy::Lease(_)));
        let sure = if is_lease { fixed.max(looked) } else { fixed };
        if *gone < sure {
            return Err(format!(
                "{name} lets out in list {generation} what was sure at happening {sure}, and was given up at {gone}"
            ));
        }
        Ok(())
    }

    // ---- deeds

    /// Does what is to be done for what says who has stopped.
    fn do_deeds(&mut self, place: u8) -> Result<(), String> {
        let now = self.now;
        let process = self.process(place)?;
        let time = process.clock.time(now);
        for deed in process.member.deeds(time) {
            match deed {
                Deed::Send {
                    generation,
                    to,
                    payload,
                } => {
                    self.is_on_disk(place, generation)?;
                    let payload: Rc<[u8]> = payload.into();
                    for other in (0..16).filter(|other| to >> other & 1 == 1) {
                        self.carry_to(place, other, payload.clone());
                    }
                }
                Deed::Write {
                    generation,
                    number,
                    bytes,
                } => self.write(place, (generation, number), bytes)?,
                Deed::Stopped { generation, name } => self.note_given_up(generation, name),
                Deed::Ended { generation, why } => return self.ends(place, generation, why),
                Deed::Begin {
                    generation,
                    id,
                    voter,
                    ..
                } => self.begins_list(place, (generation, id), voter)?,
                Deed::Closed { generation, why } => self.closed(place, generation, why)?,
                Deed::Told {
                    notice: failures::Notice::Frozen,
                    ..
                } => self.counts.frozen += 1,
                Deed::Told {
                    notice: failures::Notice::Refuses(_),
                    ..
                } => self.counts.refusals += 1,
                Deed::Fence {
                    generation, name, ..
                } => self.runs_fence(place, generation, name)?,
                Deed::Told { .. } => {}
            }
        }
        Ok(())
    }

    /// A life ends by what says who has stopped.
    fn ends(&mut self, place: u8, generation: u32, why: Ending) -> Result<(), String> {
        let name = self.process(place)?.name;
        let end = match why {
            Ending::Superseded => End::Superseded,
            _ => End::LeftOut,
        };
        match why {
            Ending::GivenUp => self.note_given_up(generation, name),
            Ending::Superseded if generation >= self.last_list() => {
                return Err(format!("{name} says that list {generation} has ended"));
            }
            Ending::Unserved if self.may_be_echoed(generation, name) => {
                return Err(format!(
                    "{name} ends, though enough places may vote in list {generation} still"
                ));
            }
            _ => {}
        }
        self.counts.ended += 1;
        self.stop(place, Some(end))
    }

    /// A voter's file is to be written.
    fn write(
        &mut self,
        place: u8,
        (list, write): (u32, u64),
        bytes: Vec<u8>,
    ) -> Result<(), String> {
        let now = self.now;
        let slow = self.draw.per_mille(100);
        let took = self.draw.between(200, if slow { 300_000 } else { 10_000 });
        let process = self.process(place)?;
        process.batch.writes.push_back((list, write, bytes));
        let number = process.number;
        self.plan_at(now + took, Happening::Synced { place, number });
        if self.drives_with(DriverPlant::TellsBeforeSync) {
            self.plan_at(
                now,
                Happening::Written {
                    place,
                    number,
                    list,
                    write,
                },
            );
        }
        Ok(())
    }

    /// A voter's file is on the disk. Its process is told a little later.
    pub(crate) fn sync(&mut self, place: u8, number: u64) {
        let now = self.now;
        let process = self.places[usize::from(place)].as_mut();
        let process = process.filter(|process| process.number == number);
        // of a process that crashed before it is lost
        let Some((list, write, bytes)) =
            process.and_then(|process| process.batch.writes.pop_front())
        else {
            return;
        };
        // of a list that isn't served any more it is of no use
        let voters = &mut self.machines[usize::from(place)].voters;
        if let Some(file) = voters.get_mut(&list) {
            *file = bytes;
        }
        if !self.drives_with(DriverPlant::TellsBeforeSync) {
            let at = now + self.draw.below(500);
            self.plan_at(
                at,
                Happening::Written {
                    place,
                    number,
                    list,
                    write,
                },
            );
        }
    }

    pub(crate) fn written(&mut self, place: u8, list: u32, write: u64) -> Result<(), String> {
        let now = self.now;
        let process = self.process(place)?;
        let time = process.clock.time(now);
        process.member.written(time, list, Some(write));
        self.plan_release(place);
        Ok(())
    }

    /// Somebody knows that a name has stopped. If it runs, that is a stop, too: it can't act any more.
    pub(crate) fn note_given_up(&mut self, generation: u32, name: Name) {
        let order = self.counts.events;
        let named = (generation, name);
        self.given_up.entry(named).or_insert(order);
        if !self.stopped.insert(named) {
            return;
        }
        self.counts.given_up += 1;
        if self.plan.has_ends {
            return self.look_whether_lawful();
        }
        let running = self.places.iter().flatten();
        let running = running.filter(|process| !self.stopped.contains(&(0, process.name)));
        let standings = running.map(|process| process.member.member().info().standing);
        let Some(last) = standings.max_by_key(|standing| standing.view_number) else {
            return;
        };
        let gone = last.members.iter();
        let gone = gone.filter(|name| self.stopped.contains(&(0, *name)));
        let gone = gone.count();
        if gone > usize::from(last.resilience) {
            self.is_void_from_here();
        }
    }

    // ---- the end

    pub(crate) fn fenced_report(&self) -> Fenced {
        let counts = &self.counts;
        Fenced {
            batches: counts.batches,
            held: counts.held,
            late_looks: counts.late_looks,
            frozen: counts.frozen,
            refusals: counts.refusals,
            given_up: counts.given_up,
            ended: counts.ended,
            operated: counts.operated,
            lost_disks: counts.lost_disks,
            asked: counts.asked,
            lists: counts.lists,
            closed: counts.closed,
            lists_lost: counts.lists_lost,
            is_void: self.is_void,
        }
    }

    /// As an operator does where a group stands for long: whoever is frozen though all are connected is ended, since some voters have
    /// refused it and a majority can't any more. That mustn't happen where nobody crashed.
    pub(crate) fn operate(&mut self) -> Result<(), String> {
        let frozen = |place: &u8| {
            let process = self.places[usize::from(*place)].as_ref();
            process.is_some_and(|process| process.member.failures().frozen_since.is_some())
        };
        let frozen: Vec<u8> = (0..16).filter(frozen).collect();
        if !frozen.is_empty() && self.counts.crashes == 0 && self.has_all_voters() {
            return Err(format!(
                "places {frozen:?} stay frozen, though nobody crashed:\n{}",
                self.shown()
            ));
        }
        for place in frozen {
            self.counts.operated += 1;
            self.stop(place, None)?;
            self.plan_at(self.now + 1_000, Happening::Starts { place });
        }
        Ok(())
    }
}
