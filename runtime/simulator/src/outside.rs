//! What comes from outside: somebody who says that a process has ended, and programs that end one.

use crate::happening::Happening;
use crate::world::{World, TOLD_WITHIN};
use muoswyld_failures::Policy;
use muoswyld_member::Name;
use std::collections::BTreeMap;

/// Of a hundred programs that end a process so many fail, though some of these have ended it.
const FAILS: u64 = 20;

impl World<'_> {
    /// All are told that a process has ended, if somebody tells that, each at another time.
    pub(crate) fn tell_all(&mut self, names: &BTreeMap<u32, Name>) {
        if !self.fenced().is_some_and(|it| it.policy == Policy::Told) {
            return;
        }
        let within = if self.is_calm { 1_000 } else { TOLD_WITHIN };
        for place in 0..16 {
            let at = self.now + self.draw.between(100, within);
            self.tell_of(place, at, names.clone());
        }
    }

    fn tell_of(&mut self, place: u8, at: u64, names: BTreeMap<u32, Name>) {
        let Some(process) = &self.places[usize::from(place)] else {
            return;
        };
        let number = process.number;
        self.plan_at(
            at,
            Happening::IsToldOf {
                place,
                number,
                names,
            },
        );
    }

    /// Who begins is told of all whose processes have ended.
    pub(crate) fn tell_of_ended(&mut self, place: u8) {
        if !self.fenced().is_some_and(|it| it.policy == Policy::Told) {
            return;
        }
        let ended: Vec<BTreeMap<u32, Name>> = self.done.iter().map(|it| it.names.clone()).collect();
        for names in ended {
            let at = self.now + self.draw.between(100, 10_000);
            self.tell_of(place, at, names);
        }
    }

    /// A member is told that a process has ended, by its name in the latest list that the member knows. If the process began in a later one,
    /// the word waits until the member comes there.
    pub(crate) fn is_told_of(
        &mut self,
        place: u8,
        names: BTreeMap<u32, Name>,
    ) -> Result<(), String> {
        let now = self.now;
        let generation = self.process(place)?.member.generation();
        let Some(first) = names.keys().next().copied() else {
            return Ok(());
        };
        if generation < first {
            self.tell_of(place, now + 50_000, names);
            return Ok(());
        }
        let Some(name) = self.later_name(&names, generation) else {
            return Ok(());
        };
        let process = self.process(place)?;
        let time = process.clock.time(now);
        // it isn't the own name, since that runs
        let _told = process.member.told(time, name);
        self.plan_release(place);
        Ok(())
    }

    /// The program that ends a name is run at a place.
    pub(crate) fn runs_fence(
        &mut self,
        place: u8,
        generation: u32,
        name: Name,
    ) -> Result<(), String> {
        let at = self.now + self.draw.between(1_000, 100_000);
        let done = self.is_calm || self.draw.below(100) >= FAILS;
        let number = self.process(place)?.number;
        self.plan_at(
            at,
            Happening::Fences {
                place,
                number,
                generation,
                name,
                done,
            },
        );
        Ok(())
    }

    /// The program ends: the process with that name has ended, or it isn't said.
    pub(crate) fn fences(
        &mut self,
        place: u8,
        generation: u32,
        name: Name,
        done: bool,
    ) -> Result<(), String> {
        let now = self.now;
        if (done || self.draw.per_mille(500)) && self.runs_as(generation, name) {
            self.counts.given_up += 1;
            self.end_process(name.place())?;
        }
        let process = self.process(place)?;
        let time = process.clock.time(now);
        process.member.fenced(time, generation, name, done);
        self.plan_release(place);
        Ok(())
    }

    /// A process is ended from outside, and its place comes back.
    fn end_process(&mut self, place: u8) -> Result<(), String> {
        if !self.may_crash(place) {
            self.is_void_from_here();
        }
        self.crash_machine(place);
        self.stop(place, None)?;
        let back = self.draw.between(1_000, 200_000);
        self.plan_at(self.now + back, Happening::Starts { place });
        Ok(())
    }
}
