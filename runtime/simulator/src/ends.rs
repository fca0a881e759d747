//! Lists that follow one another: how each was founded, who has which name in it, and what begins and ends.

use crate::happening::Happening;
use crate::machine::id_of;
use crate::plan::{Act, NextList, Plan};
use crate::process::Process;
use crate::world::World;
use muoswyld_failures::{places_of, NoVoter, Places, Policy};
use muoswyld_guarded::next_id;
use muoswyld_member::{Founding, HandleError, Input, Name, Names, Next, Standing, Successor};
use std::collections::BTreeMap;

/// A list of the group.
#[derive(Clone, Debug)]
pub(crate) struct List {
    pub(crate) founding: Founding,
    /// Its group's id; None if its lowest founder draws it.
    pub(crate) group: Option<u64>,
    /// The id of its failures.
    pub(crate) id: [u8; 16],
    /// The places that vote in it.
    pub(crate) voters: Places,
    /// The members at the end of the list before: its founders.
    from: Names,
    /// What follows it, once that is known to anybody.
    next: Option<Successor>,
}

fn places(names: Names) -> Places {
    places_of(names.iter().map(|name| name.place()))
}

impl List {
    /// The first list of a plan.
    pub(crate) fn first(plan: &Plan) -> List {
        let founders = places(plan.founding.founders);
        let fenced = plan.fenced.as_ref();
        let voters = fenced.and_then(|fenced| fenced.voters);
        let is_told = fenced.is_some_and(|fenced| fenced.policy == Policy::Told);
        List {
            founding: plan.founding,
            group: None,
            id: id_of(plan),
            voters: if is_told {
                0
            } else {
                voters.unwrap_or(founders)
            },
            from: Names::nobody(),
            next: None,
        }
    }

    /// The list that follows this one.
    fn followed(&self, next: &Successor) -> List {
        List {
            founding: next.founding,
            group: Some(next.group),
            id: next_id(self.id, next.group),
            voters: places(next.voters),
            from: next.members,
            next: None,
        }
    }
}

impl World<'_> {
    pub(crate) fn list(&self, generation: u32) -> Result<&List, String> {
        let list = self.lists.get(generation as usize);
        list.ok_or_else(|| format!("list {generation} was begun by nobody"))
    }

    /// How many lists came before the latest one.
    pub(crate) fn last_list(&self) -> u32 {
        self.lists.len() as u32 - 1
    }

    /// The name that a process has in a list, or will have if it comes to it.
    pub(crate) fn name_in(&self, process: &Process, generation: u32) -> Option<Name> {
        self.later_name(&process.app.names, generation)
    }

    /// The name in a list of a process that had these names in some.
    pub(crate) fn later_name(&self, names: &BTreeMap<u32, Name>, generation: u32) -> Option<Name> {
        if let Some(name) = names.get(&generation) {
            return Some(*name);
        }
        let (latest, name) = names.last_key_value()?;
        let mut name = *name;
        if *latest > generation {
            return None;
        }
        for next in latest + 1..=generation {
            let list = self.lists.get(next as usize)?;
            if !list.from.has(name) {
                return None;
            }
            name = Name::first(name.place())?;
        }
        Some(name)
    }

    pub(crate) fn runs_as(&self, generation: u32, name: Name) -> bool {
        let process = self.places[usize::from(name.place())].as_ref();
        let process = process.filter(|process| process.counts());
        process.and_then(|process| self.name_in(process, generation)) == Some(name)
    }

    /// Whether a name can't act in a list any more: it was given up there, or its process has ended.
    pub(crate) fn has_stopped(&self, generation: u32, name: Name) -> bool {
        let is_gone = || self.plan.has_ends && !self.runs_as(generation, name);
        self.stopped.contains(&(generation, name)) || is_gone()
    }

    /// Whether all that run have come to the end of a list.
    fn is_past(&self, generation: u32) -> bool {
        let running = self
            .places
            .iter()
            .flatten()
            .filter(|process| process.counts());
        let mut latest = running.map(|process| {
            let lists = process.member.lists();
            lists.generation() + u32::from(lists.is_between())
        });
        latest.all(|latest| latest > generation)
    }

    /// How a process stands in a list, as far as it has let out: a view that it decides in the turn in which it learns of a stop comes after
    /// that stop.
    fn standing_in(&self, process: &Process, generation: u32) -> Option<Standing> {
        let lists = process.member.lists();
        match lists.generation() == generation {
            true => Some(process.member.info().standing),
            false => lists.member_of(generation).map(|it| it.info().standing),
        }
    }

    /// The views of a list that running processes have, each with its members and its resilience, the one of the latest view last; its
    /// founding where nobody has begun it.
    fn views_of(&self, generation: u32) -> Vec<(Names, u8)> {
        let running = self
            .places
            .iter()
            .flatten()
            .filter(|process| process.counts());
        let mut views: Vec<_> = running
            .filter(|process| {
                let name = self.name_in(process, generation);
                name.is_some_and(|name| !self.stopped.contains(&(generation, name)))
            })
            .filter_map(|process| self.standing_in(process, generation))
            .filter(|standing| !standing.members.is_empty())
            .map(|standing| (standing.view_number, standing.members, standing.resilience))
            .collect();
        views.sort_by_key(|(number, _, _)| *number);
        let mut views: Vec<(Names, u8)> = views.into_iter().map(|(_, m, r)| (m, r)).collect();
        if views.is_empty() {
            let founding = self
                .lists
                .get(generation as usize)
                .map(|list| list.founding);
            views.extend(founding.map(|it| (it.founders, it.resilience)));
        }
        views
    }

    /// Looks whether more have stopped in a list than its resilience.
    pub(crate) fn look_whether_lawful(&mut self) {
        for generation in 0..=self.last_list() {
            if !self.plan.has_ends || self.is_past(generation) {
                continue;
            }
            let Some((members, resilience)) = self.views_of(generation).pop() else {
                continue;
            };
            let members = members.iter();
            let gone = members.filter(|name| self.has_stopped(generation, *name));
            if gone.count() > usize::from(resilience) {
                self.is_void_from_here();
            }
        }
    }

    /// Whether a process may crash so that each list stays lawful and goes on.
    pub(crate) fn may_crash_in_lists(&self, process: &Process) -> bool {
        (0..=self.last_list()).all(|generation| {
            let own = self.name_in(process, generation);
            let views = self.views_of(generation);
            let least = views.iter().map(|(_, resilience)| *resilience).min();
            let resilience = usize::from(least.unwrap_or(0));
            let stays = |name: &Name| !self.has_stopped(generation, *name) && Some(*name) != own;
            self.is_past(generation)
                || views.iter().all(|(members, _)| {
                    let left = members.iter().filter(stays).count();
                    let gone = members.iter().filter(|name| !stays(name)).count();
                    left >= self.least(*members) && gone <= resilience
                })
        })
    }

    /// A process came to the end of a list: all come to the same one.
    pub(crate) fn succeeded(&mut self, generation: u32, next: Successor) -> Result<(), String> {
        if !self.plan.has_ends {
            return Err("a list ended, which nobody asked for".into());
        }
        let list = self.list(generation)?;
        if let Some(known) = &list.next {
            let same = (known.group, known.founding, known.voters, known.at)
                == (next.group, next.founding, next.voters, next.at);
            return match same {
                true => Ok(()),
                false => Err(format!(
                    "list {generation} ended twice: {known:?}, {next:?}"
                )),
            };
        }
        let followed = list.followed(&next);
        if self.lists.iter().any(|list| list.group == Some(next.group)) {
            return Err(format!("two lists have the id {:x}", next.group));
        }
        if let Some(list) = self.lists.get_mut(generation as usize) {
            list.next = Some(next);
        }
        self.lists.push(followed);
        self.counts.lists += 1;
        self.look_whether_lawful();
        Ok(())
    }

    /// A member is asked to end its list.
    pub(crate) fn succeed(&mut self, place: u8, list: NextList) -> Result<bool, String> {
        let now = self.now;
        let votes = self.fenced().is_some_and(|it| it.policy != Policy::Told);
        let Some(process) = self.places[usize::from(place)].as_mut() else {
            return Ok(false);
        };
        let members = process.member.member().info().standing.members;
        let most = members.len().saturating_sub(1) as u8 / 2;
        let named: Names = (0..16)
            .filter(|at| list.voters >> at & 1 == 1 && members.at(*at).is_some())
            .filter_map(Name::first)
            .collect();
        let next = Next {
            resilience: most.saturating_sub(list.less),
            window: list.window,
            pb_up_to: self.plan.founding.pb_up_to,
            voters: (votes && named.len() % 2 == 1).then_some(named),
        };
        let time = process.clock.time(now);
        let asked = process.member.handle(time, Input::Succeed(next));
        let is_asked = match asked {
            Ok(()) => true,
            Err(HandleError::NotNow | HandleError::Ended | HandleError::NoVoters) => false,
            // it was a member when it was asked, and is none any more
            Err(HandleError::Voter(_)) => false,
            Err(error) => return Err(format!("{}: no end of its list: {error}", process.name)),
        };
        let failures = process.member.failures();
        let is_refused = failures
            .refused
            .iter()
            .any(|name| members.has(Name::of_byte(name.byte())));
        let is_troubled =
            is_refused || !failures.suspects.is_empty() || !failures.blocked.is_empty();
        if is_asked && is_troubled {
            let name = process.name;
            return Err(format!(
                "{name} ends its list while somebody is suspected or refused: {failures:?}"
            ));
        }
        self.counts.asked += u64::from(is_asked);
        self.plan_release(place);
        Ok(is_asked)
    }

    /// The lowest member ends the list, though it may have to be asked again.
    pub(crate) fn end_last_list(&mut self) -> Result<(), String> {
        let before = self.last_list();
        let next = NextList {
            window: 16,
            less: 0,
            voters: 0,
            tries: 0,
        };
        for turn in 1..=200 {
            if turn % 50 == 0 {
                self.end_refused()?;
            }
            let mut running = self.places.iter().flatten();
            let lowest = running.find(|process| process.has_list());
            let Some(place) = lowest.map(|process| process.name.place()) else {
                return Ok(());
            };
            let is_asked = self.succeed(place, next)?;
            self.run_until(self.now + if is_asked { 500_000 } else { 100_000 })?;
            if self.last_list() > before || self.is_void {
                break;
            }
        }
        Ok(())
    }

    /// As an operator does where a list is to end: a member that some voter has refused, and that runs, is ended, and its place comes back.
    fn end_refused(&mut self) -> Result<(), String> {
        let last = self.last_list();
        let running = self.places.iter().flatten();
        let refused = running.flat_map(|process| {
            let refused = process.member.failures().refused_members;
            refused.iter().collect::<Vec<_>>()
        });
        let refused: Vec<Name> = refused.map(|name| Name::of_byte(name.byte())).collect();
        for name in refused {
            if self.runs_as(last, name) {
                let place = name.place();
                self.counts.operated += 1;
                self.stop(place, None)?;
                self.plan_at(self.now + 1_000, Happening::Starts { place });
            }
        }
        Ok(())
    }

    /// A member is asked to end its list, and again a while later if that can't be now.
    pub(crate) fn try_to_succeed(&mut self, place: u8, next: NextList) -> Result<(), String> {
        if self.succeed(place, next)? || next.tries == 0 || self.is_calm {
            return Ok(());
        }
        let tries = next.tries - 1;
        let act = Act::Succeed(NextList { tries, ..next });
        let at = self.now + self.draw.between(10_000, 100_000);
        self.plan_at(at, Happening::Acts { place, act });
        Ok(())
    }

    // ---- a list begins at a place

    /// That a place's life begins in the next list is being written.
    pub(crate) fn begins_list(
        &mut self,
        place: u8,
        (generation, id): (u32, [u8; 16]),
        voter: Option<Vec<u8>>,
    ) -> Result<(), String> {
        if self.list(generation)?.id != id {
            return Err(format!("place {place} has another id of list {generation}"));
        }
        let now = self.now;
        let slow = self.draw.per_mille(100);
        let took = self.draw.between(200, if slow { 300_000 } else { 10_000 });
        let fails = self.draw.per_mille(5) && !self.is_calm;
        let process = self.process(place)?;
        process.begins = Some((generation, voter));
        let number = process.number;
        let what = match fails {
            true => Happening::ListBegins {
                place,
                number,
                generation,
                is_written: false,
            },
            false => Happening::ListSynced {
                place,
                number,
                generation,
            },
        };
        self.plan_at(now + took, what);
        Ok(())
    }

    /// That a place's life began in a list is on its disk, and the voter's file too. Its process is told a little later.
    pub(crate) fn list_is_synced(&mut self, place: u8, number: u64, generation: u32) {
        let now = self.now;
        let process = self.places[usize::from(place)].as_mut();
        let process = process.filter(|process| process.number == number);
        // of a process that crashed before it is lost
        let Some((_, voter)) = process.and_then(|process| process.begins.take()) else {
            return;
        };
        let machine = &mut self.machines[usize::from(place)];
        machine.lives.insert(generation, 1);
        machine.voters.extend(voter.map(|file| (generation, file)));
        let at = now + self.draw.below(500);
        self.plan_at(
            at,
            Happening::ListBegins {
                place,
                number,
                generation,
                is_written: true,
            },
        );
    }

    /// A place's process begins the next list, or can't.
    pub(crate) fn begin_list(
        &mut self,
        place: u8,
        generation: u32,
        is_written: bool,
    ) -> Result<(), String> {
        let now = self.now;
        let process = self.process(place)?;
        let time = process.clock.time(now);
        process.member.begun(time, generation, is_written);
        self.plan_release(place);
        match is_written {
            true => self.has_begun(place, generation),
            false => Ok(()),
        }
    }

    /// A process has a name in the next list from now on. Nobody has one twice, and whoever is to vote there can.
    pub(crate) fn has_begun(&mut self, place: u8, generation: u32) -> Result<(), String> {
        let Some(name) = Name::first(place) else {
            return Ok(());
        };
        let process = self.process(place)?;
        if process.member.generation() != generation {
            return Ok(());
        }
        process.name = name;
        process.app.names.insert(generation, name);
        if !self.begun.insert((generation, name)) {
            return Err(format!("{name} begins list {generation} a second time"));
        }
        self.look_at_vote(place, generation)
    }

    /// A place that votes in a list, and has its file, does.
    pub(crate) fn look_at_vote(&mut self, place: u8, generation: u32) -> Result<(), String> {
        let votes = self.list(generation)?.voters >> place & 1 == 1;
        let has_file = self.machines[usize::from(place)]
            .voters
            .contains_key(&generation);
        let process = self.process(place)?;
        match process.member.no_voter() {
            Some(NoVoter::BadFile | NoVoter::NoFile) if votes && has_file => Err(format!(
                "{} has its voter's file of list {generation}, and doesn't vote",
                process.name
            )),
            _ => Ok(()),
        }
    }

    /// What goes out of a list that a process came to from the one before has its beginning on disk.
    pub(crate) fn is_on_disk(&self, place: u8, generation: u32) -> Result<(), String> {
        let process = self.places[usize::from(place)].as_ref();
        let first = process.and_then(|process| process.app.names.keys().next().copied());
        let life = self.machines[usize::from(place)].lives.get(&generation);
        match first.is_some_and(|first| first < generation) && life.is_none() {
            true => Err(format!(
                "place {place} speaks in list {generation}, which didn't begin on its disk"
            )),
            false => Ok(()),
        }
    }

    /// In which list a place begins, and as which life: the latest one that its disk knows, or running members.
    pub(crate) fn next_life(&mut self, place: u8) -> (u32, u8) {
        let machine = &self.machines[usize::from(place)];
        let own = machine.lives.keys().next_back().copied().unwrap_or(0);
        let mut generation = own;
        if self.plan.has_ends && (self.is_calm || self.draw.per_mille(850)) {
            let running = self.places.iter().flatten();
            let known = running.map(|process| process.member.generation());
            generation = own.max(known.max().unwrap_or(0));
        }
        let machine = &self.machines[usize::from(place)];
        let list = self.lists.get(generation as usize);
        let founders = list.map_or(Names::nobody(), |list| list.founding.founders);
        // a founder's first life may have begun, whether or not its disk says so
        let had = u8::from(generation > 0 && founders.at(place).is_some());
        let last = machine.lives.get(&generation).copied().unwrap_or(had);
        (generation, last.max(had) + 1)
    }
}
