//! Lives that begin and end, and what else happens to them.

use crate::checker::{self, App};
use crate::happening::Happening;
use crate::journals;
use crate::plan::{Act, Faults};
use crate::process::{Begins, Process};
use crate::report::Report;
use crate::world::{World, TOLD_WITHIN};
use muoswyld_guarded::Deed;
use muoswyld_member::{End, Input, Name, Names, Role};
use std::collections::{BTreeMap, BTreeSet};
use std::fmt::Write;

impl World<'_> {
    /// Begins the next life of a place. It is told who has stopped.
    pub(crate) fn start(&mut self, place: u8) -> Result<(), String> {
        if self.plan.fenced.is_some() {
            return self.start_fenced(place);
        }
        self.end_twin(place);
        if self.places[usize::from(place)].is_some() {
            return Ok(());
        }
        let life = self.lives[usize::from(place)] + 1;
        let Some(name) = Name::new(place, life) else {
            return Ok(());
        };
        self.lives[usize::from(place)] = life;
        self.counts.lives += 1;
        self.start_process(0, name, false)?;
        for (_, stopped) in self.stopped.clone() {
            self.give(place, Input::Stopped(stopped));
        }
        Ok(())
    }

    pub(crate) fn start_process(
        &mut self,
        generation: u32,
        name: Name,
        is_twin: bool,
    ) -> Result<(), String> {
        self.number += 1;
        let number = self.number;
        let place = name.place();
        let app = App::new(name, generation, is_twin);
        let list = self.list(generation)?.clone();
        let begins = Begins {
            machine: &self.machines[usize::from(place)],
            now: self.now,
            generation,
            list: &list,
        };
        let begun = Process::new(self.plan, app, number, &begins, &mut self.draw);
        let process = begun.map_err(|error| format!("{name} doesn't start: {error}"))?;
        let slow = process.slow;
        self.places[usize::from(place)] = Some(process);
        if let (Some(services), false) = (&mut self.services, is_twin) {
            services.begins(name);
        }
        self.release(place)?;
        let next = self.now + self.draw.below(2 * self.plan.send_every);
        self.plan_at(next, Happening::Sends { place, number });
        if slow.is_some() {
            self.plan_at(self.now + 1, Happening::Consumes { place, number });
        }
        Ok(())
    }

    /// Begins the same life of a place again, as nobody should.
    pub(crate) fn start_twin(&mut self, place: u8) -> Result<(), String> {
        let name = Name::new(place, self.lives[usize::from(place)]);
        let lowest = self.plan.founding.lowest();
        match name {
            Some(name)
                if self.places[usize::from(place)].is_none()
                    && Some(name) != lowest
                    && !self.is_calm =>
            {
                self.counts.twins += 1;
                self.start_process(0, name, true)
            }
            _ => Ok(()),
        }
    }

    fn end_twin(&mut self, place: u8) {
        let twin = self.places[usize::from(place)].take_if(|process| process.app.is_twin);
        self.done.extend(twin.map(|process| process.app));
    }

    /// The processes that run and count, but for one.
    fn others(&self, place: u8) -> impl Iterator<Item = &Process> {
        let all = self.places.iter().flatten();
        all.filter(move |process| process.counts() && process.name.place() != place)
    }

    /// Whether a process may crash so that the run stays lawful and goes on: no more stopped members than the resilience of any view,
    /// a majority is left of each, and another one knows the group.
    pub(crate) fn may_crash(&self, place: u8) -> bool {
        let Some(process) = &self.places[usize::from(place)] else {
            return false;
        };
        if self.plan.has_ends {
            let is_known = self
                .others(place)
                .any(|other| other.member.member().info().group.is_some());
            return process.counts() && is_known && self.may_crash_in_lists(process);
        }
        let running: BTreeSet<Name> = self.others(place).map(|other| other.name).collect();
        let views = self.others(place).chain(Some(process));
        let mut members = BTreeSet::new();
        let mut resilience = u8::MAX;
        for standing in views.map(|other| other.member.member().info().standing) {
            members.extend(standing.members.iter());
            if !standing.members.is_empty() {
                resilience = resilience.min(standing.resilience);
            }
            let left = standing
                .members
                .iter()
                .filter(|name| running.contains(name));
            let least = self.least(standing.members);
            if !standing.members.is_empty() && left.count() < least {
                return false;
            }
        }
        let stopped = members
            .iter()
            .filter(|name| self.stopped.contains(&(0, **name)))
            .count();
        let is_known = self
            .others(place)
            .any(|other| other.member.member().info().group.is_some());
        let is_lawful = stopped < usize::from(resilience) || !members.contains(&process.name);
        process.counts() && is_known && is_lawful
    }

    /// Does what the plan says of a place.
    pub(crate) fn act(&mut self, place: u8, act: Act) -> Result<(), String> {
        match act {
            Act::Crash { back, twin } => self.crash(place, back, twin),
            Act::Pause(micros) => {
                let until = self.now + micros;
                if let Some(process) = &mut self.places[usize::from(place)] {
                    process.paused_until = until;
                    self.counts.pauses += 1;
                }
                Ok(())
            }
            Act::Leave | Act::LeaveAnyway => {
                self.leave(place, act == Act::LeaveAnyway);
                Ok(())
            }
            Act::Join => {
                let is_free = |place: &u8| {
                    let place = usize::from(*place);
                    self.lives[place] == 0 && self.machines[place].begins.is_none()
                };
                let free = (0..16).find(is_free);
                match free.filter(|free| *free >= self.plan.founding.founders.len() as u8) {
                    Some(free) => self.start(free),
                    None => Ok(()),
                }
            }
            Act::Reset(more) => {
                self.reset(place, more);
                Ok(())
            }
            Act::Succeed(next) => self.try_to_succeed(place, next),
            Act::Split { places, micros } => {
                self.split(
                    |one, other| (places >> one ^ places >> other) & 1 == 1,
                    micros,
                );
                Ok(())
            }
            Act::Outage(micros) => {
                self.split(|_, _| true, micros);
                Ok(())
            }
            Act::Cut { to, micros } => {
                self.cuts.push((place, to, self.now + micros));
                Ok(())
            }
        }
    }

    /// Nothing goes between some pairs of places for a while.
    fn split(&mut self, between: impl Fn(u8, u8) -> bool, micros: u64) {
        let until = self.now + micros;
        for one in 0..16 {
            for other in (0..16).filter(|other| *other != one && between(one, *other)) {
                self.cuts.push((one, other, until));
            }
        }
    }

    pub(crate) fn leave(&mut self, place: u8, anyway: bool) {
        let stays = |other: &&Process| !other.leaves && other.has_list();
        let staying = self.others(place).filter(stays).count();
        let may_leave = anyway || staying > 0;
        if let Some(process) = self.places[usize::from(place)].as_mut() {
            if may_leave {
                process.leaves = true;
                self.counts.leaves += 1;
                self.give(place, Input::Leave);
            }
        }
    }

    fn reset(&mut self, place: u8, more: u8) {
        let Some(process) = &self.places[usize::from(place)] else {
            return;
        };
        let standing = process.member.member().info().standing;
        let most = (standing.members.len().saturating_sub(1) / 2) as u8;
        let resilience = (standing.resilience + more).min(most.max(standing.resilience));
        self.counts.resets += 1;
        let input = Input::Reset {
            ticket: self.counts.resets,
            least: None,
            resilience: Some(resilience),
        };
        self.give(place, input);
    }

    fn crash(&mut self, place: u8, back: Option<u64>, twin: bool) -> Result<(), String> {
        let runs = self.places[usize::from(place)]
            .as_ref()
            .is_some_and(Process::counts);
        let is_lawful = self.may_crash(place);
        if !runs || !is_lawful && (self.plan.is_lawful || self.others(place).count() == 0) {
            return Ok(());
        }
        self.die_amid_release(place)?;
        if !is_lawful {
            self.is_void_from_here();
        }
        self.crash_machine(place);
        self.counts.crashes += 1;
        self.crashes.push(self.now);
        self.stop(place, None)?;
        if let Some(back) = back {
            self.plan_at(self.now + back, Happening::Starts { place });
        }
        if twin && back.is_none_or(|back| back > 2 * TOLD_WITHIN) {
            self.plan_at(self.now + TOLD_WITHIN + 1, Happening::StartsTwin { place });
        }
        Ok(())
    }

    /// More have stopped than the resilience: nothing is claimed of what comes after.
    pub(crate) fn is_void_from_here(&mut self) {
        if !self.is_void {
            self.is_void = true;
            let running = self.places.iter().flatten().map(|process| &process.app);
            self.lawful = self.done.iter().chain(running).cloned().collect();
        }
    }

    /// Often the process dies with something unreleased, or amid a release: some of it is out, in its order.
    fn die_amid_release(&mut self, place: u8) -> Result<(), String> {
        if self.draw.per_mille(400) {
            return Ok(());
        }
        if self.plan.fenced.is_some() {
            let size = self.process(place)?.batch.size() as u64;
            let most = self.draw.below(size + 1);
            return self.emit(place, Some(most));
        }
        let now = self.now;
        let outputs = self.process(place)?.release(now);
        let count = self.draw.below(outputs.len() as u64 + 1) as usize;
        for released in outputs.into_iter().take(count) {
            self.output(place, released)?;
        }
        Ok(())
    }

    /// A process is no more; everybody is told, sooner or later, or finds it out.
    pub(crate) fn stop(&mut self, place: u8, end: Option<End>) -> Result<(), String> {
        let Some(mut process) = self.places[usize::from(place)].take() else {
            return Ok(());
        };
        // whom it knew to have stopped, though nothing was done for that yet
        let time = process.clock.time(self.now);
        for deed in process.member.deeds(time) {
            if let Deed::Stopped { generation, name } = deed {
                self.note_given_up(generation, name);
            }
        }
        self.look_at_suspects(&process)?;
        let (name, begun) = (process.name, process.app.name);
        let named = process.app.names.iter();
        self.stopped
            .extend(named.map(|(list, name)| (*list, *name)));
        self.keep_journals(&process.app, process.journals);
        let names = process.app.names.clone();
        self.done.push(process.app);
        self.look_whether_lawful();
        self.tell_all(&names);
        if let Some(services) = &mut self.services {
            services.ended(begun);
        }
        self.counts.unwelcomed += u64::from(end == Some(End::Unwelcomed));
        if self.plan.fenced.is_some() {
            if matches!(end, Some(End::Unwelcomed | End::LeftOut | End::Superseded)) {
                let back = self.draw.between(1_000, 200_000);
                self.plan_at(self.now + back, Happening::Starts { place });
            }
            return Ok(());
        }
        for place in 0..16 {
            let within = if self.is_calm { 1_000 } else { TOLD_WITHIN };
            let at = self.now + self.draw.between(100, within);
            if let Some(other) = &self.places[usize::from(place)] {
                let number = other.number;
                self.plan_at(
                    at,
                    Happening::IsTold {
                        place,
                        number,
                        name,
                    },
                );
            }
        }
        if end == Some(End::Unwelcomed) && !self.is_calm {
            self.plan_at(self.now + 100_000, Happening::Starts { place });
        }
        Ok(())
    }

    fn look_at_suspects(&self, process: &Process) -> Result<(), String> {
        let lists = process.member.lists();
        for generation in process.member.served() {
            let member = lists.member_of(generation);
            let stopped = member.map_or(Names::nobody(), |member| member.info().stopped);
            let mut stopped = stopped.iter();
            if let Some(name) = stopped.find(|name| !self.has_stopped(generation, *name)) {
                return Err(format!("{} gave up {name}, which runs", process.name));
            }
        }
        Ok(())
    }

    fn keep_journals(&mut self, app: &App, journals: BTreeMap<u32, Vec<u8>>) {
        if !self.plan.journal {
            return;
        }
        for (generation, name) in &app.names {
            let journal = journals.get(generation).cloned();
            let kept = self.journals.entry(*generation).or_default();
            kept.insert(*name, journal.unwrap_or_default());
        }
    }

    /// Looks whether a process has ended by itself.
    pub(crate) fn look_at_end(&mut self, place: u8) -> Result<(), String> {
        let Some(process) = &self.places[usize::from(place)] else {
            return Ok(());
        };
        let Some(end) = process.ended else {
            return Ok(());
        };
        if process.app.is_twin {
            self.end_twin(place);
            return Ok(());
        }
        let name = process.name;
        let is_expected = match end {
            End::Left | End::Closed => process.leaves,
            End::Unwelcomed => true,
            End::LeftOut => {
                let named = (process.member.generation(), name);
                self.is_void || self.given_up.contains_key(&named)
            }
            // who crashed may have let its end of the list out in part
            End::Superseded => {
                process.member.generation() < self.last_list() || self.counts.crashes > 0
            }
            End::NoNumbersLeft | End::NodeFailed | End::OtherVersion | End::ContentsLost => false,
        };
        if !is_expected {
            return Err(format!("{name} ended, though it ran: {end:?}"));
        }
        self.stop(place, Some(end))
    }

    /// The faults end: nobody pauses or crashes any more, and nothing more is sent.
    pub(crate) fn calm_down(&mut self) {
        self.is_calm = true;
        self.faults = Faults::NONE;
        self.cuts.clear();
        for place in 0..16 {
            self.end_twin(place);
            if let Some(process) = &mut self.places[usize::from(place)] {
                process.paused_until = 0;
                process.release_at = None;
                self.plan_release(place);
            }
        }
    }

    /// Whether fewer of a process's members run than a reset goes on with, so that it waits for good.
    fn is_too_small(&self, process: &Process) -> bool {
        let members = process.member.member().info().standing.members;
        let generation = process.member.generation();
        let others = self.places.iter().flatten();
        let running = others.filter_map(|other| self.name_in(other, generation));
        let running: Vec<Name> = running.collect();
        let left = members.iter().filter(|name| running.contains(name)).count();
        left < members.len() && left < self.least(members)
    }

    /// The fewest members that a reset of some goes on with.
    pub(crate) fn least(&self, members: Names) -> usize {
        self.plan.least.map_or(members.len() / 2 + 1, usize::from)
    }

    /// Whether nothing more comes of the group: it is over, or nobody may reset it.
    pub(crate) fn is_over(&self) -> bool {
        let mut running = self.places.iter().flatten();
        // a group is over once nobody has its list
        running.all(|process| !process.has_list() || self.is_too_small(process))
            || self.has_too_few_voters()
    }

    /// Whether all that run are members of one view with one list, of which all is taken, and nothing is under way.
    pub(crate) fn is_at_rest(&self) -> bool {
        let running: Vec<&Process> = self.places.iter().flatten().collect();
        let names: Vec<Name> = running.iter().map(|process| process.name).collect();
        let mut tops = BTreeSet::new();
        for process in &running {
            let info = process.member.member().info();
            let standing = info.standing;
            let lists = process.member.lists();
            tops.insert((lists.generation(), standing.top));
            if lists.is_between() || lists.ended_lists() > 0 {
                return false;
            }
            // what a member has taken may wait for its release
            let is_out = process.release_at.is_none();
            let is_one = standing.members.iter().eq(names.iter().copied());
            let is_quiet = matches!(standing.role, Role::Member | Role::Sequencer);
            let is_done = info.unsettled == 0 && standing.taken == standing.top;
            if !is_out || !is_one || !is_quiet || !is_done || process.leaves {
                return false;
            }
        }
        tops.len() == 1
    }

    pub(crate) fn shown(&self) -> String {
        let mut text = String::new();
        for process in self.places.iter().flatten() {
            let info = process.member.member().info();
            let lists: Vec<u32> = process.member.served().collect();
            // writing to a string can't fail
            if self.plan.has_ends {
                let _ = writeln!(text, "    {}", info.name);
                for generation in lists {
                    self.show_list(&mut text, process, generation);
                }
                continue;
            }
            let _ = writeln!(text, "    leaves {} {info:?}", process.leaves);
            if self.plan.fenced.is_some() {
                let failures = process.member.failures();
                let _ = writeln!(text, "        held {} {failures:?}", process.member.held());
            }
        }
        text
    }

    /// How a process stands in a list.
    fn show_list(&self, text: &mut String, process: &Process, generation: u32) {
        let lists = process.member.lists();
        let standing = lists.member_of(generation).map(|it| it.info().standing);
        let failures = process.member.failures_in(generation);
        let (Some(standing), Some(failures)) = (standing, failures) else {
            return;
        };
        // writing to a string can't fail
        let _ = writeln!(
            text,
            "        list {generation} between {} {:?} of {} at {} to {}, frozen {}, stopped {:?}, suspected {:?}, refused {:?}, {:?}",
            lists.is_between(),
            standing.role,
            standing.members,
            standing.taken,
            standing.top,
            failures.frozen_since.is_some(),
            failures.stopped,
            failures.suspects,
            failures.refused,
            failures.no_voter
        );
    }

    /// Checks all, and tells of it.
    pub(crate) fn finish(&mut self) -> Result<Report, String> {
        let is_over = self.is_over();
        let processes: Vec<Process> = self.places.iter_mut().filter_map(Option::take).collect();
        for mut process in processes {
            if !self.is_void {
                self.look_at_suspects(&process)?;
            }
            if !process.app.is_twin {
                let latest = process.member.generation();
                let journal = process.journals.entry(latest).or_default();
                journal.extend(b"end\n");
                self.keep_journals(&process.app, process.journals);
            }
            self.done.push(process.app);
        }
        let lawful = if self.is_void {
            &self.lawful
        } else {
            &self.done
        };
        checker::check(lawful)?;
        if let (Some(services), false) = (&mut self.services, self.is_void) {
            services.check(is_over)?;
        }
        for journals in self.journals.values() {
            journals::heard_letters_stand(journals)?;
        }
        let delivered = self.done.iter().map(|app| app.log.len()).sum();
        let settled: usize = self.done.iter().map(|app| app.settled.len()).sum();
        let sent: usize = self.done.iter().map(|app: &App| app.sent.len()).sum();
        let text = format!(
            "seed {}: {:?}, sent {sent}, settled {settled}, delivered {delivered}, to {} us, void {}, {:016x}",
            self.plan.seed, self.counts, self.now, self.is_void, self.hash
        );
        Ok(Report {
            text,
            journals: self.journals.remove(&0).unwrap_or_default(),
            delivered,
            crashes: std::mem::take(&mut self.crashes),
            views: std::mem::take(&mut self.views),
            stuck_resets: self.counts.stuck_resets,
            unwelcomed: self.counts.unwelcomed,
            fenced: self.fenced_report(),
        })
    }
}
