//! One list of a group: its lives' journals, judged together.

use crate::ending::Following;
use crate::feed::Over;
use crate::finding::{Cause, Finding};
use crate::judge::Judged;
use crate::lawful::Watch;
use crate::line::{Founding, Head};
use crate::links::compare;
use crate::list::{List, Place};
use crate::merge::{Life, Next, Reading};
use crate::replay::{Needs, Step};
use crate::script::{Script, MOST};
use muoswyld::names::Name;
use std::collections::BTreeMap;
use std::path::{Path, PathBuf};

/// A list of a group, as its lives' journals come to be judged.
pub(crate) struct Court {
    reading: Reading,
    pub(crate) founding: Founding,
    /// The group's id, and that of the group whose list this one follows, if the journals say it.
    pub(crate) group: Option<u64>,
    pub(crate) before: Option<u64>,
    /// Journals whose lives haven't begun here.
    heads: BTreeMap<Name, (PathBuf, Head)>,
    /// The first lines that weren't compared with the end of the list before.
    pub(crate) unlinked: Vec<(PathBuf, Head)>,
    /// The journals of this list.
    pub(crate) files: BTreeMap<Name, PathBuf>,
    /// Whether its lives may begin.
    has_begun: bool,
    /// How many lives of a group's first list have no journal.
    pub(crate) idle: usize,
    /// How many empty files may stand for them.
    pub(crate) spare: usize,
    /// Whether nothing is added to the journals any more.
    is_over: bool,
    /// Whether the members ran when this began.
    has_followed: bool,
    pub(crate) lives: BTreeMap<Name, Life>,
    watch: Option<Watch>,
    list: List,
    script: Option<Script>,
    pub(crate) judged: Judged,
    /// What follows the list, once an entry ended it.
    pub(crate) end: Option<Following>,
    /// Who could go on, by time.
    order: Vec<(u64, Name)>,
}

impl Court {
    /// One of a list by the first line of one of its journals.
    pub(crate) fn new(head: &Head, reading: Reading, has_followed: bool) -> Court {
        let founding = head.founding.clone();
        let judged = Judged {
            lists: 1,
            ..Judged::default()
        };
        Court {
            watch: Watch::new(&founding),
            script: reading.keeps_text.then(|| Script::new(&founding)),
            reading,
            founding,
            group: head.follows.map(|follows| follows.group),
            // the first list's journals don't say its group
            before: head
                .follows
                .filter(|follows| follows.generation > 1)
                .map(|follows| follows.before),
            heads: BTreeMap::new(),
            unlinked: Vec::new(),
            files: BTreeMap::new(),
            has_begun: false,
            idle: 0,
            spare: 0,
            is_over: !has_followed,
            has_followed,
            lives: BTreeMap::new(),
            list: List::default(),
            judged,
            end: None,
            order: Vec::new(),
        }
    }

    /// Takes a journal in by its first line.
    pub(crate) fn admit(&mut self, path: &Path, head: Head) -> Result<(), Finding> {
        let name = head.name;
        if self.files.contains_key(&name) {
            return Err(Finding::at(path, 1, Cause::Twice(name)));
        }
        // another founding than the entry says that ended the list before is found when that is compared
        if self.founding != head.founding && self.group.is_none() {
            return Err(Finding::at(path, 1, Cause::OtherFounding(name)));
        }
        self.judged.lives += 1;
        self.files.insert(name, path.to_path_buf());
        self.unlinked.push((path.to_path_buf(), head.clone()));
        self.heads.insert(name, (path.to_path_buf(), head));
        match self.has_begun {
            true => self.begin(),
            false => Ok(()),
        }
    }

    /// Whether nothing more can come: an entry ended the list, and all of its lives are over.
    pub(crate) fn is_finished(&self) -> bool {
        let is_over = |life: &Life| matches!(life.next, Next::Nothing { .. });
        self.end.is_some() && self.heads.is_empty() && self.lives.values().all(is_over)
    }

    /// A journal of the list.
    pub(crate) fn any_file(&self) -> PathBuf {
        self.files.values().next().cloned().unwrap_or_default()
    }

    /// Lets its lives begin.
    pub(crate) fn open(&mut self) -> Result<(), Finding> {
        match self.has_begun {
            true => Ok(()),
            false => {
                self.has_begun = true;
                self.begin()
            }
        }
    }

    /// Begins the next life of each place that has none which runs.
    fn begin(&mut self) -> Result<(), Finding> {
        let next: BTreeMap<u8, Name> = self
            .heads
            .keys()
            .rev()
            .map(|name| (name.place(), *name))
            .collect();
        for name in next.into_values() {
            let lower = (1..name.life()).filter_map(|life| Name::new(name.place(), life));
            let mut runs = false;
            for other in lower {
                match self.lives.get(&other) {
                    Some(life) => {
                        // its place came back, so it has stopped
                        life.over.set();
                        runs = runs || !matches!(life.next, Next::Nothing { .. });
                    }
                    None => self.stands_idle(other, name)?,
                }
            }
            if runs {
                continue;
            }
            if let Some((path, head)) = self.heads.remove(&name) {
                let over = Over::new(self.is_over);
                let mut life = Life::of(&path, head, over, self.reading.clone());
                // one that begins here after the end of the following may still run, as those may that began before
                life.may_run = self.has_followed && self.is_over;
                self.lives.insert(name, life);
            }
        }
        Ok(())
    }

    /// A life without a journal, which `by` needs.
    fn stands_idle(&mut self, name: Name, by: Name) -> Result<(), Finding> {
        // in a list that follows another one a founder may never have begun, and a place may begin with any life
        let never_began = self.group.is_some();
        self.idle += usize::from(!never_began);
        if self.idle > self.spare && self.is_over {
            let path = self.heads.get(&by).map(|(path, _)| path.clone());
            let path = path.or_else(|| self.lives.get(&by).map(|life| life.path.clone()));
            return Err(Finding::at(
                &path.unwrap_or_default(),
                0,
                Cause::NoJournal(name),
            ));
        }
        self.lives.insert(name, Life::idle(name));
        Ok(())
    }

    /// Nothing is added any more. A life that was followed up to now may still run.
    pub(crate) fn close(&mut self) {
        self.is_over = true;
        for life in self.lives.values_mut() {
            life.may_run = life.may_run || self.has_followed && !life.over.is_set();
            life.over.set();
        }
    }

    /// Takes in the step that is next; whether there was one.
    pub(crate) fn go_on(&mut self, waits: bool) -> Result<bool, Finding> {
        let mut is_over = false;
        for life in self.lives.values_mut() {
            let was_known = !matches!(life.next, Next::Unknown);
            life.look(waits)?;
            is_over = is_over || !was_known && matches!(life.next, Next::Nothing { .. });
            if let (Some(said), None) = (life.said.take(), self.judged.void_from) {
                compare(life, &said, self.end.as_ref())?;
            }
        }
        if is_over {
            self.begin()?;
            return Ok(true);
        }
        let mut order = std::mem::take(&mut self.order);
        order.clear();
        order.extend(
            self.lives
                .values()
                .filter_map(|life| Some((life.when()?, life.name))),
        );
        order.sort_unstable();
        let gone = self.first_ready(&order, waits);
        self.order = order;
        gone
    }

    /// Has the first of these that may go on do so; whether there was one.
    fn first_ready(&mut self, order: &[(u64, Name)], waits: bool) -> Result<bool, Finding> {
        for (_, name) in order {
            if self.is_ready(*name)? {
                self.does(*name)?;
                return Ok(true);
            }
        }
        // one whose stop was asked for just now stops in the next turn
        let stops = |life: &Life| {
            matches!(life.next, Next::Stop) && order.iter().all(|(_, name)| *name != life.name)
        };
        match order.first() {
            Some(_) if self.lives.values().any(stops) => Ok(true),
            Some((_, name)) if waits => Err(self.blocked(*name)),
            _ => Ok(false),
        }
    }

    /// Whether a life may do what is next; what it needs that only has to be said is said.
    fn is_ready(&mut self, name: Name) -> Result<bool, Finding> {
        let Some(life) = self.lives.get(&name) else {
            return Ok(false);
        };
        let (needs, time, returns) = (life.needs(), life.when().unwrap_or(0), life.returns);
        if returns {
            return Ok(match Name::new(name.place(), name.life() - 1) {
                Some(before) => self.has_stopped(before, time),
                None => true,
            });
        }
        match needs {
            Needs::Nothing => Ok(true),
            Needs::Letter { from, number, .. } => Ok(self
                .lives
                .get(&from)
                .is_some_and(|sender| number <= sender.sent.len())),
            Needs::Stop(other) => {
                if !self.lives.contains_key(&other) && !self.heads.contains_key(&other) {
                    for life in (1..=other.life()).filter_map(|life| Name::new(other.place(), life))
                    {
                        if !self.lives.contains_key(&life) && !self.heads.contains_key(&life) {
                            self.stands_idle(life, name)?;
                        }
                    }
                }
                Ok(self.has_stopped(other, time))
            }
        }
    }

    /// Whether a name stopped; one that is over stops now.
    fn has_stopped(&mut self, name: Name, time: u64) -> bool {
        let Some(life) = self.lives.get_mut(&name) else {
            return false;
        };
        // whoever needs its stop knows that it can't act any more
        life.over.set();
        life.stop(time);
        life.has_stopped()
    }

    /// Why a life can't do what is next.
    fn blocked(&self, name: Name) -> Finding {
        let Some(life) = self.lives.get(&name) else {
            return Finding::of(Cause::NoJournals);
        };
        let before = Name::new(name.place(), name.life() - 1);
        let cause = match (life.needs(), before) {
            (_, Some(before)) if life.returns => Cause::NotReturned(before),
            (Needs::Letter { from, number, .. }, _) if !self.lives.contains_key(&from) => {
                Cause::NoSender { from, number }
            }
            (Needs::Letter { from, number, .. }, _) => Cause::NoLetter { from, number },
            (Needs::Stop(other), _) => Cause::NotStopped(other),
            (Needs::Nothing, _) => Cause::NotReturned(name),
        };
        life.blocked(cause)
    }

    /// A life does what is next.
    fn does(&mut self, name: Name) -> Result<(), Finding> {
        let event = self.judged.events + 1;
        let Some(life) = self.lives.get_mut(&name) else {
            return Ok(());
        };
        if life.returns {
            life.returns = false;
            self.note(name, "return", None, &format!("returned {}", name.life()));
            return Ok(());
        }
        match life.goes_on() {
            Next::Step(step) => self.step(event, name, *step)?,
            Next::Stop => {
                self.note(name, "stop", None, "stopped");
                if let Some(watch) = &mut self.watch {
                    watch.stops(event, name);
                }
                self.begin()?;
            }
            Next::Unknown | Next::Nothing { .. } => (),
        }
        self.judged.void_from = self.watch.as_ref().and_then(Watch::broken);
        Ok(())
    }

    /// Counts an event, and adds it to the script.
    fn note(&mut self, name: Name, asked: &str, heard: Option<(Name, u64)>, answer: &str) {
        self.judged.events += 1;
        if self.judged.events > MOST {
            self.script = None;
        }
        if let Some(script) = &mut self.script {
            if script.add(name, asked, heard, answer).is_none() {
                self.script = None;
            }
        }
    }

    fn step(&mut self, event: u64, name: Name, step: Step) -> Result<(), Finding> {
        let mut heard = None;
        if let Needs::Letter { from, number, sum } = step.needs {
            heard = Some((from, number));
            self.is_letter(name, &step, from, number, sum)?;
        }
        let (asked, answer) = step.text.clone().unwrap_or_default();
        self.note(name, &asked, heard, &answer);
        self.judged.letters += step.letters.len() as u64;
        let is_claimed = self.judged.void_from.is_none();
        let Some(life) = self.lives.get_mut(&name) else {
            return Ok(());
        };
        let path = life.path.clone();
        let unread =
            |error: std::io::Error| Finding::at(&path, step.line, Cause::Unread(error.to_string()));
        for sum in &step.letters {
            life.sent.push(*sum).map_err(unread)?;
        }
        if is_claimed {
            let place = Place {
                name,
                is_founder: life.is_founder,
                file: &path,
                line: step.line,
            };
            let added = self.list.add(&mut life.taken, &step.gave, &place);
            added.map_err(|(cause, there)| {
                let (file, line) = there.unwrap_or((path.clone(), step.line));
                Finding { file, line, cause }
            })?;
            self.judged.entries = self.list.len();
            self.take_turn(name, &step)?;
        }
        if let Some(watch) = &mut self.watch {
            if let Some(number) = step.welcomed {
                watch.welcomed(name, number);
            }
            if let Some(standing) = &step.standing {
                watch.shows(event, name, standing);
            }
        }
        Ok(())
    }

    /// Whether a letter was sent as it was heard.
    fn is_letter(
        &self,
        name: Name,
        step: &Step,
        from: Name,
        number: u64,
        sum: u64,
    ) -> Result<(), Finding> {
        let path = self
            .lives
            .get(&name)
            .map(|life| life.path.clone())
            .unwrap_or_default();
        let wrong = |cause| Finding::at(&path, step.line, cause);
        let sender = self
            .lives
            .get(&from)
            .ok_or_else(|| wrong(Cause::NoSender { from, number }))?;
        let at = number
            .checked_sub(1)
            .ok_or_else(|| wrong(Cause::NoLetter { from, number }))?;
        match sender.sent.get(at) {
            Ok(sent) if sent == sum => Ok(()),
            Ok(_) => Err(wrong(Cause::OtherLetter { from, number })),
            Err(error) => Err(wrong(Cause::Unread(error.to_string()))),
        }
    }

    /// After the last step: the lives that have no step stop, and `play` is asked.
    pub(crate) fn ends(&mut self, play: Option<&Path>) -> Result<(), Finding> {
        let over: Vec<Name> = self
            .lives
            .values()
            .filter(|life| !life.has_ended && !life.may_run)
            .map(|life| life.name)
            .collect();
        for name in over {
            if let Some(life) = self.lives.get_mut(&name) {
                life.stop(u64::MAX);
            }
        }
        while self.go_on(true)? {}
        let (Some(program), Some(script)) = (play, &self.script) else {
            return Ok(());
        };
        let says = script.played(program)?;
        let reckoned = self
            .judged
            .void_from
            .map_or("lawful".to_string(), |event| format!("void from {event}"));
        if says != reckoned {
            let (play, judge) = (says, reckoned);
            return Err(Finding::of(Cause::OtherVerdict { play, judge }));
        }
        self.judged.play = Some(says);
        Ok(())
    }
}
