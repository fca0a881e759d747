//! Judges the journals of a group: each of its lists by itself, and that each one follows the one before as that ended.

use crate::court::Court;
use crate::feed::Over;
use crate::finding::{Cause, Finding};
use crate::line::Head;
use crate::links::Past;
use crate::merge::Reading;
use std::collections::hash_map::RandomState;
use std::collections::{BTreeMap, BTreeSet};
use std::fs::{self, File};
use std::io::{BufRead, BufReader};
use std::path::{Path, PathBuf};
use std::thread;
use std::time::{Duration, Instant};

/// How often a folder is looked at for new journals, and how often what was judged is told.
const SCAN: Duration = Duration::from_millis(200);
const TELL: Duration = Duration::from_secs(1);
/// How long to wait where nothing can be judged yet.
const PAUSE: Duration = Duration::from_millis(5);
/// How many lists later a list that is over is judged to its end, while the members run: a joiner that was late may have begun in it.
const KEPT: u32 = 4;
/// What the names of journals in a folder have in them.
const JOURNAL: &str = "journal";

/// What is to be judged.
#[derive(Clone, Debug)]
pub struct Asked {
    /// Journals, and folders: of a folder all files with `journal` in their names.
    pub journals: Vec<PathBuf>,
    /// Whether nothing is added to the journals any more. As long as it isn't set they are followed.
    pub over: Over,
    /// The program whose word `play` gives the text of a run of at most 100,000 events.
    pub play: Option<PathBuf>,
}

/// What was judged.
#[derive(Clone, Debug, Default, PartialEq, Eq)]
pub struct Judged {
    /// How many lists the group had: one, and one more for each end of a list.
    pub lists: u64,
    /// How many lives have a journal, in all lists.
    pub lives: u64,
    /// How many events they did, with stops and returns.
    pub events: u64,
    /// How many letters they sent.
    pub letters: u64,
    /// How many entries of the lists were taken.
    pub entries: u64,
    /// The event from which on nothing but the answers is claimed, in the first list of which that is so.
    pub void_from: Option<u64>,
    /// How many lists came before that one.
    pub void_in: u32,
    /// What `play` says of that list, if it was asked of all: `lawful`, or `void from` an event.
    pub play: Option<String>,
}

impl Judged {
    /// Adds another list to what was judged before it.
    fn add(&mut self, generation: u32, other: &Judged) {
        let is_said = other.play.is_some() && self.void_from.is_some();
        if self.lists == 0 || self.play.is_some() && !is_said {
            self.play.clone_from(&other.play);
        }
        if let (None, Some(event)) = (self.void_from, other.void_from) {
            (self.void_from, self.void_in) = (Some(event), generation);
        }
        self.lists += other.lists;
        self.lives += other.lives;
        self.events += other.events;
        self.letters += other.letters;
        self.entries += other.entries;
    }
}

/// Judges journals. `tell` is told what was judged so far, once a second.
///
/// # Errors
///
/// The first thing that isn't as it should be.
pub fn judge(asked: &Asked, tell: &mut dyn FnMut(&Judged)) -> Result<Judged, Finding> {
    let mut bench = Bench::new(asked);
    bench.scan()?;
    let mut told = Instant::now();
    let mut scanned = told;
    loop {
        let follows = !asked.over.is_set();
        if !follows {
            bench.close()?;
        }
        let has_gone_on = bench.go_on(follows)?;
        let now = Instant::now();
        if now - told >= TELL {
            told = now;
            tell(&bench.judged());
        }
        if follows && now - scanned >= SCAN {
            scanned = now;
            bench.scan()?;
        }
        if has_gone_on {
            continue;
        }
        if !follows {
            return bench.ends();
        }
        thread::sleep(PAUSE);
    }
}

/// A list: how many came before, and its group's id, 0 for the first one, whose journals don't say it.
type Which = (u32, u64);

/// The lists of a group.
struct Bench<'a> {
    asked: &'a Asked,
    reading: Reading,
    /// Lists that aren't judged to their ends.
    courts: BTreeMap<Which, Court>,
    /// What later lists have to know of those that are.
    pasts: BTreeMap<Which, Past>,
    /// The first list of which there is a journal.
    lowest: Option<u32>,
    /// Files that were looked at.
    seen: BTreeSet<PathBuf>,
    /// Files without a whole line.
    empty: BTreeSet<PathBuf>,
    /// Whether the members ran when this began.
    has_followed: bool,
    /// What was judged of lists that are judged to their ends, and how many of their lives have no journal.
    done: Judged,
    idle: usize,
}

/// The first line of a file; None as long as it isn't whole.
fn first_line(path: &Path) -> Result<Option<String>, Finding> {
    let unread = |error: std::io::Error| Finding::at(path, 0, Cause::Unread(error.to_string()));
    let mut line = Vec::new();
    // a first line has fewer bytes than this
    let mut file = BufReader::new(std::io::Read::take(File::open(path).map_err(unread)?, 4096));
    file.read_until(b'\n', &mut line).map_err(unread)?;
    let is_whole = line.pop() == Some(b'\n');
    if !is_whole && line.len() > 4000 {
        return Err(Finding::at(path, 1, Cause::NoHead));
    }
    Ok(is_whole.then(|| String::from_utf8_lossy(&line).into_owned()))
}

impl<'a> Bench<'a> {
    fn new(asked: &'a Asked) -> Bench<'a> {
        Bench {
            asked,
            reading: Reading {
                sums: RandomState::new(),
                keeps_text: asked.play.is_some(),
            },
            courts: BTreeMap::new(),
            pasts: BTreeMap::new(),
            lowest: None,
            seen: BTreeSet::new(),
            empty: BTreeSet::new(),
            has_followed: !asked.over.is_set(),
            done: Judged::default(),
            idle: 0,
        }
    }

    /// The journals that are there.
    fn files(&self) -> Result<Vec<PathBuf>, Finding> {
        let mut files = Vec::new();
        for path in &self.asked.journals {
            let unread =
                |error: std::io::Error| Finding::at(path, 0, Cause::Unread(error.to_string()));
            if !path.is_dir() {
                files.push(path.clone());
                continue;
            }
            for entry in fs::read_dir(path).map_err(unread)? {
                let file = entry.map_err(unread)?.path();
                let name = file.file_name().unwrap_or_default().to_string_lossy();
                if name.contains(JOURNAL) && file.is_file() {
                    files.push(file);
                }
            }
        }
        files.sort();
        Ok(files)
    }

    /// Looks for journals that weren't there before.
    fn scan(&mut self) -> Result<(), Finding> {
        for path in self.files()? {
            if self.seen.contains(&path) {
                continue;
            }
            let Some(line) = first_line(&path)? else {
                self.empty.insert(path);
                continue;
            };
            let head = Head::of(&line).ok_or_else(|| Finding::at(&path, 1, Cause::NoHead))?;
            let which = (
                head.generation(),
                head.follows.map_or(0, |follows| follows.group),
            );
            self.empty.remove(&path);
            self.seen.insert(path.clone());
            if self.pasts.contains_key(&which) {
                return Err(Finding::at(&path, 1, Cause::Late));
            }
            self.lowest = Some(self.lowest.map_or(which.0, |lowest| lowest.min(which.0)));
            let (reading, has_followed) = (&self.reading, self.has_followed);
            let new = || Court::new(&head, reading.clone(), has_followed);
            self.courts
                .entry(which)
                .or_insert_with(new)
                .admit(&path, head)?;
        }
        Ok(())
    }

    /// Nothing is added any more. It is an error if there is no journal of the list before one.
    fn close(&mut self) -> Result<(), Finding> {
        for ((generation, _), court) in &self.courts {
            let of_before = |which: &Which| which.0 + 1 == *generation;
            let mut known = self.courts.keys().chain(self.pasts.keys());
            if self.lowest < Some(*generation) && !known.any(of_before) {
                let cause = Cause::NoListBefore(*generation);
                return Err(Finding::at(&court.any_file(), 1, cause));
            }
        }
        for court in self.courts.values_mut() {
            court.close();
        }
        Ok(())
    }

    /// What was judged up to now.
    fn judged(&self) -> Judged {
        let mut judged = self.done.clone();
        for ((generation, _), court) in &self.courts {
            judged.add(*generation, &court.judged);
        }
        judged
    }

    /// Takes in steps that are next, of each list whose beginning is known; whether there were some.
    fn go_on(&mut self, follows: bool) -> Result<bool, Finding> {
        self.link_all()?;
        let idle: usize = self.courts.values().map(|court| court.idle).sum();
        let spare = self.empty.len().saturating_sub(self.idle + idle);
        let mut has_gone_on = false;
        for which in self.courts.keys().copied().collect::<Vec<_>>() {
            let Some(mut court) = self.courts.remove(&which) else {
                continue;
            };
            court.spare = spare + court.idle;
            let gone = self.go_on_with(which, &mut court, follows)?;
            has_gone_on |= gone;
            let latest = self.courts.keys().next_back().map_or(0, |other| other.0);
            let is_old = latest >= which.0 + KEPT;
            match (follows, gone) {
                (false, true) => {
                    self.courts.insert(which, court);
                    // one list after the other
                    break;
                }
                (true, _) if !(is_old && court.is_finished()) => {
                    self.courts.insert(which, court);
                }
                _ => {
                    self.finish(which, court)?;
                    has_gone_on = true;
                    break;
                }
            }
        }
        Ok(has_gone_on)
    }

    /// Compares the first lines of a list's journals with the end of the list before; whether that is known, so that the list may go on.
    fn link(&self, (generation, _): Which, court: &mut Court) -> Result<bool, Finding> {
        if self.lowest < Some(generation) {
            let of_before = |which: &Which| which.0 + 1 == generation;
            let is_its = |which: &Which| court.before().is_none_or(|id| which.1 == id);
            let mut courts: Vec<_> = self
                .courts
                .iter()
                .filter(|(which, _)| of_before(which))
                .collect();
            courts.sort_by_key(|(which, _)| !is_its(which));
            let past = self.pasts.iter().filter(|(which, _)| of_before(which));
            let past = past.max_by_key(|(which, _)| is_its(which));
            let before = match (past, courts.first()) {
                (Some((_, past)), _) => past.clone(),
                (None, Some((_, before))) => before.past(),
                (None, None) => {
                    let cause = Cause::NoListBefore(generation);
                    return Err(Finding::at(&court.any_file(), 1, cause));
                }
            };
            match (before.is_void, &before.end, past) {
                (true, _, _) => court.link(None)?,
                (false, Some(end), _) => court.link(Some(end))?,
                (false, None, Some(_)) => {
                    return Err(Finding::at(&court.any_file(), 1, Cause::NotEnded));
                }
                (false, None, None) => return Ok(false),
            }
        } else {
            court.link(None)?;
        }
        Ok(true)
    }

    /// Compares the first lines of all lists, so that a journal that names another list is found before it is missed in its own.
    fn link_all(&mut self) -> Result<(), Finding> {
        if self.courts.values().all(|court| court.unlinked.is_empty()) {
            return Ok(());
        }
        for which in self.courts.keys().copied().collect::<Vec<_>>() {
            if let Some(mut court) = self.courts.remove(&which) {
                self.link(which, &mut court)?;
                self.courts.insert(which, court);
            }
        }
        Ok(())
    }

    /// Has a list go on; whether it did.
    fn go_on_with(&self, which: Which, court: &mut Court, follows: bool) -> Result<bool, Finding> {
        if !self.link(which, court)? {
            return Ok(false);
        }
        court.open()?;
        court.go_on(!follows)
    }

    /// A list is judged to its end.
    fn finish(&mut self, which: Which, mut court: Court) -> Result<(), Finding> {
        court.ends(self.asked.play.as_deref())?;
        let of_before = |other: &&Which| other.0 + 1 == which.0;
        let is_its = |other: &Which| court.before().is_none_or(|id| other.1 == id);
        let before = self.pasts.keys().filter(of_before);
        let before = before.max_by_key(|other| is_its(other)).copied();
        if let Some(past) = before.and_then(|before| self.pasts.get(&before)) {
            court.links_founders(past)?;
        }
        self.done.add(which.0, &court.judged);
        self.idle += court.idle;
        self.pasts.insert(which, court.past());
        // a later list has to know the one before it alone
        self.pasts.retain(|other, _| other.0 + 1 >= which.0);
        Ok(())
    }

    /// After the last step.
    fn ends(&mut self) -> Result<Judged, Finding> {
        match self.done.lives {
            0 => Err(Finding::of(Cause::NoJournals)),
            _ => Ok(self.done.clone()),
        }
    }
}

#[cfg(test)]
mod tests;
