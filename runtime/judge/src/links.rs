//! What ties a list to the one before it: its end, which all lives take alike, and the first lines of the next one's journals.

use crate::court::Court;
use crate::ending::{differs, Following};
use crate::finding::{Cause, Finding};
use crate::merge::{Life, Said};
use crate::replay::{Gave, Step};
use muoswyld::names::Name;
use std::collections::BTreeMap;

/// What the judge of a later list has to know of one.
#[derive(Clone, Debug)]
pub(crate) struct Past {
    /// What follows it, if an entry ended it.
    pub(crate) end: Option<Following>,
    /// Whether nothing but the answers is claimed.
    pub(crate) is_void: bool,
    /// Its lives, and whether each of them took the entry that ended it.
    lives: BTreeMap<Name, bool>,
}

impl Court {
    /// What the judge of a later list has to know of it.
    pub(crate) fn past(&self) -> Past {
        let lives = self.lives.values();
        Past {
            end: self.end.clone(),
            is_void: self.judged.void_from.is_some(),
            lives: lives.map(|life| (life.name, life.ending.is_over)).collect(),
        }
    }

    /// The id of the group whose list it follows, as its first journal says it.
    pub(crate) fn before(&self) -> Option<u64> {
        self.before
    }

    /// Compares the first lines with the end of the list before, if that is known.
    pub(crate) fn link(&mut self, before: Option<&Following>) -> Result<(), Finding> {
        for (path, head) in std::mem::take(&mut self.unlinked) {
            let wanted = before.zip(head.follows).and_then(|(before, follows)| {
                let own = (follows.group, &head.founding);
                differs(own, (follows.number, follows.before), before)
            });
            if let Some(cause) = wanted {
                return Err(Finding::at(&path, 1, cause));
            }
            if self.founding != head.founding {
                return Err(Finding::at(&path, 1, Cause::OtherFounding(head.name)));
            }
        }
        Ok(())
    }

    /// Whether each founder that began came to the end of the list before, and each that didn't was there.
    pub(crate) fn links_founders(&self, before: &Past) -> Result<(), Finding> {
        let (Some(following), false) = (&before.end, before.is_void) else {
            return Ok(());
        };
        for founder in self.founding.founders.iter() {
            let Some(name) = following.members.at(founder.place()) else {
                continue;
            };
            let was_there = before.lives.get(&name);
            match self.files.get(&founder) {
                Some(path) if was_there != Some(&true) => {
                    return Err(Finding::at(path, 1, Cause::NotThere(name)));
                }
                None if self.lives.contains_key(&founder) && was_there.is_none() => {
                    return Err(Finding::at(&self.any_file(), 0, Cause::NoJournal(founder)));
                }
                _ => {}
            }
        }
        Ok(())
    }

    /// Looks whether an entry that a life took ends the list: for all lives it is the same one.
    pub(crate) fn take_turn(&mut self, name: Name, step: &Step) -> Result<(), Finding> {
        let (Some(turn), Gave::Entry { number, .. }) = (&step.turn, step.gave) else {
            return Ok(());
        };
        let Some(life) = self.lives.get_mut(&name) else {
            return Ok(());
        };
        let wrong = |cause| Finding::at(&life.path, step.line, cause);
        let taken = life.ending.take(number, turn, self.group);
        let Some(following) = taken.map_err(wrong)? else {
            return Ok(());
        };
        life.owes = Some(number);
        match &self.end {
            None => self.end = Some(following),
            // the entries are one list, and so all lives judge alike
            Some(there) if *there == following => {}
            Some(there) => {
                return Err(Finding::at(
                    &life.path,
                    step.line,
                    Cause::OtherEnd {
                        number,
                        other: there.number,
                    },
                ));
            }
        }
        Ok(())
    }
}

/// Compares what a life's journal says of the list that follows with the entry that ended its list.
pub(crate) fn compare(life: &Life, said: &Said, end: Option<&Following>) -> Result<(), Finding> {
    let wrong = |cause| Finding::at(&life.path, said.line, cause);
    let (Some(following), true) = (end, life.ending.is_over) else {
        return Err(wrong(Cause::NoEnd));
    };
    let own = (said.group, &said.founding);
    // a journal says in its first line which group's list it is
    match differs(own, (said.number, following.before), following) {
        Some(cause) => Err(wrong(cause)),
        None => Ok(()),
    }
}
