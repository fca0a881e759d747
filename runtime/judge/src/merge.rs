//! The lives that run, each with its next step; which of them may go on, and in which order.

use crate::ending::Ending;
use crate::feed::Over;
use crate::finding::{Cause, Finding};
use crate::line::{Founding, Head};
use crate::list::Taken;
use crate::replay::{Needs, Replay, Step, Told};
use crate::sums::Sums;
use muoswyld::names::Name;
use std::collections::hash_map::RandomState;
use std::path::{Path, PathBuf};
use std::sync::mpsc::{sync_channel, Receiver, SyncSender};
use std::thread;

/// How many steps of a life wait at most.
const WAITING: usize = 1024;

/// What a life does next.
#[derive(Debug)]
pub(crate) enum Next {
    /// A step.
    Step(Box<Step>),
    /// It stops.
    Stop,
    /// It isn't known yet.
    Unknown,
    /// Nothing: it is over. Whether it stopped; one that left, or whose journal has no step, stops only where that is needed.
    Nothing { has_stopped: bool },
}

/// A life.
#[derive(Debug)]
pub(crate) struct Life {
    pub(crate) name: Name,
    pub(crate) path: PathBuf,
    pub(crate) is_founder: bool,
    /// The sums of the letters that it sent.
    pub(crate) sent: Sums,
    pub(crate) taken: Taken,
    pub(crate) ending: Ending,
    /// What it says of the list that follows, where that isn't compared yet.
    pub(crate) said: Option<Said>,
    /// The entry that ended its list, as long as it hasn't said so.
    pub(crate) owes: Option<u64>,
    pub(crate) next: Next,
    pub(crate) over: Over,
    /// Whether it still has to come back, after the life before it.
    pub(crate) returns: bool,
    /// Whether its journal says that it departed and ended.
    pub(crate) has_ended: bool,
    /// Whether it may still run: its journal was followed, and nobody needed its stop.
    pub(crate) may_run: bool,
    /// The line and the time of its last step.
    line: u64,
    time: u64,
    told: Receiver<Told>,
}

/// What a journal says of the list that follows, and where.
#[derive(Clone, Debug, PartialEq, Eq)]
pub(crate) struct Said {
    pub(crate) line: u64,
    pub(crate) number: u64,
    pub(crate) group: u64,
    pub(crate) founding: Founding,
}

/// How journals are read.
#[derive(Clone, Debug)]
pub(crate) struct Reading {
    pub(crate) sums: RandomState,
    pub(crate) keeps_text: bool,
}

fn replay(path: &Path, head: Head, over: Over, reading: Reading, told: &SyncSender<Told>) {
    let mut replay = match Replay::open(path, head, over, reading.sums) {
        Ok(replay) => replay.with_text(reading.keeps_text),
        Err(finding) => {
            // nobody waits for it any more if this fails; so below
            let _ = told.send(Told::Wrong(finding));
            return;
        }
    };
    loop {
        let next = replay.next();
        let goes_on = matches!(next, Told::Step(_) | Told::Next { .. });
        if told.send(next).is_err() || !goes_on {
            return;
        }
    }
}

impl Life {
    /// The life of a journal. Its lines are given to a node by a thread of its own.
    pub(crate) fn of(path: &Path, head: Head, over: Over, reading: Reading) -> Life {
        let (tell, told) = sync_channel(WAITING);
        let (name, is_founder) = (head.name, head.is_founder());
        let own = (path.to_path_buf(), over.clone());
        thread::spawn(move || replay(&own.0, head, own.1, reading, &tell));
        Life {
            name,
            path: path.to_path_buf(),
            is_founder,
            sent: Sums::default(),
            taken: Taken::default(),
            ending: Ending::default(),
            said: None,
            owes: None,
            next: Next::Unknown,
            over,
            returns: name.life() > 1,
            has_ended: false,
            may_run: false,
            line: 1,
            time: 0,
            told,
        }
    }

    /// A life without a line, that stopped before it did anything.
    pub(crate) fn idle(name: Name) -> Life {
        let (_, told) = sync_channel(0);
        Life {
            name,
            path: PathBuf::new(),
            is_founder: false,
            sent: Sums::default(),
            taken: Taken::default(),
            ending: Ending::default(),
            said: None,
            owes: None,
            next: Next::Nothing { has_stopped: false },
            over: Over::new(true),
            returns: name.life() > 1,
            has_ended: false,
            may_run: false,
            line: 0,
            time: 0,
            told,
        }
    }

    /// Looks for its next step, if that isn't known; `waits` says whether it waits for it.
    pub(crate) fn look(&mut self, waits: bool) -> Result<(), Finding> {
        if !matches!(self.next, Next::Unknown) {
            return Ok(());
        }
        let told = match self.tells(waits) {
            Some(Told::Next {
                line,
                number,
                group,
                founding,
            }) => {
                self.line = line;
                self.owes = None;
                self.said = Some(Said {
                    line,
                    number,
                    group,
                    founding,
                });
                self.tells(waits)
            }
            other => other,
        };
        self.next = match told {
            // it says twice which list follows
            Some(Told::Next { line, .. }) => {
                return Err(Finding::at(&self.path, line, Cause::NoEnd));
            }
            None => return Ok(()),
            Some(Told::Wrong(finding)) => return Err(finding),
            Some(Told::Over { has_ended }) => {
                self.has_ended = has_ended;
                if has_ended || self.may_run || self.line == 1 {
                    Next::Nothing { has_stopped: false }
                } else {
                    Next::Stop
                }
            }
            Some(Told::Step(step)) => {
                if let Some(number) = self.owes {
                    let cause = Cause::NoNext(number);
                    return Err(Finding::at(&self.path, step.line, cause));
                }
                (self.line, self.time) = (step.line, step.time);
                Next::Step(step)
            }
        };
        Ok(())
    }

    /// What its journal tells next.
    fn tells(&self, waits: bool) -> Option<Told> {
        match waits {
            true => self.told.recv().ok(),
            false => self.told.try_recv().ok(),
        }
    }

    /// When it does what it does next, as far as that is known.
    pub(crate) fn when(&self) -> Option<u64> {
        match self.next {
            Next::Unknown | Next::Nothing { .. } => None,
            Next::Step(_) | Next::Stop => Some(self.time),
        }
    }

    /// The finding that its next step has no place.
    pub(crate) fn blocked(&self, cause: Cause) -> Finding {
        Finding::at(&self.path, self.line, cause)
    }

    /// What its next step needs.
    pub(crate) fn needs(&self) -> Needs {
        match &self.next {
            Next::Step(step) => step.needs,
            _ => Needs::Nothing,
        }
    }

    /// What comes after what it did.
    pub(crate) fn goes_on(&mut self) -> Next {
        let next = match self.next {
            Next::Stop => Next::Nothing { has_stopped: true },
            Next::Nothing { has_stopped } => Next::Nothing { has_stopped },
            _ => Next::Unknown,
        };
        std::mem::replace(&mut self.next, next)
    }

    /// Whether it stopped.
    pub(crate) fn has_stopped(&self) -> bool {
        matches!(self.next, Next::Nothing { has_stopped: true })
    }

    /// Has it stop, if it is over without that.
    pub(crate) fn stop(&mut self, time: u64) {
        if matches!(self.next, Next::Nothing { has_stopped: false }) {
            self.time = self.time.max(time);
            self.next = Next::Stop;
        }
    }
}
