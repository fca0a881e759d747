//! Who has stopped: the settings that say it, and the folder of state.

use crate::exit::{Fault, CONFIG, SYSTEM, TRY_AGAIN};
use crate::key;
use crate::options::{resolve, Run};
use clap::ValueEnum;
use muoswyld_group::{latest_life, Config, Facts, Group, NextLife, Policy, StateError};
use serde::Deserialize;
use std::io::ErrorKind;
use std::net::SocketAddr;
use std::time::Duration;

/// How long a program that ends a name may take where nothing else is said.
const FENCE_WITHIN: u64 = 30;
/// How many milliseconds a lease lasts where nothing else is said.
const LEASE: u64 = 1_000;
/// By how many thousandths the rate of a clock may be off where nothing else is said.
const DRIFT: u64 = 100;

/// How long a member asks at its seeds where nothing is said.
const ASK_WITHIN: u64 = 10;
/// How long a place that comes back waits for an answer of the others: which list is the latest.
const PEERS_WITHIN: Duration = Duration::from_secs(2);

/// A setting isn't said.
pub(crate) fn missing(what: &str) -> Fault {
    Fault::of(
        CONFIG,
        format_args!("--{what} isn't said: --help says more"),
    )
}

/// What makes it certain that a name has stopped.
#[derive(Clone, Copy, Debug, PartialEq, Eq, ValueEnum, Deserialize)]
#[serde(rename_all = "lowercase")]
pub enum By {
    /// Somebody says so, by `muoswyldd stopped`
    Told,
    /// A program is run with the name, and ends with 0
    Command,
    /// A majority of the voters has refused it, and what it did since can't go out
    Echo,
    /// The same, and its lease is over: this rests on the rate of clocks
    Lease,
}

impl Run {
    /// What members say of their group: those at the seeds if there are some and the founders aren't said; else, for a place that comes back,
    /// those at the other addresses, if one of them answers soon. None if nobody is asked, or nobody has to answer and nobody does.
    pub(crate) fn asked(&self) -> Result<Option<Facts>, Fault> {
        if self.seed.is_empty() || self.founders.is_some() {
            return self.asked_of_peers();
        }
        let seeds: Result<Vec<_>, _> = self.seed.iter().map(|text| resolve(text)).collect();
        let most = Duration::from_secs(self.start_within.unwrap_or(ASK_WITHIN));
        self.ask(&seeds?, most)?
            .map(Some)
            .map_err(|error| match error.kind() {
                ErrorKind::TimedOut => Fault::of(TRY_AGAIN, error),
                ErrorKind::InvalidData => Fault::of(CONFIG, error),
                _ => Fault::of(SYSTEM, error),
            })
    }

    /// What the other members say, for a place that comes back: they may know a later list than its folder.
    fn asked_of_peers(&self) -> Result<Option<Facts>, Fault> {
        let (Some(name), Some(folder), true) = (self.name, &self.state, self.next_life) else {
            return Ok(None);
        };
        let own = muoswyld_group::next_life(folder, name.place());
        match own {
            // the group is about to be founded
            Ok((next, None)) if next.life() == 1 => return Ok(None),
            Ok(_) | Err(StateError::Begun { .. }) => {}
            // it is told where the folder is taken
            Err(_) => return Ok(None),
        }
        let others = self
            .address
            .iter()
            .filter(|(place, _)| *place != name.place());
        let others: Result<Vec<_>, _> = others.map(|(_, text)| resolve(text)).collect();
        match self.ask(&others?, PEERS_WITHIN)? {
            Ok(facts) => Ok(Some(facts)),
            Err(error) if error.kind() == ErrorKind::TimedOut => Ok(None),
            Err(error) if error.kind() == ErrorKind::InvalidData => Err(Fault::of(CONFIG, error)),
            Err(error) => Err(Fault::of(SYSTEM, error)),
        }
    }

    /// Asks members at some addresses how their group was founded.
    fn ask(&self, seeds: &[SocketAddr], most: Duration) -> Result<std::io::Result<Facts>, Fault> {
        let name = self.name.ok_or_else(|| missing("name"))?;
        let own = self
            .address
            .iter()
            .find(|(place, _)| *place == name.place());
        let own = match (self.bind, own) {
            (Some(bind), _) => bind,
            (None, Some((_, text))) => resolve(text)?,
            (None, None) => return Err(missing("address")),
        };
        let key = match (&self.key, self.insecure) {
            (Some(path), _) => Some(key::read(path)?),
            (None, true) => None,
            (None, false) => return Err(missing("key")),
        };
        Ok(Facts::ask(seeds, (name.place(), own), key.as_ref(), most))
    }

    /// The name that is said, or the next life of its place that was never begun, and the list in which it begins: as the folder of state
    /// says, and what members know.
    pub(crate) fn name_to_run(&self, facts: Option<&Facts>) -> Result<NextLife, Fault> {
        let name = self.name.ok_or_else(|| missing("name"))?;
        if !self.next_life {
            return Ok((name, facts.and_then(|facts| facts.later)));
        }
        let folder = self.state.as_ref();
        let folder = folder.ok_or_else(|| Fault::of(CONFIG, "--next-life wants --state, too"))?;
        let own = muoswyld_group::next_life(folder, name.place());
        latest_life(own, facts).map_err(|error| Fault::of(CONFIG, error))
    }

    /// With what is said of who has stopped.
    pub(crate) fn failing(
        &self,
        mut config: Config,
        facts: Option<&Facts>,
    ) -> Result<Config, Fault> {
        let fences = facts.is_some_and(|it| matches!(it.policy, Policy::Command { .. }));
        if fences && self.failures.is_none() {
            let line = "the group's policy is command: say --failures command and --fence";
            return Err(Fault::of(CONFIG, line));
        }
        let milliseconds = |time: u64| Duration::from_millis(time.max(1));
        if let Some(by) = self.failures {
            config = config.policy(self.policy(by)?);
        }
        if let Some(voters) = self.voters {
            config = config.voters(voters);
        }
        if let Some(folder) = &self.state {
            config = config.state(folder.clone());
        }
        if let Some(every) = self.heartbeat {
            config = config.heartbeat(milliseconds(every));
        }
        if let Some(delay) = self.delay {
            config = config.delay(milliseconds(delay));
        }
        if let Some(silence) = self.silence {
            config = config.silence(milliseconds(silence));
        }
        Ok(config)
    }

    fn policy(&self, by: By) -> Result<Policy, Fault> {
        let only = |is_said: bool, word: &str, of: By| match is_said && by != of {
            true => Err(Fault::of(
                CONFIG,
                format_args!("--{word} is for another --failures"),
            )),
            false => Ok(()),
        };
        let fences = self.fence.is_some() || self.fence_within.is_some();
        only(fences, "fence", By::Command)?;
        only(self.lease.is_some(), "lease", By::Lease)?;
        only(self.drift.is_some(), "drift", By::Lease)?;
        Ok(match by {
            By::Told => Policy::Told,
            By::Echo => Policy::Echo,
            By::Lease => Policy::Lease {
                length: Duration::from_millis(self.lease.unwrap_or(LEASE)),
                drift: self.drift.unwrap_or(DRIFT),
            },
            By::Command => Policy::Command {
                program: self
                    .fence
                    .clone()
                    .ok_or_else(|| Fault::of(CONFIG, "--failures command wants --fence, too"))?,
                within: Duration::from_secs(self.fence_within.unwrap_or(FENCE_WITHIN)),
            },
        })
    }
}

/// Makes a place's folder of state.
pub fn found(words: Run) -> Result<(), Fault> {
    make_state(&words.with_file()?)
}

/// Makes a place's folder of state by settings.
pub fn make_state(run: &Run) -> Result<(), Fault> {
    if run.next_life {
        let line = "--next-life is for a folder of state that is there";
        return Err(Fault::of(CONFIG, line));
    }
    Ok(Group::found(&run.group()?)?)
}
