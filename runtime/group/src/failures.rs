//! What makes it certain that a name has stopped, as a configuration says it (docs/FAILURES.md).

use crate::config::Config;
use crate::error::CreateError;
use crate::fencing::why_no_voter;
use crate::seal::id_of;
use muoswyld::names::{Name, Names};
use muoswyld_failures as failures;
use std::path::PathBuf;
use std::time::Duration;

/// What makes it certain that a name has stopped. All members of a group are given the same one.
#[derive(Clone, Debug, PartialEq, Eq)]
#[non_exhaustive]
pub enum Policy {
    /// Somebody outside says so, by [`Group::stopped`](crate::Group::stopped).
    Told,
    /// A program that ends a process or a machine is run with the name, and ends with 0.
    Command {
        /// The program. Its one argument is the name.
        program: PathBuf,
        /// How long it may take; then it is killed, and tried again later.
        within: Duration,
    },
    /// A majority of the voters has refused it, each on its disk, and what it did since then can't go out.
    Echo,
    /// The same, and its lease is over. This rests on the rate of clocks.
    Lease {
        /// How long a lease lasts.
        length: Duration,
        /// By how many thousandths the rate of a running machine's clock may differ from real time: 0 to 999.
        drift: u64,
    },
}

/// The settings of who has stopped.
#[derive(Clone, Debug)]
pub(crate) struct FailureSettings {
    pub(crate) policy: Option<Policy>,
    pub(crate) voters: Option<Names>,
    pub(crate) state: Option<PathBuf>,
    pub(crate) period: Duration,
    pub(crate) delay: Duration,
    pub(crate) silence: Option<Duration>,
}

impl Default for FailureSettings {
    fn default() -> FailureSettings {
        FailureSettings {
            policy: None,
            voters: None,
            state: None,
            period: Duration::from_millis(100),
            delay: Duration::from_millis(50),
            silence: None,
        }
    }
}

fn micros(time: Duration) -> u64 {
    u64::try_from(time.as_micros()).unwrap_or(u64::MAX)
}

/// A name as the failures have it.
pub(crate) fn name_of(name: Name) -> failures::Name {
    failures::Name::of_byte(name.byte())
}

impl FailureSettings {
    /// The policy that is set; `echo` if none is, but voters and a folder of state are; else `told`.
    pub(crate) fn policy(&self) -> Policy {
        match (&self.policy, &self.state, self.voters) {
            (Some(policy), _, _) => policy.clone(),
            (None, Some(_), Some(_)) => Policy::Echo,
            (None, _, _) => Policy::Told,
        }
    }

    /// Whether what goes out waits for voters.
    fn votes(&self) -> bool {
        matches!(self.policy(), Policy::Echo | Policy::Lease { .. })
    }

    fn core_policy(&self) -> failures::Policy {
        match self.policy() {
            Policy::Told => failures::Policy::Told,
            Policy::Command { .. } => failures::Policy::Command,
            Policy::Echo => failures::Policy::Echo,
            Policy::Lease { length, drift } => failures::Policy::Lease(failures::Lease {
                length: micros(length),
                drift,
                granule: 1,
            }),
        }
    }
}

impl Config {
    /// The voters: the founders, where none are named.
    pub(crate) fn voting(&self) -> Names {
        self.failures.voters.unwrap_or(self.founding.founders)
    }

    pub(crate) fn check_failures(&self) -> Result<(), CreateError> {
        let founders = self.founding.founders;
        if let Some(voter) = self.voting().iter().find(|voter| !founders.has(*voter)) {
            return Err(CreateError::Voter(voter));
        }
        if self.failures.votes() && self.failures.state.is_none() {
            return Err(CreateError::NoState);
        }
        Ok(())
    }

    /// The settings of this name's process, with a random word of it.
    pub(crate) fn failure_settings(&self, process: u64) -> Result<failures::Settings, CreateError> {
        let (founding, set) = (self.founding, &self.failures);
        let policy = set.core_policy();
        let places = |names: Names| failures::places_of(names.iter().map(|name| name.place()));
        let (founders, voters) = (places(founding.founders), places(self.voting()));
        let id = match (policy, &self.list) {
            (_, Some(list)) => list.failures,
            (failures::Policy::Told, None) => [0; 16],
            (_, None) => self.failure_id(policy)?,
        };
        let name = name_of(self.name);
        let mut settings = failures::Settings::new(id, name, process, founders, policy);
        settings.voters = voters;
        settings.least = self.least.unwrap_or(settings.least);
        settings.period = micros(set.period);
        settings.delay = micros(set.delay);
        let least = settings.least_silence();
        settings.silence = set.silence.map_or(least, micros);
        if let Policy::Command { within, .. } = set.policy() {
            settings.fence_within = Some(micros(within));
        }
        Ok(settings)
    }

    /// The id of all that rests on voters: of the group's key, its founding, its voters, and whatever a refusal's safety rests on. So
    /// who is set otherwise is another one's, and counts for nothing.
    fn failure_id(&self, policy: failures::Policy) -> Result<[u8; 16], CreateError> {
        let founding = self.founding;
        let policy = match policy {
            failures::Policy::Told => "told".to_string(),
            failures::Policy::Command => "command".to_string(),
            failures::Policy::Echo => "echo".to_string(),
            failures::Policy::Lease(lease) => {
                format!("lease {} {} {}", lease.length, lease.drift, lease.granule)
            }
        };
        let text = format!(
            "{} {} {} {} {} {policy}",
            founding.founders,
            founding.resilience,
            founding.window,
            founding.pb_up_to,
            self.voting()
        );
        Ok(id_of(self.key.as_ref(), text.as_bytes())?)
    }

    /// The id, where this name's place votes.
    pub(crate) fn voter_id(&self) -> Result<Option<[u8; 16]>, CreateError> {
        let votes = self.failures.votes() && self.voting().has(self.name);
        match votes {
            true => self.failure_id(self.failures.core_policy()).map(Some),
            false => Ok(None),
        }
    }
}

/// A name that says that it is frozen, and that too few voters have refused to give it up: an operator ends its process and says that it
/// has stopped, or resets with a lower least size.
#[derive(Clone, Debug, PartialEq, Eq)]
pub struct Blocked {
    /// The name.
    pub name: Name,
    /// The places that have refused it.
    pub refused_by: Vec<u8>,
}

/// A list that has ended, and that a member serves still, for members that haven't come to its end. As long as there is one the next list isn't
/// ended.
#[derive(Clone, Debug, PartialEq, Eq)]
#[non_exhaustive]
pub struct EndedList {
    /// How many lists of the group came before it.
    pub generation: u32,
    /// The founders of the next list that haven't come to it, by their names there.
    pub awaited: Vec<Name>,
    /// For how long this member has been frozen in it, if it is.
    pub frozen_for: Option<Duration>,
    /// Its members that any voter has refused in it, as it said, and that haven't stopped.
    pub refused_members: Vec<Name>,
    /// Who is blocked in it.
    pub blocked: Vec<Blocked>,
}

/// How a member stands with who has stopped.
#[derive(Clone, Debug, PartialEq, Eq)]
#[non_exhaustive]
pub struct FailuresInfo {
    /// The policy: `told`, `command`, `echo` or `lease`.
    pub policy: &'static str,
    /// For how long it may act from now on, by its lease. Under `echo` what goes out is asked batch by batch, and this only says
    /// whether it is frozen. None if no majority has echoed yet, or the policy has no voters.
    pub may_act_for: Option<Duration>,
    /// For how long it has been frozen, if it is.
    pub frozen_for: Option<Duration>,
    /// Whom it suspects.
    pub suspects: Vec<Name>,
    /// Whom its place has refused.
    pub refused: Vec<Name>,
    /// Members that any voter has refused, as it said, and that haven't stopped. As long as there are some the list isn't ended: end their processes.
    pub refused_members: Vec<Name>,
    /// Who has stopped for certain.
    pub stopped: Vec<Name>,
    /// Whether its place votes.
    pub votes: bool,
    /// Why it doesn't, in words, if it doesn't and the policy has voters.
    pub why_no_vote: Option<&'static str>,
    /// Who is blocked.
    pub blocked: Vec<Blocked>,
    /// The lists that have ended, and that this member serves still, the earliest one first.
    pub ended_lists: Vec<EndedList>,
}

fn names(set: failures::NameSet) -> Vec<Name> {
    set.iter().map(|name| Name::of_byte(name.byte())).collect()
}

fn since(earlier: u64, later: u64) -> Duration {
    Duration::from_micros(later.saturating_sub(earlier))
}

/// Who is blocked, as a core says it.
fn blocked(info: &failures::Info) -> Vec<Blocked> {
    let blocked = info.blocked.iter().map(|blocked| Blocked {
        name: Name::of_byte(blocked.name.byte()),
        refused_by: (0..16)
            .filter(|place| blocked.refused_by >> place & 1 == 1)
            .collect(),
    });
    blocked.collect()
}

impl FailuresInfo {
    /// With the lists that have ended and are served still.
    pub(crate) fn with_ended(
        mut self,
        lists: impl Iterator<Item = muoswyld_guarded::EndedList>,
        now: u64,
    ) -> FailuresInfo {
        let ended = lists.map(|list| EndedList {
            generation: list.generation,
            awaited: list.awaited.iter().collect(),
            frozen_for: list.failures.frozen_since.map(|at| since(at.0, now)),
            refused_members: names(list.failures.refused_members),
            blocked: blocked(&list.failures),
        });
        self.ended_lists = ended.collect();
        self
    }

    /// What a core says at a time of its clock.
    pub(crate) fn of(policy: failures::Policy, info: &failures::Info, now: u64) -> FailuresInfo {
        let has_voters = matches!(policy, failures::Policy::Echo | failures::Policy::Lease(_));
        FailuresInfo {
            policy: match policy {
                failures::Policy::Told => "told",
                failures::Policy::Command => "command",
                failures::Policy::Echo => "echo",
                failures::Policy::Lease(_) => "lease",
            },
            may_act_for: info
                .may_act_until
                .filter(|_| has_voters)
                .map(|until| since(now, until.0)),
            frozen_for: info.frozen_since.map(|frozen| since(frozen.0, now)),
            suspects: names(info.suspects),
            refused: names(info.refused),
            refused_members: names(info.refused_members),
            stopped: names(info.stopped),
            votes: has_voters && info.no_voter.is_none(),
            why_no_vote: info.no_voter.filter(|_| has_voters).map(why_no_voter),
            blocked: blocked(info),
            ended_lists: Vec::new(),
        }
    }
}

#[cfg(test)]
mod tests {
    use super::*;
    use crate::seal::Key;

    fn config() -> Config {
        let founders = "0,1,2".parse().unwrap();
        Config::new("1".parse().unwrap(), founders).key(Key::of([7; 32]))
    }

    fn lease(milliseconds: u64, drift: u64) -> Policy {
        Policy::Lease {
            length: Duration::from_millis(milliseconds),
            drift,
        }
    }

    #[test]
    fn it_is_echo_with_voters_and_a_folder_and_told_without() {
        let voters: Names = "0,1,2".parse().unwrap();
        let policy = |config: Config| config.failures.policy();
        assert_eq!(policy(config()), Policy::Told);
        assert_eq!(policy(config().voters(voters)), Policy::Told);
        assert_eq!(policy(config().state("s".into())), Policy::Told);
        let both = config().voters(voters).state("s".into());
        assert_eq!(policy(both.clone()), Policy::Echo);
        assert_eq!(policy(both.policy(Policy::Told)), Policy::Told);
    }

    #[test]
    fn whatever_a_refusal_rests_on_is_in_the_id() {
        let id = |config: Config| config.failure_settings(1).unwrap().id;
        let echo = || config().policy(Policy::Echo);
        let usual = id(echo());
        assert_eq!(id(echo().heartbeat(Duration::from_millis(7))), usual);
        let others = [
            echo().key(Key::of([8; 32])),
            echo().resilience(1),
            echo().window(8),
            echo().pb_up_to(8),
            echo().voters("0".parse().unwrap()),
            config().policy(lease(500, 100)),
            config().policy(lease(501, 100)),
            config().policy(lease(500, 99)),
        ];
        let mut ids: Vec<[u8; 16]> = others.into_iter().map(id).collect();
        ids.push(usual);
        ids.sort_unstable();
        ids.dedup();
        assert_eq!(ids.len(), 9);
    }

    #[test]
    fn voters_are_founders_and_votes_want_a_folder() {
        let echo = config().policy(Policy::Echo);
        let refused = echo.check_failures().unwrap_err();
        assert!(matches!(refused, CreateError::NoState));
        let stranger = echo.clone().voters("3".parse().unwrap());
        let refused = stranger.check_failures().unwrap_err();
        assert!(matches!(refused, CreateError::Voter(voter) if voter.place() == 3));
        assert!(echo.state("s".into()).check_failures().is_ok());
    }

    #[test]
    fn a_lease_is_told_as_it_stands() {
        let policy = config().policy(lease(500, 100)).failures.core_policy();
        let settings = config()
            .policy(lease(500, 100))
            .failure_settings(1)
            .unwrap();
        // the longer one of 500 + 2 * 100 + 50 and 500 * 1.1 / 0.9 + 100, in microseconds
        assert_eq!(settings.silence, 750_000);
        let time = failures::Time(5_000_000);
        let core = failures::Failures::new(settings, None, time).unwrap();
        let mut info = core.info();
        info.may_act_until = Some(failures::Time(5_200_000));
        info.frozen_since = Some(failures::Time(4_900_000));
        let shown = FailuresInfo::of(policy, &info, 5_000_000);
        assert_eq!(shown.policy, "lease");
        assert_eq!(shown.may_act_for, Some(Duration::from_millis(200)));
        assert_eq!(shown.frozen_for, Some(Duration::from_millis(100)));
        assert!(!shown.votes && shown.why_no_vote.is_some());
        let ended = muoswyld_guarded::EndedList {
            generation: 3,
            awaited: "1,2".parse().unwrap(),
            failures: info,
        };
        let shown = shown.with_ended([ended].into_iter(), 5_300_000);
        let [list] = shown.ended_lists.as_slice() else {
            panic!("{shown:?}");
        };
        assert_eq!((list.generation, list.awaited.len()), (3, 2));
        assert_eq!(list.frozen_for, Some(Duration::from_millis(400)));
    }
}
