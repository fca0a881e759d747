//! Resets: who has stopped is given up, and the group goes on without it.
//!
//! A name is given up only once it was told that it has stopped. Then the lowest running member resets the group, and the next ones
//! later, if that comes to nothing. What tells so is a policy; there is this one only.

use crate::config::{Plant, Time};
use crate::event::{HandleError, NotReset, Notice, Output};
use crate::member::Member;
use crate::packet::round_of;
use muoswyld::answer::{Outcome, Role};
use muoswyld::event::Event;
use muoswyld::names::{Name, Names};

/// How often the wait for the reset of a lower member is doubled at most.
const MOST_DOUBLINGS: u32 = 5;

/// The ballot that this member began last.
#[derive(Clone, Copy, Debug)]
struct Ballot {
    ticket: Option<u64>,
    /// Its round, once an Invite said it.
    round: Option<u32>,
}

/// What a member keeps of its resets.
#[derive(Debug, Default)]
pub(crate) struct Resetting {
    ballot: Option<Ballot>,
    /// From whom the ballot fetches.
    fetches_from: Option<Name>,
    /// Before this time it doesn't reset by itself.
    patience: Time,
    /// How many ballots it began by itself since the last view.
    ballots: u32,
    /// To how many coordinators it gave its vote while it asked to join, to which the last one, and when.
    votes: u32,
    voted_for: Option<(u32, u8)>,
    voted_at: Time,
    /// How often it reset since nothing went on.
    stuck: u32,
    was_too_few: bool,
    was_beyond: bool,
}

impl Member {
    /// Remembers who has stopped.
    pub(crate) fn told_stopped(&mut self, name: Name) -> Result<(), HandleError> {
        if name == self.me() {
            return Err(HandleError::Itself);
        }
        self.remember_stopped(name);
        Ok(())
    }

    fn remember_stopped(&mut self, name: Name) {
        if !self.stopped.insert(name) {
            return;
        }
        let members = self.standing.members;
        let count = self.stopped.among(members).len();
        if count > usize::from(self.standing.resilience) && !self.resetting.was_beyond {
            self.resetting.was_beyond = true;
            self.tell(Notice::BeyondResilience(count));
        }
        self.wait_for_lower(self.rank());
    }

    /// Waits for the reset of so many others. Where letters take long, a member hears of another's ballot only after it began its own, and
    /// ballots overtake each other. So the wait for each is a round trip at least, and doubles with each own ballot since the last view.
    fn wait_for_lower(&mut self, others: usize) {
        let step = self.settings.reset_step;
        let first = step.max(self.timers.round_trip.smooth().unwrap_or(0));
        let most = Time::doubled(step, MOST_DOUBLINGS);
        let each = Time::doubled(first, self.resetting.ballots).min(most);
        let until = self.now.after(each.saturating_mul(others as u64));
        self.resetting.patience = self.resetting.patience.max(until);
    }

    /// A view began.
    pub(crate) fn new_view(&mut self) {
        self.resetting.ballots = 0;
    }

    /// The members that haven't stopped.
    pub(crate) fn running(&self) -> Names {
        let members = self.standing.members;
        members
            .iter()
            .filter(|name| !self.stopped.has(*name))
            .collect()
    }

    /// How many running members are lower than this one.
    fn rank(&self) -> usize {
        self.running().iter().take_while(|n| *n < self.me()).count()
    }

    /// A majority of the members, or what the settings say.
    fn least(&self) -> u8 {
        let majority = self.standing.members.len() / 2 + 1;
        self.settings.least.unwrap_or(majority.min(16) as u8)
    }

    /// Resets as it was asked to.
    pub(crate) fn asked_to_reset(
        &mut self,
        ticket: u64,
        least: Option<u8>,
        resilience: Option<u8>,
    ) -> Result<(), HandleError> {
        let least = least.unwrap_or(self.least());
        let resilience = resilience.unwrap_or(self.standing.resilience);
        if !(1..=16).contains(&least) || resilience > 15 {
            return Err(HandleError::OutOfRange);
        }
        if !self.is_member() {
            return Err(HandleError::NotMember);
        }
        if self.leaving.is_asked() {
            return Err(HandleError::LeavingNoReset);
        }
        let _ = self.reset(Some(ticket), least, resilience);
        Ok(())
    }

    /// Begins a ballot, which overtakes one that is under way.
    fn reset(&mut self, ticket: Option<u64>, least: u8, resilience: u8) -> Option<()> {
        self.ballot_came_to(Err(NotReset::Overtaken));
        let round = None;
        self.resetting.ballot = Some(Ballot { ticket, round });
        let outcome = self.step(&Event::Reset { least, resilience }, None)?;
        match outcome {
            Outcome::Waiting { .. } | Outcome::Fetching { .. } => {}
            other => self.ballot_came_to(result_of(&other)),
        }
        Some(())
    }

    /// An Invite of this member goes out.
    pub(crate) fn invited(&mut self, packet: &[u8]) {
        if let Some(ballot) = &mut self.resetting.ballot {
            ballot.round = ballot.round.or(round_of(packet));
        }
    }

    /// Looks from whom a ballot fetches.
    pub(crate) fn note_ballot(&mut self, outcome: &Outcome) {
        match outcome {
            Outcome::Fetching { from, .. } => self.resetting.fetches_from = Some(*from),
            Outcome::Waiting { .. } => self.resetting.fetches_from = None,
            _ if self.standing.role != Role::Coordinator => self.resetting.fetches_from = None,
            _ => {}
        }
    }

    fn ballot_came_to(&mut self, result: Result<u32, NotReset>) {
        let Some(ballot) = self.resetting.ballot.take() else {
            return;
        };
        if let Err(cause) = result {
            self.tell(Notice::NotReset(cause));
        }
        if let Some(ticket) = ballot.ticket {
            self.give(Output::ResetDone { ticket, result });
        }
    }

    /// Ends what is under way, since the member ends.
    pub(crate) fn end_reset(&mut self) {
        self.ballot_came_to(Err(NotReset::NotMember));
    }

    /// Gives up who has stopped and is waited for, and looks whether the last ballot is over.
    pub(crate) fn look_at_ballot(&mut self) -> Option<()> {
        while self.standing.role == Role::Coordinator {
            let waits_for = self.stopped.among(self.standing.waits_for).iter().next();
            let fetches = self.resetting.fetches_from;
            let fetches = fetches.filter(|name| self.stopped.has(*name));
            let Some(name) = waits_for.or(fetches) else {
                return Some(());
            };
            self.resetting.fetches_from = None;
            self.step(&Event::GiveUp(name), None)?;
        }
        match self.resetting.ballot {
            Some(Ballot {
                round: Some(round), ..
            }) => {
                let outcome = self.step(&Event::Ask(round), None)?;
                self.ballot_came_to(result_of(&outcome));
            }
            Some(_) => self.ballot_came_to(Err(NotReset::Overtaken)),
            None => {}
        }
        Some(())
    }

    /// It voted for another coordinator, which is given time.
    pub(crate) fn voted(&mut self, stamp: Option<(u32, u8)>) {
        self.wait_for_lower(1 + self.rank());
        self.timers.stands_since = self.now;
        let resetting = &mut self.resetting;
        if self.standing.role == Role::Asking && resetting.voted_for != stamp {
            resetting.voted_for = stamp;
            resetting.voted_at = self.now;
            resetting.votes = resetting.votes.saturating_add(1);
        }
    }

    /// Whether a stopped name is a member, so that this member is to reset.
    fn is_reset_wanted(&self) -> bool {
        self.is_member()
            && self.standing.role != Role::Coordinator
            && !self.leaving.is_asked()
            && self.running() != self.standing.members
    }

    /// Whether what is expected doesn't come: an own body, the acceptance of what the sequencer numbered, or a view. A send that the
    /// sequencer has no room for waits for a slow member, and for nothing that a reset brings.
    fn is_waiting(&self) -> bool {
        let own = self.sending.under_way.is_some() && !self.sending.put_off;
        let unaccepted = self.standing.accepted < self.standing.top;
        self.is_member() && self.standing.role != Role::Coordinator && (own || unaccepted)
    }

    /// When this member resets because nothing goes on, if it still is so then.
    fn stuck_at(&self) -> Time {
        if !self.is_waiting() || self.leaving.is_asked() {
            return Time::NEVER;
        }
        let trips = self
            .timers
            .round_trip
            .smooth()
            .unwrap_or(0)
            .saturating_mul(4);
        let wait = self.settings.stuck_after.max(trips);
        let wait = Time::doubled(wait, self.resetting.stuck.min(6));
        let wait = wait.saturating_mul(1 + self.rank() as u64);
        let since = match &self.sending.under_way {
            Some(own) => own.began.max(self.timers.stands_since),
            None => self.timers.stands_since,
        };
        since.after(wait).max(self.resetting.patience)
    }

    /// When an asker ends that stays unwelcomed after it gave its vote to resets: later after one alone.
    fn unwelcomed_at(&self) -> Time {
        let wait = self.settings.stuck_after;
        let wait = match self.resetting.votes {
            _ if self.standing.role != Role::Asking => return Time::NEVER,
            0 => return Time::NEVER,
            1 => wait.saturating_mul(4),
            _ => wait,
        };
        self.resetting.voted_at.after(wait)
    }

    /// When this member has to look at the group.
    pub(crate) fn resets_at(&self) -> Time {
        let stopped = match self.is_reset_wanted() && self.may_reset() {
            true => self.resetting.patience.max(self.now),
            false => Time::NEVER,
        };
        let stuck = match self.hears_all() {
            true => self.stuck_at(),
            false => Time::NEVER,
        };
        let unwelcomed = self.unwelcomed_at().min(self.unconfirmed_at());
        stopped.min(stuck).min(unwelcomed)
    }

    fn may_reset(&self) -> bool {
        self.running().len() >= usize::from(self.least())
    }

    /// Looks whether the group goes on without this member, or is to be reset by it.
    pub(crate) fn look_at_group(&mut self) -> Option<()> {
        self.look_whether_left_out()?;
        if self.now >= self.unwelcomed_at().min(self.unconfirmed_at()) {
            self.end(crate::event::End::Unwelcomed);
            return None;
        }
        if self.is_reset_wanted() {
            return self.reset_without_stopped();
        }
        self.resetting.was_too_few = false;
        if self.now >= self.stuck_at() && self.hears_all() {
            self.tell(Notice::ResetsStuck);
            self.resetting.stuck = self.resetting.stuck.saturating_add(1);
            return self.reset_by_itself();
        }
        Some(())
    }

    fn reset_without_stopped(&mut self) -> Option<()> {
        if !self.may_reset() {
            let running = self.running().len();
            let least = self.least();
            if !std::mem::replace(&mut self.resetting.was_too_few, true) {
                self.tell(Notice::TooFew { running, least });
            }
            return Some(());
        }
        if self.now < self.resetting.patience {
            return Some(());
        }
        self.tell(Notice::Resets);
        self.reset_by_itself()
    }

    fn reset_by_itself(&mut self) -> Option<()> {
        self.resetting.ballots = self.resetting.ballots.saturating_add(1);
        self.resetting.patience = self.now;
        self.wait_for_lower(1 + self.rank());
        self.timers.stands_since = self.now;
        self.counts.resets += 1;
        self.reset(None, self.least(), self.standing.resilience)
    }

    /// As a defect that a test plants: who is silent counts as stopped.
    pub(crate) fn suspect(&mut self, name: Name) {
        if self.has(Plant::GivesUpSilent) {
            self.remember_stopped(name);
        }
    }
}

fn result_of(outcome: &Outcome) -> Result<u32, NotReset> {
    match outcome {
        Outcome::Decided { number, .. } => Ok(*number),
        Outcome::TooFew { got, least } => Err(NotReset::TooFew {
            got: *got,
            least: *least,
        }),
        Outcome::Crowded { .. } => Err(NotReset::Crowded),
        Outcome::NotIn { .. } => Err(NotReset::NotIn),
        Outcome::NotMember | Outcome::Leaving => Err(NotReset::NotMember),
        _ => Err(NotReset::Overtaken),
    }
}
