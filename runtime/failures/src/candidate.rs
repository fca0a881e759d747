//! Who is refused, and who is given up.
//!
//! A suspicion alone does nothing. A candidate wants a name to be refused once a majority of the voters suspects it; the voters that
//! suspect it too refuse it, on disk and for ever; and whoever hears that a majority of the voters has refused it, and that each of
//! these refusals is ripe, knows that the name has stopped. A refusal isn't taken back here, though it may turn out to be a mistake:
//! so a candidate that stops amid its attempt may leave a refusal that weakens a healthy name.

use crate::core::Failures;
use crate::event::{Notice, Output};
use crate::names::{Name, NameSet};
use crate::peers::Peer;
use crate::settings::{Plant, Policy};
use crate::time::Time;
use std::collections::BTreeMap;

/// What a candidate keeps.
#[derive(Clone, Debug, Default)]
pub(crate) struct Candidate {
    /// Whom it wants to be refused.
    pub(crate) wants: NameSet,
    /// Since when a majority suspects a name.
    since: BTreeMap<Name, Time>,
    /// When it saw last that too few members would be left.
    too_few_at: Option<Time>,
}

impl Failures {
    pub(crate) fn votes_by_word(&self) -> bool {
        matches!(self.settings.policy, Policy::Echo | Policy::Lease(_))
    }

    fn fresh(&self) -> u64 {
        2 * self.settings.period + self.settings.delay
    }

    /// The others of which a heartbeat came lately.
    pub(crate) fn fresh_peers(&self) -> impl Iterator<Item = (&Name, &Peer)> {
        let fresh = self.fresh();
        let now = self.now;
        self.peers
            .all
            .iter()
            .filter(move |(_, peer)| now.since(peer.heard_at) <= fresh)
    }

    /// Whether a majority of the voters said in their last heartbeats, which are fresh, that they suspect a name; itself too.
    pub(crate) fn is_suspected_by_majority(&self, name: Name) -> bool {
        if !self.peers.suspects.has(name) {
            return false;
        }
        let mut places = 1u16 << self.settings.name.place();
        for (other, peer) in self.fresh_peers() {
            if peer.suspects.has(name) {
                places |= 1 << other.place();
            }
        }
        let count = (places & self.settings.voters).count_ones() as usize;
        count >= self.settings.majority()
    }

    /// How many members that nobody suspects are lower than this one: so long it waits until it does what they should have done.
    pub(crate) fn rank(&self) -> u64 {
        let running = self
            .view
            .without(&self.stopped)
            .without(&self.peers.suspects);
        running
            .iter()
            .filter(|name| *name < self.settings.name)
            .count() as u64
    }

    /// Whether enough members are left without those that have stopped since the view, and without these.
    ///
    /// It is asked before an attempt and before a refusal, not before the giving up: a name that is refused and then not given up
    /// hangs for ever. Two majorities share a voter: so if one more name is too much, no two are given up.
    fn leaves_enough(&self, gone: &NameSet) -> bool {
        let left = self.view.without(&self.stopped).without(gone).len();
        left >= usize::from(self.settings.least) || self.has(Plant::NoLimit)
    }

    /// Whom others want to be refused now.
    fn wanted_by_others(&self) -> NameSet {
        let wants = self.fresh_peers().map(|(_, peer)| peer.wants);
        wants.fold(NameSet::default(), |all, wants| all.and(&wants))
    }

    /// The members that it hasn't heard lately. Without them nobody resets, so they count as gone where it is asked whether enough are
    /// left: if the network splits and no side can go on, nobody is given up in vain.
    fn unheard(&self) -> NameSet {
        let mut unheard = self.view.without(&self.stopped);
        unheard.remove(self.settings.name);
        for (name, _) in self.fresh_peers() {
            unheard.remove(*name);
        }
        unheard
    }

    /// Begins and ends attempts. A candidate is a member that may act itself and that hears from a majority of the voters that they
    /// suspect a name. The lowest one begins at once, others a while later each. An attempt ends where the name is heard again, where
    /// no majority suspects it any more; it doesn't begin where too few members would be left.
    pub(crate) fn attempt(&mut self) {
        if !self.votes_by_word() {
            return;
        }
        let may = self.frozen_since().is_none() && self.view.has(self.settings.name);
        let before = self.candidate.wants;
        let mut wants = NameSet::default();
        let mut others = NameSet::default();
        for name in self.view.without(&self.stopped).iter() {
            if !may || !self.is_suspected_by_majority(name) {
                self.candidate.since.remove(&name);
                continue;
            }
            self.candidate.since.entry(name).or_insert(self.now);
            match before.has(name) {
                true => wants.insert(name),
                false => others.insert(name),
            };
        }
        for name in others.iter() {
            if self.may_want(name, &wants) {
                wants.insert(name);
                self.note(Notice::Wants(name));
            }
        }
        self.is_urgent |= wants != before;
        self.candidate.wants = wants;
    }

    /// Whether it may begin an attempt against a name, beside those that it wants already. Where too few members would be left it waits
    /// for a while longer than that lasts: when a network is back not all are heard in the same moment.
    fn may_want(&mut self, name: Name, wants: &NameSet) -> bool {
        let one: NameSet = [name].into_iter().collect();
        let others = self.wanted_by_others().and(&self.unheard());
        if !self.leaves_enough(&wants.and(&one).and(&others)) {
            self.candidate.too_few_at = Some(self.now);
            return false;
        }
        let turn = self.rank() * 2 * self.fresh();
        let since = self.candidate.since.get(&name).copied();
        let too_few_at = self.candidate.too_few_at;
        let is_turn = since.is_some_and(|since| self.now >= since.after(turn));
        is_turn && too_few_at.is_none_or(|at| self.now >= at.after(self.fresh()))
    }

    /// Refuses, as a voter, what a candidate wants: if it suspects the name itself, and has refused few enough. It needn't be allowed
    /// to act itself, since a majority's suspicion stands behind a candidate. The refusal is for whoever wants the name: so rivals that
    /// want the same one don't split the voters.
    ///
    /// A name that says for the whole silence that it is frozen is suspected like a silent one. So what a candidate that was itself
    /// given up has left half done is done by the next one, though the name is heard.
    pub(crate) fn grant(&mut self) {
        let wanted = self.candidate.wants.and(&self.wanted_by_others());
        for name in wanted.without(&self.stopped).iter() {
            if self.peers.suspects.has(name) && self.may_refuse_one_more(name) {
                self.refuse(name);
            }
        }
    }

    /// A voter refuses at most as many names of voters' places as may fail: else a voter by itself could weaken everybody. A place of
    /// which a later life was heard counts no more. Places that don't vote don't count: their refusal takes nobody's echo away.
    fn may_refuse_one_more(&self, name: Name) -> bool {
        let Some(voter) = &self.voter else {
            return false;
        };
        let mut refused = voter.refused();
        refused.insert(name);
        if self.view.has(self.settings.name) && !self.leaves_enough(&refused) {
            return false;
        }
        let voters = self.settings.voters;
        let counts =
            |name: &Name| self.has(Plant::LimitCountsAll) || voters >> name.place() & 1 == 1;
        if !counts(&name) {
            return true;
        }
        let count = refused
            .iter()
            .filter(|other| counts(other) && !self.is_back(*other))
            .count();
        count <= (voters.count_ones() as usize).saturating_sub(1) / 2
    }

    /// Refuses a name. It is written and synced, and told after that.
    pub(crate) fn refuse(&mut self, name: Name) {
        let now = self.now;
        let Some((number, bytes)) = self.voter.as_mut().and_then(|v| v.refuse(name, now)) else {
            return;
        };
        self.note(Notice::Refuses(name));
        self.outputs.push(Output::Write { number, bytes });
    }

    /// Gives up whom a majority of the voters' places has refused, each refusal ripe. In this group only, and for ever.
    pub(crate) fn give_up(&mut self) {
        if !self.votes_by_word() {
            return;
        }
        if let Some(voter) = &self.voter {
            for name in voter.ripe(self.now, self.settings.wait()).iter() {
                let said = self.peers.ripe.entry(name).or_default();
                self.is_urgent |= said.insert(self.settings.name);
            }
        }
        let ripe: Vec<Name> = self
            .peers
            .ripe
            .iter()
            .filter(|(name, said)| self.is_given_up(**name, said))
            .map(|(name, _)| *name)
            .collect();
        for name in ripe {
            self.stop(name);
        }
    }

    fn is_given_up(&self, name: Name, said: &NameSet) -> bool {
        let voters = self.voters_in_force();
        let count = match self.has(Plant::CountsLives) {
            true => said
                .iter()
                .filter(|voter| voters >> voter.place() & 1 == 1)
                .count(),
            false => (said.places() & voters).count_ones() as usize,
        };
        let need = match self.settings.plant {
            Some(Plant::OneLess) => (self.majority_in_force() - 1).max(1),
            Some(Plant::WaitsSinceFirst) => {
                let first = self.peers.first_refusal.get(&name).copied();
                let wait = self.exact_wait();
                if first.is_none_or(|first| self.now.since(first) < wait) {
                    return false;
                }
                self.majority_in_force()
            }
            _ => self.majority_in_force(),
        };
        count >= need
    }

    fn exact_wait(&self) -> u64 {
        match self.settings.policy {
            Policy::Lease(lease) => lease.wait(),
            _ => 0,
        }
    }

    /// A name has stopped for certain. Whoever hears that of a member that knows it knows it, too.
    pub(crate) fn stop(&mut self, name: Name) {
        if name == self.settings.name {
            if !std::mem::replace(&mut self.ended, true) {
                self.outputs.push(Output::Ended);
            }
            return;
        }
        if self.stopped.insert(name) {
            self.is_urgent = true;
            self.outputs.push(Output::Stopped(name));
        }
    }

    /// A name's process has ended for certain, so it has stopped in each list in which it has a name.
    pub(crate) fn stop_by_word(&mut self, name: Name) {
        self.stop(name);
        if self.words.insert(name) {
            self.outputs.push(Output::Word(name));
        }
    }

    /// As a defect that a test plants: who is frozen and refused ends its life.
    pub(crate) fn end_if_refused(&mut self) {
        let name = self.settings.name;
        let is_refused = self.peers.all.values().any(|peer| peer.refuses.has(name));
        if self.has(Plant::EndsWhenRefused) && is_refused && self.frozen_since().is_some() {
            self.stop(name);
        }
    }
}
