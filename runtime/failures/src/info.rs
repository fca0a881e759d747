//! What an operator may want to know.

use crate::core::Failures;
use crate::event::NoVoter;
use crate::names::{Name, NameSet, Places};
use crate::settings::Policy;
use crate::time::Time;

/// A name that may not act, of which too few voters can say so: an operator ends its process, or resets with a lower `least`.
#[derive(Clone, Copy, Debug, PartialEq, Eq)]
pub struct Blocked {
    /// The name.
    pub name: Name,
    /// The places that have refused it.
    pub refused_by: Places,
}

/// How a value stands.
#[derive(Clone, Debug, PartialEq, Eq)]
pub struct Info {
    /// Up to when it may act, by its own clock; None if no time says so.
    pub may_act_until: Option<Time>,
    /// Since when it may not act.
    pub frozen_since: Option<Time>,
    /// Whom it suspects.
    pub suspects: NameSet,
    /// Whom its place has refused.
    pub refused: NameSet,
    /// Members that any voter has refused, as it said, and that haven't stopped. As long as there are some the list isn't ended.
    pub refused_members: NameSet,
    /// Who has stopped for certain.
    pub stopped: NameSet,
    /// Why its place isn't a voter, if it isn't.
    pub no_voter: Option<NoVoter>,
    /// Who is refused by some voters but not by a majority, and says that it is frozen.
    pub blocked: Vec<Blocked>,
}

impl Failures {
    /// How it stands.
    pub fn info(&self) -> Info {
        Info {
            may_act_until: self.lease_end(),
            frozen_since: self.frozen_since(),
            suspects: self.peers.suspects,
            refused: self
                .voter
                .as_ref()
                .map_or(NameSet::default(), |v| v.refused()),
            refused_members: self
                .view
                .without(&self.stopped)
                .among(&self.refused_by_any()),
            stopped: self.stopped,
            no_voter: self.no_voter,
            blocked: self.blocked(),
        }
    }

    /// Whom any voter has refused, as it said.
    fn refused_by_any(&self) -> NameSet {
        let own = self.voter.as_ref().map(|voter| voter.refused());
        let said = self.peers.all.values().map(|peer| peer.refuses);
        said.fold(own.unwrap_or_default(), |all, refuses| all.and(&refuses))
    }

    /// Whether nothing is wrong with any member of the view, as far as it is known here: each was heard lately, and none is suspected,
    /// refused, wanted to be, frozen or stopped. Where nobody sends heartbeats nothing is known.
    pub fn is_quiet(&mut self, now: Time) -> bool {
        self.now = self.now.max(now);
        if self.settings.policy == Policy::Told {
            return true;
        }
        let me = self.settings.name;
        let others = |name: &Name| *name != me;
        let fresh: NameSet = self.fresh_peers().map(|(name, _)| *name).collect();
        let is_fit = |name: Name| {
            let peer = self.peers.all.get(&name);
            fresh.has(name) && peer.is_some_and(|peer| peer.frozen_since.is_none())
        };
        let mut troubled = self.peers.suspects.and(&self.candidate.wants);
        for (_, peer) in self.fresh_peers() {
            troubled = troubled.and(&peer.suspects).and(&peer.wants);
        }
        let troubled = troubled.and(&self.refused_by_any()).and(&self.stopped);
        self.view.has(me)
            && self.frozen_since().is_none()
            && self.view.among(&troubled).is_empty()
            && self.view.iter().filter(others).all(is_fit)
    }

    /// The voters that may echo this name again, as far as it is known here: not those that have refused it, that said last that they
    /// don't vote, or whose places never serve this list again.
    fn may_echo(&self, elsewhere: Places) -> Places {
        let me = self.settings.name;
        let mut without = match self.voter {
            Some(_) => 0,
            None => 1 << me.place(),
        };
        // lives of a place stand in their order, so the latest one's word is the last
        for (name, peer) in &self.peers.all {
            let place = 1 << name.place();
            without = match peer.votes {
                true => without & !place,
                false => without | place,
            };
        }
        self.settings.voters & !(without | elsewhere | self.refused_by(me))
    }

    /// Whether too few voters are left that may echo this name again: so it can't act in this list any more. These places never serve the
    /// list again.
    pub fn is_lost(&self, elsewhere: Places) -> bool {
        let left = self.may_echo(elsewhere).count_ones() as usize;
        self.votes_by_word() && left < self.settings.majority()
    }

    /// Whether it hasn't been allowed to act for so many silences.
    pub fn is_frozen_for(&self, silences: u64) -> bool {
        let frozen = self.frozen_since().map(|since| self.now.since(since));
        frozen.is_some_and(|frozen| frozen >= silences.saturating_mul(self.settings.silence))
    }

    fn blocked(&self) -> Vec<Blocked> {
        let frozen = self.peers.all.iter().filter(|(name, peer)| {
            peer.frozen_since.is_some() && self.view.has(**name) && !self.stopped.has(**name)
        });
        let refused = frozen.map(|(name, _)| Blocked {
            name: *name,
            refused_by: self.refused_by(*name),
        });
        refused.filter(|blocked| blocked.refused_by != 0).collect()
    }

    /// The places that have refused a name, as they said last.
    fn refused_by(&self, name: Name) -> Places {
        let mut places = 0;
        for (other, peer) in &self.peers.all {
            if peer.refuses.has(name) {
                places |= 1 << other.place();
            }
        }
        if self
            .voter
            .as_ref()
            .is_some_and(|voter| voter.has_refused(name))
        {
            places |= 1 << self.settings.name.place();
        }
        places
    }
}
