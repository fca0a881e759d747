//! What others said last, and since when nothing was heard of them.
//!
//! Silence counts only while this process itself ran, and heard from a majority of the voters (itself among them). After a pause of its
//! own a process hasn't read what waits in its socket; and if it is cut off, or the whole network fails, the silence says nothing of
//! the others. In both cases all silences begin anew. It needn't be allowed to act itself: two of three voters, of which one is refused
//! by a mistake, must still be able to say that the third one is dead.

use crate::core::Failures;
use crate::event::Notice;
use crate::message::Heartbeat;
use crate::names::{Name, NameSet, Places};
use crate::settings::Plant;
use crate::time::Time;
use std::collections::BTreeMap;

/// What is known of another process.
#[derive(Clone, Debug)]
pub(crate) struct Peer {
    pub(crate) process: u64,
    pub(crate) sequence: u64,
    pub(crate) heard_at: Time,
    /// Since when it says that it may not act, as it was seen here.
    pub(crate) frozen_since: Option<Time>,
    pub(crate) says_frozen_for: Option<u64>,
    pub(crate) members: NameSet,
    pub(crate) suspects: NameSet,
    pub(crate) wants: NameSet,
    pub(crate) refuses: NameSet,
    /// Whether it said that it votes.
    pub(crate) votes: bool,
}

/// All that is known of others.
#[derive(Clone, Debug, Default)]
pub(crate) struct Peers {
    pub(crate) all: BTreeMap<Name, Peer>,
    /// Silences count from here at the earliest.
    pub(crate) since: Time,
    /// Whether a majority of the voters was heard.
    pub(crate) hears_majority: bool,
    pub(crate) suspects: NameSet,
    /// Since when a member that came later is one.
    pub(crate) came: BTreeMap<Name, Time>,
    /// When something else last said that a name runs.
    pub(crate) signs: BTreeMap<Name, Time>,
    /// Who was heard, ever, by this process or by a voter.
    pub(crate) ran: NameSet,
    /// Which voters said, ever, that their refusal of a name is ripe. Old statements are true for ever.
    pub(crate) ripe: BTreeMap<Name, NameSet>,
    /// When the first refusal of a name was heard.
    pub(crate) first_refusal: BTreeMap<Name, Time>,
    /// The greatest counter of each voter's file.
    pub(crate) counters: BTreeMap<u8, u64>,
}

impl Failures {
    /// Takes what a heartbeat says. An older one than the last one, or one of another process of the name, says nothing new.
    pub(crate) fn hear_heartbeat(&mut self, heartbeat: &Heartbeat) {
        let from = heartbeat.from;
        let known = self.peers.all.get(&from.name);
        let is_new =
            known.is_none_or(|peer| peer.process == from.process && peer.sequence < from.sequence);
        if !is_new || from.name.place() == self.settings.name.place() {
            return;
        }
        let frozen_before = known.and_then(|peer| peer.frozen_since);
        let peer = Peer {
            process: from.process,
            sequence: from.sequence,
            heard_at: self.now,
            frozen_since: heartbeat
                .frozen_for
                .map(|_| frozen_before.unwrap_or(self.now)),
            says_frozen_for: heartbeat.frozen_for,
            members: heartbeat.members,
            suspects: heartbeat.suspects,
            wants: heartbeat.wants,
            refuses: heartbeat.refuses,
            votes: heartbeat.counter.is_some(),
        };
        self.peers.all.insert(from.name, peer);
        self.peers.ran.insert(from.name);
        for heard in &heartbeat.heard {
            self.peers.ran.insert(heard.name);
        }
        for name in earlier_lives(from.name) {
            self.stop_by_word(name);
        }
        self.take_statements(heartbeat);
        self.take_counters(heartbeat);
        for name in heartbeat.words.iter() {
            self.stop_by_word(name);
        }
        for name in heartbeat.stopped.iter() {
            self.stop(name);
        }
    }

    /// Something else says that a name runs, though it isn't heard here: its heartbeat in the list before this one. It is no echo, and
    /// it counts only if the name says that it may act there.
    pub fn note_sign(&mut self, now: Time, name: Name) {
        self.now = self.now.max(now);
        self.peers.signs.insert(name, self.now);
    }

    fn take_statements(&mut self, heartbeat: &Heartbeat) {
        if heartbeat.counter.is_none() {
            return;
        }
        for name in heartbeat.refuses.iter() {
            self.peers.first_refusal.entry(name).or_insert(self.now);
        }
        for name in heartbeat.ripe.iter() {
            let said = self.peers.ripe.entry(name).or_default();
            said.insert(heartbeat.from.name);
        }
    }

    /// Others remember the greatest counter of each voter's file. A file with a lower one is an older copy: who has it forgot what it
    /// refused, and is no voter any more.
    fn take_counters(&mut self, heartbeat: &Heartbeat) {
        let own = heartbeat
            .counter
            .map(|counter| (heartbeat.from.name.place(), counter));
        for (place, counter) in heartbeat.counters.iter().copied().chain(own) {
            let known = self.peers.counters.entry(place).or_default();
            *known = (*known).max(counter);
        }
        let me = self.settings.name.place();
        let known = self.peers.counters.get(&me).copied().unwrap_or(0);
        let is_older = self
            .voter
            .as_ref()
            .is_some_and(|voter| voter.counter < known);
        if is_older && !self.has(Plant::GoesOnWithOlder) {
            self.lose_vote(crate::event::NoVoter::OldFile);
        }
    }

    /// The voters' places that were heard lately, itself among them if it is one.
    pub(crate) fn heard_voters(&self, within: u64) -> Places {
        let mut places = 1 << self.settings.name.place();
        for (name, peer) in &self.peers.all {
            if self.now.since(peer.heard_at) <= within {
                places |= 1 << name.place();
            }
        }
        places & self.settings.voters
    }

    /// Begins all silences anew where the time before says nothing.
    pub(crate) fn count_silence(&mut self, was_paused: bool) {
        let places = self.heard_voters(self.settings.silence / 2);
        let need = self.settings.majority();
        let hears = places.count_ones() as usize >= need || self.settings.voters == 0;
        let is_new = was_paused || !hears || !self.peers.hears_majority;
        if is_new && !self.has(Plant::SuspectsAfterPause) {
            self.peers.since = self.now;
        }
        self.peers.hears_majority = hears;
    }

    /// Whom it listens for: the members of its view. A place that votes and isn't a member (any more, or yet) listens for whom others
    /// say that they are members.
    pub(crate) fn watched(&self) -> NameSet {
        if self.view.has(self.settings.name) {
            return self.view;
        }
        let said = self.fresh_peers().map(|(_, peer)| peer.members);
        said.fold(NameSet::default(), |all, members| all.and(&members))
    }

    /// Whom it suspects now: who isn't heard, or says that it may not act, for the whole silence. A member that hears no majority but is
    /// heard by all would hold the group up for ever, so frozen counts as silent. It counts from when it was first seen here: after a
    /// failure of the whole network everybody truly says that it was frozen for long.
    pub(crate) fn suspect(&mut self) {
        let mut suspects = NameSet::default();
        for name in self.watched().without(&self.stopped).iter() {
            if name != self.settings.name && self.is_silent(name) {
                suspects.insert(name);
            }
        }
        let before = self.peers.suspects;
        let gone = suspects.without(&before);
        let back = before.without(&suspects).without(&self.stopped);
        let gone = gone.iter().map(Notice::Suspects);
        let back = back.iter().map(Notice::Hears);
        let notices: Vec<Notice> = gone.chain(back).collect();
        self.is_urgent |= !notices.is_empty();
        for notice in notices {
            self.note(notice);
        }
        self.peers.suspects = suspects;
    }

    /// Whether a founder hasn't begun yet, as far as a founder knows that has been there from the beginning.
    fn is_awaited(&self, name: Name) -> bool {
        let founders = self.settings.members;
        self.settings.awaits_founders
            && founders.has(self.settings.name)
            && founders.has(name)
            && !self.peers.ran.has(name)
    }

    fn is_silent(&self, name: Name) -> bool {
        if self.is_awaited(name) {
            return false;
        }
        let silence = self.settings.silence;
        let came = self.peers.came.get(&name).copied();
        let sign = self.peers.signs.get(&name).copied();
        let since = self.peers.since.max(came.unwrap_or_default());
        let peer = self.peers.all.get(&name);
        let heard_at = peer.map_or(since, |peer| peer.heard_at.max(since));
        let heard_at = heard_at.max(sign.unwrap_or_default());
        if self.now.since(heard_at) >= silence {
            return true;
        }
        if self.has(Plant::FrozenByItsWord) {
            return peer.is_some_and(|peer| peer.says_frozen_for >= Some(silence));
        }
        peer.and_then(|peer| peer.frozen_since)
            .is_some_and(|frozen| self.now.since(frozen.max(since)) >= silence)
    }

    /// Whether the latest word of a name's place is from a later life.
    pub(crate) fn is_back(&self, name: Name) -> bool {
        let is_later = |other: &Name| other.place() == name.place() && *other > name;
        self.peers.all.keys().any(is_later)
    }
}

/// The earlier lives of a name. They have ended: a place's next process holds the lock that each of them held.
pub(crate) fn earlier_lives(name: Name) -> impl Iterator<Item = Name> {
    (1..name.life()).map(move |life| Name::of_byte(name.place() + 16 * (life - 1)))
}
