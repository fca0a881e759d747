//! What a member tells of itself, and of the others that it hears.

use crate::event::{Info, Notice};
use crate::member::Member;
use muoswyld::answer::Role;
use muoswyld::names::{Name, Names, PLACES};

impl Member {
    /// How the member stands.
    pub fn info(&self) -> Info {
        Info {
            name: self.me(),
            generation: self.settings.generation,
            founding: self.settings.founding,
            group: self.hearing.group,
            standing: self.standing,
            unsettled: self.sending.unsettled(),
            waiting: self.sending.queue.waiting(),
            held: self.contents.held.len(),
            silent: self.silent(),
            slow: self.slow(),
            stopped: self.stopped.latest(),
            round_trip: self.timers.round_trip.smooth(),
            leaves: self.leaving.is_wanted(),
            ended: self.ended,
            counts: self.counts,
        }
    }

    /// The members that this one hears regularly: all others, at a sequencer or coordinator; else the sequencer.
    pub(crate) fn heard_regularly(&self) -> Names {
        let standing = &self.standing;
        let others = standing.members.without(self.me());
        match standing.role {
            Role::Sequencer | Role::Coordinator => others,
            Role::Member if others.has(standing.view.name) => {
                Names::nobody().with(standing.view.name)
            }
            _ => Names::nobody(),
        }
    }

    fn is_silent_for(&self, name: Name, micros: u64) -> bool {
        let heard = self.hearing.heard[usize::from(name.place())];
        self.now.since(heard) > micros
    }

    /// Members that nothing was heard of for a while.
    pub(crate) fn silent(&self) -> Names {
        let after = self.settings.silent_after;
        self.heard_regularly()
            .iter()
            .filter(|name| self.is_silent_for(*name, after))
            .collect()
    }

    /// Whether all that are heard regularly were heard in the last while.
    pub(crate) fn hears_all(&self) -> bool {
        let after = self.settings.stuck_after / 2;
        let names = self.heard_regularly();
        names.iter().all(|name| !self.is_silent_for(name, after))
    }

    /// Tells once who is silent.
    pub(crate) fn look_for_silence(&mut self) {
        for name in self.silent().iter() {
            let place = usize::from(name.place());
            if !std::mem::replace(&mut self.hearing.silent[place], true) {
                self.tell(Notice::Silent(name));
                self.suspect(name);
            }
        }
    }

    /// Tells once who is slow, if the window has stood for a while.
    pub(crate) fn look_for_slow(&mut self) {
        let stood = self.now.since(self.timers.stands_since) > self.settings.silent_after;
        let slow = self.slow();
        for place in 0..PLACES {
            let told = &mut self.timers.slow[usize::from(place)];
            match slow.at(place) {
                Some(name) if stood && !*told => {
                    *told = true;
                    self.tell(Notice::Slow(name));
                }
                Some(_) => {}
                None => *told = false,
            }
        }
        self.look_for_full(stood);
    }

    /// Tells once that the sequencer has no room for an own send, if the window has stood for a while.
    fn look_for_full(&mut self, stood: bool) {
        let is_full = self.standing.role == Role::Member && self.sending.put_off;
        let was_told = self.timers.full;
        self.timers.full = is_full && (stood || was_told);
        if self.timers.full && !was_told {
            self.tell(Notice::Full(self.standing.view.name));
        }
    }

    /// At the sequencer, with half of the window used, where it puts its own sends off: the members that have taken no more than what everybody has.
    fn slow(&self) -> Names {
        let standing = &self.standing;
        let used = 2 * u64::from(standing.top.saturating_sub(standing.base));
        if standing.role != Role::Sequencer || used < u64::from(self.settings.founding.window) {
            return Names::nobody();
        }
        let others = standing.members.without(self.me());
        let taken = |name: &Name| self.timers.taken[usize::from(name.place())];
        let own = standing.taken <= standing.base;
        let slow = others.iter().filter(|name| taken(name) <= standing.base);
        slow.chain(own.then_some(self.me())).collect()
    }
}
