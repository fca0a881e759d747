//! The value: what it keeps, and the calls that move it.

use crate::candidate::Candidate;
use crate::echoes::Echoes;
use crate::event::{Input, NoVoter, Notice, Output};
use crate::fences::Fences;
use crate::gate::Gate;
use crate::message::{Echo, Heard, Heartbeat, Message};
use crate::names::{Name, NameSet};
use crate::peers::Peers;
use crate::settings::{Plant, Policy, Settings, StartError};
use crate::time::Time;
use crate::voter::Voter;

/// Who has stopped, and whether this process may let out what it does.
#[derive(Clone, Debug)]
pub struct Failures {
    pub(crate) settings: Settings,
    pub(crate) now: Time,
    pub(crate) view: NameSet,
    pub(crate) stopped: NameSet,
    /// Of which names it is known that their processes have ended.
    pub(crate) words: NameSet,
    pub(crate) voter: Option<Voter>,
    pub(crate) no_voter: Option<NoVoter>,
    pub(crate) echoes: Echoes,
    pub(crate) peers: Peers,
    pub(crate) candidate: Candidate,
    pub(crate) fences: Fences,
    pub(crate) gate: Gate,
    pub(crate) outputs: Vec<Output>,
    pub(crate) is_urgent: bool,
    pub(crate) ended: bool,
    pub(crate) was_frozen: bool,
    other_ids: NameSet,
    started: Time,
    next_heartbeat: Time,
    promised: Time,
}

impl Failures {
    /// A value at its process's beginning, with the bytes of its place's voter file, if there is one.
    ///
    /// The caller holds a lock on the folder of that file for its whole life, on a local disk: so no other process of the place
    /// answers. And it has noted on disk that this life was begun: so it is never begun again.
    pub fn new(settings: Settings, file: Option<&[u8]>, now: Time) -> Result<Failures, StartError> {
        settings.check()?;
        let (voter, no_voter) = match Voter::new(&settings, file, now) {
            Ok(voter) => (Some(voter), None),
            Err(cause) => (None, Some(cause)),
        };
        Ok(Failures {
            now,
            view: settings.members,
            stopped: NameSet::default(),
            words: NameSet::default(),
            voter,
            no_voter,
            echoes: Echoes::new(&settings),
            peers: Peers {
                since: now,
                ..Peers::default()
            },
            candidate: Candidate::default(),
            fences: Fences::default(),
            gate: Gate::Open,
            outputs: Vec::new(),
            is_urgent: false,
            ended: false,
            was_frozen: false,
            other_ids: NameSet::default(),
            started: now,
            next_heartbeat: now,
            promised: now,
            settings,
        })
    }

    /// Takes what happened. The time was read after it did: with a datagram, after it was received. What is to be done is given out
    /// by [`take`](Failures::take).
    pub fn handle(&mut self, now: Time, input: Input<'_>) {
        self.now = self.now.max(now);
        if self.ended {
            return;
        }
        let was_paused = self.now > self.promised.after(self.settings.period);
        match input {
            Input::Datagram(bytes) => self.hear(bytes),
            Input::Written(number) => {
                if let Some(voter) = &mut self.voter {
                    voter.is_written(number);
                }
                self.is_urgent = true;
            }
            Input::NotWritten => self.lose_vote(NoVoter::NotWritten),
            Input::Told(name) => self.stop_by_word(name),
            Input::Fenced { name, done } => self.fenced(name, done),
            Input::View { members, least } => self.view_stands(members, least),
            Input::Time => {}
        }
        self.go_on(was_paused);
    }

    /// A name has run: something else than a message of this crate came of it. A founder that never ran isn't suspected.
    pub fn note_ran(&mut self, name: Name) {
        self.peers.ran.insert(name);
    }

    /// What is to be done, in this order.
    pub fn take(&mut self) -> Vec<Output> {
        std::mem::take(&mut self.outputs)
    }

    /// When it wants [`Input::Time`] at the latest.
    pub fn wake(&self) -> Time {
        if self.ended || self.settings.policy == Policy::Told {
            return Time::NEVER;
        }
        let wait = self.settings.wait();
        let ripe = self
            .voter
            .as_ref()
            .map_or(Time::NEVER, |voter| voter.next_ripe(self.now, wait));
        self.next_heartbeat.min(ripe)
    }

    /// What it was told at the start.
    pub fn settings(&self) -> &Settings {
        &self.settings
    }

    /// Of which names it is known that their processes have ended.
    pub fn words(&self) -> NameSet {
        self.words
    }

    /// The list has ended here: others may be silent in it since they have closed it, so nobody is fenced for that.
    pub fn note_list_ended(&mut self) {
        self.fences.is_off = true;
    }

    /// Its name.
    pub fn name(&self) -> Name {
        self.settings.name
    }

    /// What makes it certain that a name has stopped.
    pub fn policy(&self) -> Policy {
        self.settings.policy
    }

    /// Whether this life was given up.
    pub fn is_ended(&self) -> bool {
        self.ended
    }

    pub(crate) fn has(&self, plant: Plant) -> bool {
        self.settings.plant == Some(plant)
    }

    pub(crate) fn note(&mut self, notice: Notice) {
        self.outputs.push(Output::Notice(notice));
    }

    /// What is of another id, and what is no message, is dropped.
    fn hear(&mut self, bytes: &[u8]) {
        match Message::read(bytes) {
            Some(Message::Heartbeat(heartbeat)) if heartbeat.id == self.settings.id => {
                self.answer(&heartbeat);
                self.hear_heartbeat(&heartbeat);
                for heard in &heartbeat.heard {
                    self.echoes.hear(heartbeat.from.name, *heard, self.now);
                }
            }
            Some(Message::Echo(echo)) if echo.id == self.settings.id => {
                self.echoes.hear(echo.voter, echo.heard, self.now);
            }
            Some(Message::Heartbeat(heartbeat)) => {
                self.hear_of_another(&heartbeat);
            }
            Some(Message::Closed { id, to }) if self.is_closed_for(id, to) => self.stop(to),
            Some(Message::Echo(echo)) if self.has(Plant::EchoOfAnyList) => {
                self.echo_of_another(echo.voter, echo.heard);
            }
            _ => {}
        }
    }

    /// Whether its list is closed, and this process hasn't come to its end.
    fn is_closed_for(&self, id: [u8; 16], to: Name) -> bool {
        id == self.settings.id && to == self.settings.name
    }

    /// What has another id counts for nothing. It is told once of each name, but not of a place that also speaks with this id: the group's
    /// lists have different ones.
    fn hear_of_another(&mut self, heartbeat: &Heartbeat) {
        let name = heartbeat.from.name;
        if self.has(Plant::EchoOfAnyList) {
            for heard in &heartbeat.heard {
                self.echo_of_another(name, *heard);
            }
        }
        let is_known = self
            .fresh_peers()
            .any(|(peer, _)| peer.place() == name.place());
        if !is_known && self.other_ids.insert(name) {
            self.note(Notice::OtherId(name));
        }
    }

    /// As a defect that a test plants: an echo of another list is one of the latest heartbeat of this one.
    fn echo_of_another(&mut self, voter: Name, heard: Heard) {
        if heard.name.place() == self.settings.name.place() {
            let latest = self.echoes.latest();
            self.echoes.hear(voter, latest, self.now);
        }
    }

    /// Echoes a heartbeat, as a voter: at once if it asks.
    fn answer(&mut self, heartbeat: &Heartbeat) {
        let Some(voter) = &mut self.voter else {
            return;
        };
        let from = heartbeat.from;
        let is_echoed = voter.hear(from, self.now);
        if is_echoed && heartbeat.asks && from.name.place() != self.settings.name.place() {
            let echo = Message::Echo(Echo {
                id: self.settings.id,
                voter: self.settings.name,
                counter: voter.counter,
                heard: from,
            });
            self.outputs.push(Output::Send {
                to: 1 << from.name.place(),
                payload: echo.to_bytes(),
            });
        }
    }

    /// A view stands from now on, or a member came or went. If this name came all silences begin anew; else only those of who came: a
    /// place that comes and goes again and again mustn't hide that another one is silent.
    fn view_stands(&mut self, members: NameSet, least: u8) {
        let before = std::mem::replace(&mut self.view, members);
        self.settings.least = least;
        let came = members.without(&before);
        for name in came.iter() {
            self.peers.came.insert(name, self.now);
        }
        self.candidate = Candidate::default();
        if came.has(self.settings.name) {
            self.peers.since = self.now;
        }
    }

    /// Its place is no voter of this group any more: it echoes nobody and refuses nobody. It comes back with the next group.
    pub(crate) fn lose_vote(&mut self, cause: NoVoter) {
        if self.voter.take().is_some() {
            self.no_voter = Some(cause);
            self.note(Notice::NoVoter(cause));
        }
    }

    fn go_on(&mut self, was_paused: bool) {
        if self.settings.policy != Policy::Told && !self.ended {
            self.count_silence(was_paused);
            self.suspect();
            self.attempt();
            self.grant();
            self.give_up();
            self.fence();
            self.end_if_refused();
            self.note_freeze();
            if self.is_urgent || self.now >= self.next_heartbeat {
                let asks = self.is_held() || self.is_lease_short();
                self.beat(asks);
            }
        }
        self.promised = self.wake().max(self.now);
    }

    /// Sends a heartbeat to all.
    pub(crate) fn beat(&mut self, asks: bool) {
        if self.ended {
            return;
        }
        let from = self.echoes.send(self.now);
        let me = self.settings.name;
        let mut heard = self.voter.as_ref().map_or(Vec::new(), Voter::echoes);
        heard.retain(|one| one.name.place() != me.place());
        if let Some(voter) = &mut self.voter {
            // its own place votes too, for the same heartbeat
            voter.hear(from, self.now);
            self.echoes.hear(me, from, self.now);
        }
        let heartbeat = self.heartbeat(from, asks, heard);
        self.outputs.push(Output::Send {
            to: !(1 << me.place()),
            payload: Message::Heartbeat(Box::new(heartbeat)).to_bytes(),
        });
        self.is_urgent = false;
        self.next_heartbeat = self.now.after(self.settings.period);
    }

    fn heartbeat(&self, from: Heard, asks: bool, heard: Vec<Heard>) -> Heartbeat {
        let voter = self.voter.as_ref();
        let none = NameSet::default();
        let is_member = self.view.has(self.settings.name);
        let wait = self.settings.wait();
        Heartbeat {
            id: self.settings.id,
            from,
            asks,
            counter: voter.map(|voter| voter.counter),
            frozen_for: self.frozen_since().map(|since| self.now.since(since)),
            members: if is_member { self.view } else { none },
            suspects: self.peers.suspects,
            wants: self.candidate.wants,
            refuses: voter.map_or(none, |voter| voter.told()),
            ripe: voter.map_or(none, |voter| voter.ripe(self.now, wait)),
            stopped: self.stopped,
            words: self.words,
            heard,
            counters: self.peers.counters.iter().map(|(p, c)| (*p, *c)).collect(),
        }
    }

    /// The voters that count: those of the founding, whatever view stands.
    pub(crate) fn voters_in_force(&self) -> u16 {
        match self.has(Plant::MajorityOfView) {
            true => self.view.without(&self.stopped).places(),
            false => self.settings.voters,
        }
    }

    pub(crate) fn majority_in_force(&self) -> usize {
        match self.has(Plant::MajorityOfView) {
            true => self.voters_in_force().count_ones() as usize / 2 + 1,
            false => self.settings.majority(),
        }
    }

    /// The latest heartbeat that a majority of the voters echoed, and when it was sent.
    pub(crate) fn confirmed(&self) -> Option<(u64, Time)> {
        let voters = self.voters_in_force();
        self.echoes.confirmed(voters, self.majority_in_force())
    }

    /// Up to when it may act.
    pub(crate) fn lease_end(&self) -> Option<Time> {
        let (_, sent) = self.confirmed()?;
        Some(sent.after(self.settings.length()))
    }

    pub(crate) fn is_in_lease(&self, now: Time) -> bool {
        self.lease_end().is_some_and(|end| now < end)
    }

    /// Whether half of the time is over in which it may act, or all of it.
    fn is_lease_short(&self) -> bool {
        let left = self.lease_end().map_or(0, |end| end.since(self.now));
        left < self.settings.length() / 2
    }

    /// Since when it may not act. Without clocks this is for liveness alone: what may go out is asked batch by batch.
    pub(crate) fn frozen_since(&self) -> Option<Time> {
        if !matches!(self.settings.policy, Policy::Echo | Policy::Lease(_)) {
            return None;
        }
        let end = self.lease_end().unwrap_or(self.started);
        (self.now >= end).then_some(end.max(self.started))
    }

    /// As a test wants it: this place's voter refuses a name, whatever it heard. What is let out is right even so.
    #[doc(hidden)]
    pub fn refuse_anyway(&mut self, now: Time, name: Name) {
        self.now = self.now.max(now);
        if !self.ended {
            self.refuse(name);
        }
    }
}
