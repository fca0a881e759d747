//! Sending: messages wait, go out in bodies one after the other, and are settled when their own member delivers them.

use crate::body::{Reference, MOST_MESSAGE};
use crate::config::{Plant, Time};
use crate::event::{HandleError, Output, Unsent};
use crate::member::Member;
use crate::queue::{Load, Queue};
use crate::streaming::Streaming;
use muoswyld::answer::Outcome;
use muoswyld::event::Event;
use std::collections::VecDeque;

/// A body that the node was given.
#[derive(Debug)]
pub(crate) struct UnderWay {
    request: u32,
    load: Load,
    /// When it was first sent.
    pub(crate) began: Time,
    /// When it was last sent.
    pub(crate) sent_at: Time,
    /// How often it was sent again.
    pub(crate) tries: u32,
}

/// What a member sends.
#[derive(Debug)]
pub(crate) struct Sending {
    pub(crate) queue: Queue,
    /// What goes beside the list and isn't named yet.
    pub(crate) streaming: Streaming,
    /// A body that the node didn't take yet.
    ready: Option<Load>,
    /// The body that isn't known to be accepted.
    pub(crate) under_way: Option<UnderWay>,
    /// What is to end the list, and didn't go out yet.
    pub(crate) control: Option<Load>,
    /// Bodies that are accepted, and that the application wasn't given yet, with their requests.
    accepted: VecDeque<(u32, Load)>,
    /// Up to where the list was accepted when the node was last asked for the body under way.
    asked_at: u32,
    /// Whether the sequencer had no room for the body under way.
    pub(crate) put_off: bool,
    /// Whether a body went out since the last release.
    has_sent: bool,
    /// Whether the next body waits for the next turn.
    is_paced: bool,
}

impl Sending {
    pub(crate) fn new(queue: Queue) -> Sending {
        Sending {
            queue,
            streaming: Streaming::default(),
            ready: None,
            under_way: None,
            control: None,
            accepted: VecDeque::new(),
            asked_at: 0,
            put_off: false,
            has_sent: false,
            is_paced: false,
        }
    }

    /// A new turn begins.
    pub(crate) fn new_turn(&mut self) {
        self.has_sent = false;
    }

    /// Whether something waits to be sent, or is under way.
    pub(crate) fn is_idle(&self) -> bool {
        let none_waits =
            self.queue.is_empty() && self.streaming.is_empty() && self.control.is_none();
        none_waits && self.ready.is_none() && self.under_way.is_none()
    }

    /// How many messages aren't delivered yet.
    pub(crate) fn unsettled(&self) -> usize {
        let tickets = |load: &Load| load.tickets.len();
        let accepted: usize = self.accepted.iter().map(|(_, own)| tickets(own)).sum();
        self.queue.len()
            + self.streaming.len()
            + self.ready.as_ref().map_or(0, tickets)
            + self.under_way.as_ref().map_or(0, |own| tickets(&own.load))
            + accepted
    }
}

impl Member {
    /// Takes a message to be sent.
    pub(crate) fn put(&mut self, ticket: u64, message: Vec<u8>) -> Result<(), HandleError> {
        if message.len() > MOST_MESSAGE {
            return Err(HandleError::TooLong { message });
        }
        if self.leaving.is_wanted() {
            return Err(HandleError::Leaving { message });
        }
        if self.has_succeeded() {
            return Err(HandleError::Succeeded { message });
        }
        let room = self.room();
        let put = self.sending.queue.push(ticket, message);
        put.map_err(|message| HandleError::Full { message, room })?;
        self.counts.messages_sent += 1;
        Ok(())
    }

    /// Asks what became of the body under way, if more of the list is accepted than when that was last asked.
    pub(crate) fn collect(&mut self) -> Option<()> {
        let accepted = self.standing.accepted;
        let Some(own) = &self.sending.under_way else {
            return Some(());
        };
        if accepted == self.sending.asked_at {
            return Some(());
        }
        self.sending.asked_at = accepted;
        let outcome = self.step(&Event::Done(own.request), None)?;
        if let Outcome::Sent { number, .. } = outcome {
            self.is_accepted(number);
        }
        Some(())
    }

    fn is_accepted(&mut self, number: u32) {
        let Some(own) = self.sending.under_way.take() else {
            return;
        };
        let sample = self.now.since(own.began);
        // contents that are sent again take longer than a letter that is sent again
        let is_of_contents = Reference::read(&own.load.body).is_some();
        let counts = !is_of_contents || self.timers.round_trip.smooth().is_none();
        if counts && (!self.is_sequencer() || sample > 0) {
            self.timers.round_trip.measure(sample, own.tries > 0);
        }
        self.sending.put_off = false;
        if self.has(Plant::SettlesEarly) {
            for (index, ticket) in (0..).zip(own.load.tickets) {
                let result = Ok(self.at(number, index));
                self.give(Output::Settled { ticket, result });
            }
            return;
        }
        self.sending.accepted.push_back((own.request, own.load));
    }

    /// Gives the node the next body, if none is under way.
    pub(crate) fn send_next(&mut self) -> Option<()> {
        self.sending.is_paced = false;
        if !self.is_member() {
            return Some(());
        }
        if self.sending.under_way.is_some() {
            self.stream_ahead();
            return Some(());
        }
        if self.sending.ready.is_none() {
            self.look_at_control();
            if self.sending.is_idle() {
                return Some(());
            }
            if self.is_sequencer() && self.is_too_fast() {
                return Some(());
            }
            let control = self.sending.control.take();
            self.sending.ready = control.or_else(|| self.next_load());
        }
        let Some(load) = self.sending.ready.take() else {
            return Some(());
        };
        self.send(load)
    }

    /// Whether the sequencer's own bodies would outrun all others: one goes out a turn, below half of the window.
    fn is_too_fast(&mut self) -> bool {
        let half = u32::from(self.settings.founding.window / 2).max(1);
        let above = self.standing.top.saturating_sub(self.standing.base);
        self.sending.is_paced = self.sending.has_sent && above < half;
        self.sending.has_sent || above >= half
    }

    fn send(&mut self, load: Load) -> Option<()> {
        let letters = self.counts.letters_sent;
        let top = self.standing.top;
        self.sending.asked_at = self.standing.accepted;
        let outcome = self.step(&Event::Send(&load.body), None)?;
        let Outcome::Queued { request } = outcome else {
            self.sending.ready = Some(load);
            return Some(());
        };
        self.counts.bodies_sent += 1;
        self.sending.has_sent = true;
        // a sequencer without room answers nothing else than that no letter goes out
        let is_still = letters == self.counts.letters_sent && top == self.standing.top;
        self.sending.put_off = self.is_sequencer() && is_still;
        self.sending.under_way = Some(UnderWay {
            request,
            load,
            began: self.now,
            sent_at: self.now,
            tries: 0,
        });
        Some(())
    }

    /// When the next body may go out, if only the turn is waited for.
    pub(crate) fn paced_until(&self) -> Time {
        if self.sending.is_paced {
            self.now
        } else {
            Time::NEVER
        }
    }

    /// Settles the tickets of an own body that the application was just given.
    pub(crate) fn settle(&mut self, number: u32, request: u32) -> Option<()> {
        if self
            .sending
            .under_way
            .as_ref()
            .is_some_and(|own| own.request == request)
        {
            self.sending.asked_at = 0;
            self.collect()?;
        }
        let is_next = |own: &(u32, Load)| own.0 == request;
        let tickets = match self.sending.accepted.front() {
            Some(own) if is_next(own) => self.sending.accepted.pop_front().map(|own| own.1.tickets),
            _ => None,
        };
        for (index, ticket) in (0..).zip(tickets.unwrap_or_default()) {
            let result = Ok(self.at(number, index));
            self.give(Output::Settled { ticket, result });
        }
        Some(())
    }

    /// Sends the body under way anew, as a defect that a test plants.
    pub(crate) fn send_anew(&mut self) -> Option<()> {
        if let Some(own) = &self.sending.under_way {
            let body = own.load.body.clone();
            self.step(&Event::Send(&body), None)?;
        }
        Some(())
    }

    /// Takes messages that were taken in the list before.
    pub(crate) fn put_again(&mut self, messages: Vec<(u64, Vec<u8>)>) {
        for (ticket, message) in messages {
            self.counts.messages_sent += 1;
            self.sending.queue.push_again(ticket, message);
        }
    }

    /// Takes out what the member was given to send and hasn't delivered, in order, since its list has ended. What is under way goes on, and nobody
    /// is given it.
    pub(crate) fn take_unsent(&mut self) -> Vec<(u64, Vec<u8>)> {
        let sending = &mut self.sending;
        let accepted = sending.accepted.drain(..).map(|own| own.1);
        let mut loads: Vec<Load> = accepted.collect();
        if let Some(own) = &mut sending.under_way {
            loads.push(own.load.clone());
            own.load.tickets.clear();
        }
        loads.extend(sending.ready.take());
        sending.control = None;
        let loads = loads.into_iter();
        let mut unsent: Vec<_> = loads.flat_map(|load| self.messages_of(load)).collect();
        unsent.extend(self.take_unnamed());
        unsent.extend(self.sending.queue.clear());
        unsent
    }

    /// Settles all that wasn't delivered, since the member ends.
    pub(crate) fn settle_all(&mut self) {
        let own = self.sending.under_way.take().map(|own| own.load.tickets);
        let accepted = self.sending.accepted.drain(..).map(|own| own.1.tickets);
        let unknown: Vec<u64> = accepted.chain(own).flatten().collect();
        let ready = self.sending.ready.take().map(|load| load.tickets);
        let mut unsent = ready.unwrap_or_default();
        unsent.extend(self.sending.streaming.clear());
        unsent.extend(self.sending.queue.clear().map(|(ticket, _)| ticket));
        let give = |result| move |ticket| Output::Settled { ticket, result };
        let unknown = unknown.into_iter().map(give(Err(Unsent::Unknown)));
        let unsent = unsent.into_iter().map(give(Err(Unsent::NotSent)));
        for output in unknown.chain(unsent) {
            self.give(output);
        }
    }
}
