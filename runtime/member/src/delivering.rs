//! Delivering: what is accepted is taken as long as the application has room for it.

use crate::body::{self, Assembler, Body};
use crate::config::Plant;
use crate::event::{Delivery, Output};
use crate::member::Member;
use muoswyld::answer::{Entry, Outcome, Role};
use muoswyld::event::Event;
use muoswyld::names::Name;

/// What a member delivers.
#[derive(Debug)]
pub(crate) struct Delivering {
    /// How many deliveries more the application takes; below 0 if one entry had more.
    room: i64,
    assembler: Assembler,
}

impl Delivering {
    pub(crate) fn new(room: usize, assembler: Assembler) -> Delivering {
        Delivering {
            room: i64::try_from(room).unwrap_or(i64::MAX),
            assembler,
        }
    }

    /// The application took so many deliveries.
    pub(crate) fn consumed(&mut self, count: usize) {
        let count = i64::try_from(count).unwrap_or(i64::MAX);
        self.room = self.room.saturating_add(count);
    }
}

impl Member {
    /// Whether something is accepted that the application can be given now.
    pub(crate) fn can_take(&self) -> bool {
        self.standing.taken < self.standing.accepted && self.is_listed() && self.may_take()
    }

    /// Takes what is accepted, and delivers it.
    pub(crate) fn take(&mut self) -> Option<()> {
        while self.can_take() {
            let outcome = self.step(&Event::Take, None)?;
            let Outcome::Took { number, entry } = outcome else {
                break;
            };
            self.deliver_entry(number, entry)?;
        }
        Some(())
    }

    fn is_listed(&self) -> bool {
        matches!(
            self.standing.role,
            Role::Member | Role::Sequencer | Role::Coordinator
        )
    }

    fn may_take(&self) -> bool {
        let has_room = self.delivering.room > 0 || self.has(Plant::SkipsDelivery);
        self.ending.is_confirmed() && (has_room || self.ending.has_ended())
    }

    fn deliver(&mut self, delivery: Delivery) {
        if self.has(Plant::SkipsDelivery) && self.delivering.room <= 0 {
            return;
        }
        self.delivering.room -= 1;
        self.counts.deliveries += 1;
        self.give(Output::Deliver(delivery));
    }

    fn deliver_entry(&mut self, number: u32, entry: Entry) -> Option<()> {
        self.note_taken(number, &entry);
        if !self.is_in_list(number) {
            return Some(());
        }
        self.note_entry(number, &entry);
        let at = self.at(number, 0);
        match entry {
            Entry::Data {
                from,
                request,
                body,
            } => {
                self.deliver_body(number, from, &body)?;
                if from == self.me() && !self.ending.has_ended() {
                    self.settle(number, request)?;
                }
            }
            Entry::Join(name) => self.deliver(Delivery::Joined { at, name }),
            Entry::Leave(name) => self.deliver(Delivery::Left { at, name }),
            Entry::View {
                members,
                resilience,
                ..
            } => {
                let resilience = resilience.unwrap_or(self.settings.founding.resilience);
                self.deliver(Delivery::View {
                    at,
                    members,
                    resilience,
                });
                if number > 1 {
                    self.timers.want_tick();
                    if self.has(Plant::SendsAnew) {
                        self.send_anew()?;
                    }
                }
            }
        }
        Some(())
    }

    fn deliver_body(&mut self, number: u32, from: Name, body: &[u8]) -> Option<()> {
        let place = from.place();
        let mut messages: Vec<Vec<u8>> = match body::read(body) {
            Body::Part {
                index,
                count,
                share,
            } => {
                let assembler = &mut self.delivering.assembler;
                let whole = assembler.part(from, index, count, share);
                whole.into_iter().collect()
            }
            Body::Control(_) => {
                self.delivering.assembler.give_up(place);
                self.take_control(number, from, body);
                return Some(());
            }
            Body::Reference(reference) => {
                self.delivering.assembler.give_up(place);
                self.messages_named(from, &reference)?
            }
            Body::Packed(messages) => {
                self.delivering.assembler.give_up(place);
                messages.map(<[u8]>::to_vec).collect()
            }
            Body::Plain => {
                self.delivering.assembler.give_up(place);
                vec![body.to_vec()]
            }
        };
        if self.has(Plant::UnpacksTwice) && messages.len() > 1 {
            messages.extend(messages.clone());
        }
        for (index, message) in (0..).zip(messages) {
            let at = self.at(number, index);
            self.deliver(Delivery::Message { at, from, message });
        }
        Some(())
    }
}
