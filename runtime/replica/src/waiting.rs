//! A replica that joined and hasn't the state yet.

use crate::event::{Ended, Settings};
use crate::machine::StateMachine;
use crate::message::{read, Message};
use crate::restoring::Restoring;
use crate::roll::next_name;
use crate::snapshot::State;
use muoswyld_member::{Delivery, Name, Names, Position};
use std::collections::{BTreeMap, BTreeSet};

/// A replica without the state. All names are of the list of the last delivery.
#[derive(Debug)]
pub(crate) struct Waiting<S> {
    /// Its member's name.
    name: Name,
    /// Where its Join stands.
    pub(crate) at: Position,
    restoring: Restoring<S>,
    /// The members, once it knows them.
    pub(crate) members: Option<Names>,
    /// The joins and leaves so far, with their entries.
    moves: Vec<(Position, Name, bool)>,
    /// The members after an entry, as its member's node told them.
    hint: Option<(Position, Names)>,
    /// Names that had no state, as far as this one knows, with their Joins.
    lacking: BTreeMap<Name, Position>,
    /// The Joins of those that were sent it.
    served: BTreeSet<Position>,
}

impl<S: StateMachine> Waiting<S> {
    pub(crate) fn new(machine: S, settings: &Settings, at: Position) -> Waiting<S> {
        Waiting {
            name: settings.name,
            at,
            restoring: Restoring::new(machine, settings, at),
            members: None,
            moves: Vec::new(),
            hint: None,
            lacking: BTreeMap::new(),
            served: BTreeSet::new(),
        }
    }

    /// How many chunks came.
    pub(crate) fn chunks(&self) -> u32 {
        self.restoring.next
    }

    /// Takes a delivery; whether the state is whole. `sends` is given what is to be sent.
    pub(crate) fn deliver(
        &mut self,
        delivery: &Delivery,
        settings: &Settings,
        sends: &mut impl FnMut(Message),
    ) -> Result<bool, Ended> {
        match delivery {
            Delivery::Joined { at, name } => {
                self.moves.push((*at, *name, true));
                self.members = self.members.map(|members| members.with(*name));
                self.lacking.insert(*name, *at);
                sends(Message::Waiting(self.at));
            }
            Delivery::Left { at, name } => {
                self.moves.push((*at, *name, false));
                self.members = self.members.map(|members| members.without(*name));
            }
            Delivery::View { members, .. } => self.members = Some(*members),
            Delivery::Succeeded { members, .. } => self.succeed(*members),
            Delivery::Message { from, message, .. } => {
                if self.message(*from, message, settings)? {
                    return Ok(true);
                }
            }
        }
        self.look_at_hint(delivery.at());
        match self.is_lost() {
            true => Err(Ended::Lost),
            false => Ok(false),
        }
    }

    /// The list has ended, with these members: each has another name in the next one, where the state goes on to be sent.
    fn succeed(&mut self, members: Names) {
        self.name = next_name(self.name);
        self.members = Some(members.iter().map(next_name).collect());
        self.moves.clear();
        self.hint = None;
        let lacking = std::mem::take(&mut self.lacking).into_iter();
        let stay = lacking.filter(|(name, _)| members.has(*name));
        self.lacking = stay.map(|(name, at)| (next_name(name), at)).collect();
    }

    fn message(&mut self, from: Name, message: &[u8], settings: &Settings) -> Result<bool, Ended> {
        match read(message) {
            Some(Message::Waiting(at)) => drop(self.lacking.insert(from, at)),
            Some(Message::Chunk(chunk)) => {
                if chunk.is_last {
                    self.served.insert(chunk.to);
                }
                return self.restoring.chunk(&chunk, settings.plant);
            }
            _ => {}
        }
        Ok(false)
    }

    /// The members after an entry, as its member's node tells them.
    pub(crate) fn know(&mut self, top: Position, members: Names, given: Option<Position>) {
        if self.members.is_none() {
            self.hint = Some((top, members));
            if let Some(given) = given {
                self.look_at_hint(given);
            }
        }
    }

    /// Knows the members once it was given the entry for which they were told, or a view, or the end of a list.
    fn look_at_hint(&mut self, given: Position) {
        let due = self.hint.filter(|(top, _)| *top <= given);
        let (None, Some((top, members))) = (self.members, due) else {
            return;
        };
        let later = self.moves.iter().filter(|(at, _, _)| *at > top);
        self.members = Some(
            later.fold(members, |members, (_, name, joins)| match joins {
                true => members.with(*name),
                false => members.without(*name),
            }),
        );
    }

    /// Whether nobody is left that has the state.
    fn is_lost(&self) -> bool {
        let is_without = |at: &Position| !self.served.contains(at);
        let lacks =
            |name: Name| name == self.name || self.lacking.get(&name).is_some_and(is_without);
        self.members
            .is_some_and(|members| members.iter().all(lacks))
    }

    /// Whether nobody is left that has the state, after the members were told.
    pub(crate) fn look(&self) -> Option<Ended> {
        self.is_lost().then_some(Ended::Lost)
    }

    /// The state, once it is whole.
    pub(crate) fn into_state(self, settings: &Settings) -> Result<State<S>, Ended> {
        self.restoring.into_state(settings.plant)
    }

    /// The machine as it is: what a planted defect begins with.
    pub(crate) fn into_machine(self) -> S {
        self.restoring.into_machine()
    }

    /// Asks the next holder to go on.
    pub(crate) fn resume(&self) -> Message<'static> {
        Message::Resume {
            to: self.at,
            next: self.restoring.next,
        }
    }
}
