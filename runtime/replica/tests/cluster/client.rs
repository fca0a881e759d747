//! A client: it opens a session, sends commands in it by any member, and sends again what isn't answered.

use muoswyld_member::Name;
use muoswyld_replica::SessionId;
use std::collections::{BTreeSet, VecDeque};

/// A command that the client has no answer for.
#[derive(Clone, Debug)]
pub struct Unanswered {
    pub sequence: u64,
    pub id: u64,
    pub register: u8,
    pub length: usize,
    pub attempts: u16,
    /// The life by which it is under way.
    pub by: Option<Name>,
}

/// A client.
#[derive(Clone, Debug, Default)]
pub struct Client {
    pub session: Option<SessionId>,
    /// At which life it has asked for a session.
    pub opens_at: Option<Name>,
    pub next: u64,
    /// Up to which command of its session it has its answers.
    pub answered: u64,
    /// Those above, that it has.
    pub early: BTreeSet<u64>,
    pub unanswered: VecDeque<Unanswered>,
    /// The life by which it sends.
    pub by: Option<Name>,
    pub budget: usize,
}

impl Client {
    /// It has the answer of a command.
    pub fn has_answer(&mut self, sequence: u64) {
        self.unanswered.retain(|one| one.sequence != sequence);
        self.early.insert(sequence);
        while self.early.remove(&(self.answered + 1)) {
            self.answered += 1;
        }
    }

    /// A command is to be sent again: it was out of its order, or its reply was lost.
    pub fn is_to_send_again(&mut self, sequence: u64) {
        for one in &mut self.unanswered {
            if one.sequence == sequence {
                one.by = None;
            }
        }
    }

    /// A life has ended: what was under way there is to be sent again.
    pub fn has_ended(&mut self, name: Name) {
        let gone = |by: &Option<Name>| *by == Some(name);
        for by in self.unanswered.iter_mut().map(|one| &mut one.by) {
            *by = by.take_if(|by| *by != name);
        }
        self.by = self.by.filter(|by| *by != name);
        if gone(&self.opens_at) {
            self.opens_at = None;
        }
    }

    /// Its session is gone: what wasn't answered it doesn't know.
    pub fn forget(&mut self) {
        *self = Client {
            budget: self.budget,
            ..Client::default()
        };
    }

    /// Whether it waits for nothing.
    pub fn is_idle(&self) -> bool {
        self.unanswered.is_empty()
    }
}
