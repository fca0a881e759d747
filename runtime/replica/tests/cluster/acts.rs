//! What clients do by a life.

use super::client::Unanswered;
use super::ledger::command;
use super::{Asked, Cluster, AHEAD};
use muoswyld_member::Name;
use muoswyld_replica::{Request, SessionId};
use muoswyld_simulator::draw::Draw;
use std::collections::BTreeSet;

impl Cluster {
    pub(super) fn new_id(&mut self) -> u64 {
        self.ids += 1;
        self.ids
    }

    pub(super) fn length(&self, draw: &mut Draw) -> usize {
        match draw.per_mille(self.setting.long) {
            true => draw.between(900, 6_000) as usize,
            false => draw.below(60) as usize,
        }
    }

    /// A client does something by a life.
    pub(super) fn client_acts(
        &mut self,
        k: usize,
        name: Name,
        is_calm: bool,
        draw: &mut Draw,
    ) -> Result<(), String> {
        let client = &mut self.clients[k];
        let Some(session) = client.session else {
            if client.opens_at.is_none() && !is_calm {
                client.opens_at = Some(name);
                self.opened += 1;
                self.submit(name, Asked::Open(k), Request::Open)?;
            }
            return Ok(());
        };
        let moves = client.by.is_none() || !is_calm && draw.per_mille(150);
        if moves {
            client.by = Some(name);
        }
        if client.by != Some(name) {
            return Ok(());
        }
        let is_due = |one: &Unanswered| one.by.is_none() || moves && one.by != Some(name);
        if client.unanswered.iter().any(is_due) {
            return self.send_again(k, session, name);
        }
        if is_calm {
            return Ok(());
        }
        if draw.per_mille(20) && client.is_idle() && client.next > 2 {
            client.forget();
            return self.submit(name, Asked::Close, Request::Close(session));
        }
        let ahead = client.next - client.answered;
        if ahead < AHEAD && client.budget > 0 {
            let (id, length) = (self.new_id(), self.length(draw));
            let client = &mut self.clients[k];
            client.budget -= 1;
            client.next += 1;
            client.unanswered.push_back(Unanswered {
                sequence: client.next,
                id,
                register: draw.below(4) as u8,
                length,
                attempts: 0,
                by: None,
            });
            let last = client.unanswered.len() - 1;
            return self.send_one(k, session, name, last);
        }
        Ok(())
    }

    /// Sends again what isn't answered, in its order.
    fn send_again(&mut self, k: usize, session: SessionId, name: Name) -> Result<(), String> {
        for index in 0..self.clients[k].unanswered.len() {
            let client = &self.clients[k];
            let is_here = client
                .unanswered
                .get(index)
                .is_some_and(|one| one.by == Some(name));
            if client.session == Some(session) && !is_here {
                self.send_one(k, session, name, index)?;
            }
        }
        Ok(())
    }

    fn send_one(
        &mut self,
        k: usize,
        session: SessionId,
        name: Name,
        index: usize,
    ) -> Result<(), String> {
        let client = &mut self.clients[k];
        let answered = client.answered;
        let Some(one) = client.unanswered.get_mut(index) else {
            return Ok(());
        };
        one.attempts += 1;
        one.by = Some(name);
        let asked = Asked::Command {
            client: k,
            session,
            sequence: one.sequence,
            id: one.id,
        };
        let request = Request::SessionCommand {
            session,
            sequence: one.sequence,
            answered,
            command: command(one.id, one.register, one.attempts, one.length),
        };
        self.submit(name, asked, request)
    }

    /// Whether somebody waits for the state, and isn't told that it is lost.
    pub(super) fn are_waited_for(&self) -> bool {
        let mut waiting = self.waiting.values();
        !self.is_lost && waiting.any(Option::is_some)
    }

    /// At times a life ends the list while somebody waits for the state.
    pub(super) fn look_at_end(&mut self, name: Name, is_calm: bool, draw: &mut Draw) {
        let wants = self.setting.ends_amid > 0 && self.are_waited_for();
        if wants && !is_calm && draw.per_mille(500) {
            self.ends_by = Some(name);
        }
    }

    /// Reads by a life: what was answered before is seen.
    pub(super) fn read(&mut self, name: Name, draw: &mut Draw) -> Result<(), String> {
        let last = self.answers.last_key_value().map(|(id, _)| *id);
        if let (Some(id), true) = (last, draw.per_mille(300)) {
            let seen = self.states.last_key_value().map(|(at, _)| *at);
            if let (Some(at), Some(life)) = (seen, self.lives.get_mut(&name)) {
                self.tokens += 1;
                life.asked.insert(self.tokens, Asked::ReadOwn(id));
                life.replica.wait_for(self.tokens, at);
                return self.pump(name, None);
            }
        }
        let seen: BTreeSet<u64> = self.answers.keys().copied().collect();
        self.submit(name, Asked::Read(seen), Request::Barrier)
    }
}
