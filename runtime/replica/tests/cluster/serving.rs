//! The replicas as what runs over the members of a run.

use super::client::Client;
use super::ledger::command;
use super::{Asked, Cluster, Life};
use muoswyld_member::{Delivery, Info, Name, Position};
use muoswyld_replica::Request;
use muoswyld_simulator::draw::Draw;
use muoswyld_simulator::plan::NextList;
use muoswyld_simulator::Services;

impl Services for Cluster {
    fn begins(&mut self, name: Name) {
        // the group's id comes with the first delivery
        let _ = name;
    }

    fn delivered(&mut self, name: Name, delivery: &Delivery, info: &Info) -> Result<(), String> {
        if !self.lives.contains_key(&name) {
            let list = info.group.ok_or("a member delivers without a group")?;
            let joined = match delivery {
                Delivery::View { .. } => None,
                other => Some(other.at()),
            };
            let life = self.new_life(name, list, joined.is_none());
            self.lives.insert(name, life);
            self.waiting.insert(name, joined);
        }
        let Some(life) = self.lives.get_mut(&name) else {
            return Ok(());
        };
        if life.is_lost {
            return Ok(());
        }
        life.names.insert(info.generation, info.name);
        if let Delivery::Succeeded { at, .. } = delivery {
            if self.ended.insert(at.generation) && self.are_waited_for() {
                self.setting.ends_amid = self.setting.ends_amid.saturating_sub(1);
            }
        }
        let Some(life) = self.lives.get_mut(&name) else {
            return Ok(());
        };
        if let Delivery::Succeeded { .. } = delivery {
            self.ends += 1;
            self.under_way += life.asked.len();
        }
        life.replica.deliver(delivery.clone());
        if !std::mem::replace(&mut life.knows_members, true) {
            let top = Position {
                generation: info.generation,
                number: info.standing.top,
                index: 0,
            };
            life.replica.know_members(top, info.standing.members);
        }
        self.pump(name, Some(info))
    }

    fn next_message(&mut self, name: Name) -> Option<Vec<u8>> {
        self.lives.get_mut(&name)?.sends.pop_front()
    }

    fn acts(
        &mut self,
        name: Name,
        _now: u64,
        is_calm: bool,
        draw: &mut Draw,
    ) -> Result<(), String> {
        match self.lives.get_mut(&name) {
            Some(life) if !life.is_lost => {
                if draw.per_mille(self.setting.stalled) {
                    life.replica.stalled();
                    self.pump(name, None)?;
                }
            }
            _ => return Ok(()),
        }
        for k in 0..self.clients.len() {
            self.client_acts(k, name, is_calm, draw)?;
        }
        self.look_at_end(name, is_calm, draw);
        if self
            .lives
            .get(&name)
            .is_none_or(|life| life.asked.len() > 20)
        {
            return Ok(());
        }
        if !is_calm && draw.per_mille(200) {
            self.read(name, draw)?;
        }
        if !is_calm && draw.per_mille(100) {
            let (id, length) = (self.new_id(), self.length(draw));
            let request = Request::Command(command(id, 7, 0, length));
            self.submit(name, Asked::Plain(id), request)?;
        }
        Ok(())
    }

    fn succeeds(&mut self, name: Name) -> Option<NextList> {
        self.ends_by.take_if(|by| *by == name)?;
        Some(NextList {
            window: 64,
            less: 0,
            voters: 0,
            tries: 0,
        })
    }

    fn leaves(&self, name: Name) -> bool {
        let life = self.lives.get(&name).filter(|_| !self.setting.lost_stay);
        life.is_some_and(|life| life.is_lost)
    }

    fn ended(&mut self, name: Name) {
        self.lives.remove(&name);
        self.waiting.remove(&name);
        for client in &mut self.clients {
            client.has_ended(name);
        }
    }

    fn is_at_rest(&self, running: &[Name]) -> bool {
        let is_quiet = |life: &Life| life.sends.is_empty() && life.asked.is_empty();
        let all = running.iter().filter_map(|name| self.lives.get(name));
        (self.waiting.is_empty() || self.may_wait())
            && all.clone().all(|life| life.is_lost || is_quiet(life))
            && (self.lives.is_empty() || self.is_lost || self.clients.iter().all(Client::is_idle))
    }

    fn check(&mut self, is_over: bool) -> Result<(), String> {
        let ready = self.lives.iter().filter(|(_, life)| !life.is_lost);
        for (name, life) in ready.filter(|_| !is_over) {
            let Some(machine) = life.replica.machine() else {
                match self.may_wait() {
                    true => continue,
                    false => return Err(format!("{name} hasn't the state")),
                }
            };
            for (id, answer) in &self.answers {
                match machine.done.get(id) {
                    Some(done) if done.answer == *answer => {}
                    _ => return Err(format!("{name} hasn't command {id} as it was answered")),
                }
            }
        }
        Ok(())
    }
}
