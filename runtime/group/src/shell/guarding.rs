//! What a member's thread does for what says who has stopped.

use super::Shell;
use crate::error::End;
use crate::failures::FailuresInfo;
use crate::fencing;
use muoswyld_guarded::{Deed, Ending};
use std::time::Duration;

impl Shell {
    /// How it stands with who has stopped.
    pub(super) fn failures(&self) -> FailuresInfo {
        let now = self.now().0;
        let info = FailuresInfo::of(self.member.policy(), &self.member.failures(), now);
        info.with_ended(self.member.ended_lists(), now)
    }

    /// Does what is to be done for what says who has stopped; the end, if this life was given up.
    pub(super) fn do_deeds(&mut self) -> Option<End> {
        let now = self.now();
        for deed in self.member.deeds(now) {
            match deed {
                Deed::Send { to, payload, .. } => {
                    if self.seal.seal(&payload, &mut self.datagram) {
                        let places = (0..16).filter(|place| to >> place & 1 == 1);
                        self.udp.push_known(&self.datagram, places);
                    }
                }
                Deed::Write {
                    generation,
                    number,
                    bytes,
                } => self.fencing.write(generation, number, bytes),
                Deed::Fence {
                    generation,
                    name,
                    until,
                } => {
                    let within = Duration::from_micros(until.since(now));
                    self.fencing.fence(generation, name, within);
                }
                Deed::Begin {
                    generation,
                    id,
                    voter,
                    ..
                } => self.begin_list(generation, id, voter),
                Deed::Closed { generation, why } => {
                    if let Some(end) = self.close_list(generation, why) {
                        return Some(end);
                    }
                }
                Deed::Stopped { generation, name } => {
                    let list = self.shown_list(generation);
                    tracing::warn!("{name}{list} has stopped for certain");
                }
                // what is held is dropped
                Deed::Ended { why, .. } => {
                    return Some(match why {
                        Ending::GivenUp | Ending::Unserved => End::LeftOut,
                        Ending::Superseded => End::Superseded,
                        Ending::NotBegun => End::NotBegun,
                    })
                }
                Deed::Told { notice, .. } => fencing::tell(notice, &self.member.failures()),
            }
        }
        None
    }

    /// Which list a log's line is about, where that isn't the latest one.
    fn shown_list(&self, generation: u32) -> String {
        match generation == self.member.generation() {
            true => String::new(),
            false => format!(" of the list of generation {generation}"),
        }
    }
}
