//! The policy of a command: whoever is suspected is ended by a program, and the program's word is taken.

use crate::core::Failures;
use crate::event::Output;
use crate::names::Name;
use crate::settings::Policy;
use crate::time::Time;
use std::collections::BTreeMap;

/// How many silences a fence may take, where nothing else is said.
const MOST_SILENCES: u64 = 20;

/// A fence of a name.
#[derive(Clone, Copy, Debug)]
struct Fence {
    is_running: bool,
    /// When it is over, or may be tried again.
    until: Time,
    /// How often it wasn't done.
    failed: u32,
}

/// The fences of a process.
#[derive(Clone, Debug, Default)]
pub(crate) struct Fences {
    all: BTreeMap<Name, Fence>,
    /// Whether nobody is fenced any more.
    pub(crate) is_off: bool,
}

impl Failures {
    /// Asks for a fence of each name that a majority of the voters suspects: the lowest running member first. If it isn't done it is
    /// tried again, after twice the time each time.
    pub(crate) fn fence(&mut self) {
        if self.settings.policy != Policy::Command || self.fences.is_off {
            return;
        }
        for name in self.peers.suspects.iter().collect::<Vec<_>>() {
            let is_wanted = self.settings.voters == 0 || self.is_suspected_by_majority(name);
            if is_wanted && !self.stopped.has(name) {
                self.fence_one(name);
            }
        }
    }

    fn fence_one(&mut self, name: Name) {
        let silence = self.settings.silence;
        let first = Fence {
            is_running: false,
            until: self.now.after(self.rank() * silence),
            failed: 0,
        };
        let usual = silence.saturating_mul(MOST_SILENCES);
        let within = self.settings.fence_within.unwrap_or(usual);
        let now = self.now;
        let fence = self.fences.all.entry(name).or_insert(first);
        // whoever runs it says at its limit that it isn't done, and a silence later nothing is waited for
        if fence.is_running && now >= fence.until.after(silence) {
            fence.is_running = false;
            fence.failed += 1;
        }
        if !fence.is_running && now >= fence.until {
            fence.is_running = true;
            fence.until = now.after(within);
            let until = fence.until;
            self.outputs.push(Output::Fence { name, until });
        }
    }

    /// A fence is over. Only its word that it is done counts; that holds for the process, in whatever group it is.
    pub(crate) fn fenced(&mut self, name: Name, done: bool) {
        let silence = self.settings.silence;
        let now = self.now;
        let Some(fence) = self.fences.all.get_mut(&name).filter(|f| f.is_running) else {
            return;
        };
        fence.is_running = false;
        if done {
            self.stop_by_word(name);
            return;
        }
        fence.failed += 1;
        fence.until = now.after(silence.saturating_mul(1 << fence.failed.min(6)));
    }
}
