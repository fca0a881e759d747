//! What came of a batch is let out as a whole, or held as a whole.
//!
//! A batch is any number of inputs that a member handles one after the other, and all that comes of them: datagrams, deliveries,
//! answers, lines of a journal. It goes like this: [`begin`](crate::Failures::begin) before each input, [`fix`](crate::Failures::fix)
//! once the outputs are complete, [`look`](crate::Failures::look) with a time that is read behind that, and
//! [`emitted`](crate::Failures::emitted) once all of it is out. Between a look that says yes and `emitted` nothing begins: what would
//! come of it wasn't looked at.
//!
//! A pause may come anywhere. What was fixed and looked at in time may go out at any time later: it is a letter that the network kept.

use crate::core::Failures;
use crate::event::{Notice, Output};
use crate::settings::{Plant, Policy};
use crate::time::Time;

/// How far a batch is.
#[derive(Clone, Copy, Debug, Default, PartialEq, Eq)]
pub(crate) enum Gate {
    /// There is none.
    #[default]
    Open,
    /// Inputs are handled.
    Begun { at: Time, sequence: u64 },
    /// Its outputs are complete. It goes out once a heartbeat of this number or a later one is echoed, or the lease says so.
    Fixed {
        begun: Time,
        from: u64,
        echoes: u64,
        is_held: bool,
    },
    /// It goes out.
    Out,
}

impl Failures {
    /// Whether the member may be given an input now. If not, it isn't given anything, a tick neither, until a new echo came.
    ///
    /// That holds for a name that asks to join too, from its first question on.
    pub fn begin(&mut self, now: Time) -> bool {
        self.now = self.now.max(now);
        if self.ended {
            return false;
        }
        let may = self.may_begin();
        match self.gate {
            Gate::Open if may => {
                self.gate = Gate::Begun {
                    at: self.now,
                    sequence: self.echoes.last(),
                };
                true
            }
            Gate::Begun { .. } => may,
            Gate::Out => self.has(Plant::OpensBatch),
            _ => false,
        }
    }

    fn may_begin(&self) -> bool {
        match self.settings.policy {
            Policy::Told | Policy::Command | Policy::Echo => true,
            Policy::Lease(_) => self.is_in_lease(self.now) || self.is_free_asker(),
        }
    }

    fn is_free_asker(&self) -> bool {
        self.has(Plant::AskerIsFree) && !self.view.has(self.settings.name)
    }

    /// What came of the batch is complete. Without clocks a heartbeat goes out now, behind the batch's last step.
    pub fn fix(&mut self, now: Time) {
        self.now = self.now.max(now);
        let Gate::Begun { at, sequence } = self.gate else {
            return;
        };
        let behind = self.echoes.last() + 1;
        let from = match self.has(Plant::ConfirmsBefore) {
            true => sequence,
            false => behind,
        };
        self.gate = Gate::Fixed {
            begun: at,
            from,
            echoes: self.echoes.count,
            is_held: false,
        };
        if self.settings.policy == Policy::Echo {
            self.beat(true);
        }
    }

    /// Nothing came of the batch that anybody could see, so there is nothing to look at.
    pub fn forget(&mut self) {
        if matches!(self.gate, Gate::Begun { .. }) {
            self.gate = Gate::Open;
        }
    }

    /// Whether all of the batch may go out now. The time is read behind [`fix`](Failures::fix). If not, all of it is held, and nothing
    /// is given to the member: after each new echo look again.
    ///
    /// Under a lease it may if the lease isn't over. A lease ends so long after the sending of the latest heartbeat that a majority of
    /// the voters echoed. Without clocks it may once a majority echoed a heartbeat that was sent behind the batch's last step: then no
    /// majority had refused this name at that moment, and whoever gives it up later finds what was fixed before.
    pub fn look(&mut self, now: Time) -> bool {
        self.now = self.now.max(now);
        let Gate::Fixed {
            begun,
            from,
            echoes,
            is_held,
        } = self.gate
        else {
            return self.gate == Gate::Out;
        };
        if self.ended {
            return false;
        }
        let time = match self.has(Plant::LooksBefore) && !is_held {
            true => begun,
            false => self.now,
        };
        let is_resumed = self.has(Plant::OutAtFirstEcho) && is_held && self.echoes.count > echoes;
        let may = match self.settings.policy {
            Policy::Told | Policy::Command => true,
            Policy::Echo => self.confirmed().is_some_and(|(number, _)| number >= from),
            Policy::Lease(_) => self.is_in_lease(time) || self.is_free_asker(),
        };
        if may || is_resumed {
            self.gate = Gate::Out;
            return true;
        }
        self.gate = Gate::Fixed {
            begun,
            from,
            echoes: self.echoes.count,
            is_held: true,
        };
        false
    }

    /// All of the batch is out.
    pub fn emitted(&mut self) {
        if self.gate == Gate::Out {
            self.gate = Gate::Open;
        }
    }

    /// Whether a batch is fixed that isn't out yet.
    pub fn is_held(&self) -> bool {
        matches!(self.gate, Gate::Fixed { .. })
    }

    /// Whether a look said that the batch may go out, and it isn't out yet.
    pub fn is_out(&self) -> bool {
        self.gate == Gate::Out
    }

    /// Tells when it freezes and when it thaws.
    pub(crate) fn note_freeze(&mut self) {
        let is_frozen = self.frozen_since().is_some();
        if is_frozen == self.was_frozen {
            return;
        }
        self.was_frozen = is_frozen;
        let notice = match is_frozen {
            true => Notice::Frozen,
            false => Notice::Thawed,
        };
        self.outputs.push(Output::Notice(notice));
    }
}
