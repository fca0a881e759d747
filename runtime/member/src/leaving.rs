//! Leaving: once all is sent, and nobody has stopped, and at the sequencer nobody else leaves. Who is last closes the group.

use crate::config::Time;
use crate::event::{End, Notice};
use crate::member::Member;
use muoswyld::answer::{Outcome, Role};
use muoswyld::event::Event;
use muoswyld::names::{Name, Names};

/// How long after another member last asked to leave the sequencer takes it for one that leaves, in microseconds.
const LINGERS: u64 = 1_000_000;

/// How far a leave is.
#[derive(Debug, Default)]
pub(crate) struct Leaving {
    is_wanted: bool,
    /// When the node was asked to leave.
    asked_at: Option<Time>,
    /// When another member last asked to leave.
    another_at: Option<Time>,
    /// When the node is asked next, if it didn't take it.
    again_at: Time,
    was_told: bool,
    was_member: bool,
}

impl Leaving {
    /// The application wants to leave.
    pub(crate) fn begin(&mut self) {
        self.is_wanted = true;
    }

    /// Whether the application wants to leave.
    pub(crate) fn is_wanted(&self) -> bool {
        self.is_wanted
    }

    /// Whether the node was asked to leave.
    pub(crate) fn is_asked(&self) -> bool {
        self.asked_at.is_some()
    }

    /// Another member asks to leave.
    pub(crate) fn heard(&mut self, now: Time) {
        self.another_at = Some(now);
    }

    /// Until when another member counts as one that leaves.
    fn another_until(&self) -> Time {
        self.another_at.map_or(Time(0), |at| at.after(LINGERS))
    }
}

impl Member {
    /// Whether another member was just heard to ask for its leave.
    pub(crate) fn another_leaves(&self) -> bool {
        self.now < self.leaving.another_until()
    }

    /// Whether nobody else is a member.
    fn is_alone(&self) -> bool {
        self.is_member() && self.standing.members == Names::nobody().with(self.me())
    }

    /// When the next step of a leave may be due; the ticks look after an answer to it.
    pub(crate) fn leave_at(&self) -> Time {
        if self.has_succeeded() {
            return Time::NEVER;
        }
        if self.leaving.is_asked() {
            return self.gives_up_leaving_at();
        }
        if !self.leaving.is_wanted || !self.is_member() || !self.is_ready_to_leave() {
            return Time::NEVER;
        }
        self.leaving.again_at.max(self.leaving.another_until())
    }

    /// When a leaver that isn't answered ends: all of its own was delivered, so it takes nothing along.
    fn gives_up_leaving_at(&self) -> Time {
        let Some(asked) = self.leaving.asked_at else {
            return Time::NEVER;
        };
        // another member that is stuck resets before that
        let long = self.settings.stuck_after.saturating_mul(2);
        if !self.standing.members.has(self.me()) {
            return asked.after(long);
        }
        if self.is_alone() {
            // who left before it hears of that no more, and nobody else is left to lose anything
            return asked.max(self.timers.stands_since).after(long);
        }
        // strangers that ask to join don't count, nor one whose join isn't accepted, nor a later life of one that has stopped
        let others = self.running().without(self.me());
        let heard = |name: Name| self.hearing.heard[usize::from(name.place())];
        let is_in = |name: &Name| self.is_taken_in(*name);
        let heard = others.iter().filter(is_in).map(heard).max();
        heard
            .unwrap_or_default()
            .max(asked)
            .after(long.max(self.settings.silent_after))
    }

    /// Whether all is sent and delivered, no reset is under way, and nobody has stopped that is still a member.
    fn is_ready_to_leave(&self) -> bool {
        let stopped = self.stopped.among(self.standing.members);
        self.sending.unsettled() == 0
            && self.sending.is_idle()
            && self.standing.role != Role::Coordinator
            && stopped.is_empty()
    }

    fn may_leave(&self) -> bool {
        let waits = self.is_sequencer() && self.now < self.leaving.another_until();
        self.is_ready_to_leave() && !waits
    }

    /// Goes on with a leave.
    pub(crate) fn leave(&mut self) -> Option<()> {
        // whoever has come to the end of the list leaves the one that follows
        if !self.leaving.is_wanted || self.has_succeeded() {
            return Some(());
        }
        if self.leaving.is_asked() {
            if self.now >= self.gives_up_leaving_at() {
                self.end(End::Left);
                return None;
            }
            return Some(());
        }
        if self.standing.role == Role::Stranger || self.standing.role == Role::Asking {
            return Some(());
        }
        if !self.may_leave() {
            if !std::mem::replace(&mut self.leaving.was_told, true) {
                self.tell(Notice::LeaveWaits);
            }
            return Some(());
        }
        if self.now < self.leaving.again_at {
            return Some(());
        }
        if self.is_alone() {
            if self.now >= self.leaving.another_until() {
                self.end(End::Closed);
                return None;
            }
            return Some(());
        }
        self.leaving.again_at = self.now.after(self.settings.first_resend);
        let outcome = self.step(&Event::Leave, None)?;
        if !matches!(outcome, Outcome::Busy { .. } | Outcome::NotMember) {
            self.leaving.asked_at = Some(self.now);
        }
        self.left_by(&outcome)
    }

    /// Looks whether the node has departed.
    pub(crate) fn left_by(&mut self, outcome: &Outcome) -> Option<()> {
        if *outcome == Outcome::Departed || self.standing.role == Role::Departed {
            self.end(End::Left);
            return None;
        }
        Some(())
    }

    /// Looks whether the group goes on without this member.
    pub(crate) fn look_whether_left_out(&mut self) -> Option<()> {
        if self.standing.role == Role::Departed {
            self.end(End::Left);
            return None;
        }
        if self.is_member() {
            self.leaving.was_member = true;
        } else if self.leaving.was_member && !self.leaving.is_asked() {
            self.end(End::LeftOut);
            return None;
        }
        Some(())
    }
}
