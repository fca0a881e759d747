//! What guards one list: its failures, its batch that waits for a look, and the inputs that wait until its member may be given them.

use crate::waiting::{Late, Waiting};
use muoswyld_failures::{self as failures, Failures, Places};
use muoswyld_member::{
    Generations, HandleError, Info, Input, Member, Names, NotReset, Output, Released, Time,
};

/// A time as the failures have it.
pub(crate) fn at(time: Time) -> failures::Time {
    failures::Time(time.0)
}

/// One list, guarded.
#[derive(Debug)]
pub(crate) struct Lane {
    /// How many lists came before.
    pub(crate) generation: u32,
    pub(crate) failures: Failures,
    /// Whether a batch goes out only if a look says so.
    is_gated: bool,
    /// Whether the member might be given something when that was asked last.
    is_open: bool,
    /// Whether it was given something since the last batch was complete: so it may be given more, and the look decides about all of it.
    is_begun: bool,
    /// Whether a batch is complete and not out.
    pub(crate) is_held: bool,
    /// Whether a look said that the batch may go out.
    pub(crate) is_out: bool,
    pub(crate) held: Vec<Released>,
    pub(crate) waiting: Waiting,
    /// How the member stood when a batch went out the last time.
    pub(crate) shown: Option<Info>,
    pub(crate) view: Option<(u32, Names)>,
    /// The places that never serve this list any more: they said that they are in a later one.
    pub(crate) elsewhere: Places,
    /// Whether a member that closed this list has said so.
    pub(crate) is_closed: bool,
    /// As a defect that a test plants: an input is read after the look.
    pub(crate) reads_after_look: bool,
}

impl Lane {
    pub(crate) fn new(
        generation: u32,
        failures: Failures,
        is_gated: bool,
        shown: Option<Info>,
    ) -> Lane {
        Lane {
            generation,
            failures,
            is_gated,
            is_open: true,
            is_begun: false,
            is_held: false,
            is_out: false,
            held: Vec::new(),
            waiting: Waiting::default(),
            shown,
            view: None,
            elsewhere: 0,
            is_closed: false,
            reads_after_look: false,
        }
    }

    /// As a test wants it: without a look, or with a defect.
    pub(crate) fn set_plant(&mut self, is_gated: bool, reads_after_look: bool) {
        (self.is_gated, self.reads_after_look) = (is_gated, reads_after_look);
    }

    /// Gives the member an input, or has it wait.
    pub(crate) fn handle(
        &mut self,
        lists: &mut Generations,
        now: Time,
        input: Input<'_>,
    ) -> Result<(), HandleError> {
        match self.open(lists, now) {
            true => lists.handle_in(now, self.generation, input),
            false => self.waiting.put(input),
        }
    }

    /// Whether the member may be given something now. What waited is given first: where nothing is looked at, that waited for the list to begin.
    pub(crate) fn open(&mut self, lists: &mut Generations, now: Time) -> bool {
        if self.is_gated {
            return self.is_begun || self.begin(lists, now);
        }
        if !self.waiting.is_empty() {
            self.catch_up(lists, now);
        }
        true
    }

    /// Whether the member may be given something now, asked anew. What waited is given first.
    fn begin(&mut self, lists: &mut Generations, now: Time) -> bool {
        let reads = self.is_held && self.reads_after_look;
        self.is_open = self.failures.begin(at(now)) || reads && self.failures.is_out();
        self.is_begun = self.is_open && !self.is_held;
        if self.is_open && !self.waiting.is_empty() {
            self.catch_up(lists, now);
        }
        self.is_open
    }

    /// Gives what waited, in its order.
    fn catch_up(&mut self, lists: &mut Generations, now: Time) {
        let generation = self.generation;
        let consumed = std::mem::take(&mut self.waiting.consumed);
        if consumed > 0 {
            // only messages can be refused
            let _taken = lists.handle_in(now, generation, Input::Consumed(consumed));
        }
        while let Some(late) = self.waiting.take() {
            let ticket = late.ticket();
            let taken = lists.handle_in(now, generation, late.input());
            if let (Err(_), Some(ticket)) = (taken, ticket) {
                let result = Err(NotReset::NotMember);
                let output = Output::ResetDone { ticket, result };
                self.held.push(Released { generation, output });
            }
        }
    }

    /// Time passed: the member is told so, if it wants that and may be given something.
    pub(crate) fn tick(&mut self, lists: &mut Generations, now: Time) {
        let is_due = !self.waiting.is_empty() || lists.wake_in(self.generation) <= now;
        if self.may_have() && is_due {
            // only messages can be refused
            let _taken = self.handle(lists, now, Input::Time);
        }
    }

    /// All that came of the inputs is complete: it is the batch from now on, if there is some of it and none is held.
    pub(crate) fn fix(&mut self, lists: &mut Generations, now: Time) {
        if !self.is_gated {
            return lists.release_in(now, self.generation, &mut self.held);
        }
        if self.is_held || !self.begin(lists, now) {
            return;
        }
        self.is_begun = false;
        lists.release_in(now, self.generation, &mut self.held);
        if self.held.is_empty() {
            return self.failures.forget();
        }
        self.failures.fix(at(now));
        self.is_held = true;
    }

    /// Whether there is a batch, and all of it may go out now.
    pub(crate) fn look(&mut self, now: Time) -> bool {
        self.is_out = match self.is_gated {
            true => self.is_held && self.failures.look(at(now)),
            false => !self.held.is_empty(),
        };
        self.is_out
    }

    /// The batch is out.
    pub(crate) fn emitted(&mut self) {
        self.is_out = false;
        if self.is_gated {
            self.failures.emitted();
            (self.is_held, self.is_open) = (false, true);
        }
    }

    /// The members of the view, if it is another one than before, and the application was given it.
    pub(crate) fn new_view(&mut self, member: &Member) -> Option<Names> {
        let info = member.info();
        self.shown = Some(info);
        let standing = info.standing;
        let view = (standing.view_number, standing.members);
        let stands = standing.taken >= standing.view_number && info.group.is_some();
        if !stands || self.view == Some(view) {
            return None;
        }
        self.view = Some(view);
        Some(standing.members)
    }

    /// Whether the member might be given something when that was asked last, and no batch of it is held.
    pub(crate) fn may_have(&self) -> bool {
        self.is_open && !self.is_held
    }

    /// When it wants a turn at the latest.
    pub(crate) fn wake(&self, lists: &Generations) -> Time {
        let failures = Time(self.failures.wake().0);
        match (self.may_have(), self.waiting.is_empty()) {
            (true, true) => failures.min(lists.wake_in(self.generation)),
            (true, false) => Time(0),
            (false, _) => failures,
        }
    }

    /// What waited for the member of the next list: what is asked by callers. The rest is of this list.
    pub(crate) fn take_calls(&mut self) -> Vec<Late> {
        self.waiting.take_calls()
    }
}
