//! The member: what it keeps, and the three calls that move it.

use crate::body::{Assembler, MOST_MESSAGE};
use crate::chance::Chance;
use crate::config::{Plant, Settings, StartError, Time};
use crate::contents::Contents;
use crate::delivering::Delivering;
use crate::ending_list::EndingList;
use crate::event::{Counts, End, HandleError, Input, Notice, Output};
use crate::every::{Every, Processes};
use crate::frame::Speaker;
use crate::hearing::Hearing;
use crate::journal::Journal;
use crate::leaving::Leaving;
use crate::outbox::Outbox;
use crate::queue::Queue;
use crate::resetting::Resetting;
use crate::sending::Sending;
use crate::timers::Timers;
use muoswyld::answer::{Outcome, Role, Standing};
use muoswyld::event::Event;
use muoswyld::names::{Name, Names};
use muoswyld::Node;
use std::fmt;

/// How often a member looks again at what an input brought, before it waits for the next one.
const MOST_LOOKS: usize = 64;

/// A member of a group.
///
/// Its memory is bounded: [`Settings::most_waiting`] bytes of messages; of what is under way one body, and at most as many bodies
/// as the window and 15 that aren't delivered yet; the node's list, which has as many entries; 8 megabytes of each stream, which are those
/// of the members and of who left not long ago; 256 letters that wait for contents; a message of 65,535 bytes for each of the sixteen
/// places; and what was handled since the last release.
pub struct Member {
    pub(crate) settings: Settings,
    pub(crate) node: Node,
    pub(crate) standing: Standing,
    pub(crate) now: Time,
    pub(crate) chance: Chance,
    pub(crate) stopped: Every,
    pub(crate) hearing: Hearing,
    pub(crate) sending: Sending,
    pub(crate) delivering: Delivering,
    pub(crate) contents: Contents,
    pub(crate) ending: EndingList,
    pub(crate) timers: Timers,
    pub(crate) resetting: Resetting,
    pub(crate) leaving: Leaving,
    pub(crate) counts: Counts,
    pub(crate) ended: Option<End>,
    letter: u32,
    pub(crate) journal: Journal,
    outbox: Outbox,
    direct: Vec<(Names, Vec<u8>)>,
    outputs: Vec<Output>,
}

impl fmt::Debug for Member {
    fn fmt(&self, f: &mut fmt::Formatter<'_>) -> fmt::Result {
        f.debug_tuple("Member").field(&self.info()).finish()
    }
}

impl Member {
    /// A member at its beginning.
    pub fn new(settings: Settings, now: Time) -> Result<Member, StartError> {
        settings.check()?;
        let mut node = Node::open(&settings.founding.options(settings.name))?;
        let standing = node.handle(&Event::Look)?.standing;
        let mut member = Member {
            node,
            standing,
            now,
            chance: Chance::new(settings.seed),
            stopped: Every::default(),
            hearing: Hearing::new(now, Processes::new()),
            sending: Sending::new(Queue::new(settings.most_waiting)),
            delivering: Delivering::new(settings.deliveries, Assembler::default()),
            contents: Contents::default(),
            ending: EndingList::new(&settings),
            timers: Timers::new(now),
            resetting: Resetting::default(),
            leaving: Leaving::default(),
            counts: Counts::default(),
            ended: None,
            letter: 0,
            journal: Journal::new(&settings),
            outbox: Outbox::default(),
            direct: Vec::new(),
            outputs: Vec::new(),
            settings,
        };
        let founding = member.settings.founding;
        if founding.founders.len() < 2 * usize::from(founding.resilience) + 1 {
            member.tell(Notice::FewFounders);
        }
        let _ = member.begin();
        Ok(member)
    }

    /// Takes an input. What comes of it waits for the next [`release`](Member::release). An input that is refused changes nothing.
    pub fn handle(&mut self, now: Time, input: Input) -> Result<(), HandleError> {
        if self.ended.is_some() {
            return Err(HandleError::Ended);
        }
        self.now = self.now.max(now);
        match input {
            Input::Datagram(payload) => {
                let _ = self.hear(payload);
            }
            Input::Send { ticket, message } => self.put(ticket, message)?,
            Input::Leave => self.leaving.begin(),
            Input::Reset {
                ticket,
                least,
                resilience,
            } => self.asked_to_reset(ticket, least, resilience)?,
            Input::Stopped(name) => self.told_stopped(name)?,
            Input::Succeed(next) => self.succeed(next)?,
            Input::Consumed(count) => self.delivering.consumed(count),
            Input::Time => {}
        }
        let _ = self.go_on();
        Ok(())
    }

    /// Gives out all that came of the inputs since the last release. It is all or nothing: whoever can't do the first of it mustn't
    /// do the rest.
    pub fn release(&mut self, now: Time, out: &mut Vec<Output>) {
        self.now = self.now.max(now);
        let lines = self.journal.take();
        let journal = (!lines.is_empty()).then_some(Output::Journal(lines));
        let is_late = self.has(Plant::LetterBeforeJournal);
        let (first, last) = if is_late {
            (None, journal)
        } else {
            (journal, None)
        };
        out.extend(first);
        self.release_datagrams(out);
        out.extend(last);
        out.append(&mut self.outputs);
        self.sending.new_turn();
        self.contents.new_turn();
    }

    fn release_datagrams(&mut self, out: &mut Vec<Output>) {
        let mut datagrams = std::mem::take(&mut self.direct);
        if !self.outbox.is_empty() {
            let group = self.hearing.group.unwrap_or_default();
            let most = self.settings.datagram;
            datagrams.extend(self.outbox.take(group, self.speaker(), most));
        }
        for (to, payload) in datagrams {
            self.counts.datagrams_sent += to.len() as u64;
            out.push(Output::Datagram { to, payload });
        }
    }

    /// When the member wants [`Input::Time`] at the latest.
    pub fn wake(&self) -> Time {
        if self.ended.is_some() {
            return Time::NEVER;
        }
        if self.hearing.group.is_none() {
            return self.hearing.ask_at;
        }
        if self.can_take() {
            return self.now;
        }
        self.tick_at()
            .min(self.resets_at())
            .min(self.leave_at())
            .min(self.confirms_at())
            .min(self.greets_at())
            .min(self.wants_at())
            .min(self.succeeds_at())
            .min(self.paced_until())
    }

    /// How many bytes of messages fit now, each counted with [`MESSAGE_HEAD`](crate::MESSAGE_HEAD) more.
    pub fn free(&self) -> usize {
        self.sending.queue.free()
    }

    /// How many bytes a message may have to be taken now.
    pub fn room(&self) -> usize {
        self.sending.queue.room().min(MOST_MESSAGE)
    }

    pub(crate) fn has(&self, plant: Plant) -> bool {
        self.settings.plant == Some(plant)
    }

    pub(crate) fn speaker(&self) -> Speaker {
        Speaker {
            name: self.settings.name,
            process: self.settings.process,
        }
    }

    pub(crate) fn me(&self) -> Name {
        self.settings.name
    }

    pub(crate) fn is_sequencer(&self) -> bool {
        self.standing.role == Role::Sequencer
    }

    /// Whether it has a list, and is among its own members.
    pub fn is_member(&self) -> bool {
        let has_list = matches!(
            self.standing.role,
            Role::Member | Role::Sequencer | Role::Coordinator
        );
        has_list && self.standing.members.has(self.me())
    }

    pub(crate) fn tell(&mut self, notice: Notice) {
        self.outputs.push(Output::Told(notice));
    }

    pub(crate) fn give(&mut self, output: Output) {
        self.outputs.push(output);
    }

    /// Sends a datagram that has no letters.
    pub(crate) fn send_direct(&mut self, to: Names, payload: Vec<u8>) {
        self.direct.push((to, payload));
    }

    /// Ends the member: what wasn't delivered is told, and nothing more is done.
    pub(crate) fn end(&mut self, end: End) {
        if self.ended.is_some() {
            return;
        }
        if matches!(end, End::Left | End::Closed) {
            self.journal.end();
        }
        self.settle_all();
        self.end_reset();
        self.ended = Some(end);
        self.give(Output::Ended(end));
    }

    /// A step of the node: what came of it; None if the member has ended.
    pub(crate) fn step(&mut self, event: &Event, heard: Option<(Name, u32)>) -> Option<Outcome> {
        if self.ended.is_some() {
            return None;
        }
        let Ok(did) = self.node.handle(event) else {
            self.end(End::NodeFailed);
            return None;
        };
        self.counts.steps += 1;
        if did.outcome == Outcome::NoNumbersLeft {
            self.end(End::NoNumbersLeft);
            return None;
        }
        self.journal.add(self.now, event, heard, &did);
        if let (Outcome::Welcomed { number }, Role::Asking) = (&did.outcome, self.standing.role) {
            self.ending.is_welcomed(*number);
        }
        self.standing = did.standing;
        for packet in did.letters {
            self.letter = self.letter.wrapping_add(1);
            self.counts.letters_sent += 1;
            self.note_sent(&packet.bytes);
            self.outbox.push(self.letter, packet);
        }
        self.note_ballot(&did.outcome);
        self.note_progress();
        self.pass_contents();
        Some(did.outcome)
    }

    /// Whether what can be taken waits until the letters that wait are released: others wait for them. Who sends itself doesn't wait, since its
    /// next body goes out once the last one was taken.
    fn takes_later(&self) -> bool {
        !self.outbox.is_empty() && self.sending.is_idle() && self.can_take()
    }

    /// Does what can be done now, until nothing more comes of it.
    fn go_on(&mut self) -> Option<()> {
        if self.ended.is_some() {
            return None;
        }
        self.find()?;
        self.confirm();
        self.greet();
        self.give_held()?;
        self.want_contents();
        self.succeed_by_itself();
        for _ in 0..MOST_LOOKS {
            let before = self.counts.steps;
            self.collect()?;
            if !self.takes_later() {
                self.take()?;
                self.note_members();
            }
            self.look_at_ballot()?;
            self.look_at_group()?;
            self.send_next()?;
            self.leave()?;
            if self.wants_tick() {
                self.tick()?;
            }
            if self.counts.steps == before {
                break;
            }
        }
        Some(())
    }
}
