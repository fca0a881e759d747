//! What comes: letters of the group, and the group's id, which a member learns before it speaks.

use crate::config::{Plant, Time};
use crate::event::{End, Notice};
use crate::every::{Every, Processes};
use crate::frame::{self, Frame, Letter, Letters, Speaker};
use crate::member::Member;
use crate::packet::{kind_of, stamp_of, Kind};
use muoswyld::answer::{Outcome, Role};
use muoswyld::event::Event;
use muoswyld::names::{Name, Names, PLACES};

/// How often a place is told the group's id at most: once in so many microseconds.
const ANSWER_EVERY: u64 = 1_000;

/// Of how many earlier lists the foundings' digests are kept.
const MOST_EARLIER: usize = 4096;

/// What a member knows of the others' processes.
#[derive(Debug)]
pub(crate) struct Hearing {
    /// The group's id, once it is known.
    pub(crate) group: Option<u64>,
    /// The digests of the foundings of the group's earlier lists in which this process was, the latest one last.
    pub(crate) earlier: Vec<u64>,
    /// When it is asked for next.
    pub(crate) ask_at: Time,
    asks: u32,
    nonce: u64,
    processes: Processes,
    /// When something was last heard of each place, or the member began.
    pub(crate) heard: [Time; 16],
    /// Which places were told as silent.
    pub(crate) silent: [bool; 16],
    answered: [Option<Time>; 16],
    told_group: [bool; 16],
    told_process: Every,
}

impl Hearing {
    /// Whether a name was ever heard.
    pub(crate) fn was_heard(&self, name: Name) -> bool {
        self.processes.is_known(name)
    }

    pub(crate) fn new(now: Time, processes: Processes) -> Hearing {
        Hearing {
            group: None,
            earlier: Vec::new(),
            ask_at: now,
            asks: 0,
            nonce: 0,
            processes,
            heard: [now; 16],
            silent: [false; 16],
            answered: [None; 16],
            told_group: [false; 16],
            told_process: Every::default(),
        }
    }
}

/// The names of the first lives of all places but one.
fn others(place: u8) -> Names {
    (0..PLACES)
        .filter(|other| *other != place)
        .filter_map(Name::first)
        .collect()
}

impl Member {
    /// Begins: the lowest founder draws the group's id, and everybody else asks for it.
    pub(crate) fn begin(&mut self) -> Option<()> {
        self.hearing.nonce = self.chance.word();
        if let Some(group) = self.settings.group {
            return self.found(group);
        }
        if self.settings.founding.lowest() == Some(self.me()) {
            let group = self.chance.word();
            self.found(group)?;
        }
        self.find()
    }

    /// Asks for the group's id, if it isn't known and it is time.
    pub(crate) fn find(&mut self) -> Option<()> {
        if self.hearing.group.is_some() {
            return Some(());
        }
        if self.now >= self.hearing.ask_at {
            let wait = Time::doubled(self.settings.first_resend, self.hearing.asks);
            self.hearing.asks = self.hearing.asks.saturating_add(1);
            self.hearing.ask_at = self.now.after(wait.min(self.settings.most_resend));
            let digest = self.settings.founding.digest(self.settings.generation);
            let ask = frame::ask(digest, self.speaker(), self.hearing.nonce);
            self.send_direct(others(self.me().place()), ask);
        }
        None
    }

    /// Knows the group's id: from here on the node speaks.
    fn found(&mut self, group: u64) -> Option<()> {
        self.hearing.group = Some(group);
        self.hearing.heard = [self.now; 16];
        self.timers.begin(self.now);
        self.tell(Notice::Group(group));
        if self.standing.role == Role::Stranger {
            self.step(&Event::Join, None)?;
        }
        Some(())
    }

    /// Takes a datagram.
    pub(crate) fn hear(&mut self, payload: &[u8]) -> Option<()> {
        self.counts.datagrams_heard += 1;
        match frame::read(payload) {
            Some(Frame::Letters {
                group,
                from,
                letters,
            }) => self.hear_letters(group, from, letters),
            Some(Frame::Ask {
                digest,
                from,
                nonce,
            }) => {
                self.asked(digest, from, nonce);
                Some(())
            }
            Some(Frame::Tell { nonce, group, from }) => self.told(nonce, group, from),
            Some(Frame::Refuse { nonce, from }) => {
                self.refused(nonce, from);
                Some(())
            }
            Some(Frame::Later {
                nonce,
                generation,
                from,
            }) => {
                self.is_later(nonce, generation, from);
                Some(())
            }
            Some(Frame::Entry {
                group,
                from,
                number,
                said,
            }) => {
                if self.is_of_member(group, from) {
                    self.hear_entry(from, number, said);
                }
                Some(())
            }
            Some(Frame::Chunk {
                group,
                from,
                owner,
                start,
                bytes,
            }) => {
                if self.is_of_member(group, from) {
                    self.hear_chunk(owner, start, bytes);
                }
                Some(())
            }
            Some(Frame::Want {
                group,
                from,
                owner,
                ranges,
            }) => {
                if self.is_of_member(group, from) {
                    self.send_wanted(from.name, owner, ranges);
                }
                Some(())
            }
            None => {
                self.counts.malformed += 1;
                Some(())
            }
        }
    }

    /// Whether a process may speak for its name; what isn't so is counted, and told once.
    fn may_speak(&mut self, from: Speaker) -> bool {
        if from.name.place() == self.me().place() {
            self.counts.malformed += 1;
            return false;
        }
        let processes = &self.hearing.processes;
        let is_known = processes.is_of(from.name, from.process);
        // a process that is heard first once its name has stopped is a second one
        let may_be_new =
            processes.may_have(from.name, from.process) && !self.stopped.has(from.name);
        if is_known || may_be_new {
            return true;
        }
        self.counts.other_process += 1;
        if self.hearing.told_process.insert(from.name) {
            self.tell(Notice::OtherProcess(from.name));
        }
        self.has(Plant::TakesAnyProcess)
    }

    fn drop_other_group(&mut self, from: Speaker) {
        self.counts.other_group += 1;
        let told = &mut self.hearing.told_group[usize::from(from.name.place())];
        if !std::mem::replace(told, true) {
            self.tell(Notice::OtherGroup(from.name));
        }
    }

    /// Answers who asks for the group's id.
    fn asked(&mut self, digest: u64, from: Speaker, nonce: u64) {
        let Some(group) = self.hearing.group else {
            return;
        };
        let is_of_group = digest == self.settings.founding.digest(self.settings.generation);
        let may_be_earlier = !is_of_group && self.may_be_earlier(digest);
        if is_of_group && !self.may_speak(from) {
            return;
        }
        if !is_of_group && !may_be_earlier {
            self.drop_other_group(from);
        }
        let answered = &mut self.hearing.answered[usize::from(from.name.place())];
        if answered.is_some_and(|last| self.now.since(last) < ANSWER_EVERY) {
            return;
        }
        *answered = Some(self.now);
        let answer = match is_of_group {
            true => frame::tell(nonce, group, self.speaker()),
            false if may_be_earlier => {
                frame::later(nonce, self.settings.generation, self.speaker())
            }
            false => frame::refuse(nonce, self.speaker()),
        };
        self.send_direct(Names::nobody().with(from.name), answer);
    }

    /// Its list follows another one, in which this process was.
    pub(crate) fn come_from(&mut self, before: &Member) {
        let settings = &before.settings;
        let digest = settings.founding.digest(settings.generation);
        self.hearing.earlier = before.hearing.earlier.clone();
        if self.hearing.earlier.len() < MOST_EARLIER {
            self.hearing.earlier.push(digest);
        }
    }

    /// Whether a digest may be that of an earlier list of this group. Who was in all of them knows. Else whoever asks decides, by which list
    /// it asks for.
    fn may_be_earlier(&self, digest: u64) -> bool {
        let earlier = &self.hearing.earlier;
        let knows_all = earlier.len() as u64 == u64::from(self.settings.generation);
        earlier.contains(&digest) || !knows_all
    }

    /// Hears that the group has come to a later list than the one whose id it asks for: that one has ended.
    fn is_later(&mut self, nonce: u64, generation: u32, from: Speaker) {
        if generation <= self.settings.generation {
            return self.refused(nonce, from);
        }
        if self.hearing.group.is_none() && nonce == self.hearing.nonce {
            self.end(End::Superseded);
        }
    }

    /// Hears that the one whom it asked is of another founding.
    fn refused(&mut self, nonce: u64, from: Speaker) {
        if self.hearing.group.is_none() && nonce == self.hearing.nonce {
            self.drop_other_group(from);
        }
    }

    /// Takes the group's id, if it was asked for by this nonce.
    fn told(&mut self, nonce: u64, group: u64, from: Speaker) -> Option<()> {
        if self.hearing.group.is_some() || nonce != self.hearing.nonce || !self.may_speak(from) {
            return Some(());
        }
        self.found(group)
    }

    /// Whether what a process says is of this group, and may come of it.
    fn may_hear(&mut self, group: u64, from: Speaker) -> bool {
        let Some(own) = self.hearing.group else {
            return false; // it may be of this group or not
        };
        if group != own && !self.has(Plant::TakesAnyGroup) {
            self.drop_other_group(from);
            return false;
        }
        self.may_speak(from)
    }

    /// Whether a datagram may be heard. If so, its sender was heard.
    fn is_of_member(&mut self, group: u64, from: Speaker) -> bool {
        let may_hear = self.may_hear(group, from);
        if may_hear {
            self.hearing.processes.remember(from.name, from.process);
            self.is_heard(from.name);
        }
        may_hear
    }

    fn hear_letters(&mut self, group: u64, from: Speaker, letters: Letters) -> Option<()> {
        if !self.is_of_member(group, from) {
            return Some(());
        }
        for letter in letters {
            self.hear_letter(from.name, &letter)?;
        }
        Some(())
    }

    fn is_heard(&mut self, name: Name) {
        let place = usize::from(name.place());
        self.hearing.heard[place] = self.now;
        if std::mem::take(&mut self.hearing.silent[place]) {
            self.tell(Notice::Heard(name));
        }
    }

    fn hear_letter(&mut self, from: Name, letter: &Letter) -> Option<()> {
        let kind = kind_of(letter.packet);
        if !letter.to.is_for(self.me()) {
            self.counts.not_addressed += 1;
            return Some(());
        }
        // whoever isn't a member at a list's end joins the next one
        let is_late = self.has_succeeded() && !self.standing.members.has(from);
        if kind == Some(Kind::JoinAsk) && is_late {
            self.tell_ended(from);
        }
        if kind == Some(Kind::JoinAsk) {
            self.is_asked_by(from);
            if is_late || self.puts_off(from) {
                self.counts.askers_put_off += 1;
                return Some(());
            }
        }
        if kind == Some(Kind::LeaveAsk) {
            self.leaving.heard(self.now);
        }
        self.hear_with_contents(from, letter)
    }

    /// Gives the node a letter.
    pub(crate) fn give_letter(&mut self, from: Name, letter: &Letter) -> Option<()> {
        self.counts.letters_heard += 1;
        self.note_report(from, letter.packet);
        let event = Event::Hear {
            to: letter.to,
            packet: letter.packet,
        };
        let outcome = self.step(&event, Some((from, letter.number)))?;
        if outcome == Outcome::Voted {
            self.voted(stamp_of(letter.packet));
        }
        self.note_heard(&outcome);
        Some(())
    }

    /// Whether an asker isn't heard now: somebody has stopped and is still a member, a reset is under way, or the member leaves. A
    /// stranger that is numbered then could lock the group. One that is numbered already is heard, so that it is welcomed.
    fn puts_off(&self, asker: Name) -> bool {
        let members = self.standing.members;
        let is_bad_time = !self.stopped.among(members).is_empty()
            || self.standing.role == Role::Coordinator
            || self.leaving.is_wanted();
        is_bad_time && !members.has(asker)
    }

    /// What the answer to a letter tells the timers and the reset.
    fn note_heard(&mut self, outcome: &Outcome) {
        self.timers.heard(self.now, outcome);
        if matches!(outcome, Outcome::PutOff { .. }) {
            self.sending.put_off = true;
        }
    }
}
