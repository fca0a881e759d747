//! The end of a list, which another one follows (docs/MEMBER.md, "Generations").
//!
//! A control body, at number N of the list, names an earlier entry M, the members there, and the numbers of the next founding. It counts if
//! between M and N nobody joins or leaves and no view begins. Whoever takes N has taken all of these entries, so all members judge alike. Of two
//! that count the first one does. After N a member delivers nothing more of the list. It begins the next one as a founder, the first life of its
//! place, and sends there again what it hasn't delivered of its own. Its node goes on, for those that haven't come to N.
//!
//! A joiner may have joined after N, and doesn't know. So it delivers nothing until somebody confirms that the entry of its join stands: a
//! founder, or a joiner that was confirmed itself and began before, that has delivered that entry. If nobody does for long, it ends.

use crate::config::{Plant, Settings, Time};
use crate::ends::{id_after, Ends, ENDS_LIST};
use crate::event::{End, Notice, Output, Position, Successor};
use crate::frame::{self, Said, Speaker};
use crate::member::Member;
use muoswyld::answer::Entry;
use muoswyld::names::{Name, Names};
use std::collections::BTreeMap;

/// What a member knows about the end of its list.
#[derive(Debug)]
pub(crate) struct EndingList {
    /// The members after the last entry that was taken, if they are known.
    members: Option<Names>,
    /// The last entry taken at which somebody joined or left, or a view began.
    changed_at: u32,
    /// The first entry that this member is given: the one of its join, once it is welcomed, and 1 at a founder.
    begins_at: Option<u32>,
    /// Whether it is known that its first entry stands.
    is_confirmed: bool,
    /// When it asks for that next.
    ask_at: Time,
    /// When it first asked for that.
    asked_since: Option<Time>,
    /// When it asks next which founders are there.
    greet_at: Time,
    /// The last entry that is delivered, once that is known.
    last: Option<u32>,
    /// With the planted defect: how many entries more are delivered.
    late: u32,
    /// Whether the list mustn't be ended now, by what the member doesn't know itself.
    pub(crate) is_held_off: bool,
    /// Until when somebody counts as one that asks to join.
    pub(crate) asked_until: Time,
    /// When the member ends the list by itself next, if that is due.
    pub(crate) by_itself_at: Time,
    /// Whether it was told that no voter is left for the next list.
    pub(crate) told_no_voters: bool,
    /// When an asker of a list that has ended was last told so.
    told_ended: Time,
}

impl EndingList {
    pub(crate) fn new(settings: &Settings) -> EndingList {
        let is_founder = settings.founding.founders.has(settings.name);
        EndingList {
            members: None,
            changed_at: 0,
            begins_at: is_founder.then_some(1),
            is_confirmed: is_founder || settings.plant == Some(Plant::TakesUnconfirmed),
            ask_at: Time(0),
            asked_since: None,
            greet_at: Time(0),
            last: None,
            late: 0,
            is_held_off: false,
            asked_until: Time(0),
            by_itself_at: Time(0),
            told_no_voters: false,
            told_ended: Time(0),
        }
    }

    /// A joiner's Welcome says which entry is the one of its join.
    pub(crate) fn is_welcomed(&mut self, number: u32) {
        self.begins_at.get_or_insert(number);
    }

    /// Whether the list has ended here.
    pub(crate) fn has_ended(&self) -> bool {
        self.last.is_some() && self.late == 0
    }

    /// The members after the last entry that was taken, if they are known.
    pub(crate) fn members(&self) -> Option<Names> {
        self.members
    }

    /// Whether what is accepted may be delivered.
    pub(crate) fn is_confirmed(&self) -> bool {
        self.is_confirmed
    }
}

/// A list that isn't served any more: whoever asks to join it is told so.
#[derive(Debug)]
pub(crate) struct Closed {
    pub(crate) group: u64,
    speaker: Speaker,
    /// The entry that ended it.
    last: Option<u32>,
    /// Who is to be told, and of which entry: 0 for one that asks to join.
    askers: BTreeMap<Name, u32>,
}

impl Closed {
    /// That of a member, if it knew its group.
    pub(crate) fn new(member: &Member) -> Option<Closed> {
        Some(Closed {
            group: member.hearing.group?,
            speaker: member.speaker(),
            last: member.ending.last,
            askers: BTreeMap::new(),
        })
    }

    /// Letters of this list's group came, or a joiner's question. Nobody but an asker, and a joiner whose join stands after the end, is behind the
    /// end, or heeds the answer.
    pub(crate) fn asked_by(&mut self, payload: &[u8]) {
        let (from, number) = match frame::read(payload) {
            Some(frame::Frame::Letters { from, .. }) => (from, 0),
            Some(frame::Frame::Entry {
                from,
                number,
                said: Said::Asked,
                ..
            }) if self.last.is_some_and(|last| last < number) => (from, number),
            _ => return,
        };
        if from.name.place() != self.speaker.name.place() {
            let known = self.askers.entry(from.name).or_default();
            *known = number.max(*known);
        }
    }

    /// What tells one of those that asked since the last time.
    pub(crate) fn answer(&mut self) -> Option<Output> {
        let (name, number) = self.askers.pop_first()?;
        let to = Names::nobody().with(name);
        let payload = frame::entry(self.group, self.speaker, number, Said::IsAbove);
        Some(Output::Datagram { to, payload })
    }
}

impl Member {
    /// A position in this member's list.
    pub(crate) fn at(&self, number: u32, index: u32) -> Position {
        Position {
            generation: self.settings.generation,
            number,
            index,
        }
    }

    /// The places that vote in its list.
    pub(crate) fn set_voters(&mut self, voters: Option<Names>) {
        self.settings.voters = voters;
    }

    /// Whether the list has ended here: nothing more of it is delivered, and nothing more is sent.
    pub fn has_succeeded(&self) -> bool {
        self.ending.has_ended()
    }

    /// The founders that weren't heard in this list, and are members of it and haven't stopped.
    pub(crate) fn unheard(&self) -> Names {
        let others = self.settings.founding.founders.without(self.me()).iter();
        let is_there = |name: &Name| !self.stopped.has(*name) && self.standing.members.has(*name);
        others
            .filter(is_there)
            .filter(|name| !self.hearing.was_heard(*name))
            .collect()
    }

    /// Whether all founders were heard in this list, or have left it or stopped: nobody wants anything of the list before it.
    pub(crate) fn knows_all_founders(&self) -> bool {
        self.unheard().is_empty()
    }

    /// When a founder of a list that follows another one asks next who is there.
    pub(crate) fn greets_at(&self) -> Time {
        match self.settings.generation == 0 || self.knows_all_founders() {
            true => Time::NEVER,
            false => self.ending.greet_at,
        }
    }

    /// Asks the founders that weren't heard whether they are there, if it is time.
    pub(crate) fn greet(&mut self) {
        if self.now < self.greets_at() {
            return;
        }
        let Some(group) = self.hearing.group else {
            return;
        };
        self.ending.greet_at = self.now.after(self.settings.first_resend);
        let ask = frame::entry(group, self.speaker(), 0, Said::Asked);
        self.send_direct(self.unheard(), ask);
    }

    /// Looks at an entry that was taken, before it is delivered.
    pub(crate) fn note_entry(&mut self, number: u32, entry: &Entry) {
        let ending = &mut self.ending;
        let members = match entry {
            Entry::Data { .. } => return,
            Entry::Join(name) => ending.members.map(|members| members.with(*name)),
            Entry::Leave(name) => ending.members.map(|members| members.without(*name)),
            Entry::View { members, .. } => Some(*members),
        };
        ending.members = members;
        ending.changed_at = number;
    }

    /// Whether a name is a member after the last entry that was taken, as far as that is known.
    pub(crate) fn is_taken_in(&self, name: Name) -> bool {
        self.ending.members.is_none_or(|members| members.has(name))
    }

    /// Learns who is a member, if that isn't known and all of the list was taken.
    pub(crate) fn note_members(&mut self) {
        let standing = &self.standing;
        let is_whole = standing.taken == standing.top && self.standing.members.has(self.me());
        if self.ending.members.is_none() && is_whole {
            self.ending.members = Some(standing.members);
        }
    }

    /// Takes control: what ends the list does so, if it counts.
    pub(crate) fn take_control(&mut self, number: u32, from: Name, body: &[u8]) {
        self.counts.controls += 1;
        let Some((kind, said)) = body.get(1..).and_then(<[u8]>::split_first) else {
            return;
        };
        if *kind != ENDS_LIST {
            if *kind > 127 {
                self.end(End::OtherVersion);
            }
            return;
        }
        let Some(ends) = Ends::read(said) else {
            self.end(End::OtherVersion);
            return;
        };
        let is_after = ends.at < number && self.ending.changed_at <= ends.at;
        let counts = is_after || self.has(Plant::FoundersAtTop);
        if Some(ends.group) == self.hearing.group && counts && ends.is_sound() {
            self.end_list(number, &ends, body);
        } else if from == self.me() {
            self.tell(Notice::NotSucceeded);
        }
    }

    fn end_list(&mut self, number: u32, ends: &Ends, body: &[u8]) {
        let group = id_after(ends.group, number, body);
        self.ending.last = Some(number);
        self.ending.late = u32::from(self.has(Plant::EndsListLate));
        let unsent = self.take_unsent();
        let successor = Successor {
            group,
            founding: ends.founding(),
            voters: ends.voters,
            members: ends.members,
            at: self.at(number, 0),
            unsent,
        };
        self.journal.succeed(&successor);
        self.give(Output::Succeeded(successor));
    }

    /// Whether an entry is delivered, by the end of the list.
    pub(crate) fn is_in_list(&mut self, number: u32) -> bool {
        match self.ending.last {
            Some(last) if number > last => std::mem::take(&mut self.ending.late) > 0,
            _ => true,
        }
    }

    /// When a joiner asks next whether its first entry stands.
    pub(crate) fn confirms_at(&self) -> Time {
        match self.ending.is_confirmed || !self.is_member() {
            true => Time::NEVER,
            false => self.ending.ask_at,
        }
    }

    /// When a joiner ends whose first entry nobody confirms: all that could have left or stopped.
    pub(crate) fn unconfirmed_at(&self) -> Time {
        let wait = self.settings.stuck_after.saturating_mul(4);
        let since = self
            .ending
            .asked_since
            .filter(|_| !self.ending.is_confirmed);
        since.map_or(Time::NEVER, |since| since.after(wait))
    }

    /// Asks whether the entry of the own join stands, if that isn't known and it is time.
    pub(crate) fn confirm(&mut self) {
        if self.now < self.confirms_at() {
            return;
        }
        let (Some(group), Some(number)) = (self.hearing.group, self.first_entry()) else {
            return;
        };
        self.ending.ask_at = self.now.after(self.settings.first_resend);
        self.ending.asked_since.get_or_insert(self.now);
        let ask = frame::entry(group, self.speaker(), number, Said::Asked);
        self.send_direct(self.standing.members.without(self.me()), ask);
    }

    /// The entry of the own join, which its Welcome names. It isn't always the one after those that the node passes over: a Welcome may begin
    /// further below.
    fn first_entry(&self) -> Option<u32> {
        match self.has(Plant::TakesByAnotherEntry) {
            true => Some(self.standing.taken + 1),
            false => self.ending.begins_at,
        }
    }

    /// Hears something about an entry.
    pub(crate) fn hear_entry(&mut self, from: Speaker, number: u32, said: Said) {
        match said {
            Said::Asked => self.answer_entry(from, number),
            Said::Stands if Some(number) == self.first_entry() => self.ending.is_confirmed = true,
            Said::IsAbove if Some(number) == self.first_entry() && !self.ending.is_confirmed => {
                self.end(End::Superseded);
            }
            // one that is welcomed and hasn't come to its join is none either
            Said::IsAbove if number == 0 && !self.is_member() => self.end(End::Superseded),
            Said::Stands | Said::IsAbove => {}
        }
    }

    /// Tells one that asks to join, and isn't a member, that the list has ended.
    pub(crate) fn tell_ended(&mut self, asker: Name) {
        let Some(group) = self.hearing.group else {
            return;
        };
        if self.now >= self.ending.told_ended.after(self.settings.first_resend) {
            self.ending.told_ended = self.now;
            let answer = frame::entry(group, self.speaker(), 0, Said::IsAbove);
            self.send_direct(Names::nobody().with(asker), answer);
        }
    }

    fn answer_entry(&mut self, from: Speaker, number: u32) {
        let Some(group) = self.hearing.group else {
            return;
        };
        if number == 0 {
            let answer = frame::entry(group, self.speaker(), 0, Said::Stands);
            self.send_direct(Names::nobody().with(from.name), answer);
            return;
        }
        let has_it = self.ending.is_confirmed
            && self.ending.begins_at.is_some_and(|first| first <= number)
            && number <= self.standing.taken;
        if !has_it {
            return;
        }
        let said = match self.ending.last {
            Some(last) if last < number => Said::IsAbove,
            _ => Said::Stands,
        };
        let answer = frame::entry(group, self.speaker(), number, said);
        self.send_direct(Names::nobody().with(from.name), answer);
    }
}
