//! A member of a group without an end: its lists follow one another, and the application sees one.

use crate::config::{Before, Plant, Settings, StartError, Time};
use crate::ending_list::Closed;
use crate::event::{HandleError, Input, Output, Successor};
use crate::frame::group_of;
use crate::member::Member;
use muoswyld::names::{Name, Names};
use std::collections::VecDeque;
use std::fmt;

/// Of how many lists that aren't served any more the ids are kept.
const MOST_CLOSED: usize = 64;

/// Something that a member of a group gives out, and in which of the group's lists.
#[derive(Clone, Debug, PartialEq, Eq)]
pub struct Released {
    /// How many lists of the group came before.
    pub generation: u32,
    /// What it gives out. Before anything goes out that stands after [`Output::Succeeded`], it must be on disk that the next list's life began.
    pub output: Output,
}

/// A member of a list that has ended, for those that haven't come to its end.
struct Old {
    member: Member,
    generation: u32,
    /// The members at its end.
    successor: Successor,
}

/// A member whose group's lists follow one another. It is handled as a [`Member`] is: as a whole, by [`handle`](Generations::handle) and
/// [`release`](Generations::release), or each list by itself.
pub struct Generations {
    settings: Settings,
    current: Member,
    /// What follows the latest list, if that has ended here and the next one hasn't begun.
    next: Option<Successor>,
    olds: Vec<Old>,
    /// The lists that aren't served any more.
    closed: VecDeque<Closed>,
    /// How many deliveries of ended lists the application hasn't said that it took.
    owed: usize,
    /// How many of the current list it hasn't.
    given: usize,
    leaves: bool,
    /// Whether a list mustn't be ended now, by what whoever drives this knows.
    is_held_off: bool,
    /// With a planted defect: the last message that was sent.
    last: Option<(u64, Vec<u8>)>,
}

impl fmt::Debug for Generations {
    fn fmt(&self, f: &mut fmt::Formatter<'_>) -> fmt::Result {
        let olds: Vec<u32> = self.olds.iter().map(|old| old.generation).collect();
        let current = (self.settings.generation, &self.current);
        f.debug_tuple("Generations")
            .field(&current)
            .field(&olds)
            .finish()
    }
}

/// Whether a member of an ended list still gives something out: letters, and lines of journals. What it tells is of no interest any more.
fn goes_out(output: &Output) -> bool {
    matches!(
        output,
        Output::Datagram { .. } | Output::Journal(_) | Output::ResetDone { .. }
    )
}

impl Generations {
    /// A member at its beginning.
    pub fn new(settings: Settings, now: Time) -> Result<Generations, StartError> {
        let current = Member::new(settings.clone(), now)?;
        Ok(Generations {
            settings,
            current,
            next: None,
            olds: Vec::new(),
            closed: VecDeque::new(),
            owed: 0,
            given: 0,
            leaves: false,
            is_held_off: false,
            last: None,
        })
    }

    /// The member of the latest list.
    pub fn current(&self) -> &Member {
        &self.current
    }

    /// How many lists came before the latest one.
    pub fn generation(&self) -> u32 {
        self.settings.generation
    }

    /// Of how many ended lists a member still serves those that haven't come to their ends.
    pub fn ended_lists(&self) -> usize {
        self.olds.len()
    }

    /// The member of a list, if it is served here.
    pub fn member_of(&self, generation: u32) -> Option<&Member> {
        match generation == self.settings.generation {
            true => Some(&self.current),
            false => self.old(generation).map(|old| &old.member),
        }
    }

    fn old(&self, generation: u32) -> Option<&Old> {
        self.olds.iter().find(|old| old.generation == generation)
    }

    fn served(&mut self, generation: u32) -> Option<&mut Member> {
        if generation == self.settings.generation {
            return Some(&mut self.current);
        }
        let mut olds = self.olds.iter_mut();
        let old = olds.find(|old| old.generation == generation);
        old.map(|old| &mut old.member)
    }

    /// The list that a datagram is of, if it is served here: the latest one for what names none.
    pub fn generation_of(&self, payload: &[u8]) -> Option<u32> {
        let latest = Some(self.settings.generation);
        let Some(group) = group_of(payload) else {
            return latest;
        };
        let is_it = |member: &Member| member.info().group == Some(group);
        if is_it(&self.current) {
            return latest;
        }
        let old = self.olds.iter().find(|old| is_it(&old.member));
        old.map(|old| old.generation)
    }

    /// The members of an ended list at its end.
    pub fn members_at_end(&self, generation: u32) -> Option<Names> {
        self.old(generation).map(|old| old.successor.members)
    }

    /// The founders of the list after an ended one that weren't heard in it, and haven't stopped there: the ended one is served for them.
    pub fn awaited(&self, generation: u32) -> Names {
        let next = self.member_of(generation + 1);
        next.map_or(Names::nobody(), Member::unheard)
    }

    /// The places that vote who has stopped in the latest list, each as its first life; None where the policy has no voters.
    pub fn set_voters(&mut self, voters: Option<Names>) {
        self.settings.voters = voters;
        self.current.set_voters(voters);
    }

    // ---- the lists together

    /// Takes an input, as [`Member::handle`] does. A datagram goes to the member of its list.
    pub fn handle(&mut self, now: Time, input: Input) -> Result<(), HandleError> {
        let latest = self.settings.generation;
        match input {
            Input::Datagram(payload) => match self.generation_of(payload) {
                Some(generation) => self.handle_in(now, generation, input),
                None => self.handle_in(now, latest, input),
            },
            Input::Stopped(name) => self.stopped(now, name),
            Input::Consumed(count) => {
                let of_latest = self.consumed(count);
                self.handle_in(now, latest, Input::Consumed(of_latest))
            }
            Input::Leave => {
                self.note_leave();
                self.handle_in(now, latest, Input::Leave)
            }
            Input::Time => {
                for old in &mut self.olds {
                    // one that has ended is taken away at the release
                    let _taken = old.member.handle(now, Input::Time);
                }
                self.handle_in(now, latest, Input::Time)
            }
            input @ (Input::Send { .. } | Input::Reset { .. } | Input::Succeed(_)) => {
                self.handle_in(now, latest, input)
            }
        }
    }

    /// A process has stopped: in ended lists too, where its place may have had another name.
    fn stopped(&mut self, now: Time, name: Name) -> Result<(), HandleError> {
        self.current.handle(now, Input::Stopped(name))?;
        let mut name = Some(name).filter(|name| name.life() == 1);
        for old in self.olds.iter_mut().rev() {
            name = name.and_then(|name| old.successor.members.at(name.place()));
            if let Some(name) = name {
                // it isn't this member, since the current one isn't
                let _taken = old.member.handle(now, Input::Stopped(name));
            }
            name = name.filter(|name| name.life() == 1);
        }
        Ok(())
    }

    /// Gives out all that came of the inputs, as [`Member::release`] does: it is all or nothing. A list that follows begins at once.
    pub fn release(&mut self, now: Time, out: &mut Vec<Released>) {
        let olds: Vec<u32> = self.olds.iter().map(|old| old.generation).collect();
        for generation in olds {
            self.release_in(now, generation, out);
            if self.is_over(generation) {
                self.close(generation);
            }
        }
        loop {
            let generation = self.settings.generation;
            self.release_in(now, generation, out);
            let Some(stopped) = self.ended_stopped() else {
                break;
            };
            if self.succeed(now).is_err() {
                break;
            }
            for name in stopped {
                let _taken = self.current.handle(now, Input::Stopped(name));
            }
        }
    }

    /// Those founders of the next list whose processes have stopped, if the latest one has ended.
    fn ended_stopped(&self) -> Option<Vec<Name>> {
        let members = self.next.as_ref()?.members;
        let stopped = self.current.info().stopped;
        let gone = members.iter().filter(|name| stopped.has(*name));
        Some(gone.filter_map(|name| Name::first(name.place())).collect())
    }

    /// When it wants [`Input::Time`] at the latest.
    pub fn wake(&self) -> Time {
        let olds = self.olds.iter().map(|old| old.member.wake());
        olds.fold(self.current.wake(), Time::min)
    }

    // ---- each list by itself

    /// Gives the member of one list an input, which is for that list alone. A list that isn't served takes nothing.
    pub fn handle_in(
        &mut self,
        now: Time,
        generation: u32,
        input: Input,
    ) -> Result<(), HandleError> {
        // one end after the other: whoever is behind finds the last one
        let is_held_off = self.is_held_off || !self.olds.is_empty() || self.next.is_some();
        self.current.hold_off(is_held_off);
        if let (Input::Datagram(payload), Some(group)) = (&input, datagram_group(&input)) {
            if let Some(closed) = self.closed.iter_mut().find(|it| it.group == group) {
                closed.asked_by(payload);
                return Ok(());
            }
        }
        if let Input::Send { ticket, message } = &input {
            if self.settings.plant == Some(Plant::SendsAllAnew) {
                self.last = Some((*ticket, message.clone()));
            }
        }
        match self.served(generation) {
            Some(member) => member.handle(now, input),
            None => Ok(()),
        }
    }

    /// The application took so many deliveries; how many of these are of the latest list. That list's member is to be told of them.
    pub fn consumed(&mut self, count: usize) -> usize {
        let owed = count.min(self.owed);
        self.owed -= owed;
        self.given = self.given.saturating_sub(count - owed);
        count - owed
    }

    /// The member is to leave: if its list ends before that, it leaves the next one.
    pub fn note_leave(&mut self) {
        self.leaves = true;
    }

    /// Whoever drives this says whether a list mustn't be ended now, by what it knows of who has stopped.
    pub fn hold_off(&mut self, is_held_off: bool) {
        self.is_held_off = is_held_off;
    }

    /// Gives out what came of one list's inputs. If the latest list ends in it, what follows is begun by
    /// [`succeed`](Generations::succeed), and until then the member takes no messages.
    pub fn release_in(&mut self, now: Time, generation: u32, out: &mut Vec<Released>) {
        let is_latest = generation == self.settings.generation;
        let mut outputs = Vec::new();
        if is_latest {
            for closed in &mut self.closed {
                outputs.extend(std::iter::from_fn(|| closed.answer()));
            }
        }
        if let Some(member) = self.served(generation) {
            member.release(now, &mut outputs);
        }
        let mut is_old = !is_latest || self.next.is_some();
        for output in outputs {
            if is_old && !goes_out(&output) {
                continue;
            }
            self.given += usize::from(matches!(output, Output::Deliver(_)));
            if let Output::Succeeded(next) = &output {
                self.next = Some(next.clone());
                // it ends no more: it is a founder of the next list
                is_old = self.settings.plant != Some(Plant::EndsListLate);
            }
            out.push(Released { generation, output });
        }
    }

    /// Whether the latest list has ended here, and the next one hasn't begun.
    pub fn is_between(&self) -> bool {
        self.next.is_some() || self.current.has_succeeded()
    }

    /// Begins the list that follows the latest one, which has ended. That its life began is on disk, or there is no disk.
    pub fn succeed(&mut self, now: Time) -> Result<(), StartError> {
        let Some(successor) = self.next.take() else {
            return Ok(());
        };
        let mut settings = self.settings.clone();
        let first = Name::first(settings.name.place());
        settings.name = first.unwrap_or(settings.name);
        settings.founding = successor.founding;
        settings.generation += 1;
        settings.group = Some(successor.group);
        let ended = self.current.info().group;
        settings.before = ended.map(|group| Before {
            group,
            number: successor.at.number,
        });
        settings.voters = settings.voters.map(|_| successor.voters);
        settings.seed = settings.seed.rotate_left(17) ^ successor.group;
        let mut next = Member::new(settings.clone(), now)?;
        next.come_from(&self.current);
        let old = Old {
            member: std::mem::replace(&mut self.current, next),
            generation: self.settings.generation,
            successor,
        };
        self.settings = settings;
        self.owed += std::mem::take(&mut self.given);
        let mut unsent = old.successor.unsent.clone();
        if let Some(last) = self.last.take() {
            unsent.extend((!unsent.contains(&last)).then_some(last));
        }
        self.current.put_again(unsent);
        self.olds.push(old);
        self.current.hold_off(true);
        let _goes_out = self.current.handle(now, Input::Time);
        if self.leaves {
            let _taken = self.current.handle(now, Input::Leave);
        }
        Ok(())
    }

    /// Whether nobody wants anything of an ended list any more: all founders of the next one were heard in it or a later one, or have
    /// stopped there; or the member of the ended one has itself ended.
    pub fn is_over(&self, generation: u32) -> bool {
        let old = self.old(generation);
        old.is_some_and(|old| old.member.info().ended.is_some() || self.has_come_from(generation))
    }

    /// Whether all founders of the list after an ended one were heard in it or a later one, or have stopped there.
    pub fn has_come_from(&self, generation: u32) -> bool {
        let next = self.member_of(generation + 1);
        self.current.knows_all_founders() || next.is_some_and(Member::knows_all_founders)
    }

    /// An ended list isn't served any more. Whoever asks to join it is told that it has ended.
    pub fn close(&mut self, generation: u32) {
        let Some(at) = self
            .olds
            .iter()
            .position(|old| old.generation == generation)
        else {
            return;
        };
        let old = self.olds.remove(at);
        if self.closed.len() == MOST_CLOSED {
            self.closed.pop_front();
        }
        self.closed.extend(Closed::new(&old.member));
    }

    /// When one list's member wants [`Input::Time`] at the latest.
    pub fn wake_in(&self, generation: u32) -> Time {
        self.member_of(generation).map_or(Time::NEVER, Member::wake)
    }
}

fn datagram_group(input: &Input) -> Option<u64> {
    match input {
        Input::Datagram(payload) => group_of(payload),
        _ => None,
    }
}
