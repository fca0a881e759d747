//! The value: inputs, batches, and what is to be done for it.

use crate::closing::Left;
use crate::deed::{Deed, Ending, Plant};
use crate::following::Follows;
use crate::lane::{at, Lane};
use muoswyld_failures::{self as failures, Failures, NameSet, NoVoter, Places, Policy};
use muoswyld_member::{
    Generations, HandleError, Info, Input, Member, Name, Names, Next, Output, Released, Settings,
    Successor, Time,
};
use std::collections::VecDeque;

/// A member, guarded.
///
/// In each turn whoever drives it gives what came ([`hear`](Guarded::hear), [`handle`](Guarded::handle), [`tick`](Guarded::tick)),
/// calls [`fix`](Guarded::fix), does the [`deeds`](Guarded::deeds), and calls [`look`](Guarded::look) with a time that is read after
/// that. If that says yes it takes the [`batch`](Guarded::batch), lets all of it out, and says [`emitted`](Guarded::emitted). Between
/// the look and that it gives nothing.
#[derive(Debug)]
pub struct Guarded {
    pub(crate) lists: Generations,
    /// The lists that are served, the latest one last.
    pub(crate) lanes: Vec<Lane>,
    /// The list that is about to begin.
    pub(crate) follows: Option<Follows>,
    /// The lists that aren't served any more.
    pub(crate) left: VecDeque<Left>,
    pub(crate) policy: Policy,
    pub(crate) least: Option<u8>,
    /// Whether a batch goes out only if a look says so.
    pub(crate) is_gated: bool,
    /// What is to be done for what says who has stopped.
    pub(crate) deeds: Vec<Deed>,
    /// The end of the latest list, which goes out.
    succeeds: Option<Successor>,
    /// Whether the life has ended by what says who has stopped.
    pub(crate) is_over: bool,
    pub(crate) plant: Option<Plant>,
    /// As a defect that a test plants: only a part of the batch goes out.
    is_part: bool,
}

pub(crate) fn name_of(name: failures::Name) -> Name {
    Name::of_byte(name.byte())
}

/// The same name, as the failures have it.
pub(crate) fn core_name(name: Name) -> failures::Name {
    failures::Name::of_byte(name.byte())
}

/// The same names, as the failures have them.
pub(crate) fn set_of(names: Names) -> NameSet {
    names.iter().map(core_name).collect()
}

/// The first lives of some places.
fn firsts_of(places: Places) -> Names {
    let places = (0..16).filter(|place| places >> place & 1 == 1);
    places.filter_map(Name::first).collect()
}

impl Guarded {
    /// A member at its beginning. Its settings are those of the member, and its failures are of that list.
    pub fn new(mut lists: Generations, failures: Failures, settings: &Settings) -> Guarded {
        let policy = failures.policy();
        let is_gated = matches!(policy, Policy::Echo | Policy::Lease(_));
        let voters = firsts_of(failures.settings().voters);
        // under `command` they say whom a majority doesn't hear, without files
        let has_voters = policy != Policy::Told && !voters.is_empty();
        lists.set_voters(has_voters.then_some(voters));
        let shown = Some(lists.current().info());
        let lane = Lane::new(lists.generation(), failures, is_gated, shown);
        Guarded {
            lists,
            lanes: vec![lane],
            follows: None,
            left: VecDeque::new(),
            policy,
            least: settings.least,
            is_gated,
            deeds: Vec::new(),
            succeeds: None,
            is_over: false,
            plant: None,
            is_part: false,
        }
    }

    /// As a test wants it: with a defect.
    #[doc(hidden)]
    pub fn with_plant(mut self, plant: Option<Plant>) -> Guarded {
        self.plant = plant;
        self.is_gated &= plant != Some(Plant::EmitsWithoutLook);
        for lane in &mut self.lanes {
            lane.set_plant(self.is_gated, plant == Some(Plant::ReadsAfterLook));
        }
        self
    }

    pub(crate) fn has(&self, plant: Plant) -> bool {
        self.plant == Some(plant)
    }

    /// The latest list's lane.
    pub(crate) fn latest(&self) -> usize {
        self.lanes.len() - 1
    }

    // ---- what happened

    /// Takes a datagram's payload. The time was read after it was received.
    pub fn hear(&mut self, now: Time, payload: &[u8]) {
        if self.policy != Policy::Told {
            if failures::is_message(payload) {
                return self.hear_failures(now, payload);
            }
            self.note_ran(payload);
        }
        // only messages can be refused
        let _taken = self.handle(now, Input::Datagram(payload));
    }

    /// Letters of this run's group say that their sender has run. Others may have been recorded in an earlier run.
    fn note_ran(&mut self, payload: &[u8]) {
        for lane in &mut self.lanes {
            let group = lane.shown.and_then(|shown| shown.group);
            if let ([0x01, rest @ ..], Some(group)) = (payload, group) {
                if let Some((id, [name, ..])) = rest.split_first_chunk::<8>() {
                    if u64::from_be_bytes(*id) == group {
                        lane.failures.note_ran(failures::Name::of_byte(*name));
                    }
                }
            }
        }
    }

    /// Gives the member an input. Where it may not be given anything the input waits; but a message is refused as one for which
    /// there is no room. An input that is refused changes nothing.
    pub fn handle(&mut self, now: Time, input: Input<'_>) -> Result<(), HandleError> {
        match input {
            Input::Datagram(payload) => self.hear_member(now, payload),
            Input::Stopped(name) => self.stopped(now, name),
            Input::Time => {
                let latest = self.latest();
                for lane in &mut self.lanes[..latest] {
                    // one that has ended is taken away later
                    let _taken = lane.handle(&mut self.lists, now, Input::Time);
                }
                self.give(now, Input::Time)
            }
            Input::Consumed(count) => {
                let count = self.lists.consumed(count);
                self.give(now, Input::Consumed(count))
            }
            Input::Leave => {
                self.lists.note_leave();
                self.give(now, Input::Leave)
            }
            Input::Send { message, .. } if self.lists.is_between() => {
                Err(HandleError::Full { message, room: 0 })
            }
            Input::Reset { .. } if self.follows.is_some() => self.put_for_next(input),
            Input::Succeed(next) => self.succeed(now, next),
            Input::Send { .. } => self.give(now, input).map_err(|refusal| match refusal {
                // the list has ended in this turn: there is room once the next one has begun
                HandleError::Succeeded { message } => HandleError::Full { message, room: 0 },
                other => other,
            }),
            Input::Reset { .. } => self.give(now, input),
        }
    }

    /// Gives the latest list's member an input.
    pub(crate) fn give(&mut self, now: Time, input: Input<'_>) -> Result<(), HandleError> {
        let latest = self.latest();
        self.lanes[latest].handle(&mut self.lists, now, input)
    }

    /// Gives a datagram to the member of its list.
    fn hear_member(&mut self, now: Time, payload: &[u8]) -> Result<(), HandleError> {
        if let Some(follows) = &mut self.follows {
            if follows.is_for(payload) {
                return follows.waiting.put(Input::Datagram(payload));
            }
        }
        let generation = self.lists.generation_of(payload);
        let generation = generation.unwrap_or(self.lists.generation());
        let lane = self.lanes.iter_mut();
        let lane = lane.rev().find(|lane| lane.generation == generation);
        lane.map_or(Ok(()), |lane| {
            lane.handle(&mut self.lists, now, Input::Datagram(payload))
        })
    }

    /// Ends the list, if nobody is in trouble as far as it is known here.
    fn succeed(&mut self, now: Time, next: Next) -> Result<(), HandleError> {
        if self.lists.is_between() {
            return Err(HandleError::NotNow);
        }
        self.note_trouble(now);
        self.give(now, Input::Succeed(next))
    }

    /// Says whether the list may be ended, by what is known of who has stopped.
    fn note_trouble(&mut self, now: Time) {
        let latest = self.latest();
        let is_quiet = self.lanes[latest].failures.is_quiet(at(now));
        self.lists
            .hold_off(!is_quiet && !self.has(Plant::EndsWhileRefused));
    }

    /// Whether the member may be given something now. If so, it may until the next [`fix`](Guarded::fix).
    pub fn open(&mut self, now: Time) -> bool {
        let latest = self.latest();
        self.lanes[latest].open(&mut self.lists, now)
    }

    /// Somebody outside says that a name of the latest list has stopped for certain. That holds for its process, in each list.
    pub fn told(&mut self, now: Time, name: Name) -> Result<(), HandleError> {
        let latest = self.latest();
        if name.byte() == self.lanes[latest].failures.name().byte() {
            return Err(HandleError::Itself);
        }
        self.heed(now, latest, failures::Input::Told(core_name(name)));
        Ok(())
    }

    /// A write of a list's voter's file is on disk, and the folder's entry too; or it failed.
    pub fn written(&mut self, now: Time, generation: u32, number: Option<u64>) {
        let input = match number {
            Some(number) => failures::Input::Written(number),
            None => failures::Input::NotWritten,
        };
        self.heed_in(now, generation, input);
    }

    /// What became of a fence of a list's name: whether the program ended with 0.
    pub fn fenced(&mut self, now: Time, generation: u32, name: Name, done: bool) {
        let name = core_name(name);
        self.heed_in(now, generation, failures::Input::Fenced { name, done });
    }

    /// Time passed.
    pub fn tick(&mut self, now: Time) {
        for index in 0..self.lanes.len() {
            if self.lanes[index].failures.wake() <= at(now) {
                self.heed(now, index, failures::Input::Time);
            }
        }
        for lane in &mut self.lanes {
            lane.tick(&mut self.lists, now);
        }
    }

    // ---- what is to be done

    /// What is to be done for what says who has stopped, in this order.
    pub fn deeds(&mut self, now: Time) -> Vec<Deed> {
        for index in 0..self.lanes.len() {
            self.collect(now, index);
        }
        std::mem::take(&mut self.deeds)
    }

    /// Gives what says who has stopped in a list an input.
    pub(crate) fn heed(&mut self, now: Time, index: usize, input: failures::Input<'_>) {
        self.lanes[index].failures.handle(at(now), input);
        self.collect(now, index);
        if index == self.latest() {
            self.note_trouble(now);
        }
    }

    /// The same, if the list is still served.
    fn heed_in(&mut self, now: Time, generation: u32, input: failures::Input<'_>) {
        let lanes = self.lanes.iter();
        let index = lanes
            .enumerate()
            .find(|(_, it)| it.generation == generation);
        if let Some((index, _)) = index {
            self.heed(now, index, input);
        }
    }

    /// Notes what is to be done. Who has stopped is given to the member at once, or as soon as it may be given anything.
    fn collect(&mut self, now: Time, index: usize) {
        let generation = self.lanes[index].generation;
        for output in self.lanes[index].failures.take() {
            let deed = match output {
                failures::Output::Send { to, payload } => Deed::Send {
                    generation,
                    to,
                    payload,
                },
                failures::Output::Write { number, bytes } => Deed::Write {
                    generation,
                    number,
                    bytes,
                },
                failures::Output::Fence { name, until } => Deed::Fence {
                    generation,
                    name: name_of(name),
                    until: Time(until.0),
                },
                failures::Output::Stopped(name) => {
                    let name = name_of(name);
                    let lane = &mut self.lanes[index];
                    // the own name isn't among them, and nothing else is refused
                    let _taken = lane.handle(&mut self.lists, now, Input::Stopped(name));
                    Deed::Stopped { generation, name }
                }
                failures::Output::Word(name) => {
                    self.pass_on(now, index, name_of(name));
                    continue;
                }
                failures::Output::Ended if index != self.latest() => continue,
                failures::Output::Ended => {
                    self.is_over = true;
                    let why = Ending::GivenUp;
                    Deed::Ended { generation, why }
                }
                failures::Output::Notice(notice) => Deed::Told { generation, notice },
            };
            self.deeds.push(deed);
        }
    }

    /// All that came of the inputs is complete: it is the batch from now on, if there is some of it and none is held. Each list has its own.
    pub fn fix(&mut self, now: Time) {
        self.close_over();
        self.mix_lanes(now);
        for lane in &mut self.lanes {
            lane.fix(&mut self.lists, now);
        }
    }

    /// Whether there is a batch, and all of it may go out now. The time was read after [`fix`](Guarded::fix). What goes out of a list is
    /// looked at by what guards that list: of the others it waits.
    pub fn look(&mut self, now: Time) -> bool {
        if self.is_over {
            return false;
        }
        let mut may = false;
        for lane in &mut self.lanes {
            may |= lane.look(now);
        }
        let is_datagram = |held: &Released| matches!(held.output, Output::Datagram { .. });
        let latest = &self.lanes[self.latest()];
        self.is_part = !may
            && self.has(Plant::LetsOutInPart)
            && latest.is_held
            && latest.held.iter().any(is_datagram);
        may || self.is_part
    }

    /// The batch, in its order, in place of what is in `out`, after a look that said yes.
    pub fn batch(&mut self, now: Time, out: &mut Vec<Released>) {
        out.clear();
        let latest = self.latest();
        if self.is_part {
            let lane = &mut self.lanes[latest];
            let (part, rest) = std::mem::take(&mut lane.held)
                .into_iter()
                .partition(|held| matches!(held.output, Output::Datagram { .. }));
            (*out, lane.held) = (part, rest);
            return;
        }
        for lane in self.lanes.iter_mut().filter(|lane| lane.is_out) {
            out.append(&mut lane.held);
            if lane.reads_after_look {
                self.lists.release_in(now, lane.generation, out);
            }
        }
        for released in out.iter() {
            if let Output::Succeeded(next) = &released.output {
                self.succeeds = Some(next.clone());
            }
        }
    }

    /// All of the batch is out.
    pub fn emitted(&mut self, now: Time) {
        if std::mem::take(&mut self.is_part) {
            return;
        }
        for index in 0..self.lanes.len() {
            if self.lanes[index].is_out {
                self.lanes[index].emitted();
                self.note_view(now, index);
            }
        }
        if let Some(next) = self.succeeds.take() {
            self.follow(now, &next);
        }
    }

    /// The failures of a list are told its new view.
    fn note_view(&mut self, now: Time, index: usize) {
        if self.policy == Policy::Told {
            return;
        }
        let lane = &mut self.lanes[index];
        let Some(member) = self.lists.member_of(lane.generation) else {
            return;
        };
        let Some(members) = lane.new_view(member) else {
            return;
        };
        let majority = members.len() / 2 + 1;
        let input = failures::Input::View {
            members: set_of(members),
            least: self.least.unwrap_or(majority.min(16) as u8),
        };
        self.heed(now, index, input);
    }

    // ---- how it stands

    /// When it wants a turn at the latest.
    pub fn wake(&self) -> Time {
        if !self.deeds.is_empty() {
            return Time(0);
        }
        let wakes = self.lanes.iter().map(|lane| lane.wake(&self.lists));
        wakes.min().unwrap_or(Time::NEVER)
    }

    /// How many bytes of messages fit now, each counted with [`MESSAGE_HEAD`](muoswyld_member::MESSAGE_HEAD) more.
    pub fn free(&self) -> usize {
        match self.lanes[self.latest()].may_have() && !self.lists.is_between() {
            true => self.lists.current().free(),
            false => 0,
        }
    }

    /// How many lists of the group came before the latest one.
    pub fn generation(&self) -> u32 {
        self.lists.generation()
    }

    /// The lists that are served, the latest one last: how many came before each.
    pub fn served(&self) -> impl Iterator<Item = u32> + '_ {
        self.lanes.iter().map(|lane| lane.generation)
    }

    /// How many outputs of a list wait to go out.
    pub fn held_in(&self, generation: u32) -> usize {
        let held = self.lanes.iter().flat_map(|lane| &lane.held);
        held.filter(|released| released.generation == generation)
            .count()
    }

    /// How the member of the latest list stands. Its list and its members are those of when a batch went out the last time: of what is
    /// held nobody is told.
    pub fn info(&self) -> Info {
        let info = self.lists.current().info();
        match self.lanes[self.latest()].shown {
            Some(shown) if self.is_gated => Info {
                standing: shown.standing,
                ended: shown.ended,
                ..info
            },
            _ => info,
        }
    }

    /// How the member of the latest list stands, with what is held.
    pub fn member(&self) -> &Member {
        self.lists.current()
    }

    /// The lists of the group.
    pub fn lists(&self) -> &Generations {
        &self.lists
    }

    /// Whom it suspects in the latest list, whom it has refused, who has stopped, and up to when it may act.
    pub fn failures(&self) -> failures::Info {
        self.lanes[self.latest()].failures.info()
    }

    /// The same in a list that is served here still.
    pub fn failures_in(&self, generation: u32) -> Option<failures::Info> {
        let mut lanes = self.lanes.iter();
        let lane = lanes.find(|lane| lane.generation == generation);
        lane.map(|lane| lane.failures.info())
    }

    /// What makes it certain that a name has stopped.
    pub fn policy(&self) -> Policy {
        self.policy
    }

    /// Whether what comes of inputs waits for a look.
    pub fn is_gated(&self) -> bool {
        self.is_gated
    }

    /// How many outputs the batch has, of all lists.
    pub fn held(&self) -> usize {
        self.lanes.iter().map(|lane| lane.held.len()).sum()
    }

    /// Whether a batch is complete and not out, of any list.
    pub fn is_held(&self) -> bool {
        self.lanes.iter().any(|lane| lane.is_held)
    }

    /// Whether this life was given up in the latest list.
    pub fn is_given_up(&self) -> bool {
        self.lanes[self.latest()].failures.is_ended()
    }

    /// Why its place isn't a voter of the latest list, if it isn't.
    pub fn no_voter(&self) -> Option<NoVoter> {
        self.lanes[self.latest()].failures.info().no_voter
    }
}
