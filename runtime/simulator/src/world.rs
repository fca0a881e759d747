//! The cluster and its network on virtual time.

use crate::checker::App;
use crate::draw::Draw;
use crate::ends::List;
use crate::happening::{Happening, Planned};
use crate::machine::Machine;
use crate::plan::{Faults, Plan};
use crate::process::Process;
use crate::report::{Counts, Failure, Report, SeenView};
use crate::services::Services;
use muoswyld_member::{Delivery, Input, Name, Names, Notice, Output, Released};
use std::cmp::Reverse;
use std::collections::{BTreeMap, BTreeSet, BinaryHeap};
use std::rc::Rc;

/// How long the group may need to come to rest once the faults end, in microseconds.
const REST: u64 = 60_000_000;
/// How long members that find out by themselves who has stopped may need, before an operator ends whoever is blocked.
const PATIENCE: u64 = 15_000_000;
/// How often it is looked whether it has.
const LOOK_EVERY: u64 = 20_000;
/// Within which time everybody is told that a process has stopped.
pub(crate) const TOLD_WITHIN: u64 = 500_000;

/// A cluster.
pub(crate) struct World<'a> {
    pub(crate) plan: &'a Plan,
    pub(crate) services: Option<&'a mut dyn Services>,
    pub(crate) draw: Draw,
    pub(crate) now: u64,
    pub(crate) order: u64,
    pub(crate) queue: BinaryHeap<Reverse<Planned>>,
    pub(crate) places: [Option<Process>; 16],
    pub(crate) lives: [u8; 16],
    pub(crate) number: u64,
    pub(crate) faults: Faults,
    /// From which place to which one all is lost, and until when.
    pub(crate) cuts: Vec<(u8, u8, u64)>,
    pub(crate) is_calm: bool,
    /// Whether more have stopped than the resilience, or fewer are left than a reset wants.
    pub(crate) is_void: bool,
    /// The group's lists.
    pub(crate) lists: Vec<List>,
    /// Who has stopped, in which list.
    pub(crate) stopped: BTreeSet<(u32, Name)>,
    /// At which happening somebody first knew that a name has stopped in a list, where members find it out by themselves.
    pub(crate) given_up: BTreeMap<(u32, Name), u64>,
    /// The lives that began, in which list.
    pub(crate) begun: BTreeSet<(u32, Name)>,
    pub(crate) machines: [Machine; 16],
    pub(crate) done: Vec<App>,
    /// What the applications had seen when the run was lawful for the last time.
    pub(crate) lawful: Vec<App>,
    pub(crate) journals: BTreeMap<u32, BTreeMap<Name, Vec<u8>>>,
    pub(crate) captured: Vec<(u8, Rc<[u8]>)>,
    pub(crate) counts: Counts,
    pub(crate) crashes: Vec<u64>,
    pub(crate) views: Vec<SeenView>,
    pub(crate) hash: u64,
}

/// Runs a plan, and checks it.
pub fn run(plan: &Plan) -> Result<Report, Failure> {
    run_world(World::new(plan))
}

/// Runs a plan with something that runs over the members, and checks it.
pub fn run_with<'a>(plan: &'a Plan, services: &'a mut dyn Services) -> Result<Report, Failure> {
    let mut world = World::new(plan);
    world.services = Some(services);
    run_world(world)
}

fn run_world(mut world: World) -> Result<Report, Failure> {
    let plan = world.plan;
    world.run().map_err(|what| Failure {
        seed: plan.seed,
        at: world.now,
        what,
    })
}

impl<'a> World<'a> {
    fn new(plan: &'a Plan) -> World<'a> {
        World {
            plan,
            services: None,
            draw: Draw::new(plan.seed.wrapping_mul(31).wrapping_add(7)),
            now: 0,
            order: 0,
            queue: BinaryHeap::new(),
            places: [const { None }; 16],
            lives: [0; 16],
            number: 0,
            faults: plan.faults,
            cuts: Vec::new(),
            is_calm: false,
            is_void: false,
            lists: vec![List::first(plan)],
            stopped: BTreeSet::new(),
            given_up: BTreeMap::new(),
            begun: BTreeSet::new(),
            machines: Default::default(),
            done: Vec::new(),
            lawful: Vec::new(),
            journals: BTreeMap::new(),
            captured: Vec::new(),
            counts: Counts::default(),
            crashes: Vec::new(),
            views: Vec::new(),
            hash: 0xcbf2_9ce4_8422_2325,
        }
    }

    fn run(&mut self) -> Result<Report, String> {
        if self.plan.ghosts {
            self.haunt()?;
        }
        self.begin();
        self.run_until(self.plan.ends)?;
        self.calm_down();
        self.come_to_rest()?;
        if self.plan.has_ends && !self.is_void && !self.is_over() {
            // once all is connected a list ends, and all come to the next one
            let before = self.last_list();
            self.end_last_list()?;
            self.come_to_rest()?;
            if !self.is_void && !self.is_over() && self.last_list() == before {
                return Err(format!("the list doesn't end:\n{}", self.shown()));
            }
        }
        self.finish()
    }

    /// Goes on until nothing more is to happen.
    fn come_to_rest(&mut self) -> Result<(), String> {
        let limit = self.now + REST;
        let mut operates = self.now + PATIENCE;
        while !(self.is_void || self.is_over() || self.is_at_rest() && self.services_rest()) {
            if self.now >= limit {
                return Err(format!("it doesn't come to rest:\n{}", self.shown()));
            }
            if self.plan.fenced.is_some() && self.now >= operates {
                self.operate()?;
                operates += PATIENCE;
            }
            self.run_until(self.now + LOOK_EVERY)?;
        }
        Ok(())
    }

    /// Has datagrams of an earlier run come, whose founding is the same.
    fn haunt(&mut self) -> Result<(), String> {
        let mut plan = self.plan.clone();
        plan.seed ^= 0x0005_0f77_ab12;
        plan.ghosts = false;
        plan.acts.clear();
        plan.plant = None;
        let mut earlier = World::new(&plan);
        earlier.begin();
        earlier.run_until(300_000)?;
        let captured = std::mem::take(&mut earlier.captured);
        for (place, payload) in captured.into_iter().take(400) {
            let at = self.draw.below(self.plan.ends);
            self.plan_at(at, Happening::Arrives { place, payload });
        }
        Ok(())
    }

    fn begin(&mut self) {
        self.found();
        for name in self.plan.founding.founders.iter() {
            let at = match self.draw.per_mille(700) {
                true => self.draw.below(1_000),
                false => self.draw.below(300_000),
            };
            self.plan_at(
                at,
                Happening::Starts {
                    place: name.place(),
                },
            );
        }
        for (at, place, act) in self.plan.acts.clone() {
            self.plan_at(at, Happening::Acts { place, act });
        }
    }

    pub(crate) fn plan_at(&mut self, at: u64, what: Happening) {
        self.order += 1;
        let order = self.order;
        self.queue.push(Reverse(Planned { at, order, what }));
    }

    pub(crate) fn run_until(&mut self, until: u64) -> Result<(), String> {
        while let Some(Reverse(next)) = self.queue.peek() {
            // once more have stopped than the resilience allows two parts may go on with two lists, each by itself
            let is_apart = self.is_void && self.plan.has_ends;
            if next.at > until || is_apart {
                break;
            }
            let Some(Reverse(next)) = self.queue.pop() else {
                break;
            };
            self.now = self.now.max(next.at);
            self.counts.events += 1;
            self.happen(next.what)?;
        }
        self.now = self.now.max(until);
        Ok(())
    }

    /// The process of a place, if it is the one of this number. What would happen to a process that pauses happens when it goes on.
    fn running(&mut self, what: &Happening) -> Option<u8> {
        let (place, number) = match what {
            Happening::Arrives { place, .. } => (*place, None),
            Happening::Wakes { place, number }
            | Happening::Releases { place, number }
            | Happening::Looks { place, number }
            | Happening::Emits { place, number }
            | Happening::Written { place, number, .. }
            | Happening::ListBegins { place, number, .. }
            | Happening::Sends { place, number }
            | Happening::Consumes { place, number }
            | Happening::IsToldOf { place, number, .. }
            | Happening::Fences { place, number, .. }
            | Happening::IsTold { place, number, .. } => (*place, Some(*number)),
            _ => return None,
        };
        let process = self.places[usize::from(place)].as_ref()?;
        if process.ended.is_some() || number.is_some_and(|number| number != process.number) {
            return None;
        }
        if process.paused_until > self.now {
            let until = process.paused_until;
            self.plan_at(until, what.clone());
            return None;
        }
        Some(place)
    }

    fn happen(&mut self, what: Happening) -> Result<(), String> {
        match what {
            Happening::Starts { place } => return self.start(place),
            Happening::StartsTwin { place } => return self.start_twin(place),
            Happening::Acts { place, act } => return self.act(place, act),
            Happening::Begins {
                place,
                generation,
                life,
            } => return self.life_is_written(place, (generation, life)),
            Happening::ListSynced {
                place,
                number,
                generation,
            } => {
                self.list_is_synced(place, number, generation);
                return Ok(());
            }
            Happening::Synced { place, number } => {
                self.sync(place, number);
                return Ok(());
            }
            _ => {}
        }
        let Some(place) = self.running(&what) else {
            return Ok(());
        };
        match what {
            Happening::Arrives { payload, .. } => self.hear(place, &payload),
            Happening::Wakes { .. } => self.tick(place)?,
            Happening::Looks { .. } => self.look(place)?,
            Happening::Emits { .. } => self.emit(place, None)?,
            Happening::Written { list, write, .. } => self.written(place, list, write)?,
            Happening::ListBegins {
                generation,
                is_written,
                ..
            } => self.begin_list(place, generation, is_written)?,
            Happening::Releases { .. } => self.release(place)?,
            Happening::Sends { .. } => self.send(place)?,
            Happening::Consumes { .. } => self.consume(place)?,
            Happening::IsTold { name, .. } => self.give(place, Input::Stopped(name)),
            Happening::IsToldOf { names, .. } => self.is_told_of(place, names)?,
            Happening::Fences {
                generation,
                name,
                done,
                ..
            } => self.fences(place, generation, name, done)?,
            _ => {}
        }
        Ok(())
    }

    pub(crate) fn process(&mut self, place: u8) -> Result<&mut Process, String> {
        let process = self.places[usize::from(place)].as_mut();
        process.ok_or_else(|| format!("place {place} has no process"))
    }

    /// Gives a member an input. What comes of it is released a little later.
    pub(crate) fn give(&mut self, place: u8, input: Input) {
        let now = self.now;
        if let Some(process) = self.places[usize::from(place)].as_mut() {
            // what a member refuses changes nothing
            let _ = process.member.handle(process.clock.time(now), input);
        }
        self.plan_release(place);
    }

    fn hear(&mut self, place: u8, payload: &[u8]) {
        let now = self.now;
        if let Some(process) = self.places[usize::from(place)].as_mut() {
            process.member.hear(process.clock.time(now), payload);
        }
        self.plan_release(place);
    }

    fn tick(&mut self, place: u8) -> Result<(), String> {
        let now = self.now;
        let process = self.process(place)?;
        process.wake_at = u64::MAX;
        process.member.tick(process.clock.time(now));
        self.plan_release(place);
        Ok(())
    }

    pub(crate) fn plan_release(&mut self, place: u8) {
        let at = self.now + self.draw.below(100);
        let Some(process) = self.places[usize::from(place)].as_mut() else {
            return;
        };
        if process.release_at.is_none() {
            process.release_at = Some(at);
            let number = process.number;
            self.plan_at(at, Happening::Releases { place, number });
            self.stall(place);
        }
    }

    pub(crate) fn release(&mut self, place: u8) -> Result<(), String> {
        if self.plan.fenced.is_some() {
            return self.release_fenced(place);
        }
        let now = self.now;
        let process = self.process(place)?;
        process.release_at = None;
        let outputs = process.release(now);
        for released in outputs {
            self.output(place, released)?;
        }
        self.serve_sends(place)?;
        let process = self.process(place)?;
        let taken = process.take_at_once();
        if taken > 0 {
            self.give(place, Input::Consumed(taken));
        }
        self.plan_wake(place);
        self.look_at_end(place)
    }

    pub(crate) fn plan_wake(&mut self, place: u8) {
        let now = self.now;
        let Some(process) = self.places[usize::from(place)].as_mut() else {
            return;
        };
        let wake = process.clock.when(process.member.wake()).max(now + 1);
        if wake < process.wake_at {
            process.wake_at = wake;
            let number = process.number;
            self.plan_at(wake, Happening::Wakes { place, number });
        }
    }

    fn fold(&mut self, bytes: &[u8]) {
        for byte in bytes {
            self.hash = (self.hash ^ u64::from(*byte)).wrapping_mul(0x0100_0000_01b3);
        }
    }

    pub(crate) fn output(&mut self, place: u8, released: Released) -> Result<(), String> {
        let generation = released.generation;
        self.is_on_disk(place, generation)?;
        match released.output {
            Output::Datagram { to, payload } => {
                self.fold(&payload);
                self.carry(place, to, payload.into());
            }
            Output::Journal(lines) => {
                let journals = &mut self.process(place)?.journals;
                journals.entry(generation).or_default().extend(lines);
            }
            Output::Deliver(delivery) => {
                let at = delivery.at();
                if at.generation != generation {
                    return Err(format!("{at:?} is delivered in list {generation}"));
                }
                self.fold(&[at.number.to_be_bytes(), at.index.to_be_bytes()].concat());
                self.see(place, &delivery);
                let process = self.process(place)?;
                process.backlog += 1;
                process.app.deliver(delivery.clone())?;
                self.serve_delivery(place, &delivery)?;
            }
            Output::Settled { ticket, result } => {
                self.fold(&ticket.to_be_bytes());
                self.process(place)?.app.settle(ticket, result)?;
            }
            Output::Ended(end) => self.process(place)?.ended = Some(end),
            Output::Succeeded(next) => {
                self.serve_end(place, &next)?;
                self.succeeded(generation, next)?;
            }
            Output::Told(Notice::ResetsStuck) => self.counts.stuck_resets += 1,
            Output::ResetDone { .. } | Output::Told(_) => {}
        }
        Ok(())
    }

    /// Remembers a view that an application is given.
    fn see(&mut self, place: u8, delivery: &Delivery) {
        let at = self.now;
        let process = self.places[usize::from(place)].as_ref();
        let name = process.map(|process| process.name);
        if let (Some(name), Delivery::View { members, .. }) = (name, delivery) {
            let members = *members;
            self.views.push(SeenView { at, name, members });
        }
    }

    /// Carries a datagram to each place of some names.
    fn carry(&mut self, from: u8, to: Names, payload: Rc<[u8]>) {
        for name in to.iter() {
            self.carry_to(from, name.place(), payload.clone());
        }
    }

    /// Carries a datagram to a place.
    pub(crate) fn carry_to(&mut self, from: u8, place: u8, payload: Rc<[u8]>) {
        self.counts.datagrams += 1;
        if self.captured.len() < 400 && !self.plan.ghosts {
            self.captured.push((place, payload.clone()));
        }
        let faults = self.faults;
        let now = self.now;
        let cuts = |cut: &(u8, u8, u64)| *cut == (from, place, cut.2) && now < cut.2;
        if self.draw.per_mille(faults.lost) || self.cuts.iter().any(cuts) {
            self.counts.lost += 1;
            return;
        }
        let times = 1 + u64::from(self.draw.per_mille(faults.repeated));
        for _ in 0..times {
            let late = match self.draw.per_mille(faults.late) {
                true => self.draw.below(300_000),
                false => 0,
            };
            let delay = self.draw.between(faults.least_delay, faults.most_delay);
            let payload = payload.clone();
            self.plan_at(
                self.now + delay + late,
                Happening::Arrives { place, payload },
            );
        }
    }

    fn send(&mut self, place: u8) -> Result<(), String> {
        if self.serve_act(place)? {
            let number = self.process(place)?.number;
            let next = self.now + self.draw.between(1, 2 * self.plan.send_every);
            self.plan_at(next, Happening::Sends { place, number });
            return Ok(());
        }
        if self.is_calm {
            return Ok(());
        }
        let (now, plan, every) = (self.now, self.plan, self.plan.send_every);
        let mut draw = self.draw.clone();
        let process = self.process(place)?;
        let burst = if draw.per_mille(100) {
            draw.between(2, 40)
        } else {
            1
        };
        for _ in 0..burst {
            if !process.leaves && !process.send(plan, now, &mut draw)? {
                break;
            }
        }
        let number = process.number;
        self.draw = draw;
        self.plan_release(place);
        let next = self.now + self.draw.between(1, 2 * every);
        self.plan_at(next, Happening::Sends { place, number });
        Ok(())
    }

    fn consume(&mut self, place: u8) -> Result<(), String> {
        let is_calm = self.is_calm;
        let process = self.process(place)?;
        let Some(slow) = process.slow else {
            return Ok(());
        };
        let count = match is_calm {
            true => process.backlog,
            false => slow.count.min(process.backlog),
        };
        process.backlog -= count;
        let number = process.number;
        if count > 0 {
            self.give(place, Input::Consumed(count));
        }
        self.plan_at(self.now + slow.every, Happening::Consumes { place, number });
        Ok(())
    }
}
