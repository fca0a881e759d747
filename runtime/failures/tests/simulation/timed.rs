//! Processes in real time: heartbeats at their times, links that fail, an abstract group that resets and lets join.
//!
//! A view goes on without the names that one of its members was told as stopped, once all the others run, may act and hear each
//! other, and are enough. A life that was given up ends, and its place comes back as the next one and joins.

use crate::draw::Draw;
use crate::world::{Phase, Shape, World};
use muoswyld_failures::{Input, Name, NameSet};
use std::cmp::Reverse;
use std::collections::BinaryHeap;
use std::rc::Rc;

/// What happens at a time.
#[derive(Clone, Debug, PartialEq, Eq, PartialOrd, Ord)]
pub enum Event {
    Wake(u8),
    Arrive(u8, Rc<[u8]>),
    Sync(u8),
    Batch(u8),
    Fixes(u8),
    Emits(u8),
    Group,
    /// From now on these links are up: for each place those that hear it.
    Links(Vec<u16>),
    Crash(u8),
    Restart(u8),
    Pause(u8, u64),
}

pub struct Timed {
    pub world: World,
    pub view: NameSet,
    pub links: Vec<u16>,
    pub refusals: usize,
    queue: BinaryHeap<Reverse<(u64, u64, Event)>>,
    order: u64,
    paused: Vec<u64>,
    wakes: Vec<u64>,
    draw: Draw,
    loss: u64,
}

/// Links between all.
pub fn all(places: u8) -> Vec<u16> {
    vec![(1 << places) - 1; usize::from(places)]
}

/// Links within each of some groups of places.
pub fn groups(places: u8, groups: &[u16]) -> Vec<u16> {
    let of = |place: u8| {
        let mine = groups.iter().find(|group| *group >> place & 1 == 1);
        mine.copied().unwrap_or(1 << place)
    };
    (0..places).map(of).collect()
}

impl Timed {
    pub fn new(shape: Shape, seed: u64) -> Timed {
        let mut draw = Draw::new(seed);
        let places = shape.places;
        let clocks: Vec<_> = (0..places)
            .map(|_| {
                let begin = i128::from(draw.between(1, 1_000_000_000)) * 1000;
                (begin, draw.one_of(&[900, 950, 1000, 1050, 1100]))
            })
            .collect();
        let world = World::new(shape, &clocks);
        let mut timed = Timed {
            view: world.lives.iter().copied().collect(),
            links: all(places),
            refusals: 0,
            queue: BinaryHeap::new(),
            order: 0,
            paused: vec![0; usize::from(places)],
            wakes: vec![u64::MAX; usize::from(places)],
            loss: draw.one_of(&[0, 0, 1, 5]),
            draw,
            world,
        };
        for place in 0..places {
            timed.begin(place);
        }
        timed.at(20_000, Event::Group);
        timed
    }

    fn begin(&mut self, place: u8) {
        self.wakes[usize::from(place)] = u64::MAX;
        self.after(0, Event::Wake(place));
        self.after(1_000, Event::Batch(place));
    }

    pub fn at(&mut self, at: u64, event: Event) {
        self.order += 1;
        self.queue.push(Reverse((at, self.order, event)));
    }

    fn after(&mut self, micros: u64, event: Event) {
        self.at(self.world.real + micros, event);
    }

    /// Runs up to a time.
    pub fn run(&mut self, until: u64) {
        while let Some(Reverse((at, _, _))) = self.queue.peek() {
            if *at > until || self.world.violation.is_some() {
                break;
            }
            let Some(Reverse((at, _, event))) = self.queue.pop() else {
                break;
            };
            let passed = at.saturating_sub(self.world.real);
            self.world.pass(passed, None);
            self.happen(event);
        }
        let passed = until.saturating_sub(self.world.real);
        self.world.pass(passed, None);
    }

    fn place_of(event: &Event) -> Option<u8> {
        match event {
            Event::Wake(place)
            | Event::Arrive(place, _)
            | Event::Batch(place)
            | Event::Fixes(place)
            | Event::Emits(place) => Some(*place),
            _ => None,
        }
    }

    fn happen(&mut self, event: Event) {
        if let Some(place) = Timed::place_of(&event) {
            let paused = self.paused[usize::from(place)];
            if paused > self.world.real {
                return self.at(paused, event);
            }
        }
        match event {
            Event::Wake(place) => self.wake(place),
            Event::Arrive(place, bytes) => {
                self.world.handle(place, Input::Datagram(&bytes));
                self.look(place);
                self.go_on(place);
            }
            Event::Sync(place) => {
                if let Some(number) = self.world.sync(place) {
                    self.world.handle(place, Input::Written(number));
                    self.go_on(place);
                }
            }
            Event::Batch(place) => self.batch(place),
            Event::Fixes(place) => {
                self.world.fix(place);
                self.look(place);
                self.go_on(place);
            }
            Event::Emits(place) => {
                self.world.emit(place);
            }
            Event::Group => {
                self.group();
                self.after(20_000, Event::Group);
            }
            Event::Links(links) => self.links = links,
            Event::Crash(place) => self.crash(place),
            Event::Restart(place) => self.restart(place),
            Event::Pause(place, micros) => {
                self.paused[usize::from(place)] = self.world.real + micros;
            }
        }
    }

    fn wake(&mut self, place: u8) {
        if self.wakes[usize::from(place)] <= self.world.real {
            self.wakes[usize::from(place)] = u64::MAX;
        }
        self.world.handle(place, Input::Time);
        self.go_on(place);
    }

    fn batch(&mut self, place: u8) {
        if self.world.step(place) {
            let wait = self.draw.between(0, 500);
            self.after(wait, Event::Fixes(place));
        } else {
            self.look(place);
        }
        if self.world.process(place).is_some_and(|p| !p.ended) {
            self.after(20_000, Event::Batch(place));
        }
    }

    /// A process crashes, if enough are left.
    fn crash(&mut self, place: u8) {
        let others = self.living() & !(1 << place);
        let least = self.least_of(&self.view);
        if others.count_ones() >= u32::from(least) {
            self.world.crash(place);
        }
    }

    fn look(&mut self, place: u8) {
        if self.world.look(place) {
            let wait = self.draw.between(0, 200);
            self.after(wait, Event::Emits(place));
        }
    }

    fn restart(&mut self, place: u8) {
        if self.world.process(place).is_none() {
            let clock = self.draw.one_of(&[0, 1_000_000, 90_000_000_000]);
            let rate = self.draw.one_of(&[900, 1000, 1100]);
            if self.world.restart(place, clock, rate) {
                self.begin(place);
            }
        }
    }

    /// What a core wants done is done.
    fn go_on(&mut self, place: u8) {
        let at = usize::from(place);
        let real = self.world.real;
        let places = self.world.shape.places;
        let now = self.world.now(place);
        let Some(process) = self.world.process(place) else {
            return;
        };
        let letters: Vec<_> = process.outbox.drain(..).collect();
        let writes = process.writes.len();
        let wake = process.core.wake();
        let ended = process.ended;
        let wait = i128::from(wake.since(now)) * 1000 / process.rate.max(1) + 1;
        if ended {
            self.world.crash(place);
            return self.after(20_000, Event::Restart(place));
        }
        for (to, bytes) in letters {
            for other in (0..places).filter(|other| to >> other & 1 == 1) {
                let is_up = self.links[at] >> other & 1 == 1;
                if is_up && !self.draw.percent(self.loss) {
                    let delay = self.draw.between(50, 3_000);
                    self.after(delay, Event::Arrive(other, bytes.clone()));
                }
            }
        }
        self.refusals += writes;
        for _ in 0..writes {
            let delay = self.draw.between(200, 5_000);
            self.after(delay, Event::Sync(place));
        }
        let wakes = real.saturating_add(u64::try_from(wait).unwrap_or(u64::MAX));
        if wakes < self.wakes[at] {
            self.wakes[at] = wakes;
            self.at(wakes, Event::Wake(place));
        }
    }

    fn may_act(&self, name: Name) -> bool {
        let process = self.world.processes[usize::from(name.place())].as_ref();
        process.is_some_and(|process| {
            let is_frozen = process.core.info().frozen_since.is_some();
            process.name == name && !process.ended && !is_frozen
        })
    }

    fn hear_each_other(&self, names: &NameSet) -> bool {
        let places = names.places();
        names.iter().all(|name| {
            self.links[usize::from(name.place())] & places == places && self.may_act(name)
        })
    }

    /// The places of the view's members that run and that nobody gave up.
    fn living(&self) -> u16 {
        let running = self.world.processes.iter().flatten();
        let running = running.filter(|process| {
            let name = process.name;
            self.view.has(name) && !self.world.given_up.contains_key(&name)
        });
        running.map(|process| 1 << process.name.place()).sum()
    }

    /// Whether fewer members are left than a reset goes on with: that is for an operator.
    pub fn is_beyond(&self) -> bool {
        self.living().count_ones() < u32::from(self.least_of(&self.view))
    }

    fn least_of(&self, view: &NameSet) -> u8 {
        let least = self.world.shape.least;
        least.unwrap_or(view.len() as u8 / 2 + 1)
    }

    /// Resets and joins.
    fn group(&mut self) {
        for name in self.view.iter().collect::<Vec<_>>() {
            let process = self.world.processes[usize::from(name.place())].as_ref();
            let Some(process) = process.filter(|p| p.name == name) else {
                continue;
            };
            let rest = self.view.without(&process.stopped);
            let least = self.least_of(&self.view);
            let is_less = rest != self.view && rest.has(name) && rest.len() >= usize::from(least);
            if is_less && self.hear_each_other(&rest) {
                return self.view_stands(rest);
            }
        }
        if !self.hear_each_other(&self.view) {
            return;
        }
        for name in self.world.lives.clone() {
            let mut more = self.view;
            let is_place_free = self.view.places() >> name.place() & 1 == 0;
            if is_place_free && more.insert(name) && self.hear_each_other(&more) {
                return self.view_stands(more);
            }
        }
    }

    fn view_stands(&mut self, view: NameSet) {
        self.view = view;
        let least = self.least_of(&view);
        for place in 0..self.world.shape.places {
            self.world.handle(
                place,
                Input::View {
                    members: view,
                    least,
                },
            );
            self.go_on(place);
        }
    }

    /// Why the group doesn't go on, if it doesn't: a member of the view that doesn't run or may not act.
    pub fn stuck(&self) -> Option<String> {
        let bad: Vec<Name> = self
            .view
            .iter()
            .filter(|name| !self.may_act(*name))
            .collect();
        let out: Vec<Name> = self
            .world
            .lives
            .iter()
            .copied()
            .filter(|name| self.world.processes[usize::from(name.place())].is_some())
            .filter(|name| !self.view.has(*name))
            .collect();
        let is_stuck = !bad.is_empty() || !out.is_empty();
        is_stuck.then(|| {
            let refused = self.world.processes.iter().flatten().map(|process| {
                let info = process.core.info();
                (process.name, info.refused, info.suspects, info.stopped)
            });
            let refused: Vec<_> = refused.collect();
            format!(
                "view {:?}, may not act {bad:?}, outside {out:?}; name, refused, suspects, stopped: {refused:?}",
                self.view
            )
        })
    }

    /// What each process made visible is the beginning of what it did, all but a batch that is held.
    pub fn lost(&self) -> Option<String> {
        for process in self.world.processes.iter().flatten() {
            let is_idle = process.phase == Phase::Idle;
            let missing = process.list.len() - process.visible.len();
            let is_beginning = process.list.starts_with(&process.visible);
            if !is_beginning || missing > usize::from(!is_idle) {
                return Some(format!("{} lost {missing} entries", process.name));
            }
        }
        None
    }

    pub fn visible(&self) -> Vec<usize> {
        let processes = self.world.processes.iter();
        processes
            .map(|p| p.as_ref().map_or(0, |p| p.visible.len()))
            .collect()
    }
}
