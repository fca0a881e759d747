//! Random schedules of primitive acts: any time passes between any two of them, and any old message may come again.
//!
//! Voters refuse whom and when a draw says: what becomes visible must be right whatever they suspect. A schedule that fails is
//! shrunk: each act is left out, and each pair, as long as it still fails.

use crate::draw::Draw;
use crate::world::{lease, Process, Shape, World};
use muoswyld_failures::{Input, Name, Plant, Policy};
use std::rc::Rc;

#[derive(Clone, Copy, Debug, PartialEq, Eq)]
pub enum Act {
    /// So many microseconds; the clocks of these places run fast, those of others slowly.
    Pass(u64, u16),
    /// The place's core wakes, and makes a heartbeat.
    Wake(u8),
    /// The first message that a place made goes to the network.
    Send(u8),
    /// A message of one place comes to another: the latest, or one that is so much older.
    Hear {
        from: u8,
        to: u8,
        age: u8,
    },
    Step(u8),
    Fix(u8),
    Look(u8),
    Emit(u8),
    Refuse(u8, Name),
    Sync(u8),
    /// The sync is told to the core.
    Synced(u8),
    Restart {
        place: u8,
        disk: DiskFault,
        clock: u64,
    },
    /// The place's clock stands still: its machine sleeps, or is paused by its host.
    Stand(u8, u64),
    Set(u8, i64),
    /// The earlier process of a place makes heartbeats, hears and answers.
    Ghost {
        place: u8,
        from: u8,
    },
}

#[derive(Clone, Copy, Debug, PartialEq, Eq)]
pub enum DiskFault {
    None,
    Lost,
    Older,
}

/// What a kind of schedule may do.
#[derive(Clone, Debug)]
pub struct Kind {
    pub plant: Option<Plant>,
    pub echo: Option<bool>,
    pub voters: Option<u8>,
    pub more_places: Option<u8>,
    pub drift: Option<u64>,
    /// How much more than that the clocks drift.
    pub beyond: u64,
    /// Clocks are at their bounds for whole runs: the focused member's is slow, the others' fast.
    pub at_bounds: u64,
    pub lost: bool,
    pub older: bool,
    /// A place that comes back with an older disk hears all others first.
    pub remembered: bool,
    pub stands: bool,
    pub set_back: bool,
    pub set_forward: bool,
    pub ghosts: bool,
    pub runs_twice: bool,
    /// Two voters refuse all others.
    pub cliques: bool,
    /// Of an attack these parts come often, and others seldom.
    pub emphasis: &'static [Part],
}

/// A part of an attack.
#[derive(Clone, Copy, Debug, PartialEq, Eq)]
pub enum Part {
    RestartsFirst,
    LooksEarly,
    SlowSync,
    RestartsAmid,
    NoWait,
    BeatsLate,
    NoSync,
    RestartsLast,
    MemberAgain,
    OldEchoes,
}

impl Kind {
    pub fn lawful() -> Kind {
        Kind {
            plant: None,
            echo: None,
            voters: None,
            more_places: None,
            drift: None,
            beyond: 0,
            at_bounds: 40,
            lost: true,
            older: false,
            remembered: false,
            stands: false,
            set_back: false,
            set_forward: false,
            ghosts: false,
            runs_twice: false,
            cliques: false,
            emphasis: &[],
        }
    }

    pub fn planted(plant: Plant) -> Kind {
        Kind {
            plant: Some(plant),
            ..Kind::lawful()
        }
    }
}

/// A world with its network.
pub struct Run {
    pub world: World,
    pub kind: Kind,
    drift: i128,
    letters: Vec<(u8, u16, Rc<[u8]>)>,
    told: Vec<Option<u64>>,
}

/// A schedule's beginning: what it is drawn from.
#[derive(Clone, Debug)]
pub struct Start {
    pub shape: Shape,
    drift: i128,
}

impl Start {
    pub fn draw(kind: &Kind, draw: &mut Draw) -> Start {
        let voters = draw.one_of(&[1, 3, 3, 3, 3, 5]);
        let voters = kind.voters.unwrap_or(voters);
        let more = draw.one_of(&[0, 1, 1, 2]);
        let places = (voters + kind.more_places.unwrap_or(more)).clamp(2, 6);
        let drift = draw.one_of(&[0, 10, 100, 100]);
        let drift = kind.drift.unwrap_or(drift);
        let echo = draw.percent(30);
        let policy = match kind.echo.unwrap_or(echo) {
            true => Policy::Echo,
            false => lease(drift),
        };
        let mut shape = Shape::new(places, (1 << voters) - 1, policy);
        shape.period = 1;
        shape.silence = Some(draw.one_of(&[30_000, 200_000, 100_000_000]));
        shape.unchecked = true;
        shape.plant = kind.plant;
        shape.runs_twice = kind.runs_twice;
        Start {
            shape,
            drift: i128::from(drift + kind.beyond),
        }
    }
}

impl Run {
    pub fn new(kind: &Kind, start: &Start) -> Run {
        let clocks: Vec<_> = (0..start.shape.places)
            .map(|place| (i128::from(place) * 777_000_000 + 5_000_000_000, 1000))
            .collect();
        let places = start.shape.places;
        Run {
            world: World::new(start.shape.clone(), &clocks),
            kind: kind.clone(),
            drift: start.drift,
            letters: Vec::new(),
            told: vec![None; usize::from(places)],
        }
    }

    /// Does an act; whether it could be done.
    pub fn act(&mut self, act: Act) -> bool {
        match act {
            Act::Pass(micros, fast) => self.pass(micros, fast),
            Act::Wake(place) => {
                self.world.handle(place, Input::Time);
                true
            }
            Act::Send(place) => self.send(place),
            Act::Hear { from, to, age } => self.hear(from, to, age),
            Act::Step(place) => self.world.step(place),
            Act::Fix(place) => {
                self.world.fix(place);
                true
            }
            Act::Look(place) => {
                self.world.look(place);
                true
            }
            Act::Emit(place) => self.world.emit(place),
            Act::Refuse(place, name) => self.refuse(place, name),
            Act::Sync(place) => {
                let number = self.world.sync(place);
                let told = &mut self.told[usize::from(place)];
                *told = number.or(*told);
                number.is_some()
            }
            Act::Synced(place) => match self.told[usize::from(place)].take() {
                Some(number) => {
                    self.world.handle(place, Input::Written(number));
                    true
                }
                None => false,
            },
            Act::Restart { place, disk, clock } => self.restart(place, disk, clock),
            Act::Stand(place, micros) => self.stand(place, micros),
            Act::Set(place, by) => self.set(place, by),
            Act::Ghost { place, from } => self.ghost(place, from),
        }
    }

    fn refuse(&mut self, place: u8, name: Name) -> bool {
        let now = self.world.now(place);
        if let Some(process) = self.world.process(place) {
            process.core.refuse_anyway(now, name);
        }
        self.world.collect(place);
        true
    }

    fn pass(&mut self, micros: u64, fast: u16) -> bool {
        for place in 0..self.world.shape.places {
            let drift = self.drift;
            if let Some(process) = self.world.process(place) {
                let sign = if fast >> place & 1 == 1 { 1 } else { -1 };
                process.rate = 1000 + sign * drift;
            }
        }
        self.world.pass(micros, None);
        true
    }

    fn send(&mut self, place: u8) -> bool {
        let Some(process) = self.world.process(place) else {
            return false;
        };
        let Some((to, bytes)) = process.outbox.pop_front() else {
            return false;
        };
        self.letters.push((place, to, bytes));
        true
    }

    fn find(&self, from: u8, to: u8, age: u8) -> Option<Rc<[u8]>> {
        let mine = |letter: &&(u8, u16, Rc<[u8]>)| letter.0 == from && letter.1 >> to & 1 == 1;
        let count = self.letters.iter().filter(mine).count();
        let back = usize::from(age) % count.max(1);
        let found = self.letters.iter().rev().filter(mine).nth(back)?;
        Some(found.2.clone())
    }

    fn hear(&mut self, from: u8, to: u8, age: u8) -> bool {
        let Some(bytes) = self.find(from, to, age) else {
            return false;
        };
        self.world.handle(to, Input::Datagram(&bytes));
        true
    }

    fn restart(&mut self, place: u8, disk: DiskFault, clock: u64) -> bool {
        let at = usize::from(place);
        let is_allowed = match disk {
            DiskFault::None => true,
            DiskFault::Lost => self.kind.lost,
            DiskFault::Older => self.kind.older,
        };
        if !is_allowed || self.world.lives[at].life() > 3 {
            return false;
        }
        match disk {
            DiskFault::None => {}
            DiskFault::Lost => self.world.disks[at].file = None,
            DiskFault::Older => self.world.disks[at].file = self.world.disks[at].older.clone(),
        }
        let old = self.world.processes[at].take();
        if self.kind.ghosts {
            self.world.ghosts[at] = old;
        }
        self.told[at] = None;
        self.world.restart(place, i128::from(clock) * 1000, 1000)
    }

    fn stand(&mut self, place: u8, micros: u64) -> bool {
        if !self.kind.stands {
            return false;
        }
        self.world.pass(micros, Some(place));
        true
    }

    fn set(&mut self, place: u8, by: i64) -> bool {
        let is_allowed = by < 0 && self.kind.set_back || by > 0 && self.kind.set_forward;
        let Some(process) = self.world.process(place).filter(|_| is_allowed) else {
            return false;
        };
        process.clock = (process.clock + i128::from(by) * 1000).max(0);
        true
    }

    /// The earlier process of a place hears another's last message and answers it, as if it had no lock to hold.
    fn ghost(&mut self, place: u8, from: u8) -> bool {
        let Some(bytes) = self.find(from, place, 0) else {
            return false;
        };
        let at = usize::from(place);
        let Some(ghost) = self.world.ghosts[at].take() else {
            return false;
        };
        let process: Option<Process> = self.world.processes[at].replace(ghost);
        self.world.handle(place, Input::Datagram(&bytes));
        self.world.handle(place, Input::Time);
        while self.send(place) {}
        self.world.ghosts[at] = self.world.processes[at].take();
        self.world.processes[at] = process;
        true
    }
}

/// Runs a schedule again.
pub fn replay(kind: &Kind, start: &Start, acts: &[Act]) -> Option<String> {
    let mut run = Run::new(kind, start);
    for act in acts {
        run.act(*act);
        if run.world.violation.is_some() {
            return run.world.violation;
        }
    }
    None
}

/// The shortest schedule that still fails, by leaving out single acts and pairs.
pub fn shrink(kind: &Kind, start: &Start, mut acts: Vec<Act>) -> Vec<Act> {
    loop {
        let mut is_shorter = false;
        let mut at = 0;
        while at < acts.len() {
            let mut fewer = acts.clone();
            fewer.remove(at);
            if replay(kind, start, &fewer).is_some() {
                acts = fewer;
                is_shorter = true;
            } else {
                at += 1;
            }
        }
        if !is_shorter {
            return acts;
        }
    }
}
