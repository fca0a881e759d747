//! Processes over real cores, their clocks and disks, and what they make visible.

use muoswyld_failures::{
    new_file, Failures, Input, Lease, Name, NameSet, Output, Places, Plant, Policy, Settings, Time,
};
use std::collections::{BTreeMap, VecDeque};
use std::rc::Rc;

pub const ID: [u8; 16] = *b"a founding's id.";

/// What a world is made of.
#[derive(Clone, Debug)]
pub struct Shape {
    pub places: u8,
    pub voters: Places,
    pub policy: Policy,
    pub period: u64,
    pub delay: u64,
    /// None: the least that is allowed.
    pub silence: Option<u64>,
    pub unchecked: bool,
    /// The fewest members that a reset goes on with; None: a majority of the view.
    pub least: Option<u8>,
    pub plant: Option<Plant>,
    /// A process that begins has the random word of the one before, and its life.
    pub runs_twice: bool,
}

/// A batch of a member: one entry of its list.
#[derive(Clone, Copy, Debug, PartialEq, Eq)]
pub enum Phase {
    Idle,
    Begun,
    /// When it was fixed, by real time.
    Fixed(u64),
    /// When it was fixed, and when a look said that it may go out.
    Looked(u64, u64),
}

/// A process.
pub struct Process {
    pub core: Failures,
    pub name: Name,
    /// Its clock, in thousandths of a microsecond.
    pub clock: i128,
    /// How many thousandths of real time its clock runs.
    pub rate: i128,
    pub phase: Phase,
    /// Messages that it made and hasn't sent.
    pub outbox: VecDeque<(Places, Rc<[u8]>)>,
    /// Files that it wants written.
    pub writes: VecDeque<(u64, Vec<u8>)>,
    pub fences: Vec<Name>,
    /// Who has stopped, as it was told.
    pub stopped: NameSet,
    pub ended: bool,
    /// Its entries, and those that are visible.
    pub list: Vec<u64>,
    pub visible: Vec<u64>,
}

/// A place's disk: what is synced, and what was before that.
#[derive(Clone, Debug, Default)]
pub struct Disk {
    pub file: Option<Vec<u8>>,
    pub older: Option<Vec<u8>>,
}

#[derive(Clone, Copy, Debug, Default, PartialEq, Eq)]
pub struct Counts {
    pub visible: u64,
    pub held: u64,
    pub late_looks: u64,
    pub given_up: u64,
    pub restarts: u64,
}

/// All of them.
pub struct World {
    pub shape: Shape,
    pub real: u64,
    pub processes: Vec<Option<Process>>,
    /// An earlier process of each place, which a test lets live on.
    pub ghosts: Vec<Option<Process>>,
    pub disks: Vec<Disk>,
    pub lives: Vec<Name>,
    /// When somebody first gave a name up, by real time.
    pub given_up: BTreeMap<Name, u64>,
    pub violation: Option<String>,
    pub counts: Counts,
    entries: u64,
    words: u64,
}

impl Shape {
    pub fn new(places: u8, voters: Places, policy: Policy) -> Shape {
        Shape {
            places,
            voters,
            policy,
            period: 10_000,
            delay: 5_000,
            silence: None,
            unchecked: false,
            least: None,
            plant: None,
            runs_twice: false,
        }
    }

    fn settings(&self, name: Name, process: u64) -> Settings {
        let all = ((1u32 << self.places) - 1) as Places;
        let mut settings = Settings::new(ID, name, process, all, self.policy);
        settings.voters = self.voters;
        settings.period = self.period;
        settings.delay = self.delay;
        settings.silence = self.silence.unwrap_or_else(|| settings.least_silence());
        settings.unchecked = self.unchecked;
        settings.least = self.least.unwrap_or(settings.least);
        settings.plant = self.plant;
        settings
    }
}

/// A lease of 100 milliseconds with so many thousandths of drift.
pub fn lease(drift: u64) -> Policy {
    Policy::Lease(Lease {
        length: 100_000,
        drift,
        granule: 1,
    })
}

impl World {
    pub fn new(shape: Shape, clocks: &[(i128, i128)]) -> World {
        let mut world = World {
            real: 0,
            processes: Vec::new(),
            ghosts: Vec::new(),
            disks: Vec::new(),
            lives: Vec::new(),
            given_up: BTreeMap::new(),
            violation: None,
            counts: Counts::default(),
            entries: 0,
            words: 0,
            shape,
        };
        for place in 0..world.shape.places {
            let votes = world.shape.voters >> place & 1 == 1;
            let file = votes.then(|| new_file(ID, place));
            world.disks.push(Disk {
                older: file.clone(),
                file,
            });
            world.lives.push(Name::first(place));
            world.processes.push(None);
            world.ghosts.push(None);
            let (clock, rate) = clocks[usize::from(place)];
            world.start(place, clock, rate);
        }
        world
    }

    /// A process of a place's life begins.
    pub fn start(&mut self, place: u8, clock: i128, rate: i128) {
        let at = usize::from(place);
        let name = self.lives[at];
        if !self.shape.runs_twice {
            self.words += 1;
        }
        let word = match self.shape.runs_twice {
            true => u64::from(place),
            false => self.words,
        };
        let settings = self.shape.settings(name, word);
        let file = self.disks[at].file.as_deref();
        let core = Failures::new(settings, file, time(clock)).expect("settings");
        self.processes[at] = Some(Process {
            core,
            name,
            clock,
            rate,
            phase: Phase::Idle,
            outbox: VecDeque::new(),
            writes: VecDeque::new(),
            fences: Vec::new(),
            stopped: NameSet::default(),
            ended: false,
            list: Vec::new(),
            visible: Vec::new(),
        });
    }

    /// A process crashes: what it didn't sync is lost.
    pub fn crash(&mut self, place: u8) {
        self.processes[usize::from(place)] = None;
    }

    /// A place comes back as its next life, or as the same one where a test wants it.
    pub fn restart(&mut self, place: u8, clock: i128, rate: i128) -> bool {
        let at = usize::from(place);
        if !self.shape.runs_twice {
            let Some(next) = self.lives[at].next_life() else {
                return false;
            };
            self.lives[at] = next;
        }
        self.counts.restarts += 1;
        self.start(place, clock, rate);
        true
    }

    /// Real time passes, and each clock with it, but one.
    pub fn pass(&mut self, micros: u64, but: Option<u8>) {
        self.real += micros;
        for (place, process) in self.processes.iter_mut().enumerate() {
            let stands = but.map(usize::from) == Some(place);
            if let Some(process) = process.as_mut().filter(|_| !stands) {
                process.clock += process.rate * i128::from(micros);
            }
        }
        for ghost in self.ghosts.iter_mut().flatten() {
            ghost.clock += ghost.rate * i128::from(micros);
        }
    }

    pub fn process(&mut self, place: u8) -> Option<&mut Process> {
        self.processes.get_mut(usize::from(place))?.as_mut()
    }

    pub fn now(&self, place: u8) -> Time {
        let process = self.processes[usize::from(place)].as_ref();
        process.map_or(Time(0), |process| time(process.clock))
    }

    pub fn handle(&mut self, place: u8, input: Input<'_>) {
        let now = self.now(place);
        if let Some(process) = self.process(place) {
            process.core.handle(now, input);
            self.collect(place);
        }
    }

    /// Takes what a core wants done.
    pub fn collect(&mut self, place: u8) {
        let real = self.real;
        let Some(process) = self.processes[usize::from(place)].as_mut() else {
            return;
        };
        for output in process.core.take() {
            match output {
                Output::Send { to, payload } => process.outbox.push_back((to, payload.into())),
                Output::Write { number, bytes } => process.writes.push_back((number, bytes)),
                Output::Fence { name, .. } => process.fences.push(name),
                Output::Stopped(name) => {
                    process.stopped.insert(name);
                    self.given_up.entry(name).or_insert_with(|| {
                        self.counts.given_up += 1;
                        real
                    });
                }
                Output::Ended => {
                    process.ended = true;
                    self.given_up.entry(process.name).or_insert(real);
                }
                Output::Word(_) | Output::Notice(_) => {}
            }
        }
    }

    /// The first write of a place that isn't synced is synced. It isn't told yet.
    pub fn sync(&mut self, place: u8) -> Option<u64> {
        let at = usize::from(place);
        let (number, bytes) = self.processes[at].as_mut()?.writes.pop_front()?;
        self.disks[at].older = self.disks[at].file.replace(bytes);
        Some(number)
    }

    /// A member begins a batch, if it may.
    pub fn step(&mut self, place: u8) -> bool {
        let now = self.now(place);
        let entry = self.entries + 1;
        let opens = self.shape.plant == Some(Plant::OpensBatch);
        let real = self.real;
        let Some(process) = self.process(place) else {
            return false;
        };
        let open = matches!(process.phase, Phase::Looked(..)) && opens;
        if process.phase != Phase::Idle && !open || !process.core.begin(now) {
            return false;
        }
        process.list.push(entry);
        process.phase = match process.phase {
            // what is handled behind the look goes out with the batch
            Phase::Looked(..) => Phase::Looked(real, real),
            _ => Phase::Begun,
        };
        self.entries = entry;
        true
    }

    /// What came of the batch is complete.
    pub fn fix(&mut self, place: u8) {
        let (now, real) = (self.now(place), self.real);
        if let Some(process) = self.process(place).filter(|p| p.phase == Phase::Begun) {
            process.phase = Phase::Fixed(real);
            process.core.fix(now);
            self.collect(place);
        }
    }

    /// Looks whether the batch may go out.
    pub fn look(&mut self, place: u8) -> bool {
        let (now, real) = (self.now(place), self.real);
        let Some(process) = self.process(place) else {
            return false;
        };
        let Phase::Fixed(fixed) = process.phase else {
            return false;
        };
        let name = process.name;
        let may = process.core.look(now);
        if may {
            process.phase = Phase::Looked(fixed, real);
        }
        self.counts.held += u64::from(!may);
        self.counts.late_looks += u64::from(self.given_up.contains_key(&name));
        may
    }

    /// The batch becomes visible.
    pub fn emit(&mut self, place: u8) -> bool {
        let echo = self.shape.policy == Policy::Echo;
        let opens = self.shape.plant == Some(Plant::OpensBatch);
        let Some(process) = self.process(place) else {
            return false;
        };
        let Phase::Looked(fixed, looked) = process.phase else {
            return false;
        };
        process.core.emitted();
        process.phase = Phase::Idle;
        let name = process.name;
        let from = process.visible.len();
        process.visible = process.list.clone();
        let count = process.visible.len() - from;
        let is_wrong = count != 1 && !opens;
        let sure = if echo { fixed } else { fixed.max(looked) };
        if is_wrong {
            self.violation = Some(format!("{name:?} lets {count} entries out at once"));
        }
        if let Some(gone) = self.given_up.get(&name).filter(|gone| **gone < sure) {
            self.violation = Some(format!(
                "{name} makes visible what was sure at {sure}, and was given up at {gone}"
            ));
        }
        self.counts.visible += 1;
        true
    }
}

/// The time that a clock shows.
pub fn time(clock: i128) -> Time {
    Time(u64::try_from(clock.max(0) / 1000).unwrap_or(u64::MAX))
}
