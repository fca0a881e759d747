//! A group of processes on virtual time, and what is checked of what their applications saw.

use muoswyld_member::{
    Delivery, End, Founding, Generations, HandleError, Input, Name, Next, Output, Plant, Position,
    Released, Settings, Successor, Time,
};
use std::collections::{BTreeMap, BTreeSet, VecDeque};

/// Numbers by chance, from a seed.
pub struct Draw(u64);

impl Draw {
    pub fn below(&mut self, most: u64) -> u64 {
        self.0 = self
            .0
            .wrapping_mul(6_364_136_223_846_793_005)
            .wrapping_add(1_442_695_040_888_963_407);
        (self.0 >> 33) % most.max(1)
    }

    fn is(&mut self, percent: u64) -> bool {
        self.below(100) < percent
    }
}

/// One process: a member, and what its application saw.
pub struct Process {
    place: u8,
    member: Generations,
    /// Its name in each list.
    names: BTreeMap<u32, Name>,
    seen: Vec<(Position, Vec<u8>)>,
    sent: u32,
    tickets: BTreeMap<u64, Vec<u8>>,
    ended: Option<End>,
    crashed: bool,
}

/// A list of the group: its founding, its id, and how many lives each place has had in it.
#[derive(Clone)]
struct List {
    founding: Founding,
    lives: BTreeMap<u8, u8>,
}

pub struct World {
    pub draw: Draw,
    pub now: u64,
    loss: u64,
    plant: Option<Plant>,
    pub processes: Vec<Process>,
    lists: Vec<List>,
    ends: BTreeMap<u32, Successor>,
    /// Datagrams on their way: when they come, to which place, of which process.
    wire: BTreeMap<(u64, u64), (u8, usize, Vec<u8>)>,
    serial: u64,
    settled: BTreeMap<Vec<u8>, Position>,
    /// Who is to be told of a crash: when, of which process.
    tellings: VecDeque<(u64, usize)>,
    /// How many lists ended.
    pub cuts: usize,
}

/// The bytes of a message: the process, its number, and some more.
fn message(process: usize, number: u32, length: usize) -> Vec<u8> {
    let mut bytes = vec![b'm'];
    bytes.extend((process as u32).to_be_bytes());
    bytes.extend(number.to_be_bytes());
    bytes.resize(9 + length, 7);
    bytes
}

fn sender_of(message: &[u8]) -> (u32, u32) {
    let number = |at: usize| u32::from_be_bytes(message[at..at + 4].try_into().unwrap());
    (number(1), number(5))
}

/// What an application is given, as bytes that tell it apart from anything else.
fn shown(delivery: &Delivery) -> Vec<u8> {
    match delivery {
        Delivery::Message { message, .. } => message.clone(),
        Delivery::Joined { name, .. } => format!("joined {name}").into(),
        Delivery::Left { name, .. } => format!("left {name}").into(),
        Delivery::View {
            members,
            resilience,
            ..
        } => format!("view {members} {resilience}").into(),
        Delivery::Succeeded { members, .. } => format!("succeeded {members}").into(),
    }
}

/// Whether a process was given a piece of the list: all from its first delivery to its last. A joiner misses a message of several parts that had
/// begun before it joined, one of each sender at most.
fn is_piece(process: &Process, list: &BTreeMap<Position, &Vec<u8>>) -> Result<(), String> {
    let Some((first, what)) = process.seen.first() else {
        return Ok(());
    };
    let (is_joiner, mut seen) = (what.starts_with(b"joined"), process.seen.iter().peekable());
    let mut begun: BTreeSet<u32> = BTreeSet::new();
    for (at, what) in list.range(first..) {
        let Some((next, _)) = seen.peek() else {
            break;
        };
        let is_long = what.first() == Some(&b'm') && what.len() > 1_021;
        let is_first = is_long && begun.insert(sender_of(what).0);
        if next == at {
            seen.next();
        } else if !(is_joiner && is_first) {
            return Err(format!("it wasn't given {at:?}, but {next:?}"));
        }
    }
    match seen.next() {
        Some((at, _)) => Err(format!("{at:?} isn't in the list")),
        None => Ok(()),
    }
}

impl World {
    pub fn new(seed: u64, plant: Option<Plant>) -> World {
        let mut draw = Draw(seed.wrapping_mul(0x9e37_79b9_7f4a_7c15));
        let places = 2 + draw.below(4) as u8;
        let resilience = if places > 2 { draw.below(2) as u8 } else { 0 };
        let founding = Founding {
            founders: (0..places).filter_map(Name::first).collect(),
            resilience,
            window: [4, 16, 64][draw.below(3) as usize],
            pb_up_to: 1024,
        };
        let loss = [0, 2, 10][draw.below(3) as usize];
        let lives = (0..places).map(|place| (place, 1)).collect();
        let list = List { founding, lives };
        let mut world = World {
            draw,
            now: 0,
            loss,
            plant,
            processes: Vec::new(),
            lists: vec![list],
            ends: BTreeMap::new(),
            wire: BTreeMap::new(),
            serial: 0,
            settled: BTreeMap::new(),
            tellings: VecDeque::new(),
            cuts: 0,
        };
        for place in 0..places {
            world.start(place, Name::first(place).unwrap());
        }
        world
    }

    /// Starts a process of a place in the latest list.
    fn start(&mut self, place: u8, name: Name) {
        let generation = self.lists.len() as u32 - 1;
        let list = &self.lists[generation as usize];
        let process = 1 + self.processes.len() as u64;
        let mut settings = Settings::new(name, list.founding, process);
        settings.generation = generation;
        settings.plant = self.plant;
        settings.first_resend = 3_000;
        settings.most_resend = 40_000;
        settings.slow_tick = 10_000;
        settings.stuck_after = 400_000;
        settings.reset_step = 20_000;
        settings.least = Some(1);
        let member = Generations::new(settings, Time(self.now)).unwrap();
        self.processes.push(Process {
            place,
            member,
            names: BTreeMap::from([(generation, name)]),
            seen: Vec::new(),
            sent: 0,
            tickets: BTreeMap::new(),
            ended: None,
            crashed: false,
        });
    }

    fn running(&self) -> Vec<usize> {
        let runs = |k: &usize| self.processes[*k].ended.is_none() && !self.processes[*k].crashed;
        (0..self.processes.len()).filter(runs).collect()
    }

    fn post(&mut self, from: usize, to: u8, payload: Vec<u8>) {
        if self.draw.is(self.loss) {
            return;
        }
        let times = 1 + u64::from(self.draw.is(self.loss / 2));
        for _ in 0..times {
            let slow = if self.draw.is(3) { 20_000 } else { 1_500 };
            let at = self.now + 50 + self.draw.below(slow);
            self.serial += 1;
            self.wire
                .insert((at, self.serial), (to, from, payload.clone()));
        }
    }

    /// Takes what a process gives out.
    pub fn release(&mut self, k: usize) -> Result<(), String> {
        let mut out = Vec::new();
        self.processes[k].member.release(Time(self.now), &mut out);
        let mut taken = 0;
        for Released { generation, output } in out {
            match output {
                Output::Datagram { to, payload } => {
                    for name in to.iter() {
                        self.post(k, name.place(), payload.clone());
                    }
                }
                Output::Deliver(delivery) => {
                    if delivery.at().generation != generation {
                        return Err("a delivery of another list".into());
                    }
                    self.processes[k]
                        .seen
                        .push((delivery.at(), shown(&delivery)));
                    taken += 1;
                }
                Output::Settled { ticket, result } => self.settle(k, ticket, result)?,
                Output::Succeeded(next) => self.succeeded(k, generation, next)?,
                Output::Ended(end) => self.ended(k, end)?,
                Output::ResetDone { .. } | Output::Journal(_) | Output::Told(_) => {}
            }
        }
        if taken > 0 {
            let _ended = self.processes[k]
                .member
                .handle(Time(self.now), Input::Consumed(taken));
        }
        Ok(())
    }

    fn settle(
        &mut self,
        k: usize,
        ticket: u64,
        result: Result<Position, muoswyld_member::Unsent>,
    ) -> Result<(), String> {
        let Some(message) = self.processes[k].tickets.remove(&ticket) else {
            return Err(format!("{k}: ticket {ticket} was settled twice"));
        };
        let Ok(at) = result else {
            return Ok(());
        };
        if !self.processes[k].seen.contains(&(at, message.clone())) {
            return Err(format!(
                "{k}: {at:?} was settled and not delivered there before"
            ));
        }
        self.settled.insert(message, at);
        Ok(())
    }

    /// A process has ended. Its list has ended, if it says so.
    fn ended(&mut self, k: usize, end: End) -> Result<(), String> {
        let process = &mut self.processes[k];
        process.ended = Some(end);
        let generation = process.member.generation();
        match end == End::Superseded && !self.ends.contains_key(&generation) {
            true => Err(format!("{k} says that list {generation} has ended")),
            false => Ok(()),
        }
    }

    /// A process came to the end of a list: all come to the same one.
    fn succeeded(&mut self, k: usize, generation: u32, next: Successor) -> Result<(), String> {
        let place = self.processes[k].place;
        self.processes[k]
            .names
            .insert(generation + 1, Name::first(place).unwrap());
        let known = self.ends.entry(generation).or_insert_with(|| next.clone());
        let same = (known.group, known.founding, known.at) == (next.group, next.founding, next.at);
        if !same {
            return Err(format!(
                "list {generation} ended twice: {known:?}, {next:?}"
            ));
        }
        if self.lists.len() as u32 == generation + 1 {
            let places = next.founding.founders.iter().map(|name| (name.place(), 1));
            self.cuts += 1;
            self.lists.push(List {
                founding: next.founding,
                lives: places.collect(),
            });
        }
        Ok(())
    }

    /// Tells all others of a crash, each by the name that the process had in its list.
    fn tell(&mut self, crashed: usize) -> Result<(), String> {
        for k in self.running() {
            let generation = self.processes[k].member.generation();
            let gone = &self.processes[crashed];
            let founder = Name::first(gone.place).filter(|name| {
                let founding = self.lists[generation as usize].founding;
                gone.names.keys().next_back() < Some(&generation) && founding.founders.has(*name)
            });
            let Some(name) = gone.names.get(&generation).copied().or(founder) else {
                continue;
            };
            match self.processes[k]
                .member
                .handle(Time(self.now), Input::Stopped(name))
            {
                Ok(()) | Err(HandleError::Ended) => {}
                Err(error) => return Err(format!("{k} isn't told of {name}: {error}")),
            }
            self.release(k)?;
        }
        Ok(())
    }

    /// Goes on to a time.
    pub fn go_to(&mut self, until: u64) -> Result<(), String> {
        loop {
            let wakes = self
                .running()
                .into_iter()
                .map(|k| (self.processes[k].member.wake().0, k));
            let (wake, who) = wakes.min().unwrap_or((u64::MAX, 0));
            let datagram = self.wire.keys().next().map_or(u64::MAX, |key| key.0);
            let telling = self.tellings.front().map_or(u64::MAX, |told| told.0);
            let next = wake.min(datagram).min(telling).max(self.now);
            if next > until {
                self.now = until;
                return Ok(());
            }
            self.now = next;
            if telling <= next {
                if let Some((_, crashed)) = self.tellings.pop_front() {
                    self.tell(crashed)?;
                }
            } else if datagram <= next {
                let Some((_, (to, from, payload))) = self.wire.pop_first() else {
                    continue;
                };
                let of_place = |k: &usize| self.processes[*k].place == to && *k != from;
                if let Some(k) = self.running().into_iter().find(of_place) {
                    let _ended = self.processes[k]
                        .member
                        .handle(Time(self.now), Input::Datagram(&payload));
                    self.release(k)?;
                }
            } else {
                let _ended = self.processes[who]
                    .member
                    .handle(Time(self.now), Input::Time);
                self.release(who)?;
            }
        }
    }

    /// One act by chance.
    pub fn act(&mut self) -> Result<(), String> {
        let running = self.running();
        let Some(k) = running
            .get(self.draw.below(running.len() as u64) as usize)
            .copied()
        else {
            return Ok(());
        };
        match self.draw.below(100) {
            0..70 => self.send(k)?,
            70..78 => {
                let next = Next {
                    resilience: self.lists[0].founding.resilience,
                    window: [4, 16, 64][self.draw.below(3) as usize],
                    pb_up_to: 1024,
                    voters: None,
                };
                let _refused = self.processes[k]
                    .member
                    .handle(Time(self.now), Input::Succeed(next));
                self.release(k)?;
            }
            78..82 => self.crash(k),
            _ => self.come_back()?,
        }
        Ok(())
    }

    fn send(&mut self, k: usize) -> Result<(), String> {
        let length = match self.draw.below(10) {
            0 => self.draw.below(4_000) as usize,
            1 => 1_010 + self.draw.below(10) as usize,
            _ => self.draw.below(60) as usize,
        };
        let process = &mut self.processes[k];
        let bytes = message(k, process.sent, length);
        let ticket = u64::from(process.sent);
        let message = bytes.clone();
        match process
            .member
            .handle(Time(self.now), Input::Send { ticket, message })
        {
            Ok(()) => {
                process.sent += 1;
                process.tickets.insert(ticket, bytes);
            }
            Err(HandleError::Ended | HandleError::Full { .. }) => {}
            Err(error) => return Err(format!("{k} can't send: {error}")),
        }
        self.release(k)
    }

    /// A process crashes, if all that crashed before are out of the view, and enough of them stay.
    fn crash(&mut self, k: usize) {
        let latest = self.lists.len() as u32 - 1;
        let settled = self.tellings.is_empty()
            && self.running().iter().all(|k| {
                let member = &self.processes[*k].member;
                let standing = member.current().info().standing;
                let alive = |name: Name| {
                    self.running()
                        .iter()
                        .any(|k| self.processes[*k].names.get(&latest) == Some(&name))
                };
                member.generation() == latest
                    && standing.members.iter().all(alive)
                    && standing.accepted == standing.top
            });
        let resilience = self.lists[latest as usize].founding.resilience;
        if settled && resilience > 0 && self.running().len() > 2 {
            self.processes[k].crashed = true;
            self.tellings
                .push_back((self.now + self.draw.below(30_000), k));
        }
    }

    /// A place without a process has its next life, in the latest list.
    fn come_back(&mut self) -> Result<(), String> {
        let late = self.lists.len() as u32 - 1;
        let taken: BTreeSet<u8> = self
            .running()
            .iter()
            .map(|k| self.processes[*k].place)
            .collect();
        let told = self.tellings.is_empty();
        let list = &mut self.lists[late as usize];
        let Some(place) = (0..6).find(|place| !taken.contains(place) && told) else {
            return Ok(());
        };
        let lives = list.lives.entry(place).or_insert(0);
        let Some(name) = Name::new(place, *lives + 1) else {
            return Ok(());
        };
        *lives += 1;
        self.start(place, name);
        let k = self.processes.len() - 1;
        self.release(k)
    }

    /// All lists together, as they were given out: each position has one content.
    fn list(&self) -> Result<BTreeMap<Position, &Vec<u8>>, String> {
        let mut list: BTreeMap<Position, &Vec<u8>> = BTreeMap::new();
        for process in &self.processes {
            for (at, what) in &process.seen {
                let known = list.entry(*at).or_insert(what);
                if *known != what {
                    return Err(format!("{at:?} has two contents"));
                }
            }
        }
        Ok(list)
    }

    /// Each application saw a piece of one list, each message stands once, in its sender's order, and nothing beyond a list's end.
    pub fn check(&self) -> Result<(), String> {
        let list = self.list()?;
        for (k, process) in self.processes.iter().enumerate() {
            is_piece(process, &list).map_err(|what| format!("{k}: {what}"))?;
        }
        for at in list.keys() {
            if self
                .ends
                .get(&at.generation)
                .is_some_and(|end| end.at < *at)
            {
                return Err(format!("{at:?} stands beyond the end of its list"));
            }
        }
        let mut last: BTreeMap<u32, u32> = BTreeMap::new();
        for (at, what) in list.iter().filter(|(_, what)| what.first() == Some(&b'm')) {
            let (process, number) = sender_of(what);
            if last
                .insert(process, number)
                .is_some_and(|before| number <= before)
            {
                return Err(format!(
                    "{at:?}: message {number} of {process} stands twice, or out of order"
                ));
            }
        }
        for (message, at) in &self.settled {
            if list.get(at) != Some(&message) {
                return Err(format!("what was settled at {at:?} isn't there"));
            }
        }
        let ids: BTreeSet<u64> = self.ends.values().map(|end| end.group).collect();
        match ids.len() == self.ends.len() {
            true => Ok(()),
            false => Err("two lists have one id".into()),
        }
    }

    /// With nothing lost any more all come to rest: in one list, with all that was sent delivered.
    pub fn rest(&mut self) -> Result<(), String> {
        self.loss = 0;
        for _ in 0..400 {
            self.go_to(self.now + 50_000)?;
            let latest = self.lists.len() as u32 - 1;
            let at_rest = |k: usize| {
                let process = &self.processes[k];
                let is_joiner = process.seen.is_empty();
                let done = process.tickets.is_empty() && process.member.ended_lists() == 0;
                (is_joiner || done) && process.member.generation() == latest
            };
            if self.running().into_iter().all(at_rest) {
                return Ok(());
            }
        }
        let told = |k: &usize| {
            let process = &self.processes[*k];
            let info = process.member.current().info();
            let (list, old) = (process.member.generation(), process.member.ended_lists());
            let left = process.tickets.len();
            let s = info.standing;
            format!(
                "{} in {list} ({old} old, {left} unsettled, {:?} {} top {} taken {})",
                info.name, s.role, s.members, s.top, s.taken
            )
        };
        let standing: Vec<String> = self.running().iter().map(told).collect();
        Err(format!("it doesn't come to rest: {}", standing.join("; ")))
    }
}
