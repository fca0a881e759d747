//! Schedules are drawn from a seed: heartbeats that go round in part, refusals, syncs, batches, restarts, and attacks of all of these.

use crate::acts::{Act, DiskFault, Kind, Part, Run, Start};
use crate::draw::Draw;
use crate::world::Counts;
use muoswyld_failures::{Plant, Policy};

/// What a schedule came to.
#[derive(Clone, Debug)]
pub struct Ran {
    pub acts: Vec<Act>,
    pub start: Start,
    pub violation: Option<String>,
    pub counts: Counts,
}

struct Drawer<'a> {
    run: Run,
    draw: &'a mut Draw,
    acts: Vec<Act>,
    focus: u8,
    at_bounds: bool,
}

/// Draws a schedule of a seed and runs it.
pub fn run(kind: &Kind, seed: u64) -> Ran {
    let mut draw = Draw::new(seed);
    let start = Start::draw(kind, &mut draw);
    let focus = draw.below(u64::from(start.shape.places)) as u8;
    let at_bounds = draw.percent(kind.at_bounds);
    let length = draw.between(4, 60);
    let mut drawer = Drawer {
        run: Run::new(kind, &start),
        draw: &mut draw,
        acts: Vec::new(),
        focus,
        at_bounds,
    };
    for _ in 0..length {
        drawer.next();
        if drawer.run.world.violation.is_some() {
            break;
        }
    }
    Ran {
        acts: drawer.acts,
        start,
        violation: drawer.run.world.violation,
        counts: drawer.run.world.counts,
    }
}

impl Drawer<'_> {
    fn act(&mut self, act: Act) {
        if self.run.world.violation.is_none() && self.run.act(act) {
            self.acts.push(act);
        }
    }

    fn place(&mut self) -> u8 {
        self.draw.below(u64::from(self.run.world.shape.places)) as u8
    }

    fn voters(&self) -> Vec<u8> {
        let voters = self.run.world.shape.voters;
        (0..16).filter(|place| voters >> place & 1 == 1).collect()
    }

    fn pass(&mut self, micros: u64) {
        let fast = match self.at_bounds {
            true => !(1u16 << self.focus),
            false => self.draw.word() as u16,
        };
        self.act(Act::Pass(micros, fast));
    }

    fn age(&mut self) -> u8 {
        match self.draw.percent(70) {
            true => 0,
            false => self.draw.below(6) as u8,
        }
    }

    fn speak(&mut self, place: u8) {
        self.pass(1);
        self.act(Act::Wake(place));
        while self
            .run
            .world
            .process(place)
            .is_some_and(|process| !process.outbox.is_empty())
        {
            self.act(Act::Send(place));
        }
    }

    fn next(&mut self) {
        let focus = self.focus;
        let member = match self.draw.percent(80) {
            true => focus,
            false => self.place(),
        };
        match self.draw.below(22) {
            16..=21 => self.attack(member),
            0..=1 => {
                let times = [
                    1, 1, 3, 10, 30, 60, 90, 100, 110, 111, 112, 117, 123, 130, 200,
                ];
                let micros = self.draw.one_of(&times) * 1000;
                self.pass(micros);
            }
            2..=4 => self.heartbeats(member),
            5 => {
                let (from, age) = (self.place(), self.draw.below(12) as u8);
                self.act(Act::Hear {
                    from,
                    to: member,
                    age,
                });
            }
            6 => self.refusals(member),
            7 => self.syncs(),
            8..=10 => self.statements(),
            11..=13 => self.batch(member),
            14 => self.restart(),
            _ => self.trouble(member),
        }
    }

    /// A member's heartbeat goes round, in part.
    fn heartbeats(&mut self, member: u8) {
        if self.draw.percent(70) {
            self.speak(member);
        }
        for voter in self.voters() {
            if voter == member || !self.draw.percent(70) {
                continue;
            }
            let age = self.age();
            self.act(Act::Hear {
                from: member,
                to: voter,
                age,
            });
            if self.draw.percent(15) {
                let micros = self.draw.between(1, 60_000);
                self.pass(micros);
            }
            self.speak(voter);
            if self.draw.percent(75) {
                let age = self.age();
                self.act(Act::Hear {
                    from: voter,
                    to: member,
                    age,
                });
            }
        }
    }

    fn has_part(&mut self, part: Part) -> bool {
        let usual = match part {
            Part::RestartsFirst | Part::RestartsAmid | Part::MemberAgain => 8,
            Part::LooksEarly | Part::SlowSync | Part::NoSync | Part::RestartsLast => 25,
            Part::BeatsLate | Part::OldEchoes => 30,
            Part::NoWait => 10,
        };
        let often = match self.run.kind.emphasis.contains(&part) {
            true => 80,
            false if self.run.kind.emphasis.is_empty() => usual,
            false => usual / 3,
        };
        self.draw.percent(often)
    }

    /// A member has a lease and a batch, is refused and given up, and goes on with its batch: each piece may be left out.
    fn attack(&mut self, member: u8) {
        if self.has_part(Part::RestartsFirst) {
            self.restarts(DiskFault::None, 20);
        }
        self.heartbeats(member);
        let begins = self.draw.percent(60);
        if begins {
            self.act(Act::Step(member));
        }
        if self.has_part(Part::LooksEarly) {
            self.act(Act::Fix(member));
            self.act(Act::Look(member));
        }
        self.refusals(member);
        if self.has_part(Part::RestartsAmid) {
            self.restarts(DiskFault::None, 50);
        }
        if !self.has_part(Part::NoWait) {
            self.wait(member);
        }
        if self.has_part(Part::BeatsLate) {
            self.heartbeats(member);
        }
        if !self.has_part(Part::NoSync) {
            self.syncs();
        }
        self.statements();
        self.come_back(member);
        self.act(Act::Fix(member));
        self.act(Act::Look(member));
        if self.run.kind.plant == Some(Plant::OpensBatch) {
            self.act(Act::Step(member));
        }
        self.act(Act::Emit(member));
        if !begins {
            self.batch(member);
        }
    }

    /// Voters come back, the member itself does, and old echoes come again.
    fn come_back(&mut self, member: u8) {
        if self.has_part(Part::RestartsLast) {
            let disks = [DiskFault::None, DiskFault::Lost, DiskFault::Older];
            let disk = self.draw.one_of(&disks);
            for voter in self.voters() {
                if voter != member && self.draw.percent(50) {
                    self.restart_one(voter, disk);
                }
            }
            match self.draw.percent(30) {
                true => self.statements(),
                false => self.heartbeats(member),
            }
        }
        if self.has_part(Part::MemberAgain) {
            self.restart_one(member, DiskFault::None);
            self.refusals(member);
            self.wait(member);
            self.statements();
            for _ in 0..4 {
                self.speak(member);
            }
            self.old_echoes(member);
            self.act(Act::Step(member));
        }
        if self.has_part(Part::OldEchoes) {
            self.old_echoes(member);
        }
    }

    fn restart_one(&mut self, place: u8, disk: DiskFault) {
        let clock = self.draw.one_of(&[0, 1_000_000, 50_000_000]);
        self.act(Act::Restart { place, disk, clock });
        if disk == DiskFault::Older && self.run.kind.remembered {
            for other in 0..self.run.world.shape.places {
                if other != place {
                    self.speak(other);
                    self.act(Act::Hear {
                        from: other,
                        to: place,
                        age: 0,
                    });
                }
            }
        }
    }

    /// Time passes, about as long as a lease or a wait; or it passes for others only, where it may.
    fn wait(&mut self, member: u8) {
        let times = [
            1, 60, 90, 100, 106, 107, 108, 109, 110, 111, 112, 117, 123, 130,
        ];
        let micros = self.draw.one_of(&times) * 1000;
        let is_wrong = self.draw.percent(60);
        if self.run.kind.stands && is_wrong {
            return self.act(Act::Stand(member, micros));
        }
        if self.run.kind.set_forward && is_wrong {
            for voter in self.voters() {
                if voter != member {
                    self.act(Act::Set(voter, 130_000));
                }
            }
            return;
        }
        self.pass(micros);
        if self.run.kind.set_back && is_wrong {
            self.act(Act::Set(member, -(micros as i64)));
        }
    }

    fn restarts(&mut self, disk: DiskFault, often: u64) {
        for place in 0..self.run.world.shape.places {
            if self.draw.percent(often) {
                self.restart_one(place, disk);
            }
        }
    }

    /// What voters said before comes to a member again, and an earlier process of a voter answers, where that may be.
    fn old_echoes(&mut self, member: u8) {
        self.speak(member);
        for voter in self.voters() {
            if voter == member {
                continue;
            }
            if self.run.kind.ghosts {
                self.act(Act::Ghost {
                    place: voter,
                    from: member,
                });
            }
            for _ in 0..2 {
                let age = self.draw.below(8) as u8;
                self.act(Act::Hear {
                    from: voter,
                    to: member,
                    age,
                });
            }
        }
    }

    fn refusals(&mut self, member: u8) {
        let name = self.run.world.lives[usize::from(member)];
        if self.run.kind.cliques && self.draw.percent(60) {
            return self.clique();
        }
        for voter in self.voters() {
            if self.draw.percent(60) {
                self.act(Act::Refuse(voter, name));
                if !self.has_part(Part::SlowSync) {
                    self.act(Act::Sync(voter));
                    self.act(Act::Synced(voter));
                }
            }
        }
    }

    fn clique(&mut self) {
        let voters = self.voters();
        let (one, other) = (self.place(), self.place());
        for voter in voters.clone() {
            for place in voters.clone() {
                let name = self.run.world.lives[usize::from(place)];
                let often = if voter == one || voter == other {
                    90
                } else {
                    25
                };
                if place != one && place != other && self.draw.percent(often) {
                    self.act(Act::Refuse(voter, name));
                    self.act(Act::Sync(voter));
                    self.act(Act::Synced(voter));
                }
            }
        }
    }

    fn syncs(&mut self) {
        for voter in self.voters() {
            if self.draw.percent(50) {
                self.act(Act::Sync(voter));
                if self.draw.percent(70) {
                    self.act(Act::Synced(voter));
                }
            }
        }
    }

    /// A candidate hears what the voters say.
    fn statements(&mut self) {
        let candidate = self.place();
        if self.draw.percent(30) {
            let micros = self.draw.one_of(&[10, 60, 100, 110, 117, 123, 200]) * 1000;
            self.pass(micros);
        }
        for voter in self.voters() {
            if self.draw.percent(80) {
                self.speak(voter);
                if voter != candidate && self.draw.percent(80) {
                    self.act(Act::Hear {
                        from: voter,
                        to: candidate,
                        age: 0,
                    });
                }
            }
        }
    }

    fn batch(&mut self, member: u8) {
        self.act(Act::Step(member));
        if self.draw.percent(40) {
            let micros = self.some_time();
            self.pass(micros);
        }
        self.act(Act::Fix(member));
        if self.run.world.shape.policy == Policy::Echo && self.draw.percent(60) {
            while self.run.act(Act::Send(member)) {
                self.acts.push(Act::Send(member));
            }
            self.heartbeats(member);
        }
        if self.draw.percent(40) {
            let micros = self.some_time();
            self.pass(micros);
        }
        self.act(Act::Look(member));
        if self.draw.percent(30) {
            let micros = self.some_time();
            self.pass(micros);
        }
        if self.run.kind.plant == Some(Plant::OpensBatch) && self.draw.percent(50) {
            self.act(Act::Step(member));
        }
        if self.draw.percent(60) {
            self.act(Act::Emit(member));
        }
    }

    fn some_time(&mut self) -> u64 {
        match self.at_bounds {
            true => self.draw.between(1, 4) * 1000,
            false => self.draw.between(1, 130) * 1000,
        }
    }

    fn restart(&mut self) {
        if !self.draw.percent(30) {
            return;
        }
        let place = self.place();
        let disk = match self.draw.below(10) {
            0..=1 => DiskFault::Lost,
            2..=5 => DiskFault::Older,
            _ => DiskFault::None,
        };
        let disk = match disk {
            DiskFault::Older if !self.run.kind.older => DiskFault::None,
            disk => disk,
        };
        self.restart_one(place, disk);
    }

    fn trouble(&mut self, member: u8) {
        let micros = self.draw.between(1, 200) * 1000;
        let other = self.place();
        let from = self.run.world.shape.places;
        match self.draw.below(5) {
            0 => self.act(Act::Stand(member, micros)),
            1 => self.act(Act::Set(member, -(micros as i64))),
            2 => self.act(Act::Set(other, micros as i64)),
            _ => {
                let from = match from {
                    0 => 0,
                    _ => self.focus,
                };
                self.act(Act::Ghost { place: other, from });
                self.act(Act::Hear {
                    from: other,
                    to: from,
                    age: 0,
                });
            }
        }
    }
}
