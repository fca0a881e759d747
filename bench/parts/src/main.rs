//! The parts that a node calls most, in plain Rust on a `VecDeque`, timed as `am_bench parts` times ours.

use std::collections::VecDeque;
use std::hint::black_box;
use std::time::Instant;

#[derive(Clone, Copy)]
#[allow(dead_code)]
struct Body {
    len: u16,
    bytes: [u8; 1024],
}

impl Body {
    fn of(bytes: &[u8]) -> Body {
        let mut body = Body {
            len: bytes.len() as u16,
            bytes: [0; 1024],
        };
        body.bytes[..bytes.len()].copy_from_slice(bytes);
        body
    }
}

#[derive(Clone, Copy, PartialEq, Eq, PartialOrd, Ord)]
struct Stamp {
    round: u32,
    by: u8,
}

/// The lives of the sixteen places.
type Names = [u8; 16];

#[allow(dead_code)]
enum Entry {
    Data { from: u8, req: u32, body: Body },
    Join(u8),
    Leave(u8),
    View { stamp: Stamp, members: Names, resilience: u8 },
}

#[derive(Clone, Copy, Default, PartialEq)]
struct Row {
    life: u8,
    joined: u32,
    left: u32,
    last: u32,
}

#[derive(Clone, Copy)]
struct Table {
    view: Stamp,
    view_number: u32,
    resilience: u8,
    rows: [Row; 16],
}

fn place(name: u8) -> usize {
    usize::from(name % 16)
}

fn life(name: u8) -> u8 {
    name / 16 + 1
}

fn member_life(row: &Row) -> u8 {
    if row.joined > 0 && row.left == 0 {
        row.life
    } else {
        0
    }
}

impl Table {
    fn blank() -> Table {
        Table {
            view: Stamp { round: 0, by: 0 },
            view_number: 0,
            resilience: 0,
            rows: [Row::default(); 16],
        }
    }

    fn is_blank(&self) -> bool {
        self.view_number == 0 && self.rows.iter().all(|row| *row == Row::default())
    }

    fn members(&self) -> Names {
        let mut names = [0; 16];
        for (name, row) in names.iter_mut().zip(&self.rows) {
            *name = member_life(row);
        }
        names
    }

    fn fits(&self, entry: &Entry) -> bool {
        match entry {
            Entry::Data { from, req, .. } => {
                let row = &self.rows[place(*from)];
                member_life(row) == life(*from) && *req == row.last + 1
            }
            Entry::Join(name) => {
                let row = &self.rows[place(*name)];
                row.joined == 0 || (row.left > 0 && row.life < life(*name))
            }
            Entry::Leave(name) => member_life(&self.rows[place(*name)]) == life(*name),
            Entry::View { stamp, members, resilience } => {
                let now = self.members();
                self.view < *stamp
                    && (self.is_blank()
                        || members.iter().zip(&now).all(|(life, member)| *life == 0 || life == member))
                    && members[place(stamp.by)] == life(stamp.by)
                    && self.resilience <= *resilience
            }
        }
    }

    fn apply(&mut self, number: u32, entry: &Entry) {
        match entry {
            Entry::Data { from, req, .. } => {
                let row = &mut self.rows[place(*from)];
                if row.life == life(*from) {
                    row.last = *req;
                }
            }
            Entry::Join(name) => {
                self.rows[place(*name)] = Row {
                    life: life(*name),
                    joined: number,
                    left: 0,
                    last: 0,
                }
            }
            Entry::Leave(name) => {
                let row = &mut self.rows[place(*name)];
                if row.life == life(*name) {
                    row.left = number;
                }
            }
            Entry::View { stamp, members, resilience } => {
                let first = self.is_blank();
                for (row, life) in self.rows.iter_mut().zip(members) {
                    let member = member_life(row);
                    if first && *life != 0 {
                        *row = Row {
                            life: *life,
                            joined: 1,
                            left: 0,
                            last: 0,
                        };
                    } else if !first && member != 0 && member != *life {
                        row.left = number;
                    }
                }
                self.view = *stamp;
                self.view_number = number;
                self.resilience = *resilience;
            }
        }
    }
}

struct Slot {
    entry: Entry,
    members: Names,
}

struct History {
    base: u32,
    below: Table,
    above: Table,
    slots: VecDeque<Slot>,
}

impl History {
    fn founded(window: u32) -> History {
        let mut history = History {
            base: 0,
            below: Table::blank(),
            above: Table::blank(),
            slots: VecDeque::with_capacity(window as usize + 15),
        };
        history.push(Entry::View {
            stamp: Stamp { round: 1, by: 0 },
            members: [1; 16],
            resilience: 15,
        });
        history
    }

    fn top(&self) -> u32 {
        self.base + self.slots.len() as u32
    }

    fn push(&mut self, entry: Entry) {
        self.above.apply(self.top() + 1, &entry);
        let members = self.above.members();
        self.slots.push_back(Slot { entry, members });
    }

    fn entry(&self, number: u32) -> Option<&Entry> {
        let place = number.checked_sub(self.base + 1)?;
        self.slots.get(place as usize).map(|slot| &slot.entry)
    }

    fn members_after(&self, number: u32) -> Names {
        if number == self.base {
            self.below.members()
        } else {
            self.slots[(number - self.base - 1) as usize].members
        }
    }

    fn trim(&mut self, to: u32) {
        while self.base < to {
            if let Some(slot) = self.slots.pop_front() {
                self.base += 1;
                self.below.apply(self.base, &slot.entry);
            }
        }
    }
}

#[derive(Clone, Copy, Default)]
struct Report {
    stored: u32,
    #[allow(dead_code)]
    taken: u32,
}

fn is_held(reports: &[Report; 256], history: &History, number: u32) -> bool {
    let counted = match history.entry(number) {
        Some(Entry::View { members, .. }) => *members,
        _ => history.members_after(number - 1),
    };
    let size = counted.iter().filter(|life| **life > 0).count();
    let need = (usize::from(history.above.resilience) + 1).min(size);
    let held = (0..16)
        .filter(|place| {
            let life = usize::from(counted[*place]);
            life > 0 && number <= reports[place + 16 * (life - 1)].stored
        })
        .count();
    need <= held
}

fn accept_front(reports: &[Report; 256], history: &History, acc: u32) -> u32 {
    let view = history.above.view_number;
    let mut front = acc;
    if acc < view {
        if history.top() < view || !is_held(reports, history, view) {
            return acc;
        }
        front = view;
    }
    while front < history.top() && is_held(reports, history, front + 1) {
        front += 1;
    }
    front
}

/// A history that is full but for what was tried, with its last request.
struct Ring {
    history: History,
    room: u32,
    last: u32,
    reports: [Report; 256],
}

impl Ring {
    fn new(window: u32) -> Ring {
        let mut reports = [Report::default(); 256];
        for report in &mut reports[..16] {
            report.stored = 2_000_000_000;
        }
        let mut ring = Ring {
            history: History::founded(window),
            room: window + 15,
            last: 0,
            reports,
        };
        ring.fill();
        ring
    }

    fn fill(&mut self) {
        for _ in 0..self.room {
            let entry = Entry::Data {
                from: 0,
                req: self.last + 1,
                body: Body::of(&[]),
            };
            if self.history.top() - self.history.base < self.room && self.history.above.fits(&entry) {
                self.history.push(entry);
                self.last += 1;
            }
        }
    }

    fn refill(&mut self) -> u64 {
        for _ in 0..self.room {
            self.history.trim(self.history.base + 1);
        }
        self.fill();
        u64::from(self.last)
    }

    fn requests(&self) -> u64 {
        let mut sum = 0;
        for number in self.history.base..self.history.top() {
            if let Some(Entry::Data { req, .. }) = self.history.entry(black_box(number + 1)) {
                sum += u64::from(*req);
            }
        }
        sum
    }

    fn memberships(&self) -> u64 {
        (self.history.base..self.history.top()).map(|number| u64::from(self.history.members_after(black_box(number + 1))[3])).sum()
    }

    fn front(&self) -> u64 {
        u64::from(accept_front(black_box(&self.reports), black_box(&self.history), self.history.base))
    }
}

/// Does this so many times, and prints how long each of its calls took.
fn time(name: &str, window: u32, count: u32, calls: u32, once: impl Fn(&mut Ring) -> u64) {
    let mut ring = Ring::new(window);
    let start = Instant::now();
    let mut sum = 0u64;
    for _ in 0..count {
        sum = sum.wrapping_add(once(black_box(&mut ring)));
    }
    let nanos = start.elapsed().as_nanos() / u128::from(count.max(1)) / u128::from(calls);
    println!("plain {window} {name}: {nanos} ns ({sum})");
}

fn main() {
    let count = std::env::args().nth(1).and_then(|word| word.parse().ok()).unwrap_or(0);
    for window in [112, 1008] {
        let room = window + 15;
        time("push and trim", window, count, room, Ring::refill);
        time("entry", window, count, room, |ring| ring.requests());
        time("members_after", window, count, room, |ring| ring.memberships());
        if window == 112 {
            time("accept_front", window, count, 1, |ring| ring.front());
        }
    }
}
