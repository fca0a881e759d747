//! A member under load: one process, one member. It is told on standard input what to do, a line each, and answers each by a
//! line of JSON. `{"ready": true}` comes first, once the member is in its group. It ends at the end of its input.
//!
//!     cargo run --release --example load -- PLACE RESILIENCE open|sealed ADDRESS..
//!
//! `bench/peers/run` starts one for each address, and has the lines (`Process` in its groups.py). Times are nanoseconds of
//! the system's monotonic clock, which all processes of a machine share.

use muoswyld_group::{Config, Delivery, Group, Key, Name};
use std::error::Error;
use std::io::BufRead;
use std::str::{FromStr, SplitWhitespace};
use std::sync::atomic::{AtomicBool, Ordering};
use std::sync::{Arc, Mutex, MutexGuard, PoisonError};
use std::time::Duration;

type Fault = Box<dyn Error + Send + Sync>;

/// How many bytes the head of a message has: the cell's number (4), the message's number (4), the time of its sending (8).
const HEAD: usize = 16;
/// How many bytes may wait to be sent: enough for full bodies, and soon sent once a flood is over.
const MOST_WAITING: usize = 1 << 18;

/// What was delivered of the messages of one cell.
#[derive(Default)]
struct Cell {
    number: u32,
    delivered: u64,
    order: u64,
    last: u64,
    keeps: bool,
    took: Vec<u64>,
    is_smaller: bool,
    resumed: u64,
}

impl Cell {
    fn new(number: u32) -> Cell {
        Cell {
            number,
            order: 0xcbf2_9ce4_8422_2325,
            ..Cell::default()
        }
    }

    /// Counts a message that is of this cell.
    fn count(&mut self, from: Name, message: &[u8]) {
        let Some((cell, number, sent)) = head_of(message) else {
            return;
        };
        if cell != self.number {
            return;
        }
        let now = now();
        self.delivered += 1;
        self.last = now;
        let who = u64::from(from.place()) << 32 | u64::from(number);
        self.order = (self.order ^ who).wrapping_mul(0x0100_0000_01b3);
        if self.keeps {
            self.took.push(now.saturating_sub(sent));
        }
        if self.is_smaller && self.resumed == 0 {
            self.resumed = now;
        }
    }
}

/// For how long members look for more before they sleep: the environment's SPIN, in microseconds, else not at all.
fn spin() -> Duration {
    let said = std::env::var("SPIN").ok();
    Duration::from_micros(said.and_then(|text| text.parse().ok()).unwrap_or(0))
}

/// The time of the system's monotonic clock, in nanoseconds.
fn now() -> u64 {
    let mut time = libc::timespec {
        tv_sec: 0,
        tv_nsec: 0,
    };
    // SAFETY: the call writes to `time` alone.
    unsafe { libc::clock_gettime(libc::CLOCK_MONOTONIC, &mut time) };
    time.tv_sec as u64 * 1_000_000_000 + time.tv_nsec as u64
}

fn sleep_until(time: u64) {
    std::thread::sleep(Duration::from_nanos(time.saturating_sub(now())));
}

fn message_of(cell: u32, number: u32, bytes: usize) -> Vec<u8> {
    let mut message = vec![0; bytes.max(HEAD)];
    message[..4].copy_from_slice(&cell.to_le_bytes());
    message[4..8].copy_from_slice(&number.to_le_bytes());
    message[8..HEAD].copy_from_slice(&now().to_le_bytes());
    message
}

fn head_of(message: &[u8]) -> Option<(u32, u32, u64)> {
    let cell = message.get(..4)?.try_into().ok()?;
    let number = message.get(4..8)?.try_into().ok()?;
    let sent = message.get(8..HEAD)?.try_into().ok()?;
    Some((
        u32::from_le_bytes(cell),
        u32::from_le_bytes(number),
        u64::from_le_bytes(sent),
    ))
}

/// The member, and what it was given.
struct Load {
    group: Group,
    cell: Arc<Mutex<Cell>>,
    paces: AtomicBool,
}

fn lock(cell: &Mutex<Cell>) -> MutexGuard<'_, Cell> {
    cell.lock().unwrap_or_else(PoisonError::into_inner)
}

fn next<T: FromStr>(words: &mut SplitWhitespace) -> Result<T, Fault>
where
    T::Err: Error + Send + Sync + 'static,
{
    Ok(words.next().ok_or("a word is missing")?.parse()?)
}

impl Load {
    fn start(mut words: impl Iterator<Item = String>) -> Result<Load, Fault> {
        let mut word = || words.next().ok_or("PLACE RESILIENCE open|sealed ADDRESS..");
        let place: u8 = word()?.parse()?;
        let resilience = word()?.parse()?;
        let is_sealed = word()? == "sealed";
        let addresses: Vec<String> = words.collect();
        let founders = (0..addresses.len() as u8).filter_map(Name::first).collect();
        let name = Name::first(place).ok_or("a place is 0 to 15")?;
        let mut config = Config::new(name, founders)
            .resilience(resilience)
            .most_waiting(MOST_WAITING)
            .spin(spin())
            .start_within(Duration::from_secs(10));
        for (at, address) in addresses.iter().enumerate() {
            config = config.address(at as u8, address.parse()?)?;
        }
        config = match is_sealed {
            true => config.key(Key::of([7; 32])),
            false => config.insecure(),
        };
        let all = addresses.len();
        let cell = Arc::new(Mutex::new(Cell::new(0)));
        let seen = cell.clone();
        let config = config.on_delivery(move |delivery| match delivery {
            Delivery::Message { from, message, .. } => lock(&seen).count(from, &message),
            Delivery::View { members, .. } => lock(&seen).is_smaller = members.iter().count() < all,
            _ => {}
        });
        Ok(Load {
            group: Group::create(config)?,
            cell,
            paces: AtomicBool::new(false),
        })
    }

    /// Sends messages between two times, as fast as the group takes them; how many.
    fn flood(&self, words: &mut SplitWhitespace) -> Result<String, Fault> {
        let (bytes, from, until): (usize, u64, u64) = (next(words)?, next(words)?, next(words)?);
        let sends = next::<u8>(words)? == 1;
        let cell = lock(&self.cell).number;
        let mut sent = 0;
        sleep_until(from);
        while sends && now() < until {
            let _ticket = self.group.submit(message_of(cell, sent, bytes))?;
            sent += 1;
        }
        Ok(format!("{{\"sent\": {sent}}}"))
    }

    /// Waits until so many messages of the cell are delivered; how many were, a digest of their order, and when the last was.
    fn settle(&self, words: &mut SplitWhitespace) -> Result<String, Fault> {
        let (all, until): (u64, u64) = (next(words)?, next(words)?);
        while lock(&self.cell).delivered < all && now() < until {
            std::thread::sleep(Duration::from_millis(1));
        }
        let cell = lock(&self.cell);
        let (delivered, order, last) = (cell.delivered, cell.order, cell.last);
        Ok(format!(
            "{{\"delivered\": {delivered}, \"order\": \"{order:x}\", \"last\": {last}}}"
        ))
    }

    /// Sends messages one at a time, each a while after the one before is delivered here; how long each message of the cell
    /// took until its delivery here.
    fn single(&self, words: &mut SplitWhitespace) -> Result<String, Fault> {
        let (bytes, many): (usize, usize) = (next(words)?, next(words)?);
        let (pause, until): (u64, u64) = (next(words)?, next(words)?);
        let sends = next::<u8>(words)? == 1;
        let cell = {
            let mut cell = lock(&self.cell);
            cell.keeps = true;
            cell.number
        };
        let mut chance = 17u64;
        for number in 0..many {
            if !sends || now() >= until {
                break;
            }
            chance = chance.wrapping_mul(6364136223846793005).wrapping_add(1);
            sleep_until(now() + pause / 2 + (chance >> 33) % pause);
            let left = Duration::from_nanos(until.saturating_sub(now()));
            let message = message_of(cell, number as u32, bytes);
            // what isn't delivered in time is missing in the answer
            let _late = self.group.send_timeout(message, left);
        }
        while lock(&self.cell).took.len() < many && now() < until {
            std::thread::sleep(Duration::from_millis(1));
        }
        Ok(format!("{{\"took\": {:?}}}", lock(&self.cell).took))
    }

    /// Sends a message each so many nanoseconds, as long as that is wanted.
    fn pace(&self, bytes: usize, every: u64) {
        let cell = lock(&self.cell).number;
        let mut due = now();
        for number in 0.. {
            if !self.paces.load(Ordering::Relaxed) {
                return;
            }
            // what there is no room for isn't sent
            let _ticket = self.group.try_submit(message_of(cell, number, bytes));
            due = now().max(due + every);
            sleep_until(due);
        }
    }

    /// When the first message was delivered in a view with fewer members; 0 if none was in time.
    fn resumed(&self, words: &mut SplitWhitespace) -> Result<String, Fault> {
        let until: u64 = next(words)?;
        while lock(&self.cell).resumed == 0 && now() < until {
            std::thread::sleep(Duration::from_millis(1));
        }
        self.paces.store(false, Ordering::Relaxed);
        let at = lock(&self.cell).resumed;
        Ok(format!("{{\"resumed\": {at}}}"))
    }

    /// The place of the sequencer.
    fn sequencer(&self) -> Result<String, Fault> {
        let info = self.group.info().map_err(|end| end.to_string())?;
        let place = info.standing.view.name.place();
        Ok(format!("{{\"sequencer\": {place}}}"))
    }

    /// Does what a line says; the answer to it.
    fn answer(self: &Arc<Load>, line: &str) -> Result<String, Fault> {
        let mut words = line.split_whitespace();
        match words.next() {
            Some("cell") => *lock(&self.cell) = Cell::new(next(&mut words)?),
            Some("flood") => return self.flood(&mut words),
            Some("settle") => return self.settle(&mut words),
            Some("single") => return self.single(&mut words),
            Some("resumed") => return self.resumed(&mut words),
            Some("sequencer") => return self.sequencer(),
            Some("stopped") => self.group.stopped(next(&mut words)?)?,
            Some("pace") => {
                let (bytes, every) = (next(&mut words)?, next(&mut words)?);
                self.paces.store(true, Ordering::Relaxed);
                let load = self.clone();
                std::thread::spawn(move || load.pace(bytes, every));
            }
            _ => return Err(format!("no such line: {line}").into()),
        }
        Ok("{}".into())
    }
}

fn main() -> Result<(), Fault> {
    let load = Arc::new(Load::start(std::env::args().skip(1))?);
    println!("{{\"ready\": true}}");
    for line in std::io::stdin().lock().lines() {
        println!("{}", load.answer(&line?)?);
    }
    Ok(())
}
