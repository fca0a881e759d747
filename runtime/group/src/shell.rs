//! A member's thread: it carries datagrams, time and commands to the member, and what the member answers to the network and to
//! the callers.

mod emitting;
mod guarding;
mod starting;
mod succeeding;

use crate::asking;
use crate::clock::Clock;
use crate::config::{Callback, Config};
use crate::error::{CreateError, End, ResetError, SendError, SucceedError, ToldError};
use crate::fencing::Fencing;
use crate::seal::Seal;
use crate::shared::{Command, Reset, Sent, Shared};
use crate::slot::Slot;
use crate::socket::Udp;
use muoswyld::names::{Name, Names};
use muoswyld_guarded::Guarded;
use muoswyld_member::{
    Counts, Delivery, HandleError, Info, Input, NotReset, Notice, Released, Successor, Time,
};
use std::collections::{BTreeMap, HashMap, VecDeque};
use std::fs::File;
use std::sync::Arc;
use std::thread::JoinHandle;
use std::time::{Duration, Instant};
use succeeding::Ender;

/// How many batches of datagrams are read before anything else is done: what comes faster is lost, and stops nothing.
const MOST_BATCHES: usize = 6;

/// Who waits for a ticket.
enum Waiter {
    Send(Arc<Slot<Sent>>),
    Reset(Arc<Slot<Reset>>),
}

/// A member with its network and its callers.
struct Shell {
    member: Guarded,
    fencing: Fencing,
    /// What the member was started with, but for the founding, the voters and the list: these are of the latest list.
    config: Config,
    /// What is told to whoever asks how the group was founded.
    known: String,
    /// What follows the latest list, once that has ended.
    successor: Option<Successor>,
    /// Who waits for the end of the list.
    enders: Vec<Ender>,
    /// Messages, and a leave after them, that were taken of callers in the turn in which the list ended: they go first in the next one.
    put_off: VecDeque<Command>,
    /// The members of ended lists at their ends, the last ones.
    ended: BTreeMap<u32, Names>,
    /// What was counted in ended lists.
    counts: Counts,
    /// Words that names have stopped, of lists to which this member hasn't come.
    told_early: Vec<(u32, Name)>,
    udp: Udp,
    seal: Seal,
    shared: Arc<Shared>,
    clock: Clock,
    waiters: HashMap<u64, Waiter>,
    tickets: u64,
    /// The journals of the lists that are served, if they are kept.
    journals: BTreeMap<u32, File>,
    on_notice: Option<Callback<Notice>>,
    on_delivery: Option<Callback<Delivery>>,
    on_arrival: Option<Callback<()>>,
    outputs: Vec<Released>,
    deliveries: Vec<Delivery>,
    commands: Vec<Command>,
    datagram: Vec<u8>,
    /// How many deliveries the application's call has taken of the batch that goes out.
    consumed: usize,
    /// Datagrams that no member sealed, came from no member's address, or are too long.
    dropped: u64,
    /// How many datagrams of each place's address weren't sealed by the key.
    unsealed: [u64; 16],
    /// For how long the thread looks for more before it sleeps.
    spin: Duration,
    /// When it last had something to do.
    busy: Instant,
}

/// Starts a member's thread.
pub(crate) fn start(config: Config) -> Result<(Arc<Shared>, JoinHandle<()>), CreateError> {
    starting::checked(&config)?;
    let shared = Arc::new(Shared::new(config.most_waiting, config.most_unreceived)?);
    let settings = starting::settings_of(&config)?;
    let seal = match &config.key {
        Some(key) => Seal::by(key)?,
        None => Seal::none(),
    };
    let own = starting::own_address(&config)?;
    // before the address is bound: of two processes of a place the second one is told that
    let state = starting::state_of(&config)?;
    let size = config.datagram + seal.overhead();
    let udp = Udp::bind(own, &config.addresses, size)?;
    let (starts, opened) = std::sync::mpsc::channel();
    let callers = shared.clone();
    let thread = std::thread::Builder::new()
        .name(format!("member {}", config.name))
        .spawn(move || {
            // a node stays on the thread that opened it, so the member is made here
            let clock = Clock::new();
            match starting::begun(settings, clock.now(), &config, callers.clone(), state) {
                Ok((member, fencing, journal)) => {
                    // whoever started this waits for it
                    let _heard = starts.send(Ok(()));
                    let mut shell = Shell {
                        member,
                        fencing,
                        known: asking::known(&config),
                        successor: None,
                        enders: Vec::new(),
                        put_off: VecDeque::new(),
                        ended: BTreeMap::new(),
                        counts: Counts::default(),
                        told_early: Vec::new(),
                        udp,
                        seal,
                        shared: callers,
                        clock,
                        waiters: HashMap::new(),
                        tickets: 0,
                        journals: journal
                            .map(|file| (config.generation(), file))
                            .into_iter()
                            .collect(),
                        on_notice: config.on_notice.clone(),
                        on_delivery: config.on_delivery.clone(),
                        on_arrival: config.on_arrival.clone(),
                        outputs: Vec::new(),
                        deliveries: Vec::new(),
                        commands: Vec::new(),
                        datagram: Vec::new(),
                        consumed: 0,
                        dropped: 0,
                        unsealed: [0; 16],
                        spin: config.spin,
                        busy: Instant::now(),
                        config,
                    };
                    let end = shell.run();
                    shell.close(&end);
                }
                Err(error) => {
                    let _heard = starts.send(Err(error));
                }
            }
        })?;
    match opened.recv() {
        Ok(Ok(())) => Ok((shared, thread)),
        Ok(Err(error)) => {
            // then its socket is free, and its folder
            let _ended = thread.join();
            Err(error)
        }
        // the thread ended before it said anything
        Err(_) => Err(CreateError::Ended(End::Failed("its thread ended".into()))),
    }
}

impl Shell {
    fn now(&self) -> Time {
        self.clock.now()
    }

    /// Until the member ends.
    fn run(&mut self) -> End {
        loop {
            if self.rest() {
                self.busy = Instant::now();
                if let Err(error) = self.read() {
                    return End::Failed(format!("the socket can't be read: {error}"));
                }
            }
            if let Some(end) = self.do_commands() {
                return end;
            }
            let received = self.shared.take_received();
            if received > 0 {
                self.handle(Input::Consumed(received));
            }
            let now = self.now();
            if self.member.wake() <= now {
                self.member.tick(now);
            }
            if let Some(end) = self.let_out() {
                return end;
            }
        }
    }

    /// Until there may be something to do; whether a datagram can be read.
    fn rest(&mut self) -> bool {
        let left = self.member.wake().0.saturating_sub(self.now().0);
        let most = match self.put_off.is_empty() || self.member.free() == 0 {
            true => Duration::from_micros(left),
            false => Duration::ZERO,
        };
        let (descriptor, room) = (self.udp.descriptor(), self.room());
        let until = (self.busy + self.spin).min(Instant::now() + most);
        match self.shared.look(descriptor, until, room) {
            Some(can_read) => can_read,
            None => self.shared.sleep(descriptor, most, room),
        }
    }

    /// Gives the member what happened; only messages can be refused, and those are looked at where they are given.
    fn handle(&mut self, input: Input) {
        let now = self.now();
        let _taken = self.member.handle(now, input);
    }

    /// Reads what came, a bounded number of datagrams.
    fn read(&mut self) -> std::io::Result<()> {
        for _ in 0..MOST_BATCHES {
            let (member, seal, udp) = (&mut self.member, &mut self.seal, &mut self.udp);
            let (clock, mut read) = (&self.clock, None);
            let (mut unsealed, mut asked) = (Vec::new(), Vec::new());
            let brought = udp.receive(|place, datagram| match seal.open(datagram) {
                Some(payload) => {
                    if let Some(nonce) = asking::nonce_of(payload) {
                        return asked.push((place, nonce));
                    }
                    // read after the datagrams were received
                    let now = *read.get_or_insert_with(|| clock.now());
                    member.hear(now, payload);
                }
                None => unsealed.push(place),
            })?;
            self.dropped += (unsealed.len() + brought.strangers + brought.long) as u64;
            for place in unsealed {
                self.refuse(place);
            }
            for (place, nonce) in asked {
                self.answer(place, nonce);
            }
            if !brought.has_more {
                break;
            }
        }
        Ok(())
    }

    /// A datagram of a place isn't sealed by the key. The first one is told. At the first, the second, the fourth and so on the place is sent
    /// one that it can't open either, so that its own log tells it.
    fn refuse(&mut self, place: u8) {
        let count = &mut self.unsealed[usize::from(place % 16)];
        *count += 1;
        let count = *count;
        if count == 1 {
            self.tell(Notice::OtherKey(place));
        }
        if count.is_power_of_two() && self.seal.seal(&[], &mut self.datagram) {
            self.udp.push(&self.datagram, std::iter::once(place));
        }
    }

    /// Tells a place how the group was founded.
    fn answer(&mut self, place: u8, nonce: asking::Nonce) {
        let info = self.info();
        let answer = asking::answer(
            &self.known,
            self.config.founding.founders,
            &info,
            place,
            nonce,
        );
        if self.seal.seal(&answer, &mut self.datagram) {
            self.udp.push(&self.datagram, std::iter::once(place));
        }
    }

    /// How the member stands, with what its network dropped.
    fn info(&self) -> Info {
        let mut info = self.member.info();
        info.counts = info.counts.plus(&self.counts);
        info.counts.dropped = self.dropped;
        info
    }

    /// Does what callers asked for; the end, if one of them asked for it.
    fn do_commands(&mut self) -> Option<End> {
        let mut commands = std::mem::take(&mut self.commands);
        if self.member.is_gated() {
            // what is taken now is given in this turn
            self.member.open(self.now());
        }
        self.do_put_off();
        self.shared.take_commands(self.room(), &mut commands);
        if !commands.is_empty() {
            self.busy = Instant::now();
        }
        let mut end = None;
        for command in commands.drain(..) {
            match command {
                Command::Send { .. } | Command::Leave => self.do_in_order(command),
                Command::Stopped {
                    name,
                    generation,
                    slot,
                } => slot.fill(self.stopped(name, generation)),
                Command::Info(slot) => slot.fill(self.info()),
                Command::Failures(slot) => slot.fill(self.failures()),
                Command::Written { generation, number } => {
                    self.member.written(self.clock.now(), generation, number);
                }
                Command::Begun { generation, done } => self.begun(generation, done),
                Command::Fenced {
                    generation,
                    name,
                    done,
                } => {
                    self.member.fenced(self.clock.now(), generation, name, done);
                }
                Command::Succeed { next, waits, slot } => self.succeed(next, waits, slot),
                Command::Stop => end = Some(End::Stopped),
                Command::Reset {
                    least,
                    resilience,
                    slot,
                } => self.reset(least, resilience, slot),
            }
        }
        self.commands = commands;
        end
    }

    fn ticket(&mut self, waiter: Waiter) -> u64 {
        self.tickets += 1;
        self.waiters.insert(self.tickets, waiter);
        self.tickets
    }

    fn send(&mut self, message: Vec<u8>, slot: Arc<Slot<Sent>>) {
        let ticket = self.ticket(Waiter::Send(slot));
        let input = Input::Send { ticket, message };
        match self.member.handle(self.now(), input) {
            Ok(()) => {}
            Err(HandleError::Full { message, .. }) => self.put_off(ticket, message),
            Err(HandleError::TooLong { .. }) => self.sent(ticket, Err(SendError::TooLong)),
            Err(_) => self.sent(ticket, Err(SendError::Leaving)),
        }
    }

    fn reset(&mut self, least: Option<u8>, resilience: Option<u8>, slot: Arc<Slot<Reset>>) {
        let ticket = self.ticket(Waiter::Reset(slot));
        let input = Input::Reset {
            ticket,
            least,
            resilience,
        };
        if let Err(refusal) = self.member.handle(self.now(), input) {
            let refusal = match refusal {
                HandleError::OutOfRange => ResetError::OutOfRange,
                _ => ResetError::NotReset(NotReset::NotMember),
            };
            self.was_reset(ticket, Err(refusal));
        }
    }

    /// Ends the journal of a member that its caller stopped, frees its address and its folder, and tells all who wait that the member has ended.
    fn close(mut self, end: &End) {
        if !matches!(end, End::Failed(_)) {
            self.end_journals(*end == End::Stopped);
        }
        self.shared.deliver(&mut self.deliveries);
        let (info, failures) = (self.info(), self.failures());
        // whoever is told of the end may start the place's next life at once
        drop((self.udp, self.fencing));
        let left = self.shared.close(end);
        for command in self.put_off.into_iter().chain(left) {
            match command {
                Command::Send { slot, .. } => slot.fill(Err(SendError::NotSent(end.clone()))),
                Command::Reset { slot, .. } => slot.fill(Err(ResetError::Ended(end.clone()))),
                Command::Info(slot) => slot.fill(info),
                Command::Failures(slot) => slot.fill(failures.clone()),
                Command::Stopped { slot, .. } => slot.fill(Err(ToldError::Ended(end.clone()))),
                Command::Succeed { slot, .. } => slot.fill(Err(SucceedError::Ended(end.clone()))),
                Command::Leave
                | Command::Stop
                | Command::Written { .. }
                | Command::Begun { .. }
                | Command::Fenced { .. } => {}
            }
        }
        for ender in self.enders {
            ender.close(end);
        }
        for waiter in self.waiters.into_values() {
            match waiter {
                // the member was stopped, and the message may be under way
                Waiter::Send(slot) => slot.fill(Err(SendError::Ended(end.clone()))),
                Waiter::Reset(slot) => slot.fill(Err(ResetError::Ended(end.clone()))),
            }
        }
        if let Some(call) = &self.on_arrival {
            (call.0)(());
        }
        tracing::info!("the member has ended: {end}");
    }
}
