//! What a member's thread and its callers share: commands in one direction, deliveries in the other.

use crate::error::{End, ReceiveError, ResetError, SendError, SucceedError, ToldError};
use crate::failures::FailuresInfo;
use crate::next::NextList;
use crate::slot::{lock, wait_until, Slot};
use crate::socket::Bell;
use muoswyld::names::Name;
use muoswyld_member::{Delivery, Info, Position, MESSAGE_HEAD};
use std::collections::VecDeque;
use std::sync::atomic::{AtomicBool, AtomicUsize, Ordering};
use std::sync::{Arc, Condvar, Mutex};
use std::time::Instant;

/// What becomes of a message.
pub(crate) type Sent = Result<Position, SendError>;
/// What becomes of a reset: the number of the new view.
pub(crate) type Reset = Result<u32, ResetError>;
/// What becomes of the end of a list: where it ended, or none where that isn't waited for.
pub(crate) type Succeeded = Result<Option<Position>, SucceedError>;
/// What becomes of a word that a name has stopped.
pub(crate) type Told = Result<(), ToldError>;

/// What a caller asks of a member's thread.
pub(crate) enum Command {
    /// Sends a message.
    Send {
        message: Vec<u8>,
        slot: Arc<Slot<Sent>>,
    },
    /// Leaves.
    Leave,
    /// Resets the group.
    Reset {
        least: Option<u8>,
        resilience: Option<u8>,
        slot: Arc<Slot<Reset>>,
    },
    /// This name has stopped for certain: of the latest list, or of the one of a generation.
    Stopped {
        name: Name,
        generation: Option<u32>,
        slot: Arc<Slot<Told>>,
    },
    /// Tells how the member stands.
    Info(Arc<Slot<Info>>),
    /// Tells who is suspected, refused and given up.
    Failures(Arc<Slot<FailuresInfo>>),
    /// The voter's file of a list is on disk, with this number; None: it can't be written.
    Written {
        generation: u32,
        number: Option<u64>,
    },
    /// That the list of a generation begins here is on disk, or can't be written.
    Begun { generation: u32, done: bool },
    /// What became of a fence of a list's name.
    Fenced {
        generation: u32,
        name: Name,
        done: bool,
    },
    /// Ends the list, and has another one follow it; once that is done, or at once where only that is asked for.
    Succeed {
        next: NextList,
        waits: bool,
        slot: Arc<Slot<Succeeded>>,
    },
    /// Ends the member without leaving.
    Stop,
}

impl Command {
    /// How many bytes it takes of the room for messages.
    fn cost(&self) -> usize {
        match self {
            Command::Send { message, .. } => message.len() + MESSAGE_HEAD,
            _ => 0,
        }
    }

    /// Whether it waits until the messages before it are taken.
    fn is_in_order(&self) -> bool {
        matches!(self, Command::Send { .. } | Command::Leave)
    }
}

#[derive(Default)]
struct Commands {
    urgent: VecDeque<Command>,
    in_order: VecDeque<Command>,
    bytes: usize,
    is_closed: bool,
}

impl Commands {
    /// Whether something urgent waits, or a message for which the member has room.
    fn has_one_for(&self, room: usize) -> bool {
        let next = self.in_order.front();
        !self.urgent.is_empty() || next.is_some_and(|next| next.cost() <= room)
    }
}

/// Whether a delivery takes room at the member: the end of a list doesn't.
pub(crate) fn is_counted(delivery: &Delivery) -> bool {
    !matches!(delivery, Delivery::Succeeded { .. })
}

/// Where the member's thread is not: what its callers see.
pub(crate) struct Shared {
    commands: Mutex<Commands>,
    room: Condvar,
    most_bytes: usize,
    deliveries: Mutex<VecDeque<Delivery>>,
    arrived: Condvar,
    received: AtomicUsize,
    most_unreceived: usize,
    is_asleep: AtomicBool,
    bell: Bell,
    /// How the member ended.
    pub(crate) ended: Arc<Slot<End>>,
    /// Whether it came into the group: filled once it has, or has ended.
    pub(crate) is_in: Arc<Slot<bool>>,
}

impl Shared {
    pub(crate) fn new(most_bytes: usize, most_unreceived: usize) -> std::io::Result<Shared> {
        Ok(Shared {
            commands: Mutex::default(),
            room: Condvar::new(),
            most_bytes,
            deliveries: Mutex::default(),
            arrived: Condvar::new(),
            received: AtomicUsize::new(0),
            most_unreceived,
            is_asleep: AtomicBool::new(false),
            bell: Bell::new()?,
            ended: Slot::new(),
            is_in: Slot::new(),
        })
    }

    // ---- callers

    /// Gives the thread a command, once there is room for it; an error if there is none until then.
    pub(crate) fn command(
        &self,
        command: Command,
        until: Option<Instant>,
    ) -> Result<(), SendError> {
        let cost = command.cost();
        let mut commands = lock(&self.commands);
        loop {
            if commands.is_closed {
                drop(commands);
                return Err(self
                    .ended
                    .wait(None)
                    .map_or(SendError::Leaving, SendError::NotSent));
            }
            // a message that is longer than all of the room goes alone
            if cost == 0 || commands.bytes == 0 || commands.bytes + cost <= self.most_bytes {
                break;
            }
            let (again, has_time) = wait_until(&self.room, commands, until);
            if !has_time {
                return Err(SendError::Full);
            }
            commands = again;
        }
        commands.bytes += cost;
        match command.is_in_order() {
            true => commands.in_order.push_back(command),
            false => commands.urgent.push_back(command),
        }
        drop(commands);
        self.wake();
        Ok(())
    }

    /// The next delivery, once there is one.
    pub(crate) fn receive(&self, until: Option<Instant>) -> Result<Delivery, ReceiveError> {
        let mut deliveries = lock(&self.deliveries);
        loop {
            if let Some(delivery) = deliveries.pop_front() {
                drop(deliveries);
                self.count_received(usize::from(is_counted(&delivery)));
                return Ok(delivery);
            }
            if let Some(end) = self.ended.look() {
                return Err(ReceiveError::Ended(end));
            }
            let (again, has_time) = wait_until(&self.arrived, deliveries, until);
            if !has_time {
                return Err(ReceiveError::Timeout);
            }
            deliveries = again;
        }
    }

    /// All deliveries that are there; the end, if the member has ended and none is.
    pub(crate) fn receive_all(&self) -> Result<VecDeque<Delivery>, ReceiveError> {
        let received = std::mem::take(&mut *lock(&self.deliveries));
        match (received.len(), self.ended.look()) {
            (0, Some(end)) => Err(ReceiveError::Ended(end)),
            (0, None) => Ok(received),
            (_, _) => {
                self.count_received(received.iter().filter(|it| is_counted(it)).count());
                Ok(received)
            }
        }
    }

    /// Counts deliveries that were received, and wakes the thread where enough were.
    fn count_received(&self, count: usize) {
        let received = self.received.fetch_add(count, Ordering::SeqCst) + count;
        if received * 4 >= self.most_unreceived {
            self.wake();
        }
    }

    /// Wakes the thread, where it sleeps.
    fn wake(&self) {
        if self.is_asleep.swap(false, Ordering::SeqCst) {
            self.bell.ring();
        }
    }

    // ---- the thread

    /// Waits until something can be read, a command came for which there is room, or the time is over; whether something can be read.
    pub(crate) fn sleep(
        &self,
        descriptor: std::os::fd::RawFd,
        most: std::time::Duration,
        room: usize,
    ) -> bool {
        self.is_asleep.store(true, Ordering::SeqCst);
        let most = if self.has_work(room) {
            std::time::Duration::ZERO
        } else {
            most
        };
        let can_read = self.bell.wait(descriptor, most);
        if !self.is_asleep.swap(false, Ordering::SeqCst) {
            self.bell.hush();
        }
        can_read
    }

    /// Whether a caller wants something of the member's thread.
    fn has_work(&self, room: usize) -> bool {
        lock(&self.commands).has_one_for(room)
            || self.received.load(Ordering::SeqCst) * 4 >= self.most_unreceived
    }

    /// Looks until then whether there is something to do, and doesn't sleep: whether the descriptor can be read, or None if there is
    /// nothing.
    pub(crate) fn look(
        &self,
        descriptor: std::os::fd::RawFd,
        until: Instant,
        room: usize,
    ) -> Option<bool> {
        while Instant::now() < until {
            if self.bell.wait(descriptor, std::time::Duration::ZERO) {
                return Some(true);
            }
            if self.has_work(room) {
                return Some(false);
            }
            std::thread::yield_now();
        }
        None
    }

    /// Takes what is asked for: first what isn't a message, then messages in order, as long as the member has so many bytes of room.
    pub(crate) fn take_commands(&self, mut room: usize, into: &mut Vec<Command>) {
        let mut commands = lock(&self.commands);
        into.extend(commands.urgent.drain(..));
        while let Some(command) = commands.in_order.front() {
            let cost = command.cost();
            if cost > room {
                break;
            }
            room -= cost;
            commands.bytes -= cost;
            let command = commands.in_order.pop_front();
            into.extend(command);
        }
        if !into.is_empty() {
            self.room.notify_all();
        }
    }

    /// How many deliveries were received since the last call.
    pub(crate) fn take_received(&self) -> usize {
        self.received.swap(0, Ordering::SeqCst)
    }

    /// Adds deliveries.
    pub(crate) fn deliver(&self, deliveries: &mut Vec<Delivery>) {
        if !deliveries.is_empty() {
            lock(&self.deliveries).extend(deliveries.drain(..));
            self.arrived.notify_all();
        }
    }

    /// Takes no further commands; those that wait are given back.
    pub(crate) fn close(&self, end: &End) -> Vec<Command> {
        self.ended.fill(end.clone());
        self.is_in.fill(false);
        let mut commands = lock(&self.commands);
        commands.is_closed = true;
        commands.bytes = 0;
        let mut left: Vec<Command> = commands.urgent.drain(..).collect();
        left.extend(commands.in_order.drain(..));
        drop(commands);
        self.room.notify_all();
        drop(lock(&self.deliveries));
        self.arrived.notify_all();
        left
    }
}
