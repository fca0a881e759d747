//! A replica, whatever it has.

use crate::event::{Answer, Ended, Output, Plant, Refused, Request, Settings, Status};
use crate::holder::Holder;
use crate::machine::StateMachine;
use crate::message::{read, Chunk, Message, MOST_COMMAND};
use crate::parts::messages_of;
use crate::roll::Roll;
use crate::snapshot::State;
use crate::waiting::Waiting;
use muoswyld_member::{Delivery, Names, Position};
use std::collections::VecDeque;

/// How many bytes each delivery that is held counts beside its message's.
const DELIVERY_HEAD: usize = 64;
/// With a planted defect: the token of what is sent again, for which nobody waits.
const AGAIN: u64 = u64::MAX;

/// What a replica has.
enum Phase<S: StateMachine> {
    /// Nothing was delivered yet.
    Begins(S),
    /// It joined, and hasn't the state yet.
    Waits(Box<Waiting<S>>),
    /// It has the state.
    Holds(Box<Holder<S>>),
    /// It has ended.
    Ended(Ended),
}

/// A replica of a machine at a member of a group.
///
/// It is given what the member delivers, one after the other, and asked for what comes of it until that is `None`. It has no time of
/// its own: call [`stalled`](Replica::stalled) where a joiner was sent nothing for a while.
pub struct Replica<S: StateMachine> {
    settings: Settings,
    phase: Phase<S>,
    held: VecDeque<Delivery>,
    held_bytes: usize,
    outputs: VecDeque<Output>,
    /// The tokens of own requests, in the order in which they go out. What isn't delivered in a list is sent again in the next one, in this order.
    pending: VecDeque<u64>,
    /// Who waits until a position is applied.
    waits: Vec<(Position, u64)>,
    given: Option<Position>,
    is_told: bool,
    /// With a planted defect: the last message of a request.
    last: Option<Vec<u8>>,
}

impl<S: StateMachine> Replica<S> {
    /// A replica at its member's beginning. The machine is a new one; those of founders are all the same.
    pub fn new(machine: S, settings: Settings) -> Replica<S> {
        Replica {
            settings,
            phase: Phase::Begins(machine),
            held: VecDeque::new(),
            held_bytes: 0,
            outputs: VecDeque::new(),
            pending: VecDeque::new(),
            waits: Vec::new(),
            given: None,
            is_told: false,
            last: None,
        }
    }

    /// The machine, once the replica has the state. Until [`Output::Ready`] it is behind what was delivered.
    pub fn machine(&self) -> Option<&S> {
        match &self.phase {
            Phase::Holds(holder) => Some(&holder.state.machine),
            _ => None,
        }
    }

    /// How it ended, once it has.
    pub fn ended(&self) -> Option<Ended> {
        match &self.phase {
            Phase::Ended(ended) => Some(*ended),
            _ => None,
        }
    }

    /// How it stands.
    pub fn status(&self) -> Status {
        let mut status = Status {
            is_ready: self.is_told && self.machine().is_some(),
            at: None,
            given: self.given,
            members: None,
            holders: Names::nobody(),
            held: self.held_bytes,
            sessions: 0,
            chunks: 0,
            checked: None,
            foreign: 0,
        };
        match &self.phase {
            Phase::Holds(holder) => {
                let roll = &holder.state.roll;
                status.at = Some(holder.at);
                status.members = Some(roll.members);
                status.holders = roll.holders;
                status.sessions = holder.state.sessions.len();
                status.checked = holder.checks.last();
                status.foreign = holder.foreign;
            }
            Phase::Waits(waiting) => {
                status.members = waiting.members;
                status.chunks = waiting.chunks();
            }
            Phase::Begins(_) | Phase::Ended(_) => {}
        }
        status
    }

    /// Asks for something. What becomes of it is answered with the token, unless the member ends before: then it isn't known.
    pub fn submit(&mut self, token: u64, request: Request) -> Result<(), Refused> {
        if self.ended().is_some() {
            return Err(Refused::Ended);
        }
        let message = match &request {
            Request::Command(command) | Request::SessionCommand { command, .. }
                if command.len() > MOST_COMMAND =>
            {
                return Err(Refused::TooLong);
            }
            Request::Command(command) => Message::Command(command),
            Request::Open => Message::Open(self.settings.list),
            Request::SessionCommand {
                session,
                sequence,
                answered,
                command,
            } => Message::SessionCommand {
                session: *session,
                sequence: *sequence,
                answered: *answered,
                command,
            },
            Request::Close(session) => Message::Close(*session),
            Request::Barrier => Message::Barrier,
        };
        if request == Request::Barrier && self.settings.has(Plant::ReadsEarly) {
            if let Some(at) = self.given {
                self.answer(token, Answer::Reached(at));
                return Ok(());
            }
        }
        let sends = messages_of(message.bytes());
        if self.settings.has(Plant::SendsAnew) {
            self.last = sends.last().cloned();
        }
        self.outputs.extend(sends.into_iter().map(Output::Send));
        self.pending.push_back(token);
        Ok(())
    }

    fn answer(&mut self, token: u64, answer: Answer) {
        self.outputs.push_back(Output::Answered { token, answer });
    }

    /// Answers the token once the machine has applied the list up to a position, say that of an answer of another member. It sends
    /// nothing.
    pub fn wait_for(&mut self, token: u64, at: Position) {
        self.waits.push((at, token));
        self.look_at_waits();
    }

    fn look_at_waits(&mut self) {
        let Phase::Holds(holder) = &self.phase else {
            return;
        };
        if self.waits.is_empty() {
            return;
        }
        let at = holder.at;
        for (until, token) in std::mem::take(&mut self.waits) {
            match until <= at {
                true => self.answer(token, Answer::Reached(at)),
                false => self.waits.push((until, token)),
            }
        }
    }

    /// The members after an entry, as the member's `info` tells them with its generation and its `top`: said once after a join, it lets a
    /// joiner know sooner that nobody is left who has the state.
    pub fn know_members(&mut self, top: Position, members: Names) {
        if let Phase::Waits(waiting) = &mut self.phase {
            waiting.know(top, members, self.given);
            if let Some(ended) = waiting.look() {
                self.end(ended);
            }
        }
    }

    /// Says that a joiner was sent nothing for a while: another replica is asked to go on. At one that waits for nothing it does nothing.
    pub fn stalled(&mut self) {
        if let Phase::Waits(waiting) = &self.phase {
            let message = waiting.resume().bytes();
            self.outputs.push_back(Output::Send(message));
        }
    }

    /// Takes what its member delivers next.
    pub fn deliver(&mut self, delivery: Delivery) {
        self.given = Some(delivery.at());
        let placeholder = Phase::Ended(Ended::NoBeginning);
        match std::mem::replace(&mut self.phase, placeholder) {
            Phase::Begins(machine) => self.begin(machine, delivery),
            Phase::Waits(waiting) => self.wait(waiting, delivery),
            Phase::Holds(holder) => {
                self.phase = Phase::Holds(holder);
                self.hold(delivery);
            }
            Phase::Ended(ended) => self.phase = Phase::Ended(ended),
        }
    }

    fn begin(&mut self, machine: S, delivery: Delivery) {
        let me = self.settings.name;
        match delivery {
            Delivery::View { at, members, .. } if members.has(me) && is_first(at) => {
                let state = State::founded(machine, &self.settings, Roll::founded(members));
                let holder = Holder::new(self.settings.clone(), state, at);
                self.phase = Phase::Holds(Box::new(holder));
            }
            Delivery::Joined { at, name } if name == me => {
                let waiting = Waiting::new(machine, &self.settings, at);
                self.phase = Phase::Waits(Box::new(waiting));
            }
            _ => self.end(Ended::NoBeginning),
        }
    }

    fn wait(&mut self, mut waiting: Box<Waiting<S>>, delivery: Delivery) {
        let is_end = matches!(delivery, Delivery::Succeeded { .. });
        if is_end && self.settings.has(Plant::TransfersAnew) {
            self.held.clear();
            self.held_bytes = 0;
        }
        let outputs = &mut self.outputs;
        let mut sends = |message: Message| outputs.push_back(Output::Send(message.bytes()));
        match waiting.deliver(&delivery, &self.settings, &mut sends) {
            Ok(false) => {
                self.phase = Phase::Waits(waiting);
                self.hold(delivery);
            }
            Ok(true) => {
                let at = waiting.at;
                match waiting.into_state(&self.settings) {
                    Ok(state) => {
                        let holder = Holder::restored(self.settings.clone(), state, at);
                        self.phase = Phase::Holds(Box::new(holder));
                        self.hold(delivery);
                        self.drop_one_held();
                    }
                    Err(ended) => self.end(ended),
                }
            }
            Err(Ended::Lost) if self.settings.has(Plant::BeginsEmpty) => {
                let members = waiting.members.unwrap_or_default();
                let (machine, roll) = (waiting.into_machine(), Roll::founded(members));
                let state = State::founded(machine, &self.settings, roll);
                let holder = Holder::new(self.settings.clone(), state, delivery.at());
                self.phase = Phase::Holds(Box::new(holder));
                self.held.clear();
            }
            Err(ended) => self.end(ended),
        }
    }

    /// A planted defect.
    fn drop_one_held(&mut self) {
        if self.settings.has(Plant::DropsHeld) {
            let is_command = |delivery: &Delivery| matches!(delivery, Delivery::Message { message, .. } if message.first() == Some(&b'C'));
            if let Some(at) = self.held.iter().rposition(is_command) {
                self.held.remove(at);
            }
        }
    }

    /// Holds a delivery until its turn. The bytes of a chunk were taken already.
    fn hold(&mut self, mut delivery: Delivery) {
        if let Delivery::Message { message, .. } = &mut delivery {
            if let Some(Message::Chunk(chunk)) = read(message) {
                *message = Message::Chunk(Chunk {
                    bytes: &[],
                    ..chunk
                })
                .bytes();
            }
        }
        self.held_bytes += size_of(&delivery);
        self.held.push_back(delivery);
        let most = self.settings.most_held;
        if self.held_bytes > most {
            self.end(Ended::HeldTooMuch {
                bytes: self.held_bytes,
                most,
            });
        }
    }

    fn end(&mut self, ended: Ended) {
        self.phase = Phase::Ended(ended);
        self.held.clear();
        self.held_bytes = 0;
        self.outputs.push_back(Output::Ended(ended));
    }

    /// What comes next of all that. What it answers is as of the machine's state at this moment: so look at the machine before the next
    /// call.
    pub fn next_output(&mut self) -> Option<Output> {
        loop {
            if let Some(output) = self.outputs.pop_front() {
                return Some(output);
            }
            if !self.step() {
                return None;
            }
        }
    }

    /// Applies the next delivery that is held; whether anything happened.
    fn step(&mut self) -> bool {
        let Phase::Holds(holder) = &mut self.phase else {
            return false;
        };
        let Some(delivery) = self.held.pop_front() else {
            if self.is_told {
                return false;
            }
            self.is_told = true;
            self.outputs.push_back(Output::Ready);
            self.look_at_waits();
            return true;
        };
        self.held_bytes -= size_of(&delivery);
        let is_own = matches!(&delivery, Delivery::Message { from, .. } if *from == holder.name);
        let is_end = matches!(delivery, Delivery::Succeeded { .. });
        let applied = holder.apply(delivery);
        self.outputs.append(&mut holder.take_outputs());
        if let (true, Some(last)) = (is_end && !self.pending.is_empty(), self.last.take()) {
            self.outputs.push_back(Output::Send(last));
            self.pending.push_back(AGAIN);
        }
        match applied {
            Ok(Some(answer)) if is_own => {
                let token = self.pending.pop_front();
                let is_again = token == Some(AGAIN) && self.settings.has(Plant::SendsAnew);
                if let (Some(token), false) = (token, is_again) {
                    self.answer(token, answer);
                }
            }
            Ok(_) => {}
            Err(ended) => self.end(ended),
        }
        self.look_at_waits();
        true
    }
}

/// Whether an entry is the first one of a group. Any other view of founders begins a later list, and who begins there by that has had a life
/// before.
fn is_first(at: Position) -> bool {
    (at.generation, at.number) == (0, 1)
}

/// What a held delivery counts.
fn size_of(delivery: &Delivery) -> usize {
    match delivery {
        Delivery::Message { message, .. } => DELIVERY_HEAD + message.len(),
        _ => DELIVERY_HEAD,
    }
}
