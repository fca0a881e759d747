//! A replica that has the state.

use crate::checks::{Checks, Found};
use crate::event::{Answer, Ended, Notice, Output, Plant, SessionId, Settings};
use crate::machine::StateMachine;
use crate::message::{read, Chunk, Message};
use crate::roll::{key_of, next_name};
use crate::sessions::Turn;
use crate::snapshot::{Cutter, State};
use muoswyld_member::{Delivery, Name, Names, Position};
use std::collections::{BTreeMap, VecDeque};

/// A replica that has the state.
pub(crate) struct Holder<S: StateMachine> {
    pub(crate) state: State<S>,
    /// Its member's name in the list of the last delivery that was applied.
    pub(crate) name: Name,
    /// The position of the last delivery that was applied.
    pub(crate) at: Position,
    pub(crate) checks: Checks,
    /// Messages that are none of a replica's.
    pub(crate) foreign: u64,
    settings: Settings,
    /// The last entry after which states were compared.
    checked: Position,
    /// Whether anything was changed since then, but for chunks that were sent: what is sent to compare states isn't compared again.
    is_changed: bool,
    is_joiner: bool,
    /// The snapshots for the joiners that wait, by their Joins.
    cutters: BTreeMap<Position, Cutter<S::Snapshot>>,
    /// The Join that it serves.
    serving: Option<Position>,
    /// The Join whose snapshot is taken late, by a planted defect.
    late: Option<Position>,
    outputs: VecDeque<Output>,
}

impl<S: StateMachine> Holder<S> {
    /// One whose state is that at a position.
    pub(crate) fn new(settings: Settings, state: State<S>, at: Position) -> Holder<S> {
        let checks = Checks::new(settings.plant);
        Holder {
            state,
            name: settings.name,
            at,
            checks,
            foreign: 0,
            settings,
            checked: Position {
                generation: 0,
                number: 0,
                index: 0,
            },
            is_changed: false,
            is_joiner: false,
            cutters: BTreeMap::new(),
            serving: None,
            late: None,
            outputs: VecDeque::new(),
        }
    }

    /// One that was sent the state at its Join.
    pub(crate) fn restored(settings: Settings, state: State<S>, at: Position) -> Holder<S> {
        let digest = state.digest(settings.plant);
        let holders = state.roll.holders;
        let mut holder = Holder::new(settings, state, at);
        holder.checks.begin(at, digest, holders);
        holder.checked = at;
        holder.is_joiner = true;
        holder
    }

    /// What came of the deliveries so far.
    pub(crate) fn take_outputs(&mut self) -> VecDeque<Output> {
        std::mem::take(&mut self.outputs)
    }

    fn send(&mut self, message: Message) {
        self.outputs.push_back(Output::Send(message.bytes()));
    }

    /// Applies a delivery; the answer, if it was a request.
    pub(crate) fn apply(&mut self, delivery: Delivery) -> Result<Option<Answer>, Ended> {
        let at = delivery.at();
        let is_late = self.is_joiner && self.settings.has(Plant::ChecksAnotherNumber);
        let due = self.due(at);
        if let (Some(entry), false) = (due, is_late) {
            self.check(entry);
        }
        let answer = match delivery {
            Delivery::Joined { name, .. } => {
                self.join(name, at);
                None
            }
            Delivery::Left { name, .. } => {
                self.set_members(self.state.roll.members.without(name))?;
                None
            }
            Delivery::View { members, .. } => {
                self.set_members(members)?;
                None
            }
            Delivery::Message { from, message, .. } => self.message(at, from, &message)?,
            Delivery::Succeeded { members, .. } => {
                self.succeed(members, at)?;
                None
            }
        };
        if let (Some(entry), true) = (due, is_late) {
            self.check(entry);
        }
        self.at = at;
        self.serve();
        Ok(answer)
    }

    /// The entry after which states are to be compared, if this is the first delivery behind it.
    fn due(&self, at: Position) -> Option<Position> {
        let every = self.state.check_every;
        let number = at.number.saturating_sub(1) / every * every;
        let last = Position {
            number,
            index: 0,
            ..at
        };
        (self.is_changed && number > 0 && last > self.checked).then_some(last)
    }

    fn check(&mut self, at: Position) {
        let digest = self.state.digest(self.settings.plant);
        self.say(at, digest);
    }

    fn say(&mut self, at: Position, digest: u64) {
        self.checked = at;
        self.is_changed = false;
        self.checks.begin(at, digest, self.state.roll.holders);
        self.send(Message::Digest { at, digest });
    }

    /// The list has ended, with these members: all goes on in the next one, where they have other names. What is under way there comes again.
    fn succeed(&mut self, members: Names, at: Position) -> Result<(), Ended> {
        self.set_members(members)?;
        self.name = next_name(self.name);
        let (state, plant) = (&mut self.state, self.settings.plant);
        state.roll.succeed();
        match plant {
            Some(Plant::ForgetsParts) => state.parts.keep(Names::nobody()),
            _ => state.parts.succeed(),
        }
        if plant == Some(Plant::ForgetsSessions) {
            state.sessions.forget();
        }
        self.checks.succeed(members);
        self.check(at);
        Ok(())
    }

    fn look(&mut self, found: Vec<Found>) -> Result<(), Ended> {
        for found in found {
            match found {
                Found::Other(name, _) if name == self.name => {}
                Found::Other(name, at) => self
                    .outputs
                    .push_back(Output::Told(Notice::OtherDiffers { name, at })),
                Found::Own { at, own, other } => {
                    return Err(Ended::Differs { at, own, other });
                }
            }
        }
        Ok(())
    }

    fn join(&mut self, name: Name, at: Position) {
        let plant = self.settings.plant;
        self.state.roll.join(name, at);
        let cutter = self.state.cut(at, plant);
        self.say(at, cutter.digest);
        if self.settings.has(Plant::SnapshotIsLate) {
            self.late = Some(at);
        } else {
            self.cutters.insert(key_of(at, plant), cutter);
        }
    }

    fn set_members(&mut self, members: Names) -> Result<(), Ended> {
        self.is_changed = true;
        let state = &mut self.state;
        state.roll.set_members(members);
        state.parts.keep(members);
        let (transfers, plant) = (&state.roll.transfers, self.settings.plant);
        self.cutters
            .retain(|at, _| transfers.iter().any(|one| key_of(one.at, plant) == *at));
        let found = self.checks.look(members);
        self.look(found)
    }

    fn message(
        &mut self,
        at: Position,
        from: Name,
        message: &[u8],
    ) -> Result<Option<Answer>, Ended> {
        let state = &mut self.state;
        let answer = match read(message) {
            None => {
                self.foreign += 1;
                None
            }
            Some(Message::Part {
                index,
                is_last,
                share,
            }) => {
                self.is_changed = true;
                let request = state.parts.part(from, index, is_last, share);
                request.and_then(|request| self.request(at, read(&request)?))
            }
            Some(Message::Digest { at, digest }) => {
                let members = state.roll.members;
                let found = self.checks.said(from, at, digest, members);
                self.look(found)?;
                None
            }
            Some(Message::Chunk(chunk)) => {
                self.chunk(&chunk);
                None
            }
            Some(Message::Resume { to, next }) => {
                state.roll.resume(from, to, next);
                None
            }
            Some(Message::Waiting(_)) => None,
            Some(request) => self.request(at, request),
        };
        if let Some(join) = self.late.take() {
            let cutter = self.state.cut(join, self.settings.plant);
            self.cutters.insert(join, cutter);
        }
        Ok(answer)
    }

    /// Does a request.
    fn request(&mut self, at: Position, request: Message) -> Option<Answer> {
        self.is_changed |= request != Message::Barrier;
        let (machine, sessions) = (&mut self.state.machine, &mut self.state.sessions);
        match request {
            Message::Command(command) => Some(Answer::Done(machine.apply(at, command))),
            Message::SessionCommand {
                session,
                sequence,
                answered,
                command,
            } => {
                let turn = Turn {
                    session,
                    sequence,
                    answered,
                };
                let plant = self.settings.plant;
                Some(sessions.command(at, turn, plant, || machine.apply(at, command)))
            }
            Message::Barrier => Some(Answer::Reached(at)),
            Message::Open(list) => {
                let session = SessionId { list, at };
                sessions.open(session);
                Some(Answer::Opened(session))
            }
            Message::Close(session) => Some(match sessions.close(session) {
                true => Answer::Closed,
                false => Answer::NoSession,
            }),
            _ => None,
        }
    }

    fn chunk(&mut self, chunk: &Chunk) {
        let plant = self.settings.plant;
        if self.state.roll.count(chunk, plant) && chunk.is_last {
            self.cutters.remove(&key_of(chunk.to, plant));
        }
    }

    /// Sends the next chunks, if it is this replica's turn.
    fn serve(&mut self) {
        let roll = &self.state.roll;
        let (Some(first), true) = (
            roll.transfers.front().copied(),
            roll.source == Some(self.name),
        ) else {
            self.serving = None;
            return;
        };
        let key = key_of(first.at, self.settings.plant);
        let Some(cutter) = self.cutters.get_mut(&key) else {
            return;
        };
        if self.serving.replace(first.at) != Some(first.at) {
            self.outputs.push_back(Output::Told(Notice::Serves {
                to: first.to,
                chunk: first.next,
            }));
        }
        let skip = u32::from(self.settings.has(Plant::SkipsAChunk) && first.next > 0);
        while cutter.next < first.next + skip && cutter.cut().is_some() {}
        let digest = cutter.digest;
        let ahead = first.next.saturating_add(self.settings.chunks_ahead.max(1));
        while cutter.next < ahead {
            let Some((index, is_last, bytes)) = cutter.cut() else {
                break;
            };
            let chunk = Chunk {
                to: first.at,
                index,
                digest,
                is_last,
                bytes: &bytes,
            };
            let message = Message::Chunk(chunk).bytes();
            self.outputs.push_back(Output::Send(message));
        }
    }
}
