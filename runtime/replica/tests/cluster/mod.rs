//! Replicas over the members of simulated runs, with clients, and what is checked of them.

mod acts;
pub mod client;
pub mod ledger;
#[allow(dead_code)] // each program of tests runs some of them
pub mod lists;
#[allow(dead_code)] // each program of tests runs some of them
pub mod plans;
mod serving;

use client::Client;
use ledger::Ledger;
use muoswyld_member::{Info, Name, Names, Position};
use muoswyld_replica::{
    Answer, Ended, Output, Plant, Replica, Request, SessionId, Settings, StateMachine,
};
use std::collections::{BTreeMap, BTreeSet, VecDeque};

/// What a token is for.
#[derive(Clone, Debug)]
enum Asked {
    Open(usize),
    Command {
        client: usize,
        session: SessionId,
        sequence: u64,
        id: u64,
    },
    Plain(u64),
    /// A read, which must see what was answered by then.
    Read(BTreeSet<u64>),
    /// A read of one's own write by another member.
    ReadOwn(u64),
    Close,
}

/// How a run's replicas are set.
#[derive(Clone, Debug)]
pub struct Setting {
    pub ballast: usize,
    pub check_every: u32,
    pub most_sessions: u32,
    pub chunks_ahead: u32,
    pub clients: usize,
    pub commands: usize,
    /// How long commands are at most, of a thousand of which so many are long.
    pub long: u64,
    /// Of a thousand times a joiner is said to be sent nothing, though it may only be soon.
    pub stalled: u64,
    pub plant: Option<Plant>,
    /// The life whose machine strays.
    pub strays: Option<Name>,
    /// Whether those to whom the state is lost stay: voters that leave would take their votes with them. Then who joins later isn't told.
    pub lost_stay: bool,
    /// How often the list is ended while somebody waits for the state.
    pub ends_amid: u32,
}

/// The most commands of a client that aren't answered: as many answers are kept.
const AHEAD: u64 = 4;

/// A life's replica and what goes out of it.
struct Life {
    replica: Replica<Ledger>,
    sends: VecDeque<Vec<u8>>,
    asked: BTreeMap<u64, Asked>,
    knows_members: bool,
    is_lost: bool,
    /// Its name in each list, as far as its member has come.
    names: BTreeMap<u32, Name>,
}

impl Life {
    /// Its name in a list, or the one that it will have there if it comes to it.
    fn name_in(&self, generation: u32) -> Option<Name> {
        let known = self.names.get(&generation).copied();
        let (latest, name) = self.names.last_key_value()?;
        known.or_else(|| match *latest < generation {
            true => Name::first(name.place()),
            false => None,
        })
    }
}

/// All replicas and clients of a run.
pub struct Cluster {
    setting: Setting,
    lives: BTreeMap<Name, Life>,
    /// Those that haven't the state yet, with their Joins if they aren't founders.
    waiting: BTreeMap<Name, Option<Position>>,
    clients: Vec<Client>,
    tokens: u64,
    ids: u64,
    /// How many sessions were asked for.
    opened: u32,
    /// The answers of commands that were answered as done.
    answers: BTreeMap<u64, Vec<u8>>,
    /// What replicas had at positions.
    states: BTreeMap<Position, u64>,
    /// Whether the state was lost.
    pub is_lost: bool,
    /// How many joiners got the state.
    pub served: usize,
    /// How many reads were checked.
    pub reads: usize,
    /// How many commands were answered again.
    pub repeated: usize,
    /// How many joiners got the state in a later list than that of their Joins.
    pub served_later: usize,
    /// Whether the list is to be ended by a life now.
    ends_by: Option<Name>,
    /// The lists that have ended.
    ended: BTreeSet<u32>,
    /// How many ends of lists were applied, and with how many requests under way.
    pub ends: usize,
    pub under_way: usize,
}

impl Cluster {
    pub fn new(setting: Setting) -> Cluster {
        let client = Client {
            budget: setting.commands,
            ..Client::default()
        };
        Cluster {
            clients: vec![client; setting.clients],
            setting,
            lives: BTreeMap::new(),
            waiting: BTreeMap::new(),
            tokens: 0,
            ids: 0,
            opened: 0,
            answers: BTreeMap::new(),
            states: BTreeMap::new(),
            is_lost: false,
            served: 0,
            reads: 0,
            repeated: 0,
            served_later: 0,
            ends_by: None,
            ended: BTreeSet::new(),
            ends: 0,
            under_way: 0,
        }
    }

    /// How many commands were answered as done.
    #[allow(dead_code)] // one of the programs of tests counts them
    pub fn answered(&self) -> usize {
        self.answers.len()
    }

    /// How replicas stand, a line each.
    #[allow(dead_code)] // one of the programs of tests tells it
    pub fn shown(&self) -> String {
        let lives = self.lives.iter();
        let lines = lives.map(|(name, life)| {
            let (lost, asked, sends) = (life.is_lost, life.asked.len(), life.sends.len());
            let status = life.replica.status();
            format!("{name}: lost {lost}, {asked} asked, {sends} to send, {status:?}\n")
        });
        lines.collect()
    }

    fn new_life(&self, name: Name, list: u64, is_founder: bool) -> Life {
        let mut settings = Settings::new(name, list);
        settings.check_every = self.setting.check_every;
        settings.most_sessions = self.setting.most_sessions;
        settings.most_answers = AHEAD as u32;
        settings.chunks_ahead = self.setting.chunks_ahead;
        settings.plant = self.setting.plant;
        let mut machine = match is_founder {
            true => Ledger::founded(self.setting.ballast),
            false => Ledger::default(),
        };
        machine.strays_after = (self.setting.strays == Some(name)).then_some(5);
        Life {
            replica: Replica::new(machine, settings),
            sends: VecDeque::new(),
            asked: BTreeMap::new(),
            knows_members: false,
            is_lost: false,
            names: BTreeMap::new(),
        }
    }

    fn submit(&mut self, name: Name, asked: Asked, request: Request) -> Result<(), String> {
        self.tokens += 1;
        let token = self.tokens;
        let Some(life) = self.lives.get_mut(&name) else {
            return Ok(());
        };
        if life.is_lost {
            return Ok(());
        }
        life.asked.insert(token, asked);
        life.replica
            .submit(token, request)
            .map_err(|error| format!("{name}: {error}"))?;
        self.pump(name, None)
    }

    /// Takes what comes of a replica.
    fn pump(&mut self, name: Name, info: Option<&Info>) -> Result<(), String> {
        loop {
            let Some(life) = self.lives.get_mut(&name) else {
                return Ok(());
            };
            let Some(output) = life.replica.next_output() else {
                return self.look_at_state(name);
            };
            match output {
                Output::Send(message) => life.sends.push_back(message),
                Output::Answered { token, answer } => {
                    let asked = life.asked.remove(&token);
                    let asked = asked.ok_or(format!("{name}: token {token} was answered twice"))?;
                    self.answer(name, token, asked, answer)?;
                }
                Output::Ready => {
                    if let Some(joined) = self.waiting.remove(&name).flatten() {
                        let given = life.replica.status().given;
                        self.served += 1;
                        self.served_later +=
                            usize::from(given.is_some_and(|it| it.generation > joined.generation));
                    }
                }
                Output::Told(_) => {}
                Output::Ended(Ended::Lost) => self.lost(name, info)?,
                Output::Ended(ended) => return Err(format!("{name} ended: {ended}")),
            }
            self.look_at_state(name)?;
        }
    }

    /// Compares a replica's state with what others had at the same position.
    fn look_at_state(&mut self, name: Name) -> Result<(), String> {
        let replica = &self.lives[&name].replica;
        let (Some(at), Some(machine)) = (replica.status().at, replica.machine()) else {
            return Ok(());
        };
        if let Some((id, _)) = machine.done.iter().find(|(_, done)| done.times != 1) {
            return Err(format!("{name}: command {id} was applied twice"));
        }
        if self.setting.strays.is_some() {
            // the replicas themselves are to find it
            return Ok(());
        }
        let digest = machine.digest();
        match *self.states.entry(at).or_insert(digest) == digest {
            true => Ok(()),
            false => Err(format!("{name} has another state at {at:?}")),
        }
    }

    /// A replica says that the state is lost: nobody may have it who is a member.
    fn lost(&mut self, name: Name, info: Option<&Info>) -> Result<(), String> {
        let known = info.map(|info| (info.generation, info.standing.members));
        let (generation, members) = known.unwrap_or((0, Names::nobody()));
        let is_member = |life: &Life| {
            let name = life.name_in(generation);
            name.is_some_and(|name| members.has(name))
        };
        let holder = self
            .lives
            .iter()
            .find(|(_, life)| is_member(life) && life.replica.machine().is_some());
        if let Some((holder, _)) = holder {
            return Err(format!(
                "{name} says that the state is lost, and {holder} has it"
            ));
        }
        self.is_lost = true;
        self.waiting.remove(&name);
        if let Some(life) = self.lives.get_mut(&name) {
            life.is_lost = true;
        }
        Ok(())
    }

    fn answer(
        &mut self,
        name: Name,
        token: u64,
        asked: Asked,
        answer: Answer,
    ) -> Result<(), String> {
        let machine = self.lives[&name].replica.machine();
        let machine = machine.ok_or(format!("{name} answered {asked:?} without the state"))?;
        match (asked, answer) {
            (Asked::Open(client), Answer::Opened(session)) => {
                let client = &mut self.clients[client];
                client.opens_at = None;
                if client.session.is_none() {
                    client.session = Some(session);
                }
            }
            (Asked::Plain(id), Answer::Done(answer)) => self.done(id, answer)?,
            (asked @ Asked::Command { .. }, answer) => self.command(token, &asked, answer)?,
            (Asked::Read(seen), Answer::Reached(_)) => {
                if let Some(id) = seen.iter().find(|id| !machine.done.contains_key(*id)) {
                    return Err(format!("a read at {name} doesn't see command {id}"));
                }
                self.reads += 1;
            }
            (Asked::ReadOwn(id), Answer::Reached(_)) => {
                if !machine.done.contains_key(&id) {
                    return Err(format!("a read at {name} doesn't see its own command {id}"));
                }
                self.reads += 1;
            }
            (Asked::Close, Answer::Closed | Answer::NoSession) => {}
            (asked, answer) => return Err(format!("{asked:?} was answered {answer:?}")),
        }
        Ok(())
    }

    /// Whether a joiner may wait for good: the state is lost, and a member that knows it says nothing more.
    fn may_wait(&self) -> bool {
        self.is_lost && self.setting.lost_stay
    }

    /// A command of a session was answered.
    fn command(&mut self, token: u64, asked: &Asked, answer: Answer) -> Result<(), String> {
        let Asked::Command {
            client,
            session,
            sequence,
            id,
        } = *asked
        else {
            return Ok(());
        };
        let is_current = self.clients[client].session == Some(session);
        match answer {
            Answer::Done(answer) => {
                self.done(id, answer)?;
                if is_current && token.is_multiple_of(11) {
                    // the client's connection is cut before it has the reply
                    self.clients[client].is_to_send_again(sequence);
                    self.clients[client].by = None;
                } else if is_current {
                    self.clients[client].has_answer(sequence);
                }
            }
            // only what the client said that it has is thrown away
            Answer::NotKept if !is_current || sequence <= self.clients[client].answered => {}
            Answer::OutOfOrder { last } if last + 1 != sequence => {
                if is_current {
                    self.clients[client].is_to_send_again(sequence);
                }
            }
            Answer::NoSession if !is_current => {}
            Answer::NoSession if self.opened > self.setting.most_sessions => {
                self.clients[client].forget();
            }
            other => return Err(format!("command {id} was answered {other:?}")),
        }
        Ok(())
    }

    /// A command was done: each answer of it is the same.
    fn done(&mut self, id: u64, answer: Vec<u8>) -> Result<(), String> {
        if let Some(known) = self.answers.get(&id) {
            self.repeated += 1;
            return match *known == answer || self.setting.strays.is_some() {
                true => Ok(()),
                false => Err(format!(
                    "command {id} has two answers: {known:?} and {answer:?}"
                )),
            };
        }
        self.answers.insert(id, answer);
        Ok(())
    }
}
