//! The server: many clients and one replica in one thread.

use crate::about::About;
use crate::client::Client;
use crate::dialog::{Todo, What};
use crate::op::Op;
use crate::resp::reply;
use crate::store::Store;
use mio::net::TcpListener;
use mio::{Events, Interest, Poll, Token, Waker};
use muoswyld_replica::{Answer, Notice, Output, Refused, Request};
use muoswyld_service::{Service, Stop};
use std::collections::{BTreeSet, HashMap};
use std::io;
use std::net::SocketAddr;
use std::sync::{Arc, Mutex, PoisonError};
use std::time::{Duration, Instant};

const LISTENER: Token = Token(0);
const BELL: Token = Token(1);
/// The token of the first client.
const CLIENTS: u64 = 2;
/// How long the server sleeps at most.
const SLEEP: Duration = Duration::from_millis(200);
/// How long it sleeps while the member has no room for a message.
const SHORT_SLEEP: Duration = Duration::from_millis(5);

/// How a server is set.
#[derive(Clone, Copy, Debug)]
pub struct Settings {
    /// Where it listens.
    pub listen: SocketAddr,
    /// How many clients there may be.
    pub most_clients: usize,
    /// Whether reads go through the list.
    pub are_ordered: bool,
}

/// What is counted of a server, for metrics.
#[derive(Clone, Copy, Debug, Default)]
pub struct Counts {
    /// Clients that are connected.
    pub clients: u64,
    /// Requests that were answered.
    pub requests: u64,
    /// Keys.
    pub keys: u64,
    /// Bytes of the store, as it counts them.
    pub used: u64,
    /// Whether the replica has the state.
    pub is_ready: bool,
    /// Bytes of deliveries that wait to be applied.
    pub held: u64,
    /// The number of the last entry that was applied.
    pub applied: u64,
    /// How many lists came before the one of that entry.
    pub applied_generation: u64,
}

/// Counts that another thread looks at.
pub type SharedCounts = Arc<Mutex<Counts>>;

/// Who waits for a token.
enum Waits {
    /// A request of a client.
    Write(u64, u64),
    /// Requests that read.
    Reads(Vec<(u64, u64, Op)>),
}

/// What a server listens with, before there is a member.
pub struct Ears {
    poll: Poll,
    listener: TcpListener,
    bell: Arc<Waker>,
}

impl Ears {
    /// Listens at an address. It is an error if that can't be bound.
    pub fn new(listen: SocketAddr) -> io::Result<Ears> {
        let poll = Poll::new()?;
        let mut listener = TcpListener::bind(listen)?;
        poll.registry()
            .register(&mut listener, LISTENER, Interest::READABLE)?;
        let bell = Arc::new(Waker::new(poll.registry(), BELL)?);
        Ok(Ears {
            poll,
            listener,
            bell,
        })
    }

    /// What ends its sleep from another thread.
    pub fn bell(&self) -> Arc<Waker> {
        self.bell.clone()
    }
}

/// A server.
pub struct Server {
    ears: Ears,
    settings: Settings,
    service: Service<Store>,
    clients: HashMap<u64, Client>,
    next_client: u64,
    /// Clients for which there may be something to do.
    active: BTreeSet<u64>,
    waits: HashMap<u64, Waits>,
    tokens: u64,
    requests: u64,
    began: Instant,
    counts: SharedCounts,
}

impl Server {
    /// A server of a replica.
    pub fn new(
        ears: Ears,
        settings: Settings,
        service: Service<Store>,
        counts: SharedCounts,
    ) -> Server {
        Server {
            ears,
            settings,
            service,
            clients: HashMap::new(),
            next_client: CLIENTS,
            active: BTreeSet::new(),
            waits: HashMap::new(),
            tokens: 0,
            requests: 0,
            began: Instant::now(),
            counts,
        }
    }

    /// Serves until the member or the replica ends. Clients that wait then are told nothing: their connections are closed.
    pub fn run(&mut self) -> Result<Stop, io::Error> {
        let mut events = Events::with_capacity(1024);
        loop {
            let most = match (self.active.is_empty(), self.service.unsent()) {
                (false, _) => Duration::ZERO,
                (true, 0) => SLEEP,
                (true, _) => SHORT_SLEEP,
            };
            match self.ears.poll.poll(&mut events, Some(most)) {
                Err(error) if error.kind() == io::ErrorKind::Interrupted => continue,
                polled => polled?,
            }
            for event in &events {
                match event.token() {
                    LISTENER => self.accept()?,
                    BELL => {}
                    Token(client) => {
                        let id = client as u64;
                        if let Some(client) = self.clients.get_mut(&id) {
                            client.note(event.is_readable() || event.is_read_closed());
                            self.active.insert(id);
                        }
                    }
                }
            }
            if let Err(stop) = self.turn() {
                return Ok(stop);
            }
        }
    }

    /// Reads what came, does what is asked, and writes replies.
    fn turn(&mut self) -> Result<(), Stop> {
        let mut todos = Vec::new();
        let active = std::mem::take(&mut self.active);
        for id in &active {
            if let Some(client) = self.clients.get_mut(id) {
                client.read(|todo| todos.push((*id, todo)));
            }
        }
        // a read sees what was answered before it came: so what it waits for is asked for after it was read
        self.submit(todos)?;
        let answered = self.take_answers()?;
        for id in active.union(&answered) {
            let is_done = self.clients.get_mut(id).is_some_and(|client| {
                client.write();
                if client.wants_more() {
                    self.active.insert(*id);
                }
                client.is_done()
            });
            if is_done {
                self.close(*id);
            }
        }
        self.count();
        Ok(())
    }

    fn close(&mut self, id: u64) {
        self.active.remove(&id);
        if let Some(mut client) = self.clients.remove(&id) {
            client.close(self.ears.poll.registry());
        }
    }

    fn accept(&mut self) -> io::Result<()> {
        loop {
            let stream = match self.ears.listener.accept() {
                Ok((stream, _)) => stream,
                Err(error) if error.kind() == io::ErrorKind::WouldBlock => return Ok(()),
                Err(error) => {
                    // as without descriptors: those who are connected go on
                    tracing::warn!("a client can't be taken: {error}");
                    return Ok(());
                }
            };
            let mut client = Client::new(stream);
            if self.clients.len() >= self.settings.most_clients {
                client.refuse(&reply::error("ERR max number of clients reached"));
                continue;
            }
            let id = self.next_client;
            self.next_client += 1;
            client.register(self.ears.poll.registry(), Token(id as usize))?;
            self.clients.insert(id, client);
            self.active.insert(id);
        }
    }

    fn token(&mut self, waits: Waits) -> u64 {
        self.tokens += 1;
        self.waits.insert(self.tokens, waits);
        self.tokens
    }

    fn answer(&mut self, id: u64, request: u64, reply: Vec<u8>) {
        self.requests += 1;
        if let Some(client) = self.clients.get_mut(&id) {
            client.dialog.answer(request, reply);
        }
    }

    fn submit(&mut self, todos: Vec<(u64, Todo)>) -> Result<(), Stop> {
        let is_ready = self.service.status().is_ready;
        // the barrier that was asked for last, if nothing was asked for after it
        let mut barrier = None;
        for (id, Todo { request, what }) in todos {
            match what {
                What::Op(_) if !is_ready => {
                    let loading = "LOADING Redis is loading the dataset in memory";
                    self.answer(id, request, reply::error(loading));
                }
                What::Op(op) if op.only_reads() => match self.read_now(id, request, &op) {
                    Some(reply) => self.answer(id, request, reply),
                    None => self.read_later(&mut barrier, (id, request, op)),
                },
                What::Op(op) => {
                    barrier = None;
                    self.write(id, request, &op);
                }
                What::Info(sections) => {
                    let text = self.about()?.info(&sections);
                    self.answer(id, request, reply::bulk(text.as_bytes()));
                }
                What::Config(patterns) => {
                    let reply = self.about()?.config(&patterns);
                    self.answer(id, request, reply);
                }
                What::Hello => {
                    let reply = self.about()?.hello(id);
                    self.answer(id, request, reply);
                }
            }
        }
        Ok(())
    }

    /// What a read gives at once: where reads are local, and the client waits for nothing that it asked before.
    fn read_now(&self, id: u64, request: u64, op: &Op) -> Option<Vec<u8>> {
        let client = self.clients.get(&id)?;
        let is_next = client.dialog.is_next(request);
        (!self.settings.are_ordered && is_next).then_some(())?;
        self.service.machine()?.read(op)
    }

    fn read_later(&mut self, barrier: &mut Option<u64>, read: (u64, u64, Op)) {
        let known = barrier.and_then(|token| self.waits.get_mut(&token));
        if let Some(Waits::Reads(reads)) = known {
            reads.push(read);
            return;
        }
        let token = self.token(Waits::Reads(vec![read]));
        // a replica that has ended ends the server
        let _taken = self.service.submit(token, Request::Barrier);
        *barrier = Some(token);
    }

    fn write(&mut self, id: u64, request: u64, op: &Op) {
        let token = self.token(Waits::Write(id, request));
        if let Err(Refused::TooLong) = self.service.submit(token, Request::Command(op.bytes())) {
            self.waits.remove(&token);
            self.answer(id, request, reply::error("ERR the command is too long"));
        }
    }

    /// Has the replica do what it can; the clients that were answered.
    fn take_answers(&mut self) -> Result<BTreeSet<u64>, Stop> {
        let mut replies = Vec::new();
        let waits = &mut self.waits;
        self.service.turn(|machine, output| match output {
            Output::Answered { token, answer } => match (waits.remove(&token), answer) {
                (Some(Waits::Write(id, request)), Answer::Done(reply)) => {
                    replies.push((id, request, reply));
                }
                (Some(Waits::Reads(reads)), _) => {
                    for (id, request, op) in reads {
                        let reply = machine.and_then(|store| store.read(&op));
                        replies.extend(reply.map(|reply| (id, request, reply)));
                    }
                }
                _ => {}
            },
            Output::Ready => tracing::info!("the store has its state"),
            Output::Told(notice) => tell(notice),
            _ => {}
        })?;
        let answered = replies.iter().map(|(id, _, _)| *id).collect();
        for (id, request, reply) in replies {
            self.answer(id, request, reply);
        }
        Ok(answered)
    }

    fn about(&self) -> Result<About, Stop> {
        let store = self.service.machine();
        Ok(About {
            port: self.settings.listen.port(),
            uptime: self.began.elapsed().as_secs(),
            clients: self.clients.len(),
            most_clients: self.settings.most_clients,
            requests: self.requests,
            keys: store.map_or(0, Store::len),
            used: store.map_or(0, Store::used),
            most: store.map_or(0, Store::most),
            are_ordered: self.settings.are_ordered,
            replica: self.service.status(),
            member: self.service.info()?,
        })
    }

    fn count(&self) {
        let (store, status) = (self.service.machine(), self.service.status());
        let counts = Counts {
            clients: self.clients.len() as u64,
            requests: self.requests,
            keys: store.map_or(0, |store| store.len() as u64),
            used: store.map_or(0, Store::used),
            is_ready: status.is_ready,
            held: status.held as u64,
            applied: status.at.map_or(0, |at| u64::from(at.number)),
            applied_generation: status.at.map_or(0, |at| u64::from(at.generation)),
        };
        *self.counts.lock().unwrap_or_else(PoisonError::into_inner) = counts;
    }
}

fn tell(notice: Notice) {
    match notice {
        Notice::Serves { to, chunk } => {
            tracing::info!("{to} is sent the state from chunk {chunk} on");
        }
        Notice::OtherDiffers { name, at } => {
            let (generation, number) = (at.generation, at.number);
            tracing::error!("the state of {name} after entry {number} of generation {generation} isn't the one that counts");
        }
    }
}
