//! A store that runs until its member ends.

use crate::options::{Reads, Run};
use crate::server::{Counts, Ears, Server, Settings, SharedCounts};
use crate::store::Store;
use muoswyld_group::Group;
use muoswyld_replica::Ended;
use muoswyld_service::{Service, Stop};
use muoswyldd::control::{self, Command};
use muoswyldd::exit::{by_end, Fault, CONFIG, SOFTWARE, SYSTEM, UNAVAILABLE};
use muoswyldd::metrics::{self, Value};
use muoswyldd::options::At;
use muoswyldd::otherwise::Otherwise;
use muoswyldd::run::Process;
use serde_json::{json, Value as Json};
use std::net::SocketAddr;
use std::sync::PoisonError;
use std::time::Duration;

/// The most bytes of a store, where nothing is said.
const MOST_MEMORY: u64 = 256 << 20;
/// The most clients.
const MOST_CLIENTS: usize = 1_000;
/// How long a member may take to leave whose replica has ended.
const LEAVE_WITHIN: Duration = Duration::from_secs(10);

/// Does a command of the Unix socket. A message that isn't a replica's own has no place in its group.
fn does(command: Command, group: &Group) -> Json {
    match command {
        Command::Send(_) => json!({ "error": "a store sends no messages of others" }),
        other => other.done_by(group),
    }
}

fn settings_of(run: &Run) -> Settings {
    let listen = SocketAddr::from(([127, 0, 0, 1], 6379));
    Settings {
        listen: run.store.listen.unwrap_or(listen),
        most_clients: run.store.max_clients.unwrap_or(MOST_CLIENTS),
        are_ordered: run.store.reads.unwrap_or_default() == Reads::Ordered,
    }
}

/// Runs a store.
pub fn run(words: Run) -> Result<(), Fault> {
    let run = words.with_file()?;
    if run.member.input.is_some() || run.member.output.is_some() {
        let line = "a store has no --input and no --output: clients connect at --listen";
        return Err(Fault::of(CONFIG, line));
    }
    let settings = settings_of(&run);
    let ears = Ears::new(settings.listen)
        .map_err(|error| Fault::of(SYSTEM, format_args!("{}: {error}", settings.listen)))?;
    let bell = ears.bell();
    let ring = move || {
        // one that can't be rung is rung already
        let _rung = bell.wake();
    };
    let process = Process::start(&run.member, |config| config.on_arrival(ring))?;
    let group = process.group.clone();
    let _listening = match &run.member.socket {
        Some(path) => Some(control::serve(path, &group, false, does)?),
        None => None,
    };
    let counts = SharedCounts::default();
    if let Some(address) = run.member.metrics {
        let counts = counts.clone();
        let more = move || values(&counts.lock().unwrap_or_else(PoisonError::into_inner));
        metrics::serve(address, &group, more)?;
    }
    let store = Store::new(run.store.max_memory.unwrap_or(MOST_MEMORY));
    let stop = match Service::new(group.clone(), store, |_| ()) {
        Ok(service) => {
            let mut server = Server::new(ears, settings, service, counts);
            server.run().map_err(|error| Fault::of(SYSTEM, error))?
        }
        Err(stop) => stop,
    };
    end(&group, &stop)?;
    process.is_lawful()
}

/// Has a store that runs end its group's list, and prints the answer.
pub fn succeed(at: &At, next: &Otherwise) -> Result<(), Fault> {
    let answer = control::ask(&at.socket, &Command::Succeed(next.list()))?;
    println!("{answer}");
    Ok(())
}

/// How the store's end ends the program.
fn end(group: &Group, stop: &Stop) -> Result<(), Fault> {
    let ended = match stop {
        Stop::Member(end) => return by_end(end),
        Stop::Replica(ended) => ended,
    };
    tracing::error!("{ended}");
    if let Err(error) = group.leave(LEAVE_WITHIN) {
        tracing::error!("{error}");
    }
    let status = match ended {
        Ended::Lost | Ended::HeldTooMuch { .. } => UNAVAILABLE,
        _ => SOFTWARE,
    };
    Err(Fault::of(status, ended))
}

fn values(counts: &Counts) -> Vec<Value> {
    vec![
        (
            "muoswyld_kv_ready",
            "1 if the store has its state, else 0",
            u64::from(counts.is_ready),
        ),
        ("muoswyld_kv_keys", "keys", counts.keys),
        (
            "muoswyld_kv_used_bytes",
            "bytes of keys and values, each counted with 96 more",
            counts.used,
        ),
        ("muoswyld_kv_clients", "connected clients", counts.clients),
        (
            "muoswyld_kv_requests_total",
            "requests that were answered",
            counts.requests,
        ),
        (
            "muoswyld_kv_applied_generation",
            "lists before the one of the last entry that is applied",
            counts.applied_generation,
        ),
        (
            "muoswyld_kv_applied",
            "number up to which entries of that list are applied",
            counts.applied,
        ),
        (
            "muoswyld_kv_held_bytes",
            "bytes of deliveries that wait to be applied",
            counts.held,
        ),
    ]
}
