//! Commands to a member that runs, a line each, and their answers, an object of JSON a line: over a Unix socket, or from
//! standard input.

use crate::exit::{Fault, CANT_CREATE, CONFIG, IO, UNAVAILABLE};
use crate::show::object;
use muoswyld_group::{
    Blocked, EndedList, FailuresInfo, Group, Info, Name, Names, NextList, ReceiveError,
};
use serde_json::{json, Value};
use std::io::{BufRead, BufReader, Read, Write};
use std::os::unix::net::{UnixListener, UnixStream};
use std::path::Path;
use std::sync::atomic::{AtomicBool, AtomicUsize, Ordering};
use std::sync::Arc;
use std::time::{Duration, Instant};

/// How many bytes a command has at most: a message of the most bytes as digits, and its word.
const MOST_COMMAND: u64 = 200_000;
/// How many callers may be connected at a time.
const MOST_CALLERS: usize = 64;
/// How long a caller waits for a leave, a reset or the end of a list.
const PATIENCE: Duration = Duration::from_secs(60);

/// A command to a member that runs.
#[derive(Clone, Debug, PartialEq, Eq)]
pub enum Command {
    /// Sends a message.
    Send(Vec<u8>),
    /// Leaves the group.
    Leave,
    /// Resets the group, with at least so many members.
    Reset(Option<u8>),
    /// Ends the list, and has another one follow it.
    Succeed(NextList),
    /// This name has stopped for certain: of the latest list, or of the one of a generation.
    Stopped(Name, Option<u32>),
    /// Tells how the member stands.
    Status,
    /// Gives this caller all deliveries from here on.
    Deliveries,
}

impl Command {
    /// The command of a line; an error that says what it should be.
    pub fn of(line: &[u8]) -> Result<Command, &'static str> {
        let text = std::str::from_utf8(line);
        let (word, rest) = match line.iter().position(|byte| *byte == b' ') {
            Some(at) => (&line[..at], Some(&line[at + 1..])),
            None => (line, None),
        };
        match (word, rest) {
            (b"send", Some(message)) => Ok(Command::Send(message.to_vec())),
            (b"send-hex", Some(digits)) => hex::decode(digits)
                .map(Command::Send)
                .map_err(|_| "send-hex wants an even number of hexadecimal digits"),
            (b"leave", None) => Ok(Command::Leave),
            (b"reset", None) => Ok(Command::Reset(None)),
            (b"reset", Some(_)) => {
                let least = text.ok().and_then(|text| text.get(6..)?.parse().ok());
                least.map(|least| Command::Reset(Some(least))).ok_or("reset wants a least size of 1 to 16")
            }
            (b"succeed", None) => Ok(Command::Succeed(NextList::new())),
            (b"succeed", Some(_)) => {
                let next = text.ok().and_then(|text| text.get(8..)?.parse().ok());
                next.map(Command::Succeed)
                    .ok_or("succeed wants resilience N, window N, pb-up-to N or voters PLACES, each once at most")
            }
            (b"stopped", Some(_)) => {
                let rest = text.ok().and_then(|text| text.get(8..));
                rest.and_then(stopped_of)
                    .ok_or("stopped wants a name, PLACE or PLACE/LIFE, and may say the generation of its list")
            }
            (b"status", None) => Ok(Command::Status),
            (b"deliveries", None) => Ok(Command::Deliveries),
            _ => Err("a command is send MESSAGE, send-hex DIGITS, leave, reset, reset LEAST, succeed, stopped NAME, status or deliveries"),
        }
    }

    /// Its line.
    pub fn line(&self) -> Vec<u8> {
        match self {
            Command::Send(message) => format!("send-hex {}", hex::encode(message)).into_bytes(),
            Command::Leave => b"leave".to_vec(),
            Command::Reset(None) => b"reset".to_vec(),
            Command::Reset(Some(least)) => format!("reset {least}").into_bytes(),
            Command::Succeed(next) => format!("succeed {next}").trim_end().as_bytes().to_vec(),
            Command::Stopped(name, None) => format!("stopped {name}").into_bytes(),
            Command::Stopped(name, Some(generation)) => {
                format!("stopped {name} {generation}").into_bytes()
            }
            Command::Status => b"status".to_vec(),
            Command::Deliveries => b"deliveries".to_vec(),
        }
    }

    /// Does it, and gives its answer.
    pub fn done_by(self, group: &Group) -> Value {
        let refused = |error: &dyn std::fmt::Display| json!({ "error": error.to_string() });
        match self {
            Command::Send(message) => match group.send(message) {
                Ok(at) => {
                    json!({ "sent": at.number, "index": at.index, "generation": at.generation })
                }
                Err(error) => refused(&error),
            },
            Command::Leave => match group.leave(PATIENCE) {
                Ok(()) => json!({ "left": true }),
                Err(error) => refused(&error),
            },
            Command::Reset(least) => match group.reset(least, PATIENCE) {
                Ok(number) => json!({ "reset": number }),
                Err(error) => refused(&error),
            },
            Command::Succeed(next) => match group.succeed(next, PATIENCE) {
                Ok(at) => json!({ "succeeded": at.number, "generation": at.generation }),
                Err(error) => refused(&error),
            },
            Command::Stopped(name, generation) => {
                let told = match generation {
                    Some(generation) => group.stopped_in(generation, name),
                    None => group.stopped(name),
                };
                match told {
                    Ok(()) => json!({ "told": name.to_string() }),
                    Err(error) => refused(&error),
                }
            }
            Command::Status => match (group.info(), group.failures()) {
                (Ok(info), Ok(failures)) => status(&info, &failures),
                (Err(end), _) | (_, Err(end)) => refused(&end),
            },
            Command::Deliveries => {
                refused(&"--output socket gives deliveries to one caller at the socket")
            }
        }
    }
}

/// The command of what stands after the word `stopped`.
fn stopped_of(rest: &str) -> Option<Command> {
    let (name, generation) = match rest.split_once(' ') {
        Some((name, generation)) => (name, Some(generation.parse().ok()?)),
        None => (rest, None),
    };
    Some(Command::Stopped(name.parse().ok()?, generation))
}

/// How a member stands, as JSON.
fn status(info: &Info, failures: &FailuresInfo) -> Value {
    let names =
        |names: Names| -> Vec<String> { names.iter().map(|name| name.to_string()).collect() };
    let standing = &info.standing;
    json!({
        "name": info.name.to_string(),
        "role": format!("{:?}", standing.role).to_lowercase(),
        "generation": info.generation,
        "group": info.group.map(|id| format!("{id:016x}")),
        "founders": names(info.founding.founders),
        "window": info.founding.window,
        "pb-up-to": info.founding.pb_up_to,
        "view": standing.view.to_string(),
        "members": names(standing.members),
        "resilience": standing.resilience,
        "base": standing.base,
        "taken": standing.taken,
        "accepted": standing.accepted,
        "top": standing.top,
        "unsettled": info.unsettled,
        "waiting-bytes": info.waiting,
        "silent": names(info.silent),
        "slow": names(info.slow),
        "stopped": names(info.stopped),
        "round-trip-microseconds": info.round_trip,
        "leaves": info.leaves,
        "failures": failures_status(failures),
    })
}

/// Who is suspected, refused, given up and frozen, as JSON.
fn failures_status(info: &FailuresInfo) -> Value {
    json!({
        "policy": info.policy,
        "suspected": shown(&info.suspects),
        "refused": shown(&info.refused),
        "refused-members": shown(&info.refused_members),
        "stopped": shown(&info.stopped),
        "votes": info.votes,
        "why-no-vote": info.why_no_vote,
        "frozen-for-milliseconds": milliseconds(info.frozen_for),
        "may-act-for-milliseconds": milliseconds(info.may_act_for),
        "blocked": info.blocked.iter().map(blocked).collect::<Vec<Value>>(),
        "ended-lists": info.ended_lists.iter().map(ended_list).collect::<Vec<Value>>(),
    })
}

/// A list that has ended and is served still, as JSON.
fn ended_list(list: &EndedList) -> Value {
    json!({
        "generation": list.generation,
        "awaited": shown(&list.awaited),
        "frozen-for-milliseconds": milliseconds(list.frozen_for),
        "refused-members": shown(&list.refused_members),
        "blocked": list.blocked.iter().map(blocked).collect::<Vec<Value>>(),
    })
}

fn shown(names: &[Name]) -> Vec<String> {
    names.iter().map(Name::to_string).collect()
}

fn milliseconds(time: Option<Duration>) -> Option<u64> {
    time.map(|time| time.as_millis() as u64)
}

fn blocked(it: &Blocked) -> Value {
    json!({ "name": it.name.to_string(), "refused-by": it.refused_by })
}

/// How long the end of a member waits for what is being written to callers.
const LAST_ANSWERS: Duration = Duration::from_secs(1);
/// How often it is looked whether the caller that is given deliveries is gone, and how long a look waits.
const LOOK_EVERY: Duration = Duration::from_millis(200);
const LOOK: Duration = Duration::from_millis(1);

/// What the callers of a member share.
struct Desk {
    group: Arc<Group>,
    /// How many are connected.
    callers: AtomicUsize,
    /// How many are being answered.
    busy: AtomicUsize,
    /// Whether a caller is given deliveries, or something else receives them.
    is_given: AtomicBool,
    does: Does,
}

impl Desk {
    /// Answers a command of a caller; whether the caller may give another one.
    fn answer(&self, caller: &UnixStream, line: &[u8]) -> std::io::Result<bool> {
        let whole = line.strip_suffix(b"\n").unwrap_or(line);
        let is_too_long = whole.len() as u64 >= MOST_COMMAND;
        let answer = match Command::of(whole) {
            _ if is_too_long => json!({ "error": "the command is too long" }),
            Ok(Command::Deliveries) if !self.is_given.swap(true, Ordering::SeqCst) => {
                let given = self.give(caller);
                self.is_given.store(false, Ordering::SeqCst);
                return given.map(|()| false);
            }
            Ok(command) => (self.does)(command, &self.group),
            Err(why) => json!({ "error": why }),
        };
        let mut writer = caller;
        writeln!(writer, "{answer}")?;
        Ok(!is_too_long && self.group.ended().is_none())
    }

    /// Gives a caller all deliveries from here on, a line each, and last how the member ended.
    fn give(&self, mut caller: &UnixStream) -> std::io::Result<()> {
        caller.set_read_timeout(Some(LOOK))?;
        loop {
            match self.group.receive_timeout(LOOK_EVERY) {
                Ok(delivery) => writeln!(caller, "{}", object(&delivery))?,
                Err(ReceiveError::Ended(end)) => {
                    return writeln!(caller, "{}", json!({ "ended": end.to_string() }));
                }
                // who is gone has closed its end, and says nothing more
                Err(_) if matches!(caller.read(&mut [0]), Ok(0)) => return Ok(()),
                Err(_) => {}
            }
        }
    }
}

/// A socket file that is removed when this ends, after the commands under way have their answers.
pub struct Listening<'a> {
    path: &'a Path,
    desk: Arc<Desk>,
}

impl Drop for Listening<'_> {
    fn drop(&mut self) {
        let began = Instant::now();
        while self.desk.busy.load(Ordering::SeqCst) > 0 && began.elapsed() < LAST_ANSWERS {
            std::thread::sleep(Duration::from_millis(1));
        }
        // one that is gone already is as it should be
        let _removed = std::fs::remove_file(self.path);
    }
}

/// What does a command, and gives its answer.
pub type Does = fn(Command, &Group) -> Value;

/// Serves commands at a path, each caller in a thread of its own, by what does them; deliveries too, if nothing else receives them.
pub fn serve<'a>(
    path: &'a Path,
    group: &Arc<Group>,
    gives: bool,
    does: Does,
) -> Result<Listening<'a>, Fault> {
    if UnixStream::connect(path).is_err() {
        // a file that nobody listens at was left by a process that was ended
        let _removed = std::fs::remove_file(path);
    }
    let cannot = |error| Fault::of(CANT_CREATE, format_args!("{}: {error}", path.display()));
    let listener = UnixListener::bind(path).map_err(cannot)?;
    let desk = Arc::new(Desk {
        group: group.clone(),
        callers: AtomicUsize::new(0),
        busy: AtomicUsize::new(0),
        is_given: AtomicBool::new(!gives),
        does,
    });
    let shared = desk.clone();
    std::thread::Builder::new()
        .name("commands".into())
        .spawn(move || {
            for caller in listener.incoming().flatten() {
                if shared.callers.fetch_add(1, Ordering::SeqCst) >= MOST_CALLERS {
                    shared.callers.fetch_sub(1, Ordering::SeqCst);
                    continue;
                }
                let desk = shared.clone();
                std::thread::spawn(move || {
                    // a caller that is gone hears nothing
                    let _served = answer_all(&caller, &desk);
                    desk.callers.fetch_sub(1, Ordering::SeqCst);
                });
            }
        })
        .map_err(cannot)?;
    Ok(Listening { path, desk })
}

/// Answers a caller's commands until it ends.
fn answer_all(caller: &UnixStream, desk: &Desk) -> std::io::Result<()> {
    let mut reader = BufReader::new(caller);
    let mut line = Vec::new();
    loop {
        line.clear();
        reader
            .by_ref()
            .take(MOST_COMMAND)
            .read_until(b'\n', &mut line)?;
        if line.is_empty() {
            return Ok(());
        }
        desk.busy.fetch_add(1, Ordering::SeqCst);
        let goes_on = desk.answer(caller, &line);
        desk.busy.fetch_sub(1, Ordering::SeqCst);
        if !goes_on? {
            return Ok(());
        }
    }
}

/// Gives a command to a member that runs, and its answer; an error if the member refuses it or isn't there.
pub fn ask(path: &Path, command: &Command) -> Result<Value, Fault> {
    let shown = path.display();
    let cannot = |error| Fault::of(IO, format_args!("{shown}: {error}"));
    let mut stream = UnixStream::connect(path).map_err(|error| {
        Fault::of(
            UNAVAILABLE,
            format_args!("no member listens at {shown}: {error}"),
        )
    })?;
    stream.write_all(&command.line()).map_err(cannot)?;
    stream.write_all(b"\n").map_err(cannot)?;
    let mut said = String::new();
    BufReader::new(&stream)
        .read_line(&mut said)
        .map_err(cannot)?;
    let answer: Value = serde_json::from_str(&said).map_err(|_| {
        Fault::of(
            UNAVAILABLE,
            format_args!("the member at {shown} ended before it answered"),
        )
    })?;
    match answer.get("error").and_then(Value::as_str) {
        Some(error) => Err(Fault::of(UNAVAILABLE, error)),
        None => Ok(answer),
    }
}

/// A line of standard input as a message or a command; what it should be is told.
pub fn of_input(line: &[u8], is_command: bool) -> Result<Command, Fault> {
    match is_command {
        true => Command::of(line).map_err(|why| Fault::of(CONFIG, why)),
        false => Ok(Command::Send(line.to_vec())),
    }
}

#[cfg(test)]
mod tests {
    use super::*;

    proptest::proptest! {
        #[test]
        fn any_line_is_a_command_or_is_refused(
            word in "(send|send-hex|leave|reset|succeed|stopped|status|)",
            rest in proptest::collection::vec(proptest::prelude::any::<u8>(), 0..40),
        ) {
            let line = [word.as_bytes(), &rest].concat();
            if let Ok(command) = Command::of(&line) {
                assert_eq!(Command::of(&command.line()), Ok(command));
            }
        }
    }

    #[test]
    fn each_command_is_read_as_it_is_written() {
        let name: Name = "3/2".parse().unwrap();
        let commands = [
            Command::Send(b"a b\nc".to_vec()),
            Command::Send(Vec::new()),
            Command::Leave,
            Command::Reset(None),
            Command::Reset(Some(2)),
            Command::Succeed(NextList::new()),
            Command::Succeed(NextList::new().window(500)),
            Command::Stopped(name, None),
            Command::Stopped(name, Some(2)),
            Command::Status,
            Command::Deliveries,
        ];
        for command in commands {
            assert_eq!(Command::of(&command.line()), Ok(command));
        }
        assert_eq!(Command::of(b"send x y"), Ok(Command::Send(b"x y".to_vec())));
    }

    #[test]
    fn what_is_no_command_is_told() {
        for line in [
            &b""[..],
            b"sned x",
            b"reset x",
            b"reset 1 2",
            b"succeed window",
            b"succeed places 3",
            b"stopped",
            b"stopped 16",
            b"stopped 1 x",
            b"leave now",
            b"send-hex 1",
            b"\xff",
        ] {
            assert!(Command::of(line).is_err(), "{line:?}");
        }
    }
}
