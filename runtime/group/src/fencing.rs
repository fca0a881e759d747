//! What a member's thread does for what says who has stopped: it has the voter's file written by a thread of its own, runs the program
//! that ends a name, and tells the log.

use crate::later::LaterList;
use crate::shared::{Command, Shared};
use crate::state::State;
use muoswyld::names::Name;
use muoswyld_failures::{Failures, NoVoter, Notice, Policy};
use std::io::{BufRead, BufReader, Read};
use std::os::unix::process::CommandExt;
use std::path::{Path, PathBuf};
use std::process::{Child, ExitStatus, Stdio};
use std::sync::mpsc::{channel, Receiver, Sender};
use std::sync::Arc;
use std::thread::JoinHandle;
use std::time::{Duration, Instant};

/// How often it is looked whether a program has ended.
const LOOK_EVERY: Duration = Duration::from_millis(10);
/// How many lines of a program's output go to the log, and how many bytes of each.
const MOST_LINES: usize = 100;
const MOST_LINE: u64 = 1000;

/// What is to be done with the place's folder.
enum Task {
    /// The voter's file of a list is to be written: its generation, the write's number, and the whole file.
    Voter(u32, u64, Vec<u8>),
    /// The next list begins here, with the voter's file if the place votes there.
    Begin(Box<LaterList>, Option<Vec<u8>>),
    /// The list of this generation isn't served any more.
    Close(u32),
}

/// What is done beside the member.
pub(crate) struct Fencing {
    shared: Arc<Shared>,
    program: Option<PathBuf>,
    tasks: Option<Sender<Task>>,
    /// The thread that writes. The place's folder is its own as long as that lives.
    writer: Option<JoinHandle<()>>,
}

impl Drop for Fencing {
    /// Waits until all is written: then another process may have the folder.
    fn drop(&mut self) {
        self.tasks = None;
        if let Some(writer) = self.writer.take() {
            let _ended = writer.join();
        }
    }
}

impl Fencing {
    /// With a place's folder, and the program that ends a name. It is an error if there is no thread.
    pub(crate) fn new(
        shared: Arc<Shared>,
        state: Option<State>,
        program: Option<PathBuf>,
    ) -> std::io::Result<Fencing> {
        let (tasks, writer) = match state {
            Some(state) => {
                let (to, thread) = writer(state, shared.clone())?;
                (Some(to), Some(thread))
            }
            None => (None, None),
        };
        Ok(Fencing {
            shared,
            program,
            tasks,
            writer,
        })
    }

    /// Has a task done; whether somebody does it.
    fn give(&self, task: Task) -> bool {
        let given = self.tasks.as_ref().map(|to| to.send(task));
        matches!(given, Some(Ok(())))
    }

    /// Has the voter's file of a list written.
    pub(crate) fn write(&self, generation: u32, number: u64, bytes: Vec<u8>) {
        if !self.give(Task::Voter(generation, number, bytes)) {
            let number = None;
            // a closed member takes nothing more
            let _told = self
                .shared
                .command(Command::Written { generation, number }, None);
        }
    }

    /// Has it written that the next list begins here. Without a folder there is nothing to be written.
    pub(crate) fn begin(&self, list: LaterList, voter: Option<Vec<u8>>) {
        let generation = list.generation;
        if !self.give(Task::Begin(Box::new(list), voter)) {
            let done = self.tasks.is_none();
            // a closed member takes nothing more
            let _told = self
                .shared
                .command(Command::Begun { generation, done }, None);
        }
    }

    /// Has the files of a list removed that isn't served any more.
    pub(crate) fn close(&self, generation: u32) {
        // without a folder there are none
        let _given = self.give(Task::Close(generation));
    }

    /// Runs the program that ends a name of a list, in a thread of its own.
    pub(crate) fn fence(&self, generation: u32, name: Name, within: Duration) {
        let (shared, program) = (self.shared.clone(), self.program.clone());
        let run = move || {
            let done = program.is_some_and(|program| is_fenced(&program, name, within));
            let fenced = Command::Fenced {
                generation,
                name,
                done,
            };
            // a closed member takes nothing more
            let _told = shared.command(fenced, None);
        };
        let thread = std::thread::Builder::new().name(format!("fence {name}"));
        if let Err(error) = thread.spawn(run) {
            tracing::error!("no thread to fence {name}: {error}");
            let fenced = Command::Fenced {
                generation,
                name,
                done: false,
            };
            let _told = self.shared.command(fenced, None);
        }
    }
}

/// The thread that writes to the place's folder. It ends once nothing more is to be written.
fn writer(state: State, shared: Arc<Shared>) -> std::io::Result<(Sender<Task>, JoinHandle<()>)> {
    let (to, from): (Sender<Task>, Receiver<Task>) = channel();
    let run = move || {
        for task in from {
            if let Some(done) = done(&state, task) {
                // a closed member takes nothing more
                let _told = shared.command(done, None);
            }
        }
    };
    let thread = std::thread::Builder::new().name("voter".into());
    Ok((to, thread.spawn(run)?))
}

/// Does a task; what the member is told of it.
fn done(state: &State, task: Task) -> Option<Command> {
    match task {
        Task::Voter(generation, number, bytes) => {
            let written = state.write_voter(generation, &bytes);
            if let Err(error) = &written {
                tracing::error!("the voter's file can't be written: {error}");
            }
            let number = written.is_ok().then_some(number);
            Some(Command::Written { generation, number })
        }
        Task::Begin(list, voter) => {
            let begun = state.succeed(&list, voter.as_deref());
            if let Err(error) = &begun {
                tracing::error!("the next list can't be begun: {error}");
            }
            let (generation, done) = (list.generation, begun.is_ok());
            Some(Command::Begun { generation, done })
        }
        Task::Close(generation) => {
            if let Err(error) = state.close(generation) {
                tracing::error!("files of an ended list can't be removed: {error}");
            }
            None
        }
    }
}

/// Runs a program with a name; whether it ended with 0 in time.
fn is_fenced(program: &Path, name: Name, within: Duration) -> bool {
    tracing::warn!("fences {name} by {}", program.display());
    let mut command = std::process::Command::new(program);
    command.arg(name.to_string()).stdin(Stdio::null());
    command.stdout(Stdio::piped()).stderr(Stdio::piped());
    // what it starts is killed with it
    command.process_group(0);
    let mut child = match command.spawn() {
        Ok(child) => child,
        Err(error) => {
            tracing::error!("{}: {error}", program.display());
            return false;
        }
    };
    log_lines(name, child.stdout.take());
    log_lines(name, child.stderr.take());
    match wait(&mut child, within) {
        Some(status) if status.success() => {
            tracing::warn!("the fence of {name} says that it is done");
            true
        }
        Some(status) => {
            tracing::error!("the fence of {name} isn't done: {status}");
            false
        }
        None => {
            tracing::error!("the fence of {name} took longer than {within:?}");
            false
        }
    }
}

/// How a program ended, if it did in time; else it is killed.
fn wait(child: &mut Child, within: Duration) -> Option<ExitStatus> {
    let began = Instant::now();
    loop {
        match child.try_wait() {
            Ok(Some(status)) => return Some(status),
            Ok(None) if began.elapsed() < within => std::thread::sleep(LOOK_EVERY),
            _ => break,
        }
    }
    if let Ok(id) = libc::pid_t::try_from(child.id()) {
        // SAFETY: the call takes no pointers. The group is the child's own, which hasn't been waited for.
        unsafe { libc::kill(-id, libc::SIGKILL) };
    }
    // a killed child ends
    let _ended = child.wait();
    None
}

/// Has what a program prints in the log, up to a limit.
fn log_lines(name: Name, from: Option<impl Read + Send + 'static>) {
    let Some(from) = from else {
        return;
    };
    std::thread::spawn(move || {
        let mut reader = BufReader::new(from);
        for count in 0.. {
            let mut line = Vec::new();
            let read = reader.by_ref().take(MOST_LINE).read_until(b'\n', &mut line);
            if !matches!(read, Ok(1..)) {
                break;
            }
            // what comes beyond the limit is read and not told, so that the program isn't held up
            if count < MOST_LINES {
                let text = String::from_utf8_lossy(&line);
                tracing::info!("fence of {name}: {}", text.trim_end());
            }
        }
    });
}

/// Tells the log.
pub(crate) fn tell(notice: Notice, failures: &muoswyld_failures::Info) {
    match notice {
        Notice::Suspects(name) => {
            tracing::warn!(
                "{name} is suspected: it wasn't heard, or says that it is frozen, for too long"
            )
        }
        Notice::Hears(name) => tracing::info!("{name} isn't suspected any more"),
        Notice::Wants(name) => tracing::warn!("the voters are asked to refuse {name}"),
        Notice::Refuses(name) => tracing::warn!("this place refuses {name}, for ever"),
        Notice::OtherId(name) => tracing::error!(
            "{name} has another key, founding, policy, lease or voters, and counts for nothing"
        ),
        Notice::Frozen => {
            let names = failures.suspects;
            tracing::warn!("frozen: no majority of the voters echoes; suspected: {names:?}");
        }
        Notice::Thawed => tracing::info!("not frozen any more: a majority of the voters echoes"),
        Notice::NoVoter(cause) => tracing::error!("{}", why_no_voter(cause)),
    }
}

/// Why a place doesn't vote, in words.
pub(crate) fn why_no_voter(cause: NoVoter) -> &'static str {
    match cause {
        NoVoter::NotNamed => "this place doesn't vote: it isn't named as a voter",
        NoVoter::NoFile => "this place doesn't vote: its voter's file isn't there",
        NoVoter::BadFile => "this place doesn't vote: its voter's file isn't whole, or is of another key, founding, policy, lease or voters",
        NoVoter::OldFile => "this place doesn't vote any more: its voter's file is older than others remember",
        NoVoter::NotWritten => "this place doesn't vote any more: its voter's file can't be written",
    }
}

/// Tells the log at the start why the place of a named voter doesn't vote.
pub(crate) fn tell_start(failures: &Failures) {
    let rests_on_votes = matches!(failures.policy(), Policy::Echo | Policy::Lease(_));
    match failures.info().no_voter {
        Some(cause) if rests_on_votes && cause != NoVoter::NotNamed => {
            tracing::error!("{}", why_no_voter(cause));
        }
        _ => {}
    }
}

#[cfg(test)]
mod tests {
    use super::*;
    use std::fs;
    use std::os::unix::fs::PermissionsExt;
    use std::sync::{Mutex, MutexGuard, PoisonError};

    /// Programs are run one at a time: one that begins while another one's script is written has that open for a moment, and a file that
    /// is open for writing can't be run.
    fn alone() -> MutexGuard<'static, ()> {
        static ONE: Mutex<()> = Mutex::new(());
        ONE.lock().unwrap_or_else(PoisonError::into_inner)
    }

    /// Runs a script as a fence of a name; whether it is done, and how long it took.
    fn fenced(test: &str, script: &str, within: Duration) -> (bool, Duration) {
        let _alone = alone();
        let path = std::env::temp_dir().join(format!("fence-{test}-{}", std::process::id()));
        fs::write(&path, format!("#!/bin/sh\n{script}\n")).unwrap();
        fs::set_permissions(&path, fs::Permissions::from_mode(0o700)).unwrap();
        let began = Instant::now();
        let done = is_fenced(&path, "2/3".parse().unwrap(), within);
        fs::remove_file(&path).unwrap();
        (done, began.elapsed())
    }

    const LONG: Duration = Duration::from_secs(30);

    #[test]
    fn only_a_program_that_ends_with_0_is_believed() {
        assert!(fenced("name", "test \"$1\" = 2/3 && test $# = 1", LONG).0);
        assert!(!fenced("one", "exit 1", LONG).0);
        assert!(!fenced("killed", "kill -9 $$", LONG).0);
        let (_alone, none) = (alone(), Path::new("/nonexistent"));
        assert!(!is_fenced(none, "2".parse().unwrap(), LONG));
    }

    #[test]
    fn a_program_that_hangs_is_killed_with_what_it_started() {
        let within = Duration::from_millis(200);
        let (done, took) = fenced("hangs", "sleep 1000 & sleep 1000", within);
        assert!(!done && took < Duration::from_secs(10), "{took:?}");
    }

    #[test]
    fn a_program_that_prints_much_is_not_held_up() {
        assert!(fenced("prints", "yes | head -n 100000; echo done >&2", LONG).0);
    }
}
