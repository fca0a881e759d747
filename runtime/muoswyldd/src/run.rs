//! A member that runs until it leaves, its input ends, or a signal ends it.

use crate::control::{self, of_input, Command};
use crate::exit::{by_end, Fault, CONFIG, IO, SYSTEM, TRY_AGAIN, VOID};
use crate::log::Log;
use crate::metrics;
use crate::options::{Reads, Run};
use crate::show::{line, object, Form};
use muoswyld_group::{Config, End, Group, LeaveError, Notice, ReceiveError, Ticket};
use signal_hook::consts::{SIGHUP, SIGINT, SIGTERM};
use signal_hook::iterator::Signals;
use std::io::{BufRead, Write};
use std::sync::atomic::{AtomicBool, Ordering};
use std::sync::Arc;
use std::time::Duration;

/// How long leaving may take where nothing else is said.
const LEAVE_WITHIN: Duration = Duration::from_secs(10);

/// A member's process: what its threads share.
pub struct Process {
    /// The member.
    pub group: Arc<Group>,
    leave_within: Duration,
    /// Whether more members stopped than the resilience.
    is_void: Arc<AtomicBool>,
}

/// Runs a member.
pub fn run(words: Run) -> Result<(), Fault> {
    let run = words.with_file()?;
    let form = run.output.unwrap_or_default();
    if form == Form::Socket && run.socket.is_none() {
        return Err(Fault::of(CONFIG, "--output socket wants --socket, too"));
    }
    let process = Process::start(&run, |config| config)?;
    let group = process.group.clone();
    let gives = form == Form::Socket;
    let _listening = match &run.socket {
        Some(path) => Some(control::serve(path, &group, gives, Command::done_by)?),
        None => None,
    };
    if let Some(address) = run.metrics {
        metrics::serve(address, &group, Vec::new)?;
    }
    let input = run.input.unwrap_or_default();
    if input != Reads::Nothing {
        read_input(&group, input == Reads::Commands)?;
    }
    process.go_on(form)?;
    process.is_lawful()
}

/// Leaves at SIGTERM and SIGINT, and ends at once at the second; opens the log again at SIGHUP.
fn heed(mut signals: Signals, process: &Process, log: Log) -> Result<(), Fault> {
    let (group, within) = (process.group.clone(), process.leave_within);
    std::thread::Builder::new()
        .name("signals".into())
        .spawn(move || {
            let mut was_asked = false;
            for signal in signals.forever() {
                if signal == SIGHUP {
                    if let Err(error) = log.reopen() {
                        tracing::error!("the log can't be opened again: {error}");
                    }
                    continue;
                }
                if was_asked {
                    std::process::exit(128 + signal);
                }
                was_asked = true;
                let group = group.clone();
                std::thread::spawn(move || {
                    if let Err(LeaveError::Timeout) = group.leave(within) {
                        tracing::error!(
                            "the member hasn't left within {} seconds",
                            within.as_secs()
                        );
                        std::process::exit(i32::from(TRY_AGAIN));
                    }
                });
            }
        })
        .map(|_| ())
        .map_err(|error| Fault::of(SYSTEM, error))
}

/// Reads standard input, and does what its lines say. At its end the member stops without leaving, once all is sent.
fn read_input(group: &Arc<Group>, are_commands: bool) -> Result<(), Fault> {
    let group = group.clone();
    std::thread::Builder::new()
        .name("input".into())
        .spawn(move || {
            let mut last: Option<Ticket> = None;
            for bytes in std::io::stdin().lock().split(b'\n') {
                let Ok(bytes) = bytes else {
                    tracing::error!("standard input can't be read");
                    break;
                };
                match of_input(&bytes, are_commands) {
                    // its answer isn't waited for: messages are packed while one is under way
                    Ok(Command::Send(message)) => match group.submit(message) {
                        Ok(ticket) => last = Some(ticket),
                        Err(error) => tracing::error!("a line wasn't sent: {error}"),
                    },
                    Ok(command) => {
                        let answer = command.done_by(&group);
                        if let Some(error) = answer.get("error") {
                            tracing::error!("{error}");
                        }
                    }
                    Err(fault) => tracing::error!("{}", fault.line),
                }
            }
            if let Some(Err(error)) = last.map(|ticket| ticket.wait()) {
                tracing::error!("the last line wasn't sent: {error}");
            }
            group.stop();
        })
        .map(|_| ())
        .map_err(|error| Fault::of(SYSTEM, error))
}

impl Process {
    /// Starts a member as the words say, and heeds signals: it leaves at SIGTERM and SIGINT, and opens the log again at SIGHUP.
    pub fn start(run: &Run, change: impl FnOnce(Config) -> Config) -> Result<Process, Fault> {
        let log = Log::to(run.log.as_deref())?;
        log.begin(run.log_form.unwrap_or_default());
        let is_void = Arc::new(AtomicBool::new(false));
        let found = is_void.clone();
        let config = run.group()?.on_notice(move |notice| {
            match notice {
                Notice::Group(_) | Notice::Heard(_) => tracing::info!("{notice}"),
                _ => tracing::warn!("{notice}"),
            }
            if matches!(notice, Notice::BeyondResilience(_)) {
                found.store(true, Ordering::SeqCst);
            }
        });
        let signals =
            Signals::new([SIGTERM, SIGINT, SIGHUP]).map_err(|error| Fault::of(SYSTEM, error))?;
        let process = Process {
            group: Arc::new(Group::start(change(config))?),
            leave_within: run.leave_within.map_or(LEAVE_WITHIN, Duration::from_secs),
            is_void,
        };
        heed(signals, &process, log)?;
        Ok(process)
    }

    /// An error if more members stopped than the resilience.
    pub fn is_lawful(&self) -> Result<(), Fault> {
        if self.is_void.load(Ordering::SeqCst) {
            let line = "more members stopped than the resilience, and nothing is claimed of this run from then on";
            return Err(Fault::of(VOID, line));
        }
        Ok(())
    }

    /// Until the member ends. Its deliveries are printed, if no caller at the socket is given them.
    fn go_on(&self, form: Form) -> Result<(), Fault> {
        let end = match form {
            Form::Socket => self.group.wait(),
            _ => self.print(form)?,
        };
        by_end(&end)
    }

    /// Prints deliveries until the member ends; how it ended.
    fn print(&self, form: Form) -> Result<End, Fault> {
        let mut out = std::io::stdout().lock();
        loop {
            let delivery = match self.group.receive() {
                Ok(delivery) => delivery,
                Err(ReceiveError::Ended(end)) => return Ok(end),
                Err(_) => continue,
            };
            let written = match form {
                Form::Lines => writeln!(out, "{}", line(&delivery)),
                Form::Json => writeln!(out, "{}", object(&delivery)),
                Form::Socket | Form::None => Ok(()),
            };
            written.and_then(|()| out.flush()).map_err(|error| {
                Fault::of(
                    IO,
                    format_args!("standard output can't be written: {error}"),
                )
            })?;
        }
    }
}
