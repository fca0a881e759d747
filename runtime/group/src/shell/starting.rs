//! What a member's thread is started with.

use crate::addresses::Addresses;
use crate::config::Config;
use crate::error::CreateError;
use crate::failures::Policy;
use crate::fencing::{self, Fencing};
use crate::seal::fill;
use crate::shared::Shared;
use crate::state::State;
use muoswyld_failures::Failures;
use muoswyld_guarded::Guarded;
use muoswyld_member::{Generations, Settings, Time};
use std::fs::{File, OpenOptions};
use std::io::ErrorKind;
use std::os::unix::fs::OpenOptionsExt;
use std::path::{Path, PathBuf};
use std::sync::Arc;

/// The addresses of a member's group, with its own to bind.
pub(super) fn checked(config: &Config) -> Result<(), CreateError> {
    for name in config.founding.founders.with(config.name).iter() {
        if config.addresses.of(name.place()).is_none() {
            return Err(CreateError::NoAddress(name.place()));
        }
    }
    if config.key.is_none() && !config.insecure {
        return Err(CreateError::NoKey);
    }
    config.check_failures()
}

/// Sixty-four random bits.
fn random_word() -> std::io::Result<u64> {
    let mut bytes = [0; 8];
    fill(&mut bytes)?;
    Ok(u64::from_be_bytes(bytes))
}

pub(super) fn settings_of(config: &Config) -> std::io::Result<Settings> {
    let mut settings = Settings::new(config.name, config.founding, random_word()?);
    settings.seed = random_word()?;
    settings.least = config.least;
    settings.most_waiting = config.most_waiting.max(1 << 17);
    settings.deliveries = config.most_unreceived;
    settings.datagram = config.datagram;
    settings.slow_tick = u64::try_from(config.tick.as_micros()).unwrap_or(u64::MAX);
    settings.journal = config.journal.is_some();
    settings.succeed_at = config.succeed_at;
    if let Some(list) = &config.list {
        settings.generation = list.generation;
        settings.group = Some(list.group);
        settings.before = Some(list.before);
    }
    Ok(settings)
}

/// The file of a journal for a list: of the first one the path itself.
fn path_of(path: &Path, generation: u32) -> PathBuf {
    match generation {
        0 => path.to_path_buf(),
        _ => {
            let mut path = path.as_os_str().to_os_string();
            path.push(format!(".{generation}"));
            PathBuf::from(path)
        }
    }
}

/// A new file for the journal of a list, that others can't read.
pub(super) fn journal_of(path: &Path, generation: u32) -> std::io::Result<File> {
    let path = &path_of(path, generation);
    let mut options = OpenOptions::new();
    options.write(true).create_new(true).mode(0o600);
    let cannot = |error: std::io::Error| match error.kind() {
        ErrorKind::AlreadyExists => "it is there, and a name never runs twice".to_string(),
        _ => error.to_string(),
    };
    options.open(path).map_err(|error| {
        let why = format!("the journal {}: {}", path.display(), cannot(error));
        std::io::Error::other(why)
    })
}

pub(super) fn own_address(config: &Config) -> Result<std::net::SocketAddr, CreateError> {
    let place = config.name.place();
    let addresses: &Addresses = &config.addresses;
    let own = config.bind.or_else(|| addresses.of(place));
    own.ok_or(CreateError::NoAddress(place))
}

/// What a member begins with: what guards it, what is done beside it, and its journal if it keeps one.
pub(super) type Begun = (Guarded, Fencing, Option<File>);

/// The place's folder of state, locked.
pub(super) fn state_of(config: &Config) -> Result<Option<State>, CreateError> {
    let taken = |folder| State::take(folder, config.name.place());
    Ok(config.failures.state.as_deref().map(taken).transpose()?)
}

/// A member that begins, what guards its place, and its journal. A name that doesn't begin has none. That the life begins is on disk before
/// anything of it can be seen.
pub(super) fn begun(
    settings: Settings,
    now: Time,
    config: &Config,
    shared: Arc<Shared>,
    mut state: Option<State>,
) -> Result<Begun, CreateError> {
    let core = config.failure_settings(settings.process)?;
    let member = Generations::new(settings.clone(), now)?;
    let voter = match &state {
        Some(state) => state.voter(config.generation())?,
        None => None,
    };
    let failures = Failures::new(core, voter.as_deref(), muoswyld_failures::Time(now.0))?;
    if let Some(state) = &mut state {
        state.begin(config.name, config.list.as_ref())?;
    }
    fencing::tell_start(&failures);
    let program = match config.failures.policy() {
        Policy::Command { program, .. } => Some(program),
        _ => None,
    };
    let fencing = Fencing::new(shared, state, program)?;
    let guarded = Guarded::new(member, failures, &settings);
    let journal = match &config.journal {
        Some(path) => Some(journal_of(path, config.generation())?),
        None => None,
    };
    Ok((guarded, fencing, journal))
}
