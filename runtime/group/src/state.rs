//! A place's folder of state: its lock, and for each list of the group that it serves the last life that was begun, and its voter's file.
//!
//! What is written is written beside the old file, synced, and renamed, and the folder is synced: so a file is the old one or the new
//! one, whenever the machine stops. The disk is a local one.
//!
//! The files of a group's first list are `life` and `voter`, those of the list of generation 2 are `life.2` and `voter.2`. A folder of an
//! earlier version of this program has the first two alone. A life's file of a later list says which list that is, too; it is written after
//! the voter's file, and a list was begun if it is there. The files of an ended list are removed once the place doesn't serve it any more.
//! What a process left that was killed amid a write is removed when the place's next life begins.

use crate::later::LaterList;
use crate::life::{file_of, generation_of, line_of, Begun, LIFE};
use muoswyld::names::Name;
use muoswyld_failures::new_file;
use std::collections::BTreeMap;
use std::fs::{self, DirBuilder, File, OpenOptions};
use std::io::{self, ErrorKind, Read, Write};
use std::os::fd::AsRawFd;
use std::os::unix::fs::{DirBuilderExt, OpenOptionsExt};
use std::path::{Path, PathBuf};
use thiserror::Error;

const LOCK: &str = "lock";
const VOTER: &str = "voter";
/// What the name of a file ends with that is being written.
const NEW: &str = ".new";
/// How many bytes of a file are read: more than each of them has.
const MOST_BYTES: u64 = 4096;

/// Why a folder of state isn't made, or isn't taken.
#[derive(Debug, Error)]
#[non_exhaustive]
pub enum StateError {
    /// There is no such folder, or it has no state.
    #[error("{0} has no state of a place: make it once, when the group is founded")]
    None(PathBuf),
    /// The folder has a state already.
    #[error("{0} has the state of a place already: it is made once")]
    There(PathBuf),
    /// Another process of the place runs.
    #[error("{0} is locked: another process of the place runs")]
    Locked(PathBuf),
    /// It is another place's.
    #[error("{folder} is the state of place {place}")]
    OtherPlace {
        /// The folder.
        folder: PathBuf,
        /// Whose it is.
        place: u8,
    },
    /// This life, or a later one, was begun already.
    #[error("{name} was begun already, and a life never runs twice: the next one is {next}")]
    Begun {
        /// The life.
        name: Name,
        /// The next one, or that there is none.
        next: String,
    },
    /// A list of the group was begun already that follows the one in which a life was to begin.
    #[error(
        "{folder} says that the list of generation {latest} was begun: --next-life begins there"
    )]
    Later {
        /// The folder.
        folder: PathBuf,
        /// The latest list that was begun.
        latest: u32,
    },
    /// A file isn't what was written.
    #[error("{0} isn't what a member wrote: end the use of this folder, and take a life that was never begun")]
    Spoilt(PathBuf),
    /// The system refused a read or a write.
    #[error("{path}: {error}")]
    System {
        /// The file.
        path: PathBuf,
        /// What it said.
        error: io::Error,
    },
}

fn cannot(path: &Path) -> impl Fn(io::Error) -> StateError + '_ {
    |error| StateError::System {
        path: path.to_path_buf(),
        error,
    }
}

/// Syncs what a folder lists.
fn sync_folder(folder: &Path) -> io::Result<()> {
    File::open(folder)?.sync_all()
}

/// Writes a file beside the old one, syncs it, renames it, and syncs the folder. Only then is it there.
fn replace(folder: &Path, name: &str, bytes: &[u8]) -> io::Result<()> {
    let new = folder.join(format!("{name}{NEW}"));
    let mut options = OpenOptions::new();
    options.write(true).create(true).truncate(true).mode(0o600);
    let mut file = options.open(&new)?;
    file.write_all(bytes)?;
    file.sync_all()?;
    fs::rename(&new, folder.join(name))?;
    sync_folder(folder)
}

/// The bytes of a file; None if it isn't there.
fn read(path: &Path) -> Result<Option<Vec<u8>>, StateError> {
    let mut bytes = Vec::new();
    let read = File::open(path).and_then(|file| file.take(MOST_BYTES).read_to_end(&mut bytes));
    match read {
        Ok(_) => Ok(Some(bytes)),
        Err(error) if error.kind() == ErrorKind::NotFound => Ok(None),
        Err(error) => Err(cannot(path)(error)),
    }
}

/// A place's folder of state. While this value lives no other process has it.
#[derive(Debug)]
pub(crate) struct State {
    folder: PathBuf,
    place: u8,
    /// The lists that were begun and not closed, one at least.
    lists: BTreeMap<u32, Begun>,
    /// It holds the lock, which goes with the process however that ends.
    lock: File,
}

/// The names of the files in a folder; none if it isn't there.
fn names_in(folder: &Path) -> Result<Vec<String>, StateError> {
    let entries = match fs::read_dir(folder) {
        Ok(entries) => entries,
        Err(error) if error.kind() == ErrorKind::NotFound => return Ok(Vec::new()),
        Err(error) => return Err(cannot(folder)(error)),
    };
    let mut found = Vec::new();
    for entry in entries {
        let name = entry.map_err(cannot(folder))?.file_name();
        found.extend(name.into_string().ok());
    }
    Ok(found)
}

/// The lists whose lives' files are in a folder.
fn generations_in(folder: &Path) -> Result<Vec<u32>, StateError> {
    let names = names_in(folder)?;
    let lives = names.iter().filter_map(|name| generation_of(LIFE, name));
    let mut found: Vec<u32> = lives.collect();
    found.sort_unstable();
    Ok(found)
}

impl Drop for State {
    /// Lets another process of the place run. A child that was begun meanwhile may have the descriptor for a moment still, so it isn't enough to
    /// close it.
    fn drop(&mut self) {
        // SAFETY: the descriptor is open as long as the file is kept, and the call takes no pointers.
        unsafe { libc::flock(self.lock.as_raw_fd(), libc::LOCK_UN) };
    }
}

impl State {
    /// Makes a folder of state of a name that is about to run for the first time. A founder's first life that votes has a voter's file
    /// of this id in it. It is made once for each place of a group: a second one would forget what the first one has refused.
    pub(crate) fn make(
        folder: &Path,
        name: Name,
        voter: Option<[u8; 16]>,
    ) -> Result<(), StateError> {
        let made = DirBuilder::new().recursive(true).mode(0o700).create(folder);
        made.map_err(cannot(folder))?;
        if !generations_in(folder)?.is_empty() || folder.join(VOTER).exists() {
            return Err(StateError::There(folder.to_path_buf()));
        }
        if let Some(id) = voter.filter(|_| name.life() == 1) {
            let file = new_file(id, name.place());
            replace(folder, VOTER, &file).map_err(cannot(&folder.join(VOTER)))?;
        }
        let line = line_of(name.place(), name.life() - 1);
        replace(folder, LIFE, line.as_bytes()).map_err(cannot(&folder.join(LIFE)))?;
        let parent = folder.parent().filter(|it| !it.as_os_str().is_empty());
        let parent = parent.unwrap_or(Path::new("."));
        sync_folder(parent).map_err(cannot(parent))
    }

    /// Takes a place's folder, which no other process has.
    pub(crate) fn take(folder: &Path, place: u8) -> Result<State, StateError> {
        let path = folder.join(LOCK);
        if generations_in(folder)?.is_empty() {
            return Err(StateError::None(folder.to_path_buf()));
        }
        let mut options = OpenOptions::new();
        options.write(true).create(true).truncate(false).mode(0o600);
        let lock = options.open(&path).map_err(cannot(&path))?;
        // SAFETY: the descriptor is open, and the call takes no pointers.
        let locked = unsafe { libc::flock(lock.as_raw_fd(), libc::LOCK_EX | libc::LOCK_NB) };
        if locked != 0 {
            let error = io::Error::last_os_error();
            return Err(match error.kind() {
                ErrorKind::WouldBlock => StateError::Locked(folder.to_path_buf()),
                _ => cannot(&path)(error),
            });
        }
        let mut lists = BTreeMap::new();
        // read once no other process writes them
        for generation in generations_in(folder)? {
            let path = folder.join(file_of(LIFE, generation));
            let bytes = read(&path)?.unwrap_or_default();
            let begun = Begun::of(&bytes, generation).ok_or(StateError::Spoilt(path))?;
            if begun.place != place {
                return Err(StateError::OtherPlace {
                    folder: folder.to_path_buf(),
                    place: begun.place,
                });
            }
            lists.insert(generation, begun);
        }
        if lists.is_empty() {
            return Err(StateError::None(folder.to_path_buf()));
        }
        Ok(State {
            folder: folder.to_path_buf(),
            place,
            lists,
            lock,
        })
    }

    /// How many lists came before the latest one that was begun here.
    pub(crate) fn generation(&self) -> u32 {
        self.lists.keys().next_back().copied().unwrap_or(0)
    }

    /// The latest list that was begun here; None if that is the group's first one.
    pub(crate) fn list(&self) -> Option<LaterList> {
        self.lists.get(&self.generation()).and_then(|it| it.list)
    }

    /// The place's next life in a list; None after life 16.
    pub(crate) fn next(&self, generation: u32) -> Option<Name> {
        let last = self.lists.get(&generation).map_or(0, |it| it.life);
        Name::new(self.place, last + 1)
    }

    /// Begins a life that was never begun, in a list: that is on disk before this returns. A list that follows the latest one that was begun
    /// here is begun by this; the place doesn't vote there.
    pub(crate) fn begin(&mut self, name: Name, list: Option<&LaterList>) -> Result<(), StateError> {
        let generation = list.map_or(0, |list| list.generation);
        let latest = self.generation();
        if generation < latest {
            let folder = self.folder.clone();
            return Err(StateError::Later { folder, latest });
        }
        let last = self.lists.get(&generation).map_or(0, |it| it.life);
        if name.life() <= last {
            let next = self.next(generation);
            let next = next.map_or("none".into(), |next| next.to_string());
            return Err(StateError::Begun { name, next });
        }
        if generation > latest {
            // one that was written, and its list not begun
            self.remove(VOTER, generation)?;
        }
        let begun = Begun {
            place: self.place,
            life: name.life(),
            list: list.copied(),
        };
        self.write(&begun)?;
        self.lists.insert(generation, begun);
        // a process that begins serves no earlier list
        while let Some((&earlier, _)) = self.lists.range(..generation).next() {
            self.close(earlier)?;
            self.lists.remove(&earlier);
        }
        self.sweep(generation)
    }

    /// Removes what an earlier process left that was killed amid a write: files that weren't whole, and voters' files of lists in which no life
    /// began. A process begins in this list.
    ///
    /// No safety rests on this. A file that isn't whole is read by nobody. Where no life began nothing went out, so such a voter's file has
    /// refused nobody: a place that voted with it would say nothing false, and one that comes there by an end writes the same file anew. What
    /// safety rests on is that the voter's file of this very list stays.
    fn sweep(&self, generation: u32) -> Result<(), StateError> {
        for name in names_in(&self.folder)? {
            let whole = name.strip_suffix(NEW).unwrap_or(&name);
            let votes_in = generation_of(VOTER, whole);
            let is_own = votes_in.or(generation_of(LIFE, whole)).is_some();
            let is_of_another = votes_in.is_some_and(|of| of != generation);
            if is_of_another || is_own && whole != name {
                self.remove_file(&name)?;
            }
        }
        Ok(())
    }

    /// Begins the next list with the first life of the place, and with its voter's file if it votes there: both are on disk before this
    /// returns.
    pub(crate) fn succeed(&self, list: &LaterList, voter: Option<&[u8]>) -> Result<(), StateError> {
        match voter {
            Some(bytes) => {
                let path = self.folder.join(file_of(VOTER, list.generation));
                let written = self.write_voter(list.generation, bytes);
                written.map_err(cannot(&path))?;
            }
            None => self.remove(VOTER, list.generation)?,
        }
        self.write(&Begun {
            place: self.place,
            life: 1,
            list: Some(*list),
        })
    }

    fn write(&self, begun: &Begun) -> Result<(), StateError> {
        let file = file_of(LIFE, begun.list.map_or(0, |list| list.generation));
        let path = self.folder.join(&file);
        replace(&self.folder, &file, begun.text().as_bytes()).map_err(cannot(&path))
    }

    fn remove(&self, kind: &str, generation: u32) -> Result<(), StateError> {
        self.remove_file(&file_of(kind, generation))
    }

    fn remove_file(&self, name: &str) -> Result<(), StateError> {
        let path = self.folder.join(name);
        match fs::remove_file(&path) {
            Ok(()) => sync_folder(&self.folder).map_err(cannot(&self.folder)),
            Err(error) if error.kind() == ErrorKind::NotFound => Ok(()),
            Err(error) => Err(cannot(&path)(error)),
        }
    }

    /// Removes the files of a list that the place doesn't serve any more. A later one was begun.
    pub(crate) fn close(&self, generation: u32) -> Result<(), StateError> {
        self.remove(VOTER, generation)?;
        self.remove(LIFE, generation)
    }

    /// The bytes of the voter's file of a list, if there is one.
    pub(crate) fn voter(&self, generation: u32) -> Result<Option<Vec<u8>>, StateError> {
        read(&self.folder.join(file_of(VOTER, generation)))
    }

    /// Writes the voter's file of a list: it is on disk, and the folder's entry too, before this returns.
    pub(crate) fn write_voter(&self, generation: u32, bytes: &[u8]) -> io::Result<()> {
        replace(&self.folder, &file_of(VOTER, generation), bytes)
    }
}

/// The next life of a place that has this folder of state, one that was never begun, and the list in which that is; None if it is the group's
/// first one. It is an error if the place has no life left there.
pub fn next_life(folder: &Path, place: u8) -> Result<(Name, Option<LaterList>), StateError> {
    let state = State::take(folder, place)?;
    let generation = state.generation();
    let last = state.lists.get(&generation).map_or(0, |it| it.life);
    let next = state.next(generation).ok_or_else(|| StateError::Begun {
        name: Name::new(place, last).unwrap_or(Name::of_byte(place)),
        next: "none".into(),
    })?;
    Ok((next, state.list()))
}

#[cfg(test)]
mod tests;
