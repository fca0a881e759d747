//! What is free once a member's end is told.

mod common;

use common::{addresses, config, name};
use muoswyld_group::{CreateError, Group, StateError};
use std::net::{SocketAddr, UdpSocket};
use std::path::{Path, PathBuf};
use std::sync::{Arc, Mutex, PoisonError};

/// What a place's next life would find: whether it could bind the address, and what it is told of the folder.
type Found = (bool, Option<StateError>);

/// Looks at an address, and at a folder by starting the same life again, which is always refused.
fn look(all: &[SocketAddr], folder: &Path) -> Found {
    let is_free = UdpSocket::bind(all[0]).is_ok();
    let again = config("0", "0", all).state(folder.to_path_buf());
    let refused = match Group::start(again) {
        Err(CreateError::State(error)) => Some(error),
        _ => None,
    };
    (is_free, refused)
}

fn folder(of: &str) -> PathBuf {
    let folder = std::env::temp_dir().join(format!("ends-{of}-{}", std::process::id()));
    let _removed = std::fs::remove_dir_all(&folder);
    folder
}

/// Starts a lone member that looks, from its own thread, at what is free each time it tells of something: also at its end.
fn started(of: &str) -> (Group, PathBuf, Arc<Mutex<Vec<Found>>>) {
    let (all, folder) = (addresses(1, "127"), folder(of));
    let found: Arc<Mutex<Vec<Found>>> = Arc::default();
    let settings = config("0", "0", &all).state(folder.clone());
    Group::found(&settings).unwrap();
    let (into, looked) = (found.clone(), folder.clone());
    let group = Group::start(settings.on_arrival(move || {
        let seen = look(&all, &looked);
        into.lock()
            .unwrap_or_else(PoisonError::into_inner)
            .push(seen);
    }))
    .unwrap();
    (group, folder, found)
}

/// All that was seen while the member ran said that its place is taken, and what was seen at its end that it is free.
fn is_free_at_the_end(found: &Mutex<Vec<Found>>) {
    let mut found = found.lock().unwrap();
    let last = found.pop().unwrap();
    assert!(last.0, "the address isn't free");
    assert!(matches!(last.1, Some(StateError::Begun { .. })), "{last:?}");
    assert!(!found.is_empty());
    for (is_free, refused) in found.iter() {
        assert!(!is_free && matches!(refused, Some(StateError::Locked(_))));
    }
}

#[test]
fn an_address_and_a_folder_are_free_once_a_stop_is_told() {
    let (group, folder, found) = started("stop");
    assert_eq!(group.name(), name("0"));
    group.stop();
    group.wait();
    drop(group);
    is_free_at_the_end(&found);
    std::fs::remove_dir_all(folder).unwrap();
}

#[test]
fn an_address_and_a_folder_are_free_once_a_leave_is_told() {
    let (group, folder, found) = started("leave");
    group.leave(common::SOON).unwrap();
    drop(group);
    is_free_at_the_end(&found);
    std::fs::remove_dir_all(folder).unwrap();
}
