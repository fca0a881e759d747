//! Tests of a place's folder of state.

use super::*;
use crate::later::list;

struct Folder(PathBuf);

impl Folder {
    fn new(test: &str) -> Folder {
        let path = std::env::temp_dir().join(format!("state-{test}-{}", std::process::id()));
        let _removed = fs::remove_dir_all(&path);
        Folder(path)
    }
}

impl Drop for Folder {
    fn drop(&mut self) {
        let _removed = fs::remove_dir_all(&self.0);
    }
}

fn name(text: &str) -> Name {
    text.parse().expect("the folder")
}

#[test]
fn a_life_is_begun_once_and_the_next_one_is_known() {
    let folder = Folder::new("life");
    assert!(matches!(
        State::take(&folder.0, 2),
        Err(StateError::None(_))
    ));
    State::make(&folder.0, name("2"), Some([7; 16])).expect("the folder");
    assert!(matches!(
        State::make(&folder.0, name("2"), None),
        Err(StateError::There(_))
    ));
    assert_eq!(
        next_life(&folder.0, 2).expect("the folder"),
        (name("2"), None)
    );
    let mut state = State::take(&folder.0, 2).expect("the folder");
    assert_eq!(
        state.voter(0).expect("the folder").expect("the folder"),
        new_file([7; 16], 2)
    );
    state.begin(name("2"), None).expect("the folder");
    let again = state.begin(name("2"), None).unwrap_err();
    assert!(again.to_string().contains("the next one is 2/2"), "{again}");
    drop(state);
    let mut later = State::take(&folder.0, 2).expect("the folder");
    assert!(later.begin(name("2"), None).is_err());
    later.begin(name("2/16"), None).expect("the folder");
    assert!(later.begin(name("2/16"), None).is_err());
    drop(later);
    assert!(next_life(&folder.0, 2).is_err());
}

#[test]
fn two_processes_of_a_place_do_not_run() {
    let folder = Folder::new("lock");
    State::make(&folder.0, name("1"), None).expect("the folder");
    let one = State::take(&folder.0, 1).expect("the folder");
    let other = State::take(&folder.0, 1);
    assert!(matches!(other, Err(StateError::Locked(_))));
    drop(one);
    assert!(State::take(&folder.0, 1).is_ok());
    assert!(matches!(
        State::take(&folder.0, 2),
        Err(StateError::OtherPlace { place: 1, .. })
    ));
}

#[test]
fn a_place_that_comes_back_without_its_disk_does_not_vote() {
    let folder = Folder::new("disk");
    State::make(&folder.0, name("0/3"), Some([7; 16])).expect("the folder");
    let mut state = State::take(&folder.0, 0).expect("the folder");
    assert_eq!(state.voter(0).expect("the folder"), None);
    assert!(state.begin(name("0/2"), None).is_err());
    state.begin(name("0/3"), None).expect("the folder");
}

#[test]
fn a_spoilt_file_of_lives_is_refused() {
    let folder = Folder::new("spoilt");
    State::make(&folder.0, name("0"), None).expect("the folder");
    for text in [
        "",
        "place 0 life 17\n",
        "place 0 life 1",
        "place 00 life 1\n",
        "\0\0",
    ] {
        fs::write(folder.0.join(LIFE), text).expect("the folder");
        let taken = State::take(&folder.0, 0);
        assert!(matches!(taken, Err(StateError::Spoilt(_))), "{text:?}");
    }
}

#[test]
fn a_voters_file_is_replaced_as_a_whole() {
    let folder = Folder::new("voter");
    State::make(&folder.0, name("0"), Some([1; 16])).expect("the folder");
    let state = State::take(&folder.0, 0).expect("the folder");
    state.write_voter(0, b"other").expect("the folder");
    assert_eq!(
        state.voter(0).expect("the folder").expect("the folder"),
        b"other"
    );
    assert!(!folder.0.join("voter.new").exists());
}

#[test]
fn the_next_list_begins_beside_the_one_that_ends() {
    let folder = Folder::new("lists");
    State::make(&folder.0, name("1"), Some([1; 16])).expect("the folder");
    let mut state = State::take(&folder.0, 1).expect("the folder");
    state.begin(name("1"), None).expect("the folder");
    state
        .succeed(&list(1), Some(b"voter of 1"))
        .expect("the folder");
    assert_eq!(
        state.voter(0).expect("the folder").expect("the folder"),
        new_file([1; 16], 1)
    );
    assert_eq!(
        state.voter(1).expect("the folder").expect("the folder"),
        b"voter of 1"
    );
    state.write_voter(1, b"more of 1").expect("the folder");
    drop(state);
    // a place that comes back begins in the latest one
    let state = State::take(&folder.0, 1).expect("the folder");
    assert_eq!((state.generation(), state.list()), (1, Some(list(1))));
    assert_eq!(
        state.voter(1).expect("the folder").expect("the folder"),
        b"more of 1"
    );
    drop(state);
    let next = next_life(&folder.0, 1).expect("the folder");
    assert_eq!(next, (name("1/2"), Some(list(1))));
    let mut state = State::take(&folder.0, 1).expect("the folder");
    let old = state.begin(name("1/2"), None).unwrap_err();
    assert!(matches!(old, StateError::Later { latest: 1, .. }), "{old}");
    let again = state.begin(name("1"), Some(&list(1))).unwrap_err();
    assert!(matches!(again, StateError::Begun { .. }), "{again}");
    state
        .begin(name("1/2"), Some(&list(1)))
        .expect("the folder");
    assert_eq!(
        state.voter(1).expect("the folder").expect("the folder"),
        b"more of 1"
    );
    assert_eq!(state.voter(0).expect("the folder"), None);
    // its peers know a later one, in which it doesn't vote
    state.write_voter(3, b"of no list").expect("the folder");
    state
        .begin(name("1/4"), Some(&list(3)))
        .expect("the folder");
    assert_eq!(state.voter(3).expect("the folder"), None);
    drop(state);
    let names = fs::read_dir(&folder.0).expect("the folder");
    let mut names: Vec<_> = names
        .map(|entry| entry.expect("the folder").file_name())
        .collect();
    names.sort();
    assert_eq!(names, ["life.3", "lock"]);
    let next = next_life(&folder.0, 1).expect("the folder");
    assert_eq!(next, (name("1/5"), Some(list(3))));
    let made = State::make(&folder.0, name("1"), None);
    assert!(matches!(made, Err(StateError::There(_))));
}

#[test]
fn a_list_that_was_not_written_whole_did_not_begin() {
    let folder = Folder::new("cut");
    State::make(&folder.0, name("1"), None).expect("the folder");
    let mut state = State::take(&folder.0, 1).expect("the folder");
    state.begin(name("1"), None).expect("the folder");
    // the machine stopped after the voter's file
    state.write_voter(1, b"voter").expect("the folder");
    fs::write(folder.0.join("life.1.new"), "place 1").expect("the folder");
    drop(state);
    let next = next_life(&folder.0, 1).expect("the folder");
    assert_eq!(next, (name("1/2"), None));
}

#[test]
fn each_byte_of_a_later_lists_file_counts() {
    let folder = Folder::new("bytes");
    State::make(&folder.0, name("1"), None).expect("the folder");
    let state = State::take(&folder.0, 1).expect("the folder");
    state.succeed(&list(2), None).expect("the folder");
    drop(state);
    let path = folder.0.join("life.2");
    let bytes = fs::read(&path).expect("the folder");
    for at in 0..bytes.len() {
        let mut other = bytes.clone();
        other[at] ^= 1;
        fs::write(&path, &other).expect("the folder");
        let taken = State::take(&folder.0, 1);
        assert!(matches!(taken, Err(StateError::Spoilt(_))), "byte {at}");
        fs::write(&path, &bytes[..at]).expect("the folder");
        let taken = State::take(&folder.0, 1);
        assert!(matches!(taken, Err(StateError::Spoilt(_))), "cut at {at}");
    }
    // another list's file by another name
    fs::write(folder.0.join("life.3"), &bytes).expect("the folder");
    fs::write(&path, &bytes).expect("the folder");
    let taken = State::take(&folder.0, 1);
    assert!(matches!(taken, Err(StateError::Spoilt(_))));
}

#[test]
fn what_a_killed_process_left_goes_once_the_next_life_begins() {
    let folder = Folder::new("left");
    State::make(&folder.0, name("1"), Some([1; 16])).expect("the folder");
    let mut state = State::take(&folder.0, 1).expect("the folder");
    state.begin(name("1"), None).expect("the folder");
    drop(state);
    // killed amid the writes with which list 1 begins; and files that aren't the program's
    let left = ["voter.new", "voter.1", "voter.1.new", "life.1.new"];
    let others = ["voter.x", "notes.new"];
    for name in left.iter().chain(&others) {
        fs::write(folder.0.join(name), "something").expect("the folder");
    }
    let names = || {
        let mut names = names_in(&folder.0).expect("the folder");
        names.sort();
        names
    };
    let mut state = State::take(&folder.0, 1).expect("the folder");
    state.begin(name("1/2"), None).expect("the folder");
    assert_eq!(
        state.voter(0).expect("the folder").expect("the folder"),
        new_file([1; 16], 1)
    );
    assert_eq!(names(), ["life", "lock", "notes.new", "voter", "voter.x"]);
    for name in left {
        fs::write(folder.0.join(name), "something").expect("the folder");
    }
    // list 2 is the latest one that others know
    state
        .begin(name("1/2"), Some(&list(2)))
        .expect("the folder");
    assert_eq!(names(), ["life.2", "lock", "notes.new", "voter.x"]);
}
