//! Some runs are judged: their journals are merged to a script, and the proved `play` must answer what the members' nodes did.

use muoswyld_member::Name;
use muoswyld_simulator::{journals, run, Plan};
use std::collections::BTreeMap;
use std::path::{Path, PathBuf};
use std::process::Command;
use std::{env, fs};

const SEEDS: u64 = 20;

/// The repository's top.
fn top() -> PathBuf {
    Path::new(env!("CARGO_MANIFEST_DIR")).join("../..")
}

/// The program that judges: MUOSWYLD_PLAY, or the one that is built here.
fn judge() -> PathBuf {
    let built = ["crates/am_sim/out/am_sim", "out/quick/am_sim"].map(|path| top().join(path));
    let named = env::var_os("MUOSWYLD_PLAY").map(PathBuf::from);
    named
        .into_iter()
        .chain(built)
        .find(|path| path.exists())
        .expect("no program judges: MUOSWYLD_PLAY names it, or `./muoswyld build` builds it")
}

/// A new folder for the journals of runs.
fn folder(kind: &str) -> PathBuf {
    env::temp_dir().join(format!("muoswyld-{kind}-{}", std::process::id()))
}

/// The journals of a seed.
fn journals_of(seed: u64) -> BTreeMap<Name, Vec<u8>> {
    let mut plan = Plan::of(seed);
    plan.journal = true;
    let report = run(&plan).unwrap_or_else(|failure| panic!("{failure}"));
    report.journals
}

/// Whether the judge agrees with the runs in some folders, and what it says.
fn judged(folders: &[PathBuf]) -> (bool, String) {
    let script = Path::new(env!("CARGO_MANIFEST_DIR")).join("tests/judge.py");
    let said = Command::new("python3")
        .env("PYTHONPATH", top().join("net"))
        .arg(script)
        .arg(judge())
        .args(folders)
        .output()
        .expect("python3 runs");
    let text = String::from_utf8_lossy(&said.stdout).into_owned();
    println!("{text}{}", String::from_utf8_lossy(&said.stderr));
    (said.status.success(), text)
}

#[test]
fn the_judge_answers_as_the_members_did() {
    let folder = folder("judged");
    let mut folders = Vec::new();
    for seed in 1..=SEEDS {
        let run_folder = folder.join(format!("seed-{seed}"));
        journals::write(&run_folder, &journals_of(seed)).expect("journals are written");
        folders.push(run_folder);
    }
    let (agrees, text) = judged(&folders);
    assert!(agrees);
    assert_eq!(text.matches("answers again").count() as u64, SEEDS);
    fs::remove_dir_all(&folder).expect("journals are removed");
}

#[test]
fn an_answer_that_is_changed_is_found() {
    let folder = folder("changed");
    let mut journals = journals_of(2);
    for lines in journals.values_mut() {
        let text = String::from_utf8_lossy(lines).replacen("\tticked", "\tidle", 1);
        *lines = text.into_bytes();
    }
    journals::write(&folder, &journals).expect("journals are written");
    let (agrees, text) = judged(std::slice::from_ref(&folder));
    assert!(!agrees);
    assert!(text.contains(" : idle"), "{text}");
    fs::remove_dir_all(&folder).expect("journals are removed");
}
