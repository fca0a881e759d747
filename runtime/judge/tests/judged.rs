//! Journals of simulated runs are judged; journals that were changed are found wrong, and what is named is what was changed.

use muoswyld_judge::feed::Over;
use muoswyld_judge::{judge, Asked, Cause, Finding, Judged};
use muoswyld_member::Name;
use muoswyld_simulator::plan::FencedPlan;
use muoswyld_simulator::{journals, run, Plan};
use std::collections::BTreeMap;
use std::path::{Path, PathBuf};
use std::{env, fs};

const SEEDS: u64 = 8;

/// The program whose `play` is asked: MUOSWYLD_PLAY, or the one that is built here.
fn program() -> PathBuf {
    let top = Path::new(env!("CARGO_MANIFEST_DIR")).join("../..");
    let built = ["crates/am_sim/out/am_sim", "out/quick/am_sim"].map(|path| top.join(path));
    let named = env::var_os("MUOSWYLD_PLAY").map(PathBuf::from);
    named
        .into_iter()
        .chain(built)
        .find(|path| path.exists())
        .expect("no program plays: MUOSWYLD_PLAY names it, or `./muoswyld build` builds it")
}

/// A folder that is removed in the end.
struct Folder(PathBuf);

impl Folder {
    fn new(kind: &str) -> Folder {
        let folder = env::temp_dir().join(format!("muoswyld-judge-{kind}-{}", std::process::id()));
        fs::create_dir_all(&folder).expect("a folder");
        Folder(folder)
    }
}

impl Drop for Folder {
    fn drop(&mut self) {
        // what can't be removed stays
        let _ = fs::remove_dir_all(&self.0);
    }
}

type Journals = BTreeMap<Name, Vec<u8>>;

/// The journals of a plan.
fn journals_by(mut plan: Plan) -> Journals {
    plan.journal = true;
    run(&plan)
        .unwrap_or_else(|failure| panic!("{failure}"))
        .journals
}

/// The journals of a seed.
fn journals_of(seed: u64) -> Journals {
    journals_by(Plan::of(seed))
}

/// The journals of a seed's run in which more stop than the resilience allows, if its plan has a crash.
fn void_journals_of(seed: u64) -> Journals {
    let mut plan = Plan::of(seed);
    plan.is_lawful = false;
    plan.founding.resilience = 0;
    journals_by(plan)
}

/// What is judged of journals that are written to a folder.
fn judged(folder: &Path, all: &Journals, play: Option<PathBuf>) -> Result<Judged, Finding> {
    // what was there is of another run
    let _ = fs::remove_dir_all(folder);
    let asked = Asked {
        journals: journals::write(folder, all).expect("journals are written"),
        over: Over::new(true),
        play,
    };
    judge(&asked, &mut |_| ())
}

/// Judges journals with `play`, and gives from which event on nothing is claimed.
fn void_from(folder: &Folder, all: &Journals, seed: u64) -> Option<u64> {
    let found = judged(&folder.0.join("run"), all, Some(program()));
    let judged = found.unwrap_or_else(|finding| panic!("seed {seed}: {finding}"));
    let lines: usize = all
        .values()
        .map(|lines| lines.iter().filter(|byte| **byte == b'\n').count())
        .sum();
    assert!(judged.events >= (lines - 2 * all.len()) as u64);
    assert_eq!(judged.lives, all.len() as u64);
    assert!(judged.play.is_some(), "seed {seed} is too long");
    judged.void_from
}

#[test]
fn simulated_runs_are_judged_as_play_does() {
    let folder = Folder::new("runs");
    for seed in 1..=SEEDS {
        void_from(&folder, &journals_of(seed), seed);
    }
}

/// Members that find out by themselves who has stopped: what is held when a life was given up isn't in its journal.
#[test]
fn runs_without_a_word_from_outside_are_judged() {
    let folder = Folder::new("fenced");
    for seed in 1..=SEEDS {
        for fenced in [FencedPlan::echo(), FencedPlan::lease(100)] {
            let all = journals_by(Plan::fenced(seed, fenced));
            let found = judged(&folder.0.join("run"), &all, None);
            let judged = found.unwrap_or_else(|finding| panic!("seed {seed}: {finding}"));
            assert_eq!(judged.lives, all.len() as u64);
        }
    }
}

#[test]
fn runs_are_void_from_where_play_says() {
    let folder = Folder::new("void");
    let void = (1..=SEEDS).filter_map(|seed| void_from(&folder, &void_journals_of(seed), seed));
    assert!(void.count() > 2, "few runs were void");
}

/// Numbers that look random.
struct Draw(u64);

impl Draw {
    fn below(&mut self, bound: usize) -> usize {
        self.0 = self
            .0
            .wrapping_mul(6_364_136_223_846_793_005)
            .wrapping_add(1_442_695_040_888_963_407);
        (self.0 >> 33) as usize % bound
    }
}

/// What is changed in a journal.
#[derive(Clone, Copy, Debug, PartialEq, Eq, PartialOrd, Ord)]
enum Change {
    HeadName,
    HeadFounding,
    TimeBack,
    TimeNone,
    Asked,
    HeardName,
    HeardNumber,
    Outcome,
    LetterTo,
    LetterByte,
    LineGone,
    LineTwice,
    FieldMore,
}

const CHANGES: [Change; 13] = [
    Change::HeadName,
    Change::HeadFounding,
    Change::TimeBack,
    Change::TimeNone,
    Change::Asked,
    Change::HeardName,
    Change::HeardNumber,
    Change::Outcome,
    Change::LetterTo,
    Change::LetterByte,
    Change::LineGone,
    Change::LineTwice,
    Change::FieldMore,
];

/// A text with its last digit changed.
fn other_digit(text: &str) -> Option<String> {
    let last = text.chars().last()?;
    let other = if last == '1' { '2' } else { '1' };
    Some(format!("{}{other}", &text[..text.len() - last.len_utf8()]))
}

/// Changes the fields of a line; None if it has nothing of the kind.
fn changed(change: Change, fields: &mut [String]) -> Option<()> {
    let is_step = fields.len() == 4;
    match change {
        Change::TimeNone if is_step => fields[0] = "soon".to_string(),
        Change::TimeBack if is_step && fields[0] != "0" => fields[0] = "0".to_string(),
        Change::Asked if is_step && fields[1].starts_with("send ") => {
            fields[1] = other_digit(&fields[1])?
        }
        Change::HeardName if is_step && !fields[2].is_empty() => {
            fields[2] = format!("15/16 {}", fields[2].split(' ').nth(1)?)
        }
        Change::HeardNumber if is_step && !fields[2].is_empty() => fields[2].push_str("00000"),
        Change::Outcome if is_step => {
            fields[3] =
                fields[3].replacen(' ', "  ", 1) + if fields[3].contains(' ') { "" } else { "x" }
        }
        Change::LetterTo if is_step && fields[3].contains(" | ") => {
            fields[3] = fields[3].replacen(" | ", " | 1", 1)
        }
        Change::LetterByte if is_step && fields[3].contains(" | ") => {
            fields[3] = other_digit(&fields[3])?
        }
        Change::FieldMore if is_step => fields[3].push('\t'),
        Change::HeadName if fields[0] == "node" => fields[1] = "15/16".to_string(),
        Change::HeadFounding if fields[0] == "node" => {
            fields[4] = (fields[4].parse::<u16>().ok()? + 1).to_string()
        }
        _ => return None,
    }
    Some(())
}

/// Journals with one of them changed in a line, and that one; None if the line has nothing of the kind.
fn tampered(all: &Journals, change: Change, draw: &mut Draw) -> Option<(Journals, Name)> {
    let name = *all.keys().nth(draw.below(all.len()))?;
    let text = String::from_utf8(all[&name].clone()).ok()?;
    let mut lines: Vec<String> = text.lines().map(str::to_string).collect();
    let is_head = matches!(change, Change::HeadName | Change::HeadFounding);
    if lines.len() < 20 {
        return None;
    }
    // what follows on the last lines may be nothing
    let at = if is_head {
        0
    } else {
        2 + draw.below(lines.len() / 2)
    };
    match change {
        Change::LineGone if lines[at].contains(" | ") => drop(lines.remove(at)),
        Change::LineTwice if lines[at].contains(" | ") => lines.insert(at, lines[at].clone()),
        Change::LineGone | Change::LineTwice => return None,
        _ => {
            let mut fields: Vec<String> = lines[at].split('\t').map(str::to_string).collect();
            changed(change, &mut fields)?;
            lines[at] = fields.join("\t");
        }
    }
    let mut all = all.clone();
    all.insert(name, (lines.join("\n") + "\n").into_bytes());
    Some((all, name))
}

#[test]
fn what_is_changed_is_found() {
    let folder = Folder::new("changed");
    let mut draw = Draw(1);
    for seed in [2, 5, 11] {
        let all = journals_of(seed);
        for change in CHANGES.into_iter().cycle().take(3 * CHANGES.len()) {
            let drawn = (0..5000).find_map(|_| tampered(&all, change, &mut draw));
            let (journals, name) = drawn.unwrap_or_else(|| panic!("seed {seed} has no {change:?}"));
            let found = judged(&folder.0.join("run"), &journals, None);
            let finding = found.expect_err(&format!("{change:?} in {name} of seed {seed}"));
            let is_own = !matches!(
                change,
                Change::HeadName
                    | Change::HeadFounding
                    | Change::LineGone
                    | Change::LineTwice
                    | Change::Asked
            );
            let file = finding.file.file_name().unwrap_or_default();
            let own = format!("journal-{}", name.to_string().replace('/', "-"));
            let names_it = file.to_string_lossy() == own && finding.line > 1;
            assert!(!is_own || names_it, "{change:?} in {own}: {finding}");
        }
    }
}

#[test]
fn a_journal_that_is_missing_is_named() {
    let folder = Folder::new("missing");
    let mut all = journals_of(2);
    let gone = *all.keys().next().expect("a journal");
    all.remove(&gone);
    let finding = judged(&folder.0.join("run"), &all, None).expect_err("a journal is missing");
    let wanted = [
        matches!(finding.cause, Cause::NoSender { from, .. } if from == gone),
        finding.cause == Cause::NoJournal(gone),
        finding.cause == Cause::NotStopped(gone),
    ];
    assert!(wanted.contains(&true), "{finding}");
    let none = judged(&folder.0.join("run"), &Journals::new(), None);
    assert_eq!(
        none.map_err(|finding| finding.cause),
        Err(Cause::NoJournals)
    );
}

/// The lines cut into so many pieces by their times, each with what is new of each journal. A piece may end amid a line.
fn pieces(all: &Journals, count: u64) -> Vec<Journals> {
    let time_of = |line: &[u8]| -> Option<u64> {
        let text = String::from_utf8_lossy(line);
        text.split('\t').next()?.parse().ok()
    };
    let lines = |journal: &Vec<u8>| {
        journal
            .split_inclusive(|byte| *byte == b'\n')
            .map(<[u8]>::to_vec)
            .collect::<Vec<_>>()
    };
    let times = all
        .values()
        .flat_map(lines)
        .filter_map(|line| time_of(&line));
    let most = times.max().unwrap_or(0) + 1;
    let mut pieces = vec![Journals::new(); count as usize + 1];
    for (name, journal) in all {
        let mut piece = 0;
        let mut lines = lines(journal).into_iter().peekable();
        while let Some(line) = lines.next() {
            let next = lines.peek().and_then(|line| time_of(line));
            let time = time_of(&line).or(next);
            piece = time.map_or(piece, |time| (time * count / most) as usize);
            let half = line.len() / 2;
            let now = pieces[piece].entry(*name).or_default();
            now.extend(&line[..half]);
            // the last line of a piece is cut, and goes on in the next
            let is_last = next.is_some_and(|time| (time * count / most) as usize > piece);
            pieces[piece + usize::from(is_last)]
                .entry(*name)
                .or_default()
                .extend(&line[half..]);
        }
    }
    pieces
}

#[test]
fn members_are_followed_while_they_run() {
    let folder = Folder::new("followed");
    let all = journals_of(5);
    let whole = judged(&folder.0.join("whole"), &all, None).expect("it is as it should be");
    let run = folder.0.join("run");
    fs::create_dir_all(&run).expect("a folder");
    let asked = Asked {
        journals: vec![run.clone()],
        over: Over::new(false),
        play: None,
    };
    let follower = {
        let asked = asked.clone();
        std::thread::spawn(move || judge(&asked, &mut |_| ()))
    };
    for piece in pieces(&all, 7) {
        for (name, lines) in piece {
            let path = run.join(format!("journal-{}", name.to_string().replace('/', "-")));
            let mut file = fs::OpenOptions::new()
                .create(true)
                .append(true)
                .open(path)
                .expect("a file");
            std::io::Write::write_all(&mut file, &lines).expect("written");
        }
        std::thread::sleep(std::time::Duration::from_millis(150));
    }
    asked.over.set();
    let followed = follower
        .join()
        .expect("a judge")
        .expect("it is as it should be");
    assert_eq!(
        (followed.lives, followed.letters, followed.entries),
        (whole.lives, whole.letters, whole.entries)
    );
    // who isn't known to have stopped may still run
    assert!((followed.events..=followed.events + whole.lives).contains(&whole.events));
    assert_eq!(followed.void_from, None);
}
