//! Journals of a group whose lists follow one another are judged, each list by itself and the end between two; what is changed is found.

use muoswyld_judge::feed::Over;
use muoswyld_judge::{judge, Asked, Cause, Finding, Judged};
use muoswyld_member::{
    Before, Founding, Generations, Input, Name, Next, Output, Released, Settings, Successor, Time,
};
use std::collections::{BTreeMap, VecDeque};
use std::io::Write;
use std::path::{Path, PathBuf};
use std::{env, fs, thread};

/// The program whose `play` is asked: MUOSWYLD_PLAY, or the one that is built here.
fn program() -> PathBuf {
    let top = Path::new(env!("CARGO_MANIFEST_DIR")).join("../..");
    let built = ["crates/am_sim/out/am_sim", "out/quick/am_sim"].map(|path| top.join(path));
    let named = env::var_os("MUOSWYLD_PLAY").map(PathBuf::from);
    let mut all = named.into_iter().chain(built);
    all.find(|path| path.exists())
        .expect("no program plays: MUOSWYLD_PLAY names it, or `./muoswyld build` builds it")
}

/// A folder that is removed in the end.
struct Folder(PathBuf);

impl Folder {
    fn new(kind: &str) -> Folder {
        let name = format!("muoswyld-judge-lists-{kind}-{}", std::process::id());
        let folder = env::temp_dir().join(name);
        fs::create_dir_all(&folder).expect("a folder");
        Folder(folder)
    }
}

impl Drop for Folder {
    fn drop(&mut self) {
        // what can't be removed stays
        let _ = fs::remove_dir_all(&self.0);
    }
}

/// Journals by generation and name.
type Journals = BTreeMap<(u32, Name), Vec<u8>>;

/// A process of a group.
struct Process {
    place: u8,
    member: Generations,
    names: BTreeMap<u32, Name>,
    tickets: u64,
    delivered: usize,
}

/// A group over a network that loses nothing, on virtual time.
struct World {
    now: u64,
    processes: Vec<Process>,
    wire: VecDeque<(u8, Vec<u8>)>,
    journals: Journals,
    last: Option<(Successor, Before)>,
}

impl World {
    fn new() -> World {
        let founding = Founding {
            founders: "0,1,2".parse().expect("names"),
            resilience: 1,
            window: 64,
            pb_up_to: 1024,
        };
        let mut world = World {
            now: 1,
            processes: Vec::new(),
            wire: VecDeque::new(),
            journals: Journals::new(),
            last: None,
        };
        for name in founding.founders.iter() {
            world.start(Settings::new(name, founding, u64::from(name.place()) + 1));
        }
        world
    }

    fn start(&mut self, mut settings: Settings) {
        settings.journal = true;
        settings.least = Some(1);
        let (place, generation) = (settings.name.place(), settings.generation);
        let names = BTreeMap::from([(generation, settings.name)]);
        self.processes.push(Process {
            place,
            member: Generations::new(settings, Time(self.now)).expect("a member"),
            names,
            tickets: 0,
            delivered: 0,
        });
    }

    /// Starts a life of a place in the latest list.
    fn join(&mut self, name: &str) {
        let (successor, before) = self.last.clone().expect("a list that follows another one");
        let name: Name = name.parse().expect("a name");
        let mut settings = Settings::new(name, successor.founding, 100 + self.now);
        settings.generation = successor.at.generation + 1;
        settings.group = Some(successor.group);
        settings.before = Some(before);
        self.start(settings);
    }

    fn release(&mut self, k: usize) {
        let mut out = Vec::new();
        let process = &mut self.processes[k];
        process.member.release(Time(self.now), &mut out);
        let mut taken = 0;
        for Released { generation, output } in out {
            match output {
                Output::Journal(lines) => {
                    let name = process.names[&generation];
                    let journal = self.journals.entry((generation, name)).or_default();
                    journal.extend(lines);
                }
                Output::Datagram { to, payload } => {
                    let places = to.iter().map(|name| (name.place(), payload.clone()));
                    self.wire.extend(places);
                }
                Output::Deliver(_) => taken += 1,
                Output::Succeeded(next) => {
                    let name = Name::first(process.place).expect("a name");
                    process.names.insert(generation + 1, name);
                    let head = &self.journals[&(generation, process.names[&generation])];
                    let text = String::from_utf8_lossy(head);
                    let said: Vec<&str> = text
                        .lines()
                        .next()
                        .unwrap_or_default()
                        .split('\t')
                        .collect();
                    let said = said
                        .get(7)
                        .map(|group| u64::from_str_radix(group, 16).expect("an id"));
                    let group = said
                        .or(process.member.current().info().group)
                        .unwrap_or_default();
                    let number = next.at.number;
                    let before = Before { group, number };
                    self.last.get_or_insert((next.clone(), before));
                    if self
                        .last
                        .as_ref()
                        .is_some_and(|(last, _)| last.at < next.at)
                    {
                        self.last = Some((next, before));
                    }
                }
                Output::Ended(end) => panic!("{} ended: {end:?}", process.place),
                Output::Settled { .. } | Output::ResetDone { .. } | Output::Told(_) => {}
            }
        }
        process.delivered += taken;
        if taken > 0 {
            // only messages can be refused
            let _taken = process
                .member
                .handle(Time(self.now), Input::Consumed(taken));
        }
    }

    fn give(&mut self, place: u8, input: Input) {
        let now = Time(self.now);
        let found = self
            .processes
            .iter()
            .position(|process| process.place == place);
        let k = found.expect("a process");
        self.processes[k]
            .member
            .handle(now, input)
            .expect("it is taken");
        self.release(k);
    }

    /// Has the group do what there is to be done, for so long.
    fn run(&mut self, micros: u64) {
        let until = self.now + micros;
        while self.now < until {
            self.now += 20;
            if let Some((to, payload)) = self.wire.pop_front() {
                let k = self
                    .processes
                    .iter()
                    .position(|process| process.place == to);
                if let Some(k) = k {
                    let now = Time(self.now);
                    // only messages can be refused
                    let _taken = self.processes[k]
                        .member
                        .handle(now, Input::Datagram(&payload));
                    self.release(k);
                }
                continue;
            }
            let wakes = self.processes.iter().map(|process| process.member.wake().0);
            self.now = self.now.max(wakes.min().unwrap_or(until)).min(until);
            for k in 0..self.processes.len() {
                let now = Time(self.now);
                if self.processes[k].member.wake() <= now {
                    // only messages can be refused
                    let _taken = self.processes[k].member.handle(now, Input::Time);
                    self.release(k);
                }
            }
        }
    }

    fn send(&mut self) {
        for k in 0..self.processes.len() {
            let process = &mut self.processes[k];
            process.tickets += 1;
            let (place, ticket) = (process.place, process.tickets);
            let message = format!("message {ticket} of {place}").into_bytes();
            self.give(place, Input::Send { ticket, message });
        }
    }

    /// Ends the list, with another window; all old nodes are closed after it.
    fn succeed(&mut self, window: u16) {
        let before = self.processes[0].member.generation();
        self.give(1, Input::Succeed(next(window)));
        self.send();
        self.run(3_000_000);
        for process in &self.processes {
            assert_eq!(process.member.generation(), before + 1);
            assert_eq!(process.member.ended_lists(), 0);
        }
        self.end(before);
    }

    /// Ends the journals of a list whose nodes are closed.
    fn end(&mut self, generation: u32) {
        let running: Vec<Name> = self
            .processes
            .iter()
            .filter_map(|process| process.names.get(&generation))
            .copied()
            .collect();
        for ((of, name), journal) in &mut self.journals {
            if *of == generation && running.contains(name) {
                journal.extend(b"end\n");
            }
        }
    }
}

fn next(window: u16) -> Next {
    Next {
        resilience: 1,
        window,
        pb_up_to: 1024,
        voters: None,
    }
}

/// The journals of a group that has three lists: a place stops in the second one, and comes back in the third.
fn journals() -> Journals {
    let mut world = World::new();
    world.run(500_000);
    world.send();
    world.run(500_000);
    world.succeed(32);
    world.send();
    world.run(200_000);
    world.processes.remove(2);
    for place in [0, 1] {
        let name = "2".parse().expect("a name");
        world.give(place, Input::Stopped(name));
    }
    world.run(3_000_000);
    world.send();
    world.run(1_000_000);
    world.succeed(16);
    world.join("2/2");
    world.run(3_000_000);
    world.send();
    world.run(1_000_000);
    assert_eq!(world.processes[2].names[&2].to_string(), "2/2");
    assert!(world.processes.iter().all(|process| process.delivered > 2));
    world.end(2);
    world.journals
}

fn file_of(generation: u32, name: Name) -> String {
    let name = name.to_string().replace('/', "-");
    match generation {
        0 => format!("journal-{name}"),
        _ => format!("journal-{name}.{generation}"),
    }
}

fn write(folder: &Path, all: &Journals) {
    // what was there is of another run
    let _ = fs::remove_dir_all(folder);
    fs::create_dir_all(folder).expect("a folder");
    for ((generation, name), lines) in all {
        fs::write(folder.join(file_of(*generation, *name)), lines).expect("written");
    }
}

fn judged(folder: &Path, all: &Journals, play: Option<PathBuf>) -> Result<Judged, Finding> {
    write(folder, all);
    let asked = Asked {
        journals: vec![folder.to_path_buf()],
        over: Over::new(true),
        play,
    };
    judge(&asked, &mut |_| ())
}

#[test]
fn lists_that_follow_one_another_are_judged() {
    let folder = Folder::new("run");
    let all = journals();
    let found = judged(&folder.0, &all, Some(program()));
    let judged = found.unwrap_or_else(|finding| panic!("{finding}"));
    assert_eq!((judged.lists, judged.lives), (3, 9));
    assert_eq!(judged.void_from, None);
    assert_eq!(judged.play.as_deref(), Some("lawful"));
    // the bodies of 3, 3, 2, 2 and 3 messages, three views, a reset's and a join, and the two ends, at least
    assert!(judged.entries >= 17, "{judged:?}");
}

#[test]
fn one_list_is_judged_alone() {
    let folder = Folder::new("alone");
    let mut all = journals();
    all.retain(|(generation, _), _| *generation == 1);
    let found = judged(&folder.0, &all, None);
    let judged = found.unwrap_or_else(|finding| panic!("{finding}"));
    assert_eq!((judged.lists, judged.lives), (1, 3));
}

/// Changes a field of a line; the last digit of it, so that it stays one of its kind.
fn changed(line: &str, field: usize) -> String {
    let mut fields: Vec<String> = line.split('\t').map(str::to_string).collect();
    let text = &fields[field];
    let last = text.chars().last().expect("a character");
    // of names, the next place
    let other = match last {
        '1' => '2',
        '3' => '4',
        _ => '3',
    };
    fields[field] = format!("{}{other}", &text[..text.len() - 1]);
    fields.join("\t")
}

/// Has a line of a journal be another one.
fn with_line(all: &Journals, which: (u32, Name), line: usize, other: &str) -> Journals {
    let mut all = all.clone();
    let text = String::from_utf8(all[&which].clone()).expect("text");
    let mut lines: Vec<&str> = text.lines().collect();
    lines[line] = other;
    let text: String = lines.iter().map(|line| format!("{line}\n")).collect();
    all.insert(which, text.into_bytes());
    all
}

#[test]
fn each_field_of_a_first_line_that_is_changed_is_found() {
    let folder = Folder::new("heads");
    let all = journals();
    for which in all.keys().copied().filter(|which| which.0 > 0) {
        let text = String::from_utf8_lossy(&all[&which]).into_owned();
        let head = text.lines().next().expect("a line");
        // the founders, the three numbers, the generation, the ids and the entry
        for field in 2..10 {
            // a generation that isn't the next one, but not the first one of the three
            let other = match field {
                6 => {
                    let mut fields: Vec<&str> = head.split('\t').collect();
                    fields[field] = "7";
                    fields.join("\t")
                }
                _ => changed(head, field),
            };
            let tampered = with_line(&all, which, 0, &other);
            let finding = judged(&folder.0, &tampered, None).expect_err("it is changed");
            let file = finding.file.file_name().unwrap_or_default();
            let own = file_of(which.0, which.1);
            assert_eq!(
                (file.to_string_lossy().as_ref(), finding.line),
                (own.as_str(), 1),
                "{field} in {own}: {finding}"
            );
            let is_list = match field {
                6 => finding.cause == Cause::NoListBefore(7),
                _ => matches!(finding.cause, Cause::OtherList { .. }),
            };
            assert!(is_list, "{field} in {own}: {finding}");
        }
    }
}

#[test]
fn each_field_that_says_which_list_follows_is_compared() {
    let folder = Folder::new("next");
    let all = journals();
    let mut count = 0;
    for which in all.keys().copied().filter(|which| which.0 < 2) {
        let text = String::from_utf8_lossy(&all[&which]).into_owned();
        let found = text.lines().position(|line| line.starts_with("next\t"));
        let Some(at) = found else {
            continue;
        };
        count += 1;
        let line = text.lines().nth(at).expect("a line");
        for field in 1..7 {
            let tampered = with_line(&all, which, at, &changed(line, field));
            let finding = judged(&folder.0, &tampered, None).expect_err("it is changed");
            let file = finding.file.file_name().unwrap_or_default();
            let own = file_of(which.0, which.1);
            let there = (file.to_string_lossy().into_owned(), finding.line);
            assert_eq!(there, (own, at as u64 + 1), "{field}: {finding}");
            assert!(
                matches!(finding.cause, Cause::OtherList { .. }),
                "{finding}"
            );
        }
        // it isn't said at all, or somewhere else
        let mut lines: Vec<&str> = text.lines().collect();
        let said = lines.remove(at);
        let put = |lines: &[&str]| {
            let mut all = all.clone();
            let text: String = lines.iter().map(|line| format!("{line}\n")).collect();
            all.insert(which, text.into_bytes());
            judged(&folder.0, &all, None)
                .expect_err("it is changed")
                .cause
        };
        assert!(matches!(put(&lines), Cause::NoNext(_)));
        lines.insert(at - 1, said);
        assert_eq!(put(&lines), Cause::NoEnd);
    }
    // three in the first list, two in the second one, where a place stopped
    assert_eq!(count, 5);
}

#[test]
fn a_founder_that_was_not_at_the_end_of_the_list_before_is_found() {
    let folder = Folder::new("founder");
    let all = journals();
    let which = (0, "2".parse::<Name>().expect("a name"));
    let text = String::from_utf8_lossy(&all[&which]).into_owned();
    let lines: Vec<&str> = text.lines().collect();
    let at = lines
        .iter()
        .position(|line| line.starts_with("next\t"))
        .expect("the end of the list");
    // up to just before the entry that ended the list was taken
    let kept: String = lines[..at - 1]
        .iter()
        .map(|line| format!("{line}\n"))
        .collect();
    let mut cut = all.clone();
    cut.insert(which, kept.into_bytes());
    let finding = judged(&folder.0, &cut, None).expect_err("it is cut");
    let is_found = matches!(finding.cause, Cause::NoLetter { .. } | Cause::NotThere(_));
    assert!(is_found, "{finding}");
}

#[test]
fn a_journal_of_the_list_between_is_missed() {
    let folder = Folder::new("between");
    let mut all = journals();
    all.retain(|(generation, _), _| *generation != 1);
    let finding = judged(&folder.0, &all, None).expect_err("a list is missing");
    assert_eq!(finding.cause, Cause::NoListBefore(2));
}

#[test]
fn lists_are_followed_while_they_grow() {
    let folder = Folder::new("followed");
    let all = journals();
    let whole = judged(&folder.0.join("whole"), &all, None).expect("it is as it should be");
    let run = folder.0.join("run");
    fs::create_dir_all(&run).expect("a folder");
    let asked = Asked {
        journals: vec![run.clone()],
        over: Over::new(false),
        play: None,
    };
    let own = asked.clone();
    let follower = thread::spawn(move || judge(&own, &mut |_| ()));
    for generation in 0..3 {
        for part in 0..2 {
            for ((_, name), lines) in all.iter().filter(|(which, _)| which.0 == generation) {
                let half = lines.len() / 2;
                let now = [&lines[..half], &lines[half..]][part];
                let mut options = fs::OpenOptions::new();
                options.create(true).append(true);
                let file = options.open(run.join(file_of(generation, *name)));
                file.expect("a file").write_all(now).expect("written");
            }
            thread::sleep(std::time::Duration::from_millis(300));
        }
    }
    asked.over.set();
    let followed = follower.join().expect("a judge");
    let followed = followed.expect("it is as it should be");
    assert_eq!(
        (
            followed.lists,
            followed.lives,
            followed.letters,
            followed.entries
        ),
        (whole.lists, whole.lives, whole.letters, whole.entries)
    );
    assert_eq!(followed.void_from, None);
}
