//! A cluster of processes on this machine, in which nobody is told who has stopped.

use serde_json::Value;
use std::fs;
use std::io::{BufRead, BufReader, Write};
use std::os::unix::fs::PermissionsExt;
use std::os::unix::net::UnixStream;
use std::path::{Path, PathBuf};
use std::process::{Child, Command, Output, Stdio};
use std::sync::atomic::{AtomicU16, Ordering};
use std::time::{Duration, Instant};

pub const PROGRAM: &str = env!("CARGO_BIN_EXE_muoswyldd");
const SOON: Duration = Duration::from_secs(30);

/// A folder with a key, addresses of four places, and folders of state for three founders, which is gone with it.
pub struct Cluster {
    folder: PathBuf,
    pub addresses: Vec<String>,
    more: Vec<String>,
    children: Vec<(String, Child)>,
}

impl Cluster {
    /// A cluster of a test, whose members are given these words too. A state is made for each place.
    pub fn new(test: &str, more: &[&str]) -> Cluster {
        let name = format!("muoswyldd-{test}-{}", std::process::id());
        let folder = std::env::temp_dir().join(name);
        fs::create_dir_all(&folder).unwrap();
        let cluster = Cluster {
            folder,
            addresses: (0..4).map(|_| own_address()).collect(),
            more: more.iter().map(|word| word.to_string()).collect(),
            children: Vec::new(),
        };
        assert!(run(&["keygen", &cluster.path("key")]).status.success());
        for name in ["0", "1", "2"] {
            let made = Command::new(PROGRAM)
                .arg("found")
                .args(cluster.words(name))
                .output()
                .unwrap();
            assert!(made.status.success(), "{made:?}");
        }
        cluster
    }

    pub fn path(&self, name: &str) -> String {
        self.folder.join(name).to_str().unwrap().to_string()
    }

    /// The path of a file of this kind of a member.
    pub fn file(&self, kind: &str, name: &str) -> String {
        self.path(&format!("{kind}{}", name.replace('/', "_")))
    }

    pub fn words(&self, name: &str) -> Vec<String> {
        let founders = ["--founders", "0,1,2", "--resilience", "1"];
        let mut words: Vec<String> = ["--name", name, "--key", &self.path("key")]
            .iter()
            .chain(&founders)
            .map(|word| word.to_string())
            .collect();
        let place = name.split('/').next().unwrap();
        words.extend(["--state".into(), self.path(&format!("state{place}"))]);
        for (place, address) in self.addresses.iter().enumerate() {
            words.extend(["--address".into(), format!("{place}={address}")]);
        }
        words.extend(self.more.clone());
        words
    }

    /// Starts a member. Its deliveries, its log and its socket are files with its name.
    pub fn start(&mut self, name: &str, more: &[&str]) {
        self.start_by(name, &self.words(name), more);
    }

    /// Starts a member with these words in place of the cluster's.
    pub fn start_by(&mut self, name: &str, words: &[String], more: &[&str]) {
        let create = |kind: &str| fs::File::create(self.file(kind, name)).unwrap();
        let child = Command::new(PROGRAM)
            .arg("run")
            .args(words)
            .args(["--socket", &self.file("socket", name)])
            .args(["--input", "nothing", "--output", "json"])
            .args(more)
            .stdin(Stdio::null())
            .stdout(create("out"))
            .stderr(create("err"))
            .spawn()
            .unwrap();
        fs::write(self.file("pid", name), child.id().to_string()).unwrap();
        self.children.push((name.to_string(), child));
    }

    pub fn start_all(&mut self) {
        for name in ["0", "1", "2"] {
            self.start(name, &[]);
        }
        self.ask("2", "send begin");
        until(|| self.texts("0").contains(&"begin".to_string()));
        until(|| self.texts("1").contains(&"begin".to_string()));
    }

    fn child(&mut self, name: &str) -> &mut Child {
        let found = self.children.iter_mut().rev().find(|(it, _)| it == name);
        &mut found.unwrap().1
    }

    pub fn signal(&mut self, name: &str, signal: &str) {
        let id = self.child(name).id().to_string();
        let done = Command::new("kill").args([signal, &id]).status().unwrap();
        assert!(done.success());
    }

    /// How a member ended.
    pub fn status(&mut self, name: &str) -> Option<i32> {
        let child = self.child(name);
        until(|| child.try_wait().unwrap().is_some());
        child.wait().unwrap().code()
    }

    /// A caller of a member, once it listens.
    pub fn caller(&self, name: &str) -> Caller {
        let path = self.file("socket", name);
        let mut found = None;
        until(|| {
            found = UnixStream::connect(&path).ok();
            found.is_some()
        });
        let stream = found.unwrap();
        stream.set_read_timeout(Some(SOON)).unwrap();
        Caller(BufReader::new(stream))
    }

    /// What a member answers to a command.
    pub fn ask(&self, name: &str, command: &str) -> Value {
        let answer = self.caller(name).ask(command).unwrap();
        assert!(answer.get("error").is_none(), "{name} {command}: {answer}");
        answer
    }

    /// How a member stands with who has stopped.
    pub fn failures(&self, name: &str) -> Value {
        self.ask(name, "status")["failures"].clone()
    }

    fn deliveries(&self, name: &str) -> Vec<Value> {
        let text = fs::read_to_string(self.file("out", name)).unwrap();
        let whole = text.rsplit_once('\n').map_or("", |it| it.0);
        let read = whole.lines().map(serde_json::from_str);
        read.collect::<Result<_, _>>().unwrap()
    }

    /// The messages that a member printed, in order.
    pub fn texts(&self, name: &str) -> Vec<String> {
        let text = |it: &Value| it["text"].as_str().map(String::from);
        self.deliveries(name).iter().filter_map(text).collect()
    }

    /// The members of the last view that a member printed.
    pub fn view(&self, name: &str) -> Vec<String> {
        let mut views = self.deliveries(name).into_iter();
        let last = views.rfind(|it| it["kind"] == "view");
        let Some(last) = last else {
            return Vec::new();
        };
        let members = last["members"].as_array().unwrap().clone();
        let name = |it: &Value| it.as_str().unwrap().to_string();
        members.iter().map(name).collect()
    }

    /// Prints how each member stands, and which files each place has.
    fn show(&self) {
        let asked = Some(Duration::from_secs(2));
        for (name, _) in &self.children {
            let Ok(stream) = UnixStream::connect(self.file("socket", name)) else {
                println!("---- {name} doesn't listen");
                continue;
            };
            let _set = stream.set_read_timeout(asked);
            let status = Caller(BufReader::new(stream)).ask("status");
            println!("---- {name}: {}", status.unwrap_or_default());
        }
        for place in 0..4 {
            let files = fs::read_dir(self.path(&format!("state{place}")));
            let names = files.into_iter().flatten().flatten();
            let names: Vec<_> = names.map(|file| file.file_name()).collect();
            println!("---- state{place}: {names:?}");
        }
    }

    pub fn log(&self, name: &str) -> String {
        fs::read_to_string(self.file("err", name)).unwrap()
    }
}

impl Drop for Cluster {
    fn drop(&mut self) {
        if std::thread::panicking() {
            self.show();
        }
        for (name, child) in &mut self.children {
            let _ended = child.kill();
            let _ended = child.wait();
            if std::thread::panicking() {
                let path = self.folder.join(format!("err{}", name.replace('/', "_")));
                let text = fs::read_to_string(path).unwrap_or_default();
                println!("---- {name}:\n{text}");
            }
        }
        let _removed = fs::remove_dir_all(&self.folder);
    }
}

/// A caller of a member.
pub struct Caller(BufReader<UnixStream>);

impl Caller {
    /// Gives a command, and doesn't wait for its answer; whether the member could be given it.
    pub fn say(&mut self, command: &str) -> bool {
        let line = format!("{command}\n");
        self.0.get_mut().write_all(line.as_bytes()).is_ok()
    }

    /// The next answer, if the member gives one before it ends.
    pub fn answer(&mut self) -> Option<Value> {
        let mut line = String::new();
        self.0.read_line(&mut line).ok()?;
        serde_json::from_str(&line).ok()
    }

    pub fn ask(&mut self, command: &str) -> Option<Value> {
        self.say(command);
        self.answer()
    }
}

/// An address of this machine that no other test uses: a host of its own, by this process's number.
pub fn own_address() -> String {
    static NEXT: AtomicU16 = AtomicU16::new(0);
    let id = std::process::id();
    let (high, low) = (id / 256 % 256, id % 256);
    let port = 20_000 + NEXT.fetch_add(1, Ordering::SeqCst);
    format!("127.{}.{}.3:{port}", 1 + high % 254, low)
}

pub fn run(words: &[&str]) -> Output {
    let mut command = Command::new(PROGRAM);
    command.args(words).stdin(Stdio::null()).output().unwrap()
}

/// Makes a script of a shell.
pub fn script(path: &str, text: &str) {
    fs::write(path, format!("#!/bin/sh\n{text}\n")).unwrap();
    fs::set_permissions(Path::new(path), fs::Permissions::from_mode(0o700)).unwrap();
}

#[track_caller]
pub fn until(mut holds: impl FnMut() -> bool) {
    let began = Instant::now();
    while !holds() {
        assert!(began.elapsed() < SOON, "it isn't so in time");
        std::thread::sleep(Duration::from_millis(10));
    }
}
