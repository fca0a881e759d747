//! Members as processes, as an operator runs them.

use std::fs;
use std::io::{BufRead, BufReader, Read, Write};
use std::net::TcpStream;
use std::os::unix::fs::PermissionsExt;
use std::os::unix::net::UnixStream;
use std::path::{Path, PathBuf};
use std::process::{Child, Command, Output, Stdio};
use std::sync::atomic::{AtomicU16, Ordering};
use std::time::{Duration, Instant};

const PROGRAM: &str = env!("CARGO_BIN_EXE_muoswyldd");
const SOON: Duration = Duration::from_secs(30);

/// A folder with a key and addresses for three places, which is gone with it.
struct Place {
    folder: PathBuf,
    addresses: Vec<String>,
    children: Vec<Child>,
}

impl Place {
    fn new(test: &str) -> Place {
        let folder = std::env::temp_dir().join(format!("muoswyldd-{test}-{}", std::process::id()));
        fs::create_dir_all(&folder).unwrap();
        let addresses = (0..4).map(|_| own_address()).collect();
        let place = Place {
            folder,
            addresses,
            children: Vec::new(),
        };
        assert!(run(&["keygen", &place.path("key")]).status.success());
        place
    }

    fn path(&self, name: &str) -> String {
        self.folder.join(name).to_str().unwrap().to_string()
    }

    fn words(&self, name: &str) -> Vec<String> {
        let mut words: Vec<String> = [
            "run",
            "--name",
            name,
            "--founders",
            "0,1,2",
            "--resilience",
            "1",
        ]
        .map(String::from)
        .to_vec();
        words.extend(["--key".into(), self.path("key")]);
        for (place, address) in self.addresses.iter().enumerate() {
            words.extend(["--address".into(), format!("{place}={address}")]);
        }
        words
    }

    /// Starts a member with a socket of its name; its place in the list of children.
    fn start(&mut self, name: &str, more: &[&str]) -> usize {
        let file = |kind: &str| {
            let path = self.path(&format!("{kind}{}", name.replace('/', "_")));
            fs::File::create(path).unwrap()
        };
        let child = Command::new(PROGRAM)
            .args(self.words(name))
            .args(["--socket", &self.socket(name)])
            .args(more)
            .stdin(Stdio::piped())
            .stdout(file("out"))
            .stderr(file("err"))
            .spawn()
            .unwrap();
        self.children.push(child);
        self.children.len() - 1
    }

    fn socket(&self, name: &str) -> String {
        self.path(&format!("socket{}", name.replace('/', "_")))
    }

    fn out(&self, name: &str) -> String {
        fs::read_to_string(self.path(&format!("out{}", name.replace('/', "_")))).unwrap()
    }

    /// Has a member do something, once it listens; what it answered.
    fn ask(&self, name: &str, words: &[&str]) -> serde_json::Value {
        until(|| UnixStream::connect(self.socket(name)).is_ok());
        let mut all = vec![words[0], "--socket"];
        let socket = self.socket(name);
        all.push(&socket);
        all.extend(&words[1..]);
        let done = run(&all);
        assert!(done.status.success(), "{name} {words:?}: {done:?}");
        serde_json::from_slice(&done.stdout).unwrap()
    }

    fn signal(&self, child: usize, signal: &str) {
        let id = self.children[child].id().to_string();
        assert!(Command::new("kill")
            .args([signal, &id])
            .status()
            .unwrap()
            .success());
    }

    fn status(&mut self, child: usize) -> Option<i32> {
        let child = &mut self.children[child];
        until(|| child.try_wait().unwrap().is_some());
        child.wait().unwrap().code()
    }
}

impl Drop for Place {
    fn drop(&mut self) {
        for child in &mut self.children {
            let _ended = child.kill();
            let _ended = child.wait();
        }
        let _removed = fs::remove_dir_all(&self.folder);
    }
}

/// An address of this machine that no other test uses: a host of its own, by this process's number.
fn own_address() -> String {
    static NEXT: AtomicU16 = AtomicU16::new(0);
    let id = std::process::id();
    let (high, low) = (id / 256 % 256, id % 256);
    let port = 20_000 + NEXT.fetch_add(1, Ordering::SeqCst);
    format!("127.{}.{}.1:{port}", 1 + high % 254, low)
}

fn run(words: &[&str]) -> Output {
    Command::new(PROGRAM)
        .args(words)
        .stdin(Stdio::null())
        .output()
        .unwrap()
}

fn until(mut holds: impl FnMut() -> bool) {
    let began = Instant::now();
    while !holds() {
        assert!(began.elapsed() < SOON, "it isn't so in time");
        std::thread::sleep(Duration::from_millis(10));
    }
}

#[test]
fn a_group_of_processes_goes_on_without_one_and_takes_its_place_back() {
    let mut place = Place::new("group");
    for name in ["0", "1", "2"] {
        place.start(name, &["--input", "nothing"]);
    }
    assert_eq!(place.ask("1", &["send", "first"])["sent"], 2);
    let status = place.ask("2", &["status"]);
    assert_eq!(status["members"], serde_json::json!(["0", "1", "2"]));
    place.signal(0, "-KILL");
    assert_eq!(place.status(0), None);
    place.ask("1", &["stopped", "0"]);
    place.ask("2", &["send", "second"]);
    let back = place.start("0/2", &["--input", "nothing", "--output", "json"]);
    place.ask("0/2", &["send", "third"]);
    until(|| {
        ["0/2", "1", "2"]
            .iter()
            .all(|name| place.out(name).contains("third"))
    });
    let seen = place.out("1");
    let texts: Vec<&str> = seen
        .lines()
        .filter_map(|line| line.split_once(": "))
        .map(|it| it.1)
        .collect();
    assert_eq!(texts, ["first", "second", "third"]);
    assert_eq!(
        seen.lines().filter(|line| !line.contains("view")).count(),
        4,
        "{seen}"
    );
    until(|| place.out("2") == place.out("1"));
    // a signal has it leave
    place.signal(back, "-TERM");
    assert_eq!(place.status(back), Some(0));
    until(|| place.out("1").contains("left 0/2"));
    // and so does a command
    place.ask("2", &["leave"]);
    assert_eq!(place.status(2), Some(0));
}

/// A caller that asks a member for its deliveries.
fn listener(place: &Place, name: &str) -> BufReader<UnixStream> {
    let mut stream = UnixStream::connect(place.socket(name)).unwrap();
    stream.set_read_timeout(Some(SOON)).unwrap();
    stream.write_all(b"deliveries\n").unwrap();
    BufReader::new(stream)
}

/// What is said next to a caller.
fn next(listener: &mut BufReader<UnixStream>) -> serde_json::Value {
    let mut line = String::new();
    listener.read_line(&mut line).unwrap();
    serde_json::from_str(&line).unwrap()
}

#[test]
fn deliveries_are_given_to_one_caller_at_the_socket() {
    let mut place = Place::new("deliveries");
    let gives = ["--input", "nothing", "--output", "socket"];
    let child = place.start("0", &gives);
    for name in ["1", "2"] {
        place.start(name, &["--input", "nothing"]);
    }
    place.ask("1", &["send", "first"]);
    until(|| UnixStream::connect(place.socket("0")).is_ok());
    // one by one: what nobody has taken yet waits
    let mut one = listener(&place, "0");
    assert_eq!(next(&mut one)["kind"], "view");
    let first = next(&mut one);
    let (text, at) = (first["text"].clone(), first["number"].clone());
    assert_eq!((text, at), ("first".into(), 2.into()));
    let refusal = next(&mut listener(&place, "0"));
    assert!(refusal["error"].to_string().contains("to one caller"));
    assert!(next(&mut listener(&place, "1"))["error"].is_string());
    // after it is gone, another one is given what comes then
    drop(one);
    let mut other = until_some(|| {
        let mut other = listener(&place, "0");
        place.ask("1", &["send", "again"]);
        (next(&mut other)["text"] == "again").then_some(other)
    });
    place.ask("2", &["leave"]);
    while next(&mut other)["kind"] != "left" {}
    place.signal(child, "-TERM");
    let end = until_some(|| {
        let said = next(&mut other);
        said.get("ended").cloned()
    });
    assert_eq!(end, "it left the group");
    assert_eq!(place.status(child), Some(0));
}

fn until_some<T>(mut finds: impl FnMut() -> Option<T>) -> T {
    let mut found = None;
    until(|| {
        found = finds();
        found.is_some()
    });
    found.unwrap()
}

#[test]
fn lines_of_the_input_are_messages_or_commands() {
    let mut place = Place::new("input");
    for name in ["0", "1", "2"] {
        place.start(
            name,
            &["--input", if name == "2" { "commands" } else { "messages" }],
        );
    }
    let mut input = place.children[0].stdin.take().unwrap();
    input
        .write_all("stopped 1\n\u{202e}tail\nlast without an end".as_bytes())
        .unwrap();
    drop(input);
    assert_eq!(place.status(0), Some(0));
    let mut commands = place.children[2].stdin.take().unwrap();
    commands
        .write_all(b"nonsense\nsend a b\nstopped 0\n")
        .unwrap();
    until(|| place.out("1").contains("a b"));
    let seen = place.out("1");
    for text in [
        "0: stopped 1",
        "0: \u{fffd}tail",
        "0: last without an end",
        "2: a b",
    ] {
        assert!(seen.contains(text), "{text}: {seen}");
    }
    until(|| {
        fs::read_to_string(place.path("err2"))
            .unwrap()
            .contains("a command is send MESSAGE")
    });
    commands.write_all(b"leave\n").unwrap();
    assert_eq!(place.status(2), Some(0));
}

#[test]
fn metrics_are_served() {
    let mut place = Place::new("metrics");
    let address = own_address();
    for name in ["0", "1", "2"] {
        let more: &[&str] = if name == "0" {
            &["--metrics", &address]
        } else {
            &[]
        };
        place.start(name, more);
    }
    place.ask("1", &["send", "x"]);
    let get = |path: &str| {
        let mut stream = TcpStream::connect(&address).unwrap();
        let request = format!("GET {path} HTTP/1.1\r\nHost: x\r\nConnection: close\r\n\r\n");
        stream.write_all(request.as_bytes()).unwrap();
        let mut said = String::new();
        stream.read_to_string(&mut said).unwrap();
        said
    };
    until(|| TcpStream::connect(&address).is_ok());
    until(|| get("/metrics").contains("muoswyld_accepted 2\n"));
    assert!(get("/metrics").contains("muoswyld_in_group 1\n"));
    assert!(get("/other").starts_with("HTTP/1.1 404"));
}

#[test]
fn logs_are_opened_again() {
    let mut place = Place::new("logs");
    let log = place.path("log");
    let child = place.start("0", &["--log", &log, "--log-form", "json"]);
    until(|| fs::read_to_string(&log).is_ok_and(|text| text.contains("group's id")));
    assert!(fs::read_to_string(&log)
        .unwrap()
        .lines()
        .all(|line| line.starts_with('{')));
    fs::rename(&log, place.path("old")).unwrap();
    place.signal(child, "-HUP");
    until(|| Path::new(&log).exists());
}

#[test]
fn each_wrong_call_has_its_status_and_a_line() {
    let place = Place::new("statuses");
    let key = place.path("key");
    let refused = |words: &[&str], status: i32, line: &str| {
        let done = run(words);
        let said = String::from_utf8_lossy(&done.stderr).into_owned();
        assert_eq!(done.status.code(), Some(status), "{words:?}: {said}");
        assert!(said.contains(line), "{words:?}: {said}");
    };
    refused(&["run", "--foo"], 64, "--foo");
    refused(&["run", "--name", "16"], 64, "a name is PLACE");
    refused(&["run"], 78, "--name isn't said");
    refused(&["keygen", &key], 73, "File exists");
    refused(
        &["send", "--socket", &place.path("nobody"), "x"],
        69,
        "no member listens",
    );
    let one = [
        "run",
        "--name",
        "0",
        "--founders",
        "0",
        "--address",
        "0=127.0.0.1:0",
    ];
    refused(&one, 78, "there is no key");
    refused(
        &[&one[..], &["--key", &place.path("none")]].concat(),
        66,
        "No such file",
    );
    refused(
        &[&one[..], &["--key", &key, "--window", "0"]].concat(),
        78,
        "a window is 1 to 1,008",
    );
    refused(
        &[&one[..], &["--config", &place.path("none")]].concat(),
        66,
        "No such file",
    );
    refused(
        &[&one[..], &["--key", &key, "--output", "socket"]].concat(),
        78,
        "--output socket wants --socket",
    );
    let journal = place.path("journal");
    refused(
        &[
            &one[..],
            &["--key", &key, "--window", "0", "--journal", &journal],
        ]
        .concat(),
        78,
        "a window is 1 to 1,008",
    );
    assert!(!Path::new(&journal).exists());
    fs::write(&journal, "").unwrap();
    refused(
        &[&one[..], &["--key", &key, "--journal", &journal]].concat(),
        71,
        "it is there, and a name never runs twice",
    );
    let config = place.path("config");
    fs::write(&config, "nmae = \"0\"\n").unwrap();
    refused(&["run", "--config", &config], 78, "nmae");
    fs::write(place.path("short"), "00\n").unwrap();
    fs::set_permissions(place.path("short"), fs::Permissions::from_mode(0o600)).unwrap();
    refused(
        &[&one[..], &["--key", &place.path("short")]].concat(),
        78,
        "is no key",
    );
    fs::set_permissions(&key, fs::Permissions::from_mode(0o640)).unwrap();
    refused(
        &[&one[..], &["--key", &key]].concat(),
        77,
        "can be read by others",
    );
}

#[test]
fn a_configuration_file_says_what_words_say() {
    let mut place = Place::new("config");
    let config = place.path("config.toml");
    let text = format!(
        "name = \"0\"\nfounders = \"0\"\nkey = \"{}\"\ninput = \"messages\"\noutput = \"json\"\n[addresses]\n0 = \"{}\"\n",
        place.path("key"),
        place.addresses[0]
    );
    fs::write(&config, text).unwrap();
    let mut child = Command::new(PROGRAM)
        .args(["run", "--config", &config])
        .stdin(Stdio::piped())
        .stdout(Stdio::piped())
        .spawn()
        .unwrap();
    child.stdin.take().unwrap().write_all(b"hello\n").unwrap();
    let mut said = String::new();
    child
        .stdout
        .take()
        .unwrap()
        .read_to_string(&mut said)
        .unwrap();
    place.children.push(child);
    assert_eq!(place.status(0), Some(0));
    let last: serde_json::Value = serde_json::from_str(said.lines().last().unwrap()).unwrap();
    assert_eq!(last["text"], "hello");
    assert_eq!(last["number"], 2);
}
