//! Processes that find out by themselves who has stopped, and what an operator sees of it.

mod cluster;

use cluster::{own_address, run, script, until, Cluster, PROGRAM};
use std::fs;
use std::io::{Read, Write};
use std::net::TcpStream;
use std::path::Path;
use std::process::Command;
use std::sync::atomic::{AtomicBool, Ordering};
use std::time::{Duration, Instant};

/// Times for a busy machine: a silence of 600 milliseconds under `echo`.
const TIMES: [&str; 4] = ["--heartbeat", "50", "--delay", "50"];
const ECHO: [&str; 6] = ["--failures", "echo", "--heartbeat", "50", "--delay", "50"];
const LEASE: [&str; 8] = [
    "--failures",
    "lease",
    "--lease",
    "500",
    "--heartbeat",
    "50",
    "--delay",
    "50",
];

/// Each text that was answered is in a list once, and no other one comes twice.
fn each_once(answered: &[String], list: &[String]) {
    for text in answered {
        let count = list.iter().filter(|it| *it == text).count();
        assert_eq!(count, 1, "{text} stands {count} times in {list:?}");
    }
    for text in list {
        let count = list.iter().filter(|it| *it == text).count();
        assert_eq!(count, 1, "{text} stands {count} times");
    }
}

/// Kills the sequencer under load: without a word of anybody the others go on within a silence and a round, and nothing is lost.
fn a_killed_sequencer(test: &str, policy: &[&str], silence: Duration) {
    let mut cluster = Cluster::new(test, policy);
    cluster.start_all();
    let is_over = AtomicBool::new(false);
    let (answered, took) = std::thread::scope(|scope| {
        let sender = |name: &'static str| {
            let mut caller = cluster.caller(name);
            let is_over = &is_over;
            scope.spawn(move || {
                let (mut sent, mut longest) = (Vec::new(), Duration::ZERO);
                while !is_over.load(Ordering::SeqCst) {
                    let text = format!("{name}-{}", sent.len());
                    let began = Instant::now();
                    let answer = caller.ask(&format!("send {text}")).unwrap();
                    assert!(answer["sent"].is_u64(), "{answer}");
                    longest = longest.max(began.elapsed());
                    sent.push(text);
                }
                (sent, longest)
            })
        };
        let threads = [sender("1"), sender("2")];
        std::thread::sleep(Duration::from_millis(500));
        let killed = fs::read_to_string(cluster.file("pid", "0")).unwrap();
        assert!(Command::new("kill")
            .args(["-KILL", &killed])
            .status()
            .unwrap()
            .success());
        until(|| cluster.view("1") == ["1", "2"] && cluster.view("2") == ["1", "2"]);
        std::thread::sleep(Duration::from_millis(300));
        is_over.store(true, Ordering::SeqCst);
        let mut all = (Vec::new(), Duration::ZERO);
        for thread in threads {
            let (sent, longest) = thread.join().unwrap();
            all.0.extend(sent);
            all.1 = all.1.max(longest);
        }
        all
    });
    println!("{test}: {} sent, the longest took {took:?}", answered.len());
    assert!(
        took > silence / 2 && took < silence + Duration::from_secs(3),
        "{took:?}"
    );
    until(|| cluster.texts("1").len() > answered.len() && cluster.texts("2") == cluster.texts("1"));
    each_once(&answered, &cluster.texts("1"));
    let seen = cluster.texts("0");
    assert_eq!(seen, cluster.texts("1")[..seen.len()]);
    let failures = cluster.failures("1");
    assert_eq!(failures["stopped"], serde_json::json!(["0"]), "{failures}");
    assert!(cluster.log("1").contains("0 has stopped for certain"));
    // the place comes back as the life that was never begun
    cluster.start("0", &["--next-life"]);
    cluster.ask("0", "send back");
    until(|| cluster.texts("2").contains(&"back".to_string()));
    assert_eq!(cluster.ask("0", "status")["name"], "0/2");
}

#[test]
fn a_killed_sequencer_is_given_up_by_echo() {
    a_killed_sequencer("echo-kill", &ECHO, Duration::from_millis(600));
}

#[test]
fn a_killed_sequencer_is_given_up_by_lease() {
    a_killed_sequencer("lease-kill", &LEASE, Duration::from_millis(700));
}

/// Stops the sequencer for longer than a silence: the others go on, and once it runs again nothing more of it is seen.
fn a_paused_sequencer(test: &str, policy: &[&str]) {
    let mut cluster = Cluster::new(test, policy);
    cluster.start_all();
    cluster.signal("0", "-STOP");
    // it isn't read before the process goes on
    let mut late = cluster.caller("0");
    assert!(late.say("send late"));
    until(|| cluster.view("1") == ["1", "2"]);
    cluster.ask("1", "send meanwhile");
    cluster.signal("0", "-CONT");
    assert_eq!(cluster.status("0"), Some(69));
    let answer = late.answer();
    let is_sent = answer.as_ref().is_some_and(|it| it.get("sent").is_some());
    assert!(!is_sent, "{answer:?}");
    assert!(cluster.log("0").contains("the group goes on without it"));
    assert_eq!(cluster.texts("0"), ["begin"]);
    cluster.ask("2", "send after");
    until(|| cluster.texts("1").contains(&"after".to_string()));
    assert_eq!(cluster.texts("1"), ["begin", "meanwhile", "after"]);
    cluster.start("0", &["--next-life"]);
    cluster.ask("0", "send back");
}

#[test]
fn a_paused_sequencer_is_given_up_by_echo_and_ends() {
    a_paused_sequencer("echo-pause", &ECHO);
}

#[test]
fn a_paused_sequencer_is_given_up_by_lease_and_ends() {
    a_paused_sequencer("lease-pause", &LEASE);
}

#[test]
fn a_member_without_a_majority_freezes_and_goes_on_with_it() {
    let mut cluster = Cluster::new("frozen", &[&TIMES[..], &["--voters", "0,1,2"]].concat());
    let address = own_address();
    cluster.start("0", &["--metrics", &address]);
    cluster.start("1", &[]);
    cluster.start("2", &[]);
    cluster.ask("0", "send begin");
    // voters and a folder of state make it echo, if nothing else is said
    let failures = cluster.failures("0");
    assert_eq!(
        (&failures["policy"], &failures["votes"]),
        (&"echo".into(), &true.into())
    );
    assert!(failures["frozen-for-milliseconds"].is_null(), "{failures}");
    let metrics = || {
        let mut stream = TcpStream::connect(&address).unwrap();
        let request = "GET /metrics HTTP/1.1\r\nHost: x\r\nConnection: close\r\n\r\n";
        stream.write_all(request.as_bytes()).unwrap();
        let mut said = String::new();
        stream.read_to_string(&mut said).unwrap();
        said
    };
    until(|| TcpStream::connect(&address).is_ok());
    assert!(metrics().contains("muoswyld_frozen 0\n"));
    for name in ["1", "2"] {
        cluster.signal(name, "-STOP");
    }
    let mut late = cluster.caller("0");
    assert!(late.say("send late"));
    until(|| cluster.failures("0")["frozen-for-milliseconds"].as_u64() > Some(1_000));
    assert!(metrics().contains("muoswyld_frozen 1\n"));
    assert!(cluster
        .log("0")
        .contains("frozen: no majority of the voters echoes"));
    for name in ["1", "2"] {
        cluster.signal(name, "-CONT");
    }
    // nobody was refused, and nothing is lost
    assert!(late.answer().is_some_and(|it| it["sent"].is_u64()));
    until(|| cluster.texts("2") == ["begin", "late"]);
    for name in ["0", "1", "2"] {
        let failures = cluster.failures(name);
        assert_eq!(
            failures["refused"],
            serde_json::json!([]),
            "{name}: {failures}"
        );
        assert_eq!(
            failures["stopped"],
            serde_json::json!([]),
            "{name}: {failures}"
        );
    }
    assert!(cluster.log("0").contains("not frozen any more"));
}

/// A cluster with a fence: its script, where $1 is the name and `pid` a file's beginning.
fn fenced(test: &str, text: &str) -> (Cluster, String) {
    let program = std::env::temp_dir().join(format!("fence-{test}-{}", std::process::id()));
    let program = program.to_str().unwrap().to_string();
    let mut more = vec![
        "--failures",
        "command",
        "--fence",
        &program,
        "--fence-within",
        "1",
    ];
    more.extend(TIMES);
    let cluster = Cluster::new(test, &more);
    let calls = cluster.path("calls");
    let pids = cluster.path("pid");
    script(
        &program,
        &format!("echo $1 >> {calls}\necho a line of the fence\npids={pids}\n{text}"),
    );
    (cluster, program)
}

fn calls(cluster: &Cluster) -> Vec<String> {
    let text = fs::read_to_string(cluster.path("calls")).unwrap_or_default();
    text.lines().map(String::from).collect()
}

#[test]
fn a_fence_that_is_done_is_believed() {
    let (mut cluster, program) = fenced("fence-done", "kill -9 $(cat $pids$1)");
    cluster.start_all();
    cluster.signal("0", "-STOP");
    until(|| cluster.view("1") == ["1", "2"] && cluster.view("2") == ["1", "2"]);
    assert_eq!(cluster.status("0"), None);
    assert_eq!(calls(&cluster), ["0"]);
    assert!(cluster.log("1").contains("fence of 0: a line of the fence"));
    cluster.ask("2", "send after");
    fs::remove_file(program).unwrap();
}

#[test]
fn a_fence_that_fails_or_hangs_is_not_believed() {
    let text = "test -e $pids.works && kill -9 $(cat $pids$1) && exit 0\ntest $(wc -l < $pids.calls) -eq 2 && sleep 100\nexit 1";
    let text = text.replace("$pids.calls", "$(dirname $pids)/calls");
    let (mut cluster, program) = fenced("fence-fails", &text);
    cluster.start_all();
    cluster.signal("0", "-STOP");
    // the first one fails, the second one hangs and is killed
    until(|| calls(&cluster).len() >= 3);
    assert!(cluster.log("1").contains("isn't done: exit status: 1"));
    let hung = |name: &str| {
        cluster
            .log(name)
            .contains("the fence of 0 took longer than")
    };
    until(|| hung("1") || hung("2"));
    let failures = cluster.failures("1");
    assert_eq!(
        failures["suspected"],
        serde_json::json!(["0"]),
        "{failures}"
    );
    assert_eq!(failures["stopped"], serde_json::json!([]), "{failures}");
    assert_eq!(cluster.view("1"), ["0", "1", "2"]);
    fs::write(format!("{}.works", cluster.path("pid")), "").unwrap();
    until(|| cluster.view("1") == ["1", "2"]);
    fs::remove_file(program).unwrap();
}

#[test]
fn a_life_runs_once_and_a_place_has_one_process() {
    let mut cluster = Cluster::new("lives", &ECHO);
    let done = |cluster: &Cluster, verb: &str, name: &str, more: &[&str]| {
        let mut words = cluster.words(name);
        if more.contains(&"--state") {
            let at = words.iter().position(|word| word == "--state").unwrap();
            words.drain(at..at + 2);
        }
        let mut command = Command::new(PROGRAM);
        command.arg(verb).args(words).args(more).output().unwrap()
    };
    let refused = |cluster: &Cluster, verb: &str, name: &str, more: &[&str], line: &str| {
        let done = done(cluster, verb, name, more);
        let said = String::from_utf8_lossy(&done.stderr).into_owned();
        assert_eq!(done.status.code(), Some(78), "{said}");
        assert!(said.contains(line), "{said}");
    };
    refused(&cluster, "found", "0", &[], "it is made once");
    cluster.start_all();
    refused(
        &cluster,
        "run",
        "0",
        // at its own address it can't listen either
        &["--bind", "127.0.0.1:0"],
        "another process of the place runs",
    );
    refused(
        &cluster,
        "run",
        "0",
        &["--next-life"],
        "another process of the place runs",
    );
    cluster.signal("0", "-KILL");
    assert_eq!(cluster.status("0"), None);
    refused(&cluster, "run", "0", &[], "the next one is 0/2");
    let other = cluster.path("other");
    let made = done(&cluster, "found", "1", &["--state", &other]);
    assert!(made.status.success(), "{made:?}");
    refused(
        &cluster,
        "run",
        "0/2",
        &["--state", &other],
        "is the state of place 1",
    );
    let none = cluster.path("none");
    refused(
        &cluster,
        "run",
        "0/2",
        &["--state", &none],
        "has no state of a place",
    );
    refused(
        &cluster,
        "run",
        "0/2",
        &["--voters", "0,1"],
        "the number of voters is odd",
    );
    refused(
        &cluster,
        "run",
        "0/2",
        &["--voters", "3"],
        "3 is to vote and is none of the founders",
    );
    refused(
        &cluster,
        "run",
        "0/2",
        &["--silence", "100"],
        "a name is suspected after",
    );
    refused(
        &cluster,
        "run",
        "0/2",
        &["--lease", "100"],
        "--lease is for another --failures",
    );
    // none of these began the life
    cluster.start("0/2", &[]);
    cluster.ask("0/2", "send back");
}

#[test]
fn echo_wants_a_folder_of_state_and_command_a_program() {
    let one = [
        "run",
        "--name",
        "0",
        "--founders",
        "0",
        "--insecure",
        "--address",
        "0=127.0.0.1:0",
    ];
    for (more, line) in [
        (
            &["--failures", "echo"][..],
            "this policy wants a folder of state",
        ),
        (
            &["--failures", "command"],
            "--failures command wants --fence",
        ),
        (&["--next-life"], "--next-life wants --state"),
    ] {
        let done = run(&[&one[..], more].concat());
        let said = String::from_utf8_lossy(&done.stderr).into_owned();
        assert_eq!(done.status.code(), Some(78), "{said}");
        assert!(said.contains(line), "{said}");
    }
    assert!(!Path::new("state").exists());
}

/// A member whose lease, voters or policy are others is told so in the logs, and counts for nothing.
#[test]
fn a_member_of_another_policy_counts_for_nothing() {
    let mut cluster = Cluster::new("other", &[&TIMES[..], &["--voters", "0,1,2"]].concat());
    cluster.start("0", &[]);
    cluster.start("1", &[]);
    cluster.start("2", &["--failures", "lease", "--lease", "400"]);
    until(|| {
        cluster
            .log("0")
            .contains("2 has another key, founding, policy, lease or voters")
    });
    until(|| cluster.log("2").contains("this place doesn't vote"));
}

/// A place that knows one member's address, its own, the key and its folder is told all else.
#[test]
fn a_place_joins_by_one_address() {
    let mut cluster = Cluster::new("seeds", &[&LEASE[..], &["--window", "64"]].concat());
    cluster.start_all();
    let words: Vec<String> = [
        "--name",
        "3",
        "--key",
        &cluster.path("key"),
        "--state",
        &cluster.path("state3"),
        "--seed",
        &cluster.addresses[1],
        "--address",
        &format!("3={}", cluster.addresses[3]),
    ]
    .map(String::from)
    .to_vec();
    let made = Command::new(PROGRAM)
        .arg("found")
        .args(&words)
        .output()
        .unwrap();
    assert!(made.status.success(), "{made:?}");
    cluster.start_by("3", &words, &["--next-life"]);
    cluster.ask("3", "send by an address");
    let status = cluster.ask("3", "status");
    assert_eq!(
        (&status["name"], &status["resilience"]),
        (&"3".into(), &1.into())
    );
    assert_eq!(status["failures"]["policy"], "lease");
    // a founder's place that comes back, too; it forgets all but its name, its key and its folder
    cluster.signal("0", "-KILL");
    assert_eq!(cluster.status("0"), None);
    until(|| cluster.view("3") == ["1", "2", "3"]);
    let own = format!("0={}", cluster.addresses[0]);
    let back: Vec<String> = [
        "--name",
        "0",
        "--key",
        &cluster.path("key"),
        "--state",
        &cluster.path("state0"),
        "--seed",
        &cluster.addresses[3],
        "--address",
        &own,
        "--next-life",
    ]
    .map(String::from)
    .to_vec();
    cluster.start_by("0", &back, &[]);
    cluster.ask("0", "send back");
    assert_eq!(cluster.ask("0", "status")["name"], "0/2");
    assert_eq!(cluster.failures("0")["votes"], true);
}

#[test]
fn nobody_answers_who_has_another_key() {
    let mut cluster = Cluster::new("strange-seed", &ECHO);
    cluster.start_all();
    assert!(run(&["keygen", &cluster.path("other")]).status.success());
    let done = run(&[
        "run",
        "--name",
        "3",
        "--key",
        &cluster.path("other"),
        "--seed",
        &cluster.addresses[0],
        "--address",
        &format!("3={}", cluster.addresses[3]),
        "--start-within",
        "1",
    ]);
    let said = String::from_utf8_lossy(&done.stderr).into_owned();
    assert_eq!(done.status.code(), Some(75), "{said}");
    assert!(said.contains("no member of the group answers at"), "{said}");
}
