//! Processes whose group's list ends, and another one follows it, while they send and one of them is killed.

#[allow(dead_code)] // it is for other tests, too
mod cluster;

use cluster::{run, until, Cluster};
use serde_json::Value;
use std::fs;
use std::process::Command;
use std::sync::atomic::{AtomicBool, AtomicU64, Ordering};
use std::time::{Duration, Instant};

const TOLD: [&str; 2] = ["--failures", "told"];
const ECHO: [&str; 6] = ["--failures", "echo", "--heartbeat", "50", "--delay", "50"];
const LEASE: [&str; 8] = [
    "--failures",
    "lease",
    "--lease",
    "500",
    "--heartbeat",
    "50",
    "--delay",
    "50",
];

/// Ends the list by a member, and again as long as that is refused; the answer.
fn succeed(cluster: &Cluster, name: &str, words: &str) -> Value {
    let began = Instant::now();
    loop {
        let mut caller = cluster.caller(name);
        let answer = caller.ask(&format!("succeed {words}")).unwrap();
        if answer.get("error").is_none() {
            return answer;
        }
        assert!(began.elapsed() < Duration::from_secs(30), "{answer}");
        std::thread::sleep(Duration::from_millis(50));
    }
}

fn kill(cluster: &Cluster, name: &str) {
    let id = fs::read_to_string(cluster.file("pid", name)).unwrap();
    let done = Command::new("kill").args(["-KILL", &id]).status().unwrap();
    assert!(done.success());
}

/// Each text that was answered is in a list once, and no other one comes twice.
fn each_once(answered: &[String], list: &[String]) {
    let mut sorted = list.to_vec();
    sorted.sort();
    let count = sorted.len();
    sorted.dedup();
    assert_eq!(sorted.len(), count, "something came twice");
    for text in answered {
        assert!(sorted.binary_search(text).is_ok(), "{text} is lost");
    }
}

/// The place's files of state.
fn files_of(cluster: &Cluster, state: &str) -> Vec<String> {
    let names = fs::read_dir(cluster.path(state)).unwrap();
    let name = |entry: std::io::Result<fs::DirEntry>| entry.unwrap().file_name();
    let mut names: Vec<String> = names
        .map(|entry| name(entry).into_string().unwrap())
        .collect();
    names.sort();
    names
}

/// The list ends under load, and a member is killed amid that. It comes back as a life of the next list; then that one ends, too.
fn a_member_is_killed_amid_an_end(test: &str, policy: &[&str]) {
    let mut cluster = Cluster::new(test, policy);
    cluster.start_all();
    // `lists` is in how many lists messages stand that were answered
    let (is_over, lists) = (AtomicBool::new(false), AtomicU64::new(0));
    let answered = std::thread::scope(|scope| {
        let sender = |name: &'static str| {
            let mut caller = cluster.caller(name);
            let (is_over, lists) = (&is_over, &lists);
            scope.spawn(move || {
                let mut sent = Vec::new();
                while !is_over.load(Ordering::SeqCst) {
                    let text = format!("{name}-{}", sent.len());
                    let answer = caller.ask(&format!("send {text}")).unwrap();
                    assert!(answer["sent"].is_u64(), "{answer}");
                    let generation = answer["generation"].as_u64().unwrap();
                    lists.fetch_max(generation + 1, Ordering::SeqCst);
                    sent.push((generation, text));
                }
                sent
            })
        };
        let threads = [sender("1"), sender("2")];
        std::thread::sleep(Duration::from_millis(300));
        until(|| lists.load(Ordering::SeqCst) == 1);
        let mut ender = cluster.caller("1");
        assert!(ender.say("succeed window 99"));
        kill(&cluster, "0");
        if policy == TOLD {
            for name in ["1", "2"] {
                cluster.ask(name, "stopped 0 0");
            }
        }
        let answer = ender.answer().unwrap();
        if answer.get("error").is_some() {
            succeed(&cluster, "1", "window 99");
        }
        until(|| cluster.ask("2", "status")["generation"] == 1);
        until(|| cluster.ask("1", "status")["members"] == serde_json::json!(["1", "2"]));
        std::thread::sleep(Duration::from_millis(300));
        until(|| lists.load(Ordering::SeqCst) == 2);
        is_over.store(true, Ordering::SeqCst);
        let threads = threads.into_iter();
        threads
            .flat_map(|it| it.join().unwrap())
            .collect::<Vec<_>>()
    });
    assert!(answered.iter().any(|(generation, _)| *generation == 0));
    assert!(answered.iter().any(|(generation, _)| *generation == 1));
    let answered: Vec<String> = answered.into_iter().map(|(_, text)| text).collect();
    until(|| cluster.texts("1").len() > answered.len() && cluster.texts("2") == cluster.texts("1"));
    each_once(&answered, &cluster.texts("1"));
    // what the killed one saw is a beginning of it
    let seen = cluster.texts("0");
    assert_eq!(seen, cluster.texts("1")[..seen.len()]);
    assert_eq!(cluster.ask("2", "status")["window"], 99);
    // it comes back in the list that follows, which its folder may not know
    cluster.start("0", &["--next-life"]);
    cluster.ask("0", "send back");
    let status = cluster.ask("0", "status");
    assert_eq!(
        (&status["generation"], &status["window"]),
        (&1.into(), &99.into())
    );
    assert_ne!(status["name"], "0/1");
    until(|| cluster.texts("2").contains(&"back".to_string()));
    // and then that list ends, with all three
    let end = succeed(&cluster, "2", "window 77 resilience 0");
    assert_eq!(end["generation"], 1);
    cluster.ask("0", "send more");
    for name in ["0", "1", "2"] {
        until(|| cluster.texts(name).last() == Some(&"more".to_string()));
        let status = cluster.ask(name, "status");
        let place = name.to_string();
        let found = (
            &status["generation"],
            &status["window"],
            &status["resilience"],
            &status["name"],
        );
        assert_eq!(
            found,
            (&2.into(), &77.into(), &0.into(), &place.into()),
            "{status}"
        );
        // the files of the lists before go once all are heard in this one
        let state = format!("state{name}");
        // who votes depends on who was a member at both ends
        let votes = cluster.failures(name)["votes"] == true;
        assert!(policy != TOLD || !votes);
        let wanted: &[&str] = match votes {
            true => &["life.2", "lock", "voter.2"],
            false => &["life.2", "lock"],
        };
        until(|| files_of(&cluster, &state) == wanted);
    }
    let last = cluster.texts("1");
    assert_eq!(cluster.texts("2"), last);
    each_once(&answered, &last);
}

#[test]
fn a_member_is_killed_amid_an_end_and_the_others_are_told() {
    a_member_is_killed_amid_an_end("told-succeed", &TOLD);
}

#[test]
fn a_member_is_killed_amid_an_end_by_echo() {
    a_member_is_killed_amid_an_end("echo-succeed", &ECHO);
}

#[test]
fn a_member_is_killed_amid_an_end_by_lease() {
    a_member_is_killed_amid_an_end("lease-succeed", &LEASE);
}

#[test]
fn a_list_ends_by_the_command_and_says_why_not() {
    let mut cluster = Cluster::new("command-succeed", &ECHO);
    cluster.start_all();
    let socket = cluster.file("socket", "1");
    let ask = |more: &[&str]| run(&[&["succeed", "--socket", &socket][..], more].concat());
    for (words, why) in [
        (["--window", "0"], "a window is 1 to 1,008"),
        (["--voters", "0,1"], "the number of voters is odd"),
        (
            ["--voters", "0,1,3"],
            "3 isn't the first life of a member's place",
        ),
    ] {
        until(|| {
            let refused = ask(&words);
            let said = String::from_utf8_lossy(&refused.stderr).into_owned();
            assert_eq!(refused.status.code(), Some(69), "{said}");
            // as long as not all are heard nobody is asked what it wants
            said.contains(why) || !said.contains("not now")
        });
        let said = String::from_utf8_lossy(&ask(&words).stderr).into_owned();
        assert!(said.contains(why), "{said}");
    }
    let mut done = None;
    until(|| {
        let ended = ask(&["--window", "50", "--voters", "1"]);
        done = Some(ended).filter(|it| it.status.success());
        done.is_some()
    });
    let said: Value = serde_json::from_slice(&done.unwrap().stdout).unwrap();
    assert!(said["succeeded"].is_u64() && said["generation"] == 0);
    for name in ["0", "1", "2"] {
        until(|| cluster.ask(name, "status")["generation"] == 1);
        assert_eq!(cluster.failures(name)["votes"], name == "1");
    }
    // a joiner asks one member, and is told the list that is the latest, and its life there
    let addresses = &cluster.addresses;
    let state = cluster.path("state3");
    let words = [
        "--name",
        "3",
        "--key",
        &cluster.path("key"),
        "--state",
        &state,
    ]
    .map(String::from);
    let words: Vec<String> = words
        .into_iter()
        .chain(["--address".into(), format!("3={}", addresses[3])])
        .collect();
    let founding: Vec<String> = ["--founders", "0,1,2", "--failures", "told"]
        .map(String::from)
        .to_vec();
    let found = [&["found".to_string()][..], &words, &founding].concat();
    let found: Vec<&str> = found.iter().map(String::as_str).collect();
    assert!(run(&found).status.success());
    let seeds = ["--seed".to_string(), addresses[2].clone()];
    let joins = [&words[..], &seeds, &["--next-life".to_string()]].concat();
    cluster.start_by("3", &joins, &[]);
    let status = cluster.ask("3", "status");
    let found = (&status["name"], &status["generation"], &status["window"]);
    assert_eq!(found, (&"3".into(), &1.into(), &50.into()));
    cluster.ask("3", "send joined");
    until(|| cluster.texts("0").contains(&"joined".to_string()));
}

/// A place that is to join the first list isn't started before that is closed. It learns that, and begins in the latest list.
fn a_joiner_comes_too_late(test: &str, policy: &[&str]) {
    let mut cluster = Cluster::new(test, policy);
    cluster.start_all();
    succeed(&cluster, "1", "window 99");
    for place in ["0", "1", "2"] {
        let state = format!("state{place}");
        until(|| !files_of(&cluster, &state).contains(&"life".to_string()));
    }
    let words = [&["found".to_string()][..], &cluster.words("3")].concat();
    let words: Vec<&str> = words.iter().map(String::as_str).collect();
    assert!(run(&words).status.success());
    cluster.start("3", &[]);
    assert_eq!(cluster.status("3"), Some(69));
    let log = cluster.log("3");
    assert!(log.contains("its list has ended"), "{log}");
    // the first life was begun in the first list
    cluster.start("3", &["--next-life"]);
    cluster.ask("3", "send late");
    let status = cluster.ask("3", "status");
    let found = (&status["name"], &status["generation"], &status["window"]);
    assert_eq!(found, (&"3".into(), &1.into(), &99.into()));
    until(|| cluster.texts("0").contains(&"late".to_string()));
}

#[test]
fn a_joiner_of_a_list_that_is_closed_is_told_so() {
    a_joiner_comes_too_late("told-late", &TOLD);
}

#[test]
fn a_joiner_of_a_list_that_is_closed_is_told_so_by_echo() {
    a_joiner_comes_too_late("echo-late", &ECHO);
}
