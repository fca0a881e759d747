use muoswyld::{Letter, Node, Refusal};
use std::collections::VecDeque;

/// A group in one process: each letter is heard by everybody who runs.
struct Group {
    nodes: Vec<Option<Node>>,
    letters: VecDeque<Letter>,
}

impl Group {
    fn new(count: usize) -> Group {
        let founders: Vec<String> = (0..count).map(|place| place.to_string()).collect();
        let open = |place| {
            Node::open(&format!(
                "--name {place} --founders {} --resilience 1",
                founders.join(",")
            ))
            .ok()
        };
        Group {
            nodes: (0..count).map(open).collect(),
            letters: VecDeque::new(),
        }
    }

    fn tell(&mut self, place: usize, line: &str) -> String {
        let answer = self.nodes[place]
            .as_mut()
            .expect("it runs")
            .step(line)
            .expect("there is memory");
        self.letters.extend(answer.letters);
        answer.said
    }

    fn run(&mut self, ticks: usize) {
        for _ in 0..ticks {
            while let Some(letter) = self.letters.pop_front() {
                for place in self.running() {
                    self.tell(place, &letter.heard());
                }
            }
            for place in self.running() {
                self.tell(place, "tick");
            }
        }
    }

    fn running(&self) -> Vec<usize> {
        (0..self.nodes.len())
            .filter(|place| self.nodes[*place].is_some())
            .collect()
    }

    fn take(&mut self, place: usize) -> Vec<String> {
        let mut taken = Vec::new();
        loop {
            let said = self.tell(place, "take");
            match said.strip_prefix("took ") {
                Some(entry) => taken.push(entry.to_string()),
                None => return taken,
            }
        }
    }
}

#[test]
fn answers_as_the_page_says() {
    let mut node = Node::open("--name 1 --founders 0,1,2").unwrap();
    let sent = node.tell(b"send 61").unwrap();
    assert_eq!(
        sent,
        b"queued 1 | 0 41470301010000000100001900000001000000000000000161"
    );
    let stored = node
        .step("hear 1,2 41470303000000000100001f00000000000000020000000201010000000161")
        .unwrap();
    assert_eq!(
        (stored.said.as_str(), stored.letters.len()),
        ("stored 2", 0)
    );
    assert_eq!(node.step("take").unwrap().said, "took 1 view 1.0 0,1,2");
    assert_eq!(node.step("take").unwrap().said, "took 2 data 1 1 61");
}

#[test]
fn bad_lines_have_their_causes() {
    let mut node = Node::open("--name 1 --founders 0,1,2").unwrap();
    for (line, cause) in [
        ("", 1),
        ("sends 61", 1),
        ("send 6", 2),
        ("ask 0", 3),
        ("tick\n", 1),
    ] {
        assert_eq!(
            node.step(line).unwrap().said,
            format!("bad line {cause}"),
            "{line:?}"
        );
    }
    assert_eq!(node.tell(&[b'a'; 4097]).unwrap(), b"bad line 4");
    assert_eq!(node.tell(&vec![0xff; 1 << 20]).unwrap(), b"bad line 4");
    assert_eq!(node.step("tick").unwrap().said, "ticked");
}

#[test]
fn options_that_are_none_open_nothing() {
    let of = [
        "",
        "--name 1",
        "--name 16 --founders 0,1",
        "--name 1  --founders 0,1",
        "--name 1 --founders 0,1 --name 1",
    ];
    for options in of {
        assert_eq!(
            Node::open(options).err(),
            Some(Refusal::BadOptions),
            "{options:?}"
        );
    }
}

#[test]
fn an_answer_longer_than_its_room_is_told_whole() {
    let mut group = Group::new(2);
    // a sequencer tells a body of 1,024 bytes in a letter, whose answer has more than 2,048 digits
    let body = "61".repeat(1024);
    assert_eq!(group.tell(0, &format!("send {body}")), "queued 1");
    group.run(5);
    let taken = group.take(0);
    assert_eq!(
        taken,
        ["1 view 1.0 0,1".to_string(), format!("2 data 0 1 {body}")]
    );
}

#[test]
fn a_group_goes_on_without_a_member_that_crashed() {
    let mut group = Group::new(3);
    group.tell(1, "send 6f6e65");
    group.run(5);
    for place in 0..3 {
        assert_eq!(group.take(place), ["1 view 1.0 0,1,2", "2 data 1 1 6f6e65"]);
    }
    group.nodes[0] = None;
    group.tell(2, "send 74776f");
    group.run(5);
    group.tell(1, "reset 2");
    group.tell(1, "giveup 0");
    group.run(20);
    let (one, two) = (group.take(1), group.take(2));
    assert_eq!(one, two);
    assert!(
        one.iter()
            .any(|entry| entry.starts_with("3 view ") && entry.ends_with(" 1,2")),
        "{one:?}"
    );
    assert!(
        one.iter().any(|entry| entry.ends_with("data 2 1 74776f")),
        "{one:?}"
    );
}

#[test]
fn a_letter_for_any_life_is_heard_by_a_second_life() {
    let mut joiner = Node::open("--name 3 --founders 0,1,2").unwrap();
    let asked = joiner.step("join").unwrap();
    assert_eq!((asked.said.as_str(), asked.letters.len()), ("asked", 1));
    let others = [0, 1, 2, 4, 5, 6, 7, 8, 9, 10, 11, 12, 13, 14, 15].map(|place| place.to_string());
    let letter = &asked.letters[0];
    assert_eq!(letter.names().collect::<Vec<_>>(), others);
    assert_eq!(letter.to, format!("*{}", others.join(",")));
    let mut second = Node::open("--name 0/2 --founders 0,1,2").unwrap();
    assert_eq!(second.step(&letter.heard()).unwrap().said, "elsewhere");
    let first_lives = letter.heard().replace('*', "");
    assert_eq!(second.step(&first_lives).unwrap().said, "not-addressed");
    let mut sequencer = Node::open("--name 0 --founders 0,1,2").unwrap();
    let numbered = sequencer.step(&letter.heard()).unwrap();
    assert_eq!(numbered.said, "numbered 2");
    let names: Vec<Vec<&str>> = numbered
        .letters
        .iter()
        .map(|l| l.names().collect())
        .collect();
    assert_eq!(names, [vec!["1", "2"], vec!["3"]]);
}

#[test]
fn a_place_comes_back_as_its_second_life() {
    let mut group = Group::new(3);
    group.run(3);
    group.nodes[2] = None;
    group.tell(0, "reset 2");
    group.tell(0, "giveup 2");
    group.run(20);
    group.nodes[2] = Node::open("--name 2/2 --founders 0,1,2 --resilience 1").ok();
    assert_eq!(group.tell(2, "state"), "stranger");
    assert_eq!(group.tell(2, "join"), "asked");
    group.run(20);
    assert_eq!(group.tell(2, "state"), "joined 3");
    group.tell(1, "send 61");
    group.run(10);
    assert_eq!(group.take(2), ["3 join 2/2", "4 data 1 1 61"]);
    let first = [
        "1 view 1.0 0,1,2",
        "2 view 2.0 0,1",
        "3 join 2/2",
        "4 data 1 1 61",
    ];
    assert_eq!(group.take(0), first);
    // what it is sent names this life, and no other hears it
    let sent = group.nodes[0].as_mut().unwrap().step("send 62").unwrap();
    let letter = &sent.letters[0];
    assert_eq!(letter.names().collect::<Vec<_>>(), ["1", "2/2"]);
    let mut first_life = Node::open("--name 2 --founders 0,1,2 --resilience 1").unwrap();
    assert_eq!(
        first_life.step(&letter.heard()).unwrap().said,
        "not-addressed"
    );
}
