//! Writes the journals of three members of a group that sends so many messages over a network that loses nothing, and says how long
//! they take to be judged: `long SENDS BYTES FOLDER`.

use muoswyld::Node;
use muoswyld_judge::feed::Over;
use muoswyld_judge::{judge, Asked};
use std::collections::VecDeque;
use std::error::Error;
use std::fs::File;
use std::io::{BufWriter, Write};
use std::path::{Path, PathBuf};
use std::time::Instant;

const MEMBERS: usize = 3;

/// A letter under way: whose it is, its number, for whom, and its text.
struct Letter {
    from: usize,
    number: u64,
    to: usize,
    text: String,
}

struct Member {
    node: Node,
    journal: BufWriter<File>,
    sent: u64,
}

struct Group {
    members: Vec<Member>,
    under_way: VecDeque<Letter>,
    time: u64,
}

impl Group {
    fn open(folder: &Path) -> Result<Group, Box<dyn Error>> {
        let member = |place: usize| -> Result<Member, Box<dyn Error>> {
            let path = folder.join(format!("journal-{place}"));
            let mut journal = BufWriter::new(File::create(path)?);
            writeln!(journal, "node\t{place}\t0,1,2\t1\t64\t1024")?;
            let founding = "--founders 0,1,2 --resilience 1 --window 64 --pb-up-to 1024";
            let node = Node::open(&format!("--name {place} {founding}"))?;
            Ok(Member {
                node,
                journal,
                sent: 0,
            })
        };
        Ok(Group {
            members: (0..MEMBERS).map(member).collect::<Result<_, _>>()?,
            under_way: VecDeque::new(),
            time: 0,
        })
    }

    /// Gives a member a line, and says what it answers.
    fn tell(&mut self, place: usize, line: &str, heard: &str) -> Result<String, Box<dyn Error>> {
        self.time += 1;
        let member = &mut self.members[place];
        let answer = String::from_utf8_lossy(member.node.tell(line.as_bytes())?).into_owned();
        writeln!(member.journal, "{}\t{line}\t{heard}\t{answer}", self.time)?;
        for text in answer.split(" | ").skip(1) {
            member.sent += 1;
            let names = text.split(' ').next().unwrap_or_default();
            let places = names.trim_start_matches('*').split(',');
            for to in places.filter_map(|name| name.parse().ok()) {
                if to < MEMBERS {
                    self.under_way.push_back(Letter {
                        from: place,
                        number: member.sent,
                        to,
                        text: text.to_string(),
                    });
                }
            }
        }
        Ok(answer)
    }

    /// Has all hear what is under way, and take what there is.
    fn settle(&mut self) -> Result<(), Box<dyn Error>> {
        while let Some(letter) = self.under_way.pop_front() {
            let heard = format!("{} {}", letter.from, letter.number);
            self.tell(letter.to, &format!("hear {}", letter.text), &heard)?;
        }
        for place in 0..MEMBERS {
            while self.tell(place, "take", "")?.starts_with("took ") {}
        }
        Ok(())
    }

    /// Has all send a message, and collect it.
    fn round(&mut self, request: u64, body: &str) -> Result<(), Box<dyn Error>> {
        for place in 0..MEMBERS {
            self.tell(place, &format!("send {body}"), "")?;
        }
        self.settle()?;
        for place in 0..MEMBERS {
            self.tell(place, "tick", "")?;
        }
        self.settle()?;
        for place in 0..MEMBERS {
            self.tell(place, &format!("done {request}"), "")?;
        }
        Ok(())
    }
}

fn main() -> Result<(), Box<dyn Error>> {
    let words: Vec<String> = std::env::args().skip(1).collect();
    let [sends, bytes, folder] = &words[..] else {
        return Err("long SENDS BYTES FOLDER".into());
    };
    let folder = PathBuf::from(folder);
    let body = "61".repeat(bytes.parse()?);
    let mut group = Group::open(&folder)?;
    for request in 1..=sends.parse::<u64>()? / MEMBERS as u64 {
        group.round(request, &body)?;
    }
    for member in &mut group.members {
        writeln!(member.journal, "end")?;
    }
    drop(group);
    let asked = Asked {
        journals: vec![folder],
        over: Over::new(true),
        play: None,
    };
    let began = Instant::now();
    let judged = judge(&asked, &mut |_| ())?;
    writeln!(std::io::stdout(), "{judged:?} in {:?}", began.elapsed())?;
    Ok(())
}
