//! The lines of a journal, as net/merge.py reads them: what the node was given, what it answered, and its letters.

use crate::config::{Founding, Settings, Time};
use crate::event::Successor;
use muoswyld::answer::{Did, Entry, Outcome};
use muoswyld::event::Event;
use muoswyld::names::Name;
use std::fmt::{self, Write};

/// An outcome as a node that speaks lines writes it (docs/PROTOCOL.md, "Outcomes").
struct Said<'a>(&'a Outcome);

struct Shown<'a>(&'a Entry);

struct Digits<'a>(&'a [u8]);

impl fmt::Display for Digits<'_> {
    fn fmt(&self, f: &mut fmt::Formatter<'_>) -> fmt::Result {
        const DIGITS: &[u8; 16] = b"0123456789abcdef";
        if self.0.is_empty() {
            return f.write_char('-');
        }
        for byte in self.0 {
            f.write_char(char::from(DIGITS[usize::from(byte >> 4)]))?;
            f.write_char(char::from(DIGITS[usize::from(byte & 15)]))?;
        }
        Ok(())
    }
}

impl fmt::Display for Shown<'_> {
    fn fmt(&self, f: &mut fmt::Formatter<'_>) -> fmt::Result {
        match self.0 {
            Entry::Data {
                from,
                request,
                body,
            } => write!(f, "data {from} {request} {}", Digits(body)),
            Entry::Join(name) => write!(f, "join {name}"),
            Entry::Leave(name) => write!(f, "leave {name}"),
            Entry::View {
                stamp,
                members,
                resilience,
            } => {
                write!(f, "view {stamp} {members}")?;
                resilience.map_or(Ok(()), |r| write!(f, " r{r}"))
            }
        }
    }
}

impl fmt::Display for Said<'_> {
    fn fmt(&self, f: &mut fmt::Formatter<'_>) -> fmt::Result {
        match self.0 {
            Outcome::Queued { request } => write!(f, "queued {request}"),
            Outcome::Busy { queued } => write!(f, "busy {queued}"),
            Outcome::Pending { request } => write!(f, "pending {request}"),
            Outcome::Sent { request, number } => write!(f, "sent {request} {number}"),
            Outcome::Took { number, entry } => write!(f, "took {number} {}", Shown(entry)),
            Outcome::Joined { number } => write!(f, "joined {number}"),
            Outcome::PutOff { request, base, top } => write!(f, "put-off {request} {base} {top}"),
            Outcome::Numbered { number } => write!(f, "numbered {number}"),
            Outcome::Early { last } => write!(f, "early {last}"),
            Outcome::Held { base, top } => write!(f, "held {base} {top}"),
            Outcome::Stored { number } => write!(f, "stored {number}"),
            Outcome::Gap { want } => write!(f, "gap {want}"),
            Outcome::NoBody { from, request } => write!(f, "no-body {from} {request}"),
            Outcome::Advanced { accepted } => write!(f, "advanced {accepted}"),
            Outcome::Accepted { accepted } => write!(f, "accepted {accepted}"),
            Outcome::Served { count } => write!(f, "served {count}"),
            Outcome::Welcomed { number } => write!(f, "welcomed {number}"),
            Outcome::LetGo { number } => write!(f, "let-go {number}"),
            Outcome::Refused { cause } => write!(f, "refused {cause}"),
            Outcome::Newer { promise } => write!(f, "newer {promise}"),
            Outcome::Catching { want } => write!(f, "catching {want}"),
            Outcome::Waiting { names } => write!(f, "waiting {names}"),
            Outcome::Fetching { from, want } => write!(f, "fetching {from} {want}"),
            Outcome::TooFew { got, least } => write!(f, "too-few {got} {least}"),
            Outcome::Crowded { base, top } => write!(f, "crowded {base} {top}"),
            Outcome::Overtaken { by } => write!(f, "overtaken {by}"),
            Outcome::NotIn { best } => write!(f, "not-in {best}"),
            Outcome::Decided { number, members } => write!(f, "decided {number} {members}"),
            Outcome::Occupied { name } => write!(f, "occupied {name}"),
            Outcome::Bad { cause } => write!(f, "bad line {cause}"),
            other => f.write_str(word_of(other)),
        }
    }
}

/// The word of an outcome that has no field.
fn word_of(outcome: &Outcome) -> &'static str {
    match outcome {
        Outcome::Unknown => "unknown",
        Outcome::Empty => "empty",
        Outcome::Asked => "asked",
        Outcome::Leaving => "leaving",
        Outcome::Departed => "departed",
        Outcome::Stranger => "stranger",
        Outcome::NotMember => "not-member",
        Outcome::Ticked => "ticked",
        Outcome::Idle => "idle",
        Outcome::Again => "again",
        Outcome::Kept => "kept",
        Outcome::Known => "known",
        Outcome::Behind => "behind",
        Outcome::Unfit => "unfit",
        Outcome::Noted => "noted",
        Outcome::Elsewhere => "elsewhere",
        Outcome::Voted => "voted",
        Outcome::NotCoordinator => "not-coordinator",
        Outcome::NotAddressed => "not-addressed",
        Outcome::NoNumbersLeft => "no numbers left",
        _ => "",
    }
}

/// A founding, as lines have it.
fn numbers_of(founding: &Founding) -> String {
    let Founding {
        founders,
        resilience,
        window,
        pb_up_to,
    } = founding;
    format!("{founders}\t{resilience}\t{window}\t{pb_up_to}")
}

/// Lines that aren't given out yet.
#[derive(Debug, Default)]
pub(crate) struct Journal {
    is_kept: bool,
    resilience: u8,
    lines: String,
}

impl Journal {
    /// A journal with its first line, if one is kept.
    pub(crate) fn new(settings: &Settings) -> Journal {
        let mut journal = Journal {
            is_kept: settings.journal,
            resilience: settings.founding.resilience,
            lines: String::new(),
        };
        let (name, numbers) = (settings.name, numbers_of(&settings.founding));
        match (settings.generation, settings.group, settings.before) {
            (0, _, _) => journal.push(format_args!("node\t{name}\t{numbers}")),
            (generation, group, before) => {
                let group = group.unwrap_or_default();
                let (ended, number) = before.map_or((0, 0), |it| (it.group, it.number));
                journal.push(format_args!(
                    "node\t{name}\t{numbers}\t{generation}\t{group:016x}\t{ended:016x}\t{number}"
                ));
            }
        }
        journal
    }

    fn push(&mut self, line: fmt::Arguments) {
        if self.is_kept {
            // writing to a string can't fail
            let _ = writeln!(self.lines, "{line}");
        }
    }

    /// Adds what the node was given and what it did; of a letter heard, also whose it was and that one's number for it.
    pub(crate) fn add(&mut self, now: Time, event: &Event, heard: Option<(Name, u32)>, did: &Did) {
        if !self.is_kept {
            return;
        }
        let line = self.line_of(event);
        let lines = &mut self.lines;
        let _ = write!(lines, "{}\t{line}\t", now.0);
        if let Some((name, number)) = heard {
            let _ = write!(lines, "{name} {number}");
        }
        let _ = write!(lines, "\t{}", Said(&did.outcome));
        for letter in &did.letters {
            let _ = write!(lines, " | {} {}", letter.to, Digits(&letter.bytes));
        }
        lines.push('\n');
    }

    /// The line of an event. A reset names a resilience only if it isn't the founding's, as the text of a play does.
    fn line_of(&self, event: &Event) -> String {
        match event {
            Event::Reset { least, resilience } if *resilience == self.resilience => {
                format!("reset {least}")
            }
            _ => event.line(),
        }
    }

    /// Adds that the list ended at an entry, and which one follows it.
    pub(crate) fn succeed(&mut self, next: &Successor) {
        let numbers = numbers_of(&next.founding);
        let (number, group) = (next.at.number, next.group);
        self.push(format_args!("next\t{number}\t{group:016x}\t{numbers}"));
    }

    /// Adds the last line of a life that departed.
    pub(crate) fn end(&mut self) {
        self.push(format_args!("end"));
    }

    /// The lines since the last time.
    pub(crate) fn take(&mut self) -> Vec<u8> {
        std::mem::take(&mut self.lines).into_bytes()
    }
}

#[cfg(test)]
mod tests {
    use super::*;
    use crate::chance::Chance;
    use crate::config::Before;
    use crate::event::Position;
    use muoswyld::answer::Packet;
    use muoswyld::names::Names;
    use muoswyld::Node;
    use std::collections::BTreeSet;

    /// A node that is asked by events, and one that is asked by their lines.
    struct Both {
        name: Name,
        node: Node,
        by_lines: Node,
        journal: Journal,
    }

    fn both(name: &str) -> Both {
        let name = name.parse().expect("a name");
        let founding = Founding {
            founders: "0,1,2".parse().expect("names"),
            resilience: 1,
            window: 4,
            pb_up_to: 20,
        };
        let mut settings = Settings::new(name, founding, 0);
        settings.journal = true;
        let options = founding.options(name);
        let mut journal = Journal::new(&settings);
        let head = format!("node\t{name}\t0,1,2\t1\t4\t20\n");
        assert_eq!(journal.take(), head.into_bytes());
        Both {
            name,
            node: Node::open(&options).expect("a node"),
            by_lines: Node::open(&options).expect("a node"),
            journal,
        }
    }

    fn event_of<'a>(chance: &mut Chance, body: &'a [u8], letters: &'a [Packet]) -> Event<'a> {
        let any = |count: u64, chance: &mut Chance| (chance.word() % count) as u32;
        match any(24, chance) {
            0 | 1 => Event::Send(&body[..any(60, chance) as usize]),
            2 => Event::Done(1 + any(6, chance)),
            3..=6 => Event::Take,
            7 => Event::Join,
            8 => Event::State,
            9 if any(8, chance) == 0 => Event::Leave,
            10 if any(6, chance) == 0 => Event::Reset {
                least: 1 + any(4, chance) as u8,
                resilience: any(3, chance) as u8,
            },
            11 => Event::Ask(1 + any(5, chance)),
            12 => Event::GiveUp(Name::of_byte(any(5, chance) as u8)),
            13 | 14 => Event::Tick,
            _ => {
                let letter = &letters[any(letters.len() as u64, chance) as usize];
                let cut = if any(50, chance) == 0 { 13 } else { usize::MAX };
                Event::Hear {
                    to: letter.to,
                    packet: &letter.bytes[..letter.bytes.len().min(cut)],
                }
            }
        }
    }

    #[test]
    fn a_list_that_follows_another_one_says_so() {
        let founding = Founding {
            founders: "0,2".parse().expect("names"),
            resilience: 1,
            window: 4,
            pb_up_to: 20,
        };
        let mut settings = Settings::new("2".parse().expect("a name"), founding, 0);
        settings.journal = true;
        settings.generation = 3;
        settings.group = Some(0xa5);
        settings.before = Some(Before {
            group: 1 << 63,
            number: 17,
        });
        let mut journal = Journal::new(&settings);
        let head = "node\t2\t0,2\t1\t4\t20\t3\t00000000000000a5\t8000000000000000\t17\n";
        assert_eq!(journal.take(), head.as_bytes());
        journal.succeed(&Successor {
            group: 7,
            founding,
            voters: Names::nobody(),
            members: "0,2/3".parse().expect("names"),
            at: Position {
                generation: 3,
                number: 9,
                index: 0,
            },
            unsent: Vec::new(),
        });
        let line = "next\t9\t0000000000000007\t0,2\t1\t4\t20\n";
        assert_eq!(journal.take(), line.as_bytes());
    }

    #[test]
    fn answers_are_written_as_a_node_writes_them() {
        let mut words = BTreeSet::new();
        for seed in 0..40 {
            let mut chance = Chance::new(seed);
            let mut nodes = ["0", "1", "2", "5", "6/2"].map(both);
            let body: Vec<u8> = (0..60).collect();
            let mut letters: Vec<Packet> = Vec::new();
            let first = nodes[1].node.handle(&Event::Tick).expect("an answer");
            nodes[1].by_lines.tell(b"tick").expect("an answer");
            letters.extend(first.letters);
            for time in 0..300 {
                let from = letters.len().saturating_sub(30);
                let event = event_of(&mut chance, &body, &letters[from..]);
                let both = &mut nodes[(chance.word() % 5) as usize];
                let did = both.node.handle(&event).expect("an answer");
                let said = both
                    .by_lines
                    .tell(event.line().as_bytes())
                    .expect("an answer");
                let said = String::from_utf8_lossy(said).into_owned();
                both.journal
                    .add(Time(time), &event, Some((both.name, 7)), &did);
                let line = String::from_utf8(both.journal.take()).expect("text");
                let fields: Vec<&str> = line.trim_end_matches('\n').split('\t').collect();
                assert_eq!(fields[0], time.to_string());
                assert_eq!(fields[2], format!("{} 7", both.name));
                assert_eq!(fields[3..], [said.as_str()]);
                words.extend(said.split(' ').next().map(str::to_string));
                letters.extend(did.letters);
            }
        }
        assert!(
            words.len() > 30,
            "of the outcomes there were only {words:?}"
        );
    }
}
