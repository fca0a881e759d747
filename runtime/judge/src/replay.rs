//! A life's journal, given to a node again: each answer is compared, and what others have to know of the line is kept.

use crate::ending::Turn;
use crate::feed::{Feed, Over};
use crate::finding::{Cause, Finding};
use crate::line::{Founding, Head, Line};
use muoswyld::names::{Name, Names, Stamp};
use muoswyld::Node;
use std::collections::hash_map::RandomState;
use std::collections::BTreeMap;
use std::hash::BuildHasher;
use std::path::{Path, PathBuf};

/// What must have been before a step.
#[derive(Clone, Copy, Debug, PartialEq, Eq)]
pub(crate) enum Needs {
    /// Nothing.
    Nothing,
    /// That this letter was sent.
    Letter { from: Name, number: u64, sum: u64 },
    /// That this name stopped.
    Stop(Name),
}

/// What a step gave to the application.
#[derive(Clone, Copy, Debug, PartialEq, Eq)]
pub(crate) enum Gave {
    /// Nothing.
    Nothing,
    /// An entry: its number and its sum, whose request it is, or who joined by it.
    Entry {
        number: u64,
        sum: u64,
        data: Option<(Name, u64)>,
        joined: Option<Name>,
    },
    /// Where its own request stands, and the entry's sum.
    Sent { request: u64, number: u64, sum: u64 },
}

/// What a node shows of itself, as `info` says it.
#[derive(Clone, Copy, Debug, PartialEq, Eq)]
pub(crate) struct Standing {
    pub(crate) has_departed: bool,
    pub(crate) view: Stamp,
    pub(crate) number: u64,
    pub(crate) members: Names,
    pub(crate) resilience: u8,
}

/// What others have to know of a line.
#[derive(Debug)]
pub(crate) struct Step {
    pub(crate) line: u64,
    pub(crate) time: u64,
    pub(crate) needs: Needs,
    pub(crate) letters: Vec<u64>,
    pub(crate) gave: Gave,
    /// The number of the Join by which it was welcomed.
    pub(crate) welcomed: Option<u64>,
    /// What an entry that it gave is to the end of the list.
    pub(crate) turn: Option<Turn>,
    /// What it shows, if that changed.
    pub(crate) standing: Option<Standing>,
    /// What it was given and what it answered.
    pub(crate) text: Option<(String, String)>,
}

/// What comes of a journal, one after the other.
#[derive(Debug)]
pub(crate) enum Told {
    /// A line's step.
    Step(Box<Step>),
    /// The list is said to end at an entry, and which one follows it.
    Next {
        line: u64,
        number: u64,
        group: u64,
        founding: Founding,
    },
    /// There are no more lines; whether the last one says that the life departed and ended.
    Over { has_ended: bool },
    /// What isn't as it should be.
    Wrong(Finding),
}

/// A life's journal.
pub(crate) struct Replay {
    path: PathBuf,
    head: Head,
    feed: Feed,
    node: Node,
    sums: RandomState,
    line: u64,
    time: u64,
    /// The requests that aren't collected, with the texts of their entries.
    sent: BTreeMap<u64, String>,
    /// The words of `info` that were looked at last.
    shown: Vec<u8>,
    has_ended: bool,
    /// Whether steps carry their texts.
    keeps_text: bool,
}

/// How many words of `info` are looked at: status, view, number, members, resilience.
const SHOWN: usize = 5;

/// The end of so many words.
fn end_of_words(text: &[u8], count: usize) -> usize {
    let mut blanks = text.iter().enumerate().filter(|(_, byte)| **byte == b' ');
    blanks.nth(count - 1).map_or(text.len(), |(at, _)| at)
}

fn standing_of(words: &str) -> Option<Standing> {
    let mut words = words.split(' ');
    let status = words.next()?;
    Some(Standing {
        has_departed: status == "departed",
        view: words.next()?.parse().ok()?,
        number: words.next()?.parse().ok()?,
        members: words.next()?.parse().ok()?,
        resilience: words.next()?.parse().ok()?,
    })
}

/// Whether a line's event can change what a node shows of its view and status.
fn may_show(asked: &str) -> bool {
    let word = asked.split(' ').next().unwrap_or_default();
    !matches!(word, "send" | "take" | "done" | "state" | "info")
}

impl Replay {
    /// That of a journal whose first line was read as this head.
    pub(crate) fn open(
        path: &Path,
        head: Head,
        over: Over,
        sums: RandomState,
    ) -> Result<Replay, Finding> {
        let wrong = |cause| Finding::at(path, 1, cause);
        let mut feed =
            Feed::open(path, over).map_err(|error| wrong(Cause::Unread(error.to_string())))?;
        feed.next()
            .map_err(|error| wrong(Cause::Unread(error.to_string())))?;
        let node = Node::open(&head.options())
            .map_err(|error| wrong(Cause::NoAnswer(error.to_string())))?;
        Ok(Replay {
            path: path.to_path_buf(),
            head,
            feed,
            node,
            sums,
            line: 1,
            time: 0,
            sent: BTreeMap::new(),
            shown: Vec::new(),
            has_ended: false,
            keeps_text: false,
        })
    }

    /// With the texts of its steps.
    pub(crate) fn with_text(mut self, keeps_text: bool) -> Replay {
        self.keeps_text = keeps_text;
        self
    }

    /// What comes of the next line.
    pub(crate) fn next(&mut self) -> Told {
        self.tell()
            .unwrap_or_else(|cause| Told::Wrong(Finding::at(&self.path, self.line, cause)))
    }

    fn tell(&mut self) -> Result<Told, Cause> {
        let Some(line) = self
            .feed
            .next()
            .map_err(|error| Cause::Unread(error.to_string()))?
        else {
            return Ok(Told::Over {
                has_ended: self.has_ended,
            });
        };
        let text = String::from_utf8_lossy(line).into_owned();
        self.line += 1;
        if self.has_ended {
            return Err(Cause::AfterEnd);
        }
        match Line::of(&text).map_err(|cause| Cause::NoLine(cause.to_string()))? {
            Line::End => {
                self.has_ended = true;
                self.tell()
            }
            Line::Next {
                number,
                group,
                founding,
            } => Ok(Told::Next {
                line: self.line,
                number,
                group,
                founding,
            }),
            Line::Step { time, .. } if time < self.time => Err(Cause::Backwards),
            Line::Step {
                time,
                asked,
                heard,
                answer,
            } => {
                self.time = time;
                self.compare(asked, answer)?;
                Ok(Told::Step(Box::new(self.step(asked, heard, answer)?)))
            }
        }
    }

    /// Gives the node the line, and compares its answer.
    fn compare(&mut self, asked: &str, answer: &str) -> Result<(), Cause> {
        let answers = self
            .node
            .tell(asked.as_bytes())
            .map_err(|error| Cause::NoAnswer(error.to_string()))?;
        if answers == answer.as_bytes() {
            return Ok(());
        }
        Err(Cause::OtherAnswer {
            answers: String::from_utf8_lossy(answers).into_owned(),
            journal: answer.to_string(),
        })
    }

    fn step(
        &mut self,
        asked: &str,
        heard: Option<(Name, u64)>,
        answer: &str,
    ) -> Result<Step, Cause> {
        let mut parts = answer.split(" | ");
        let said = parts.next().unwrap_or_default();
        let letters = parts
            .map(|letter| self.sums.hash_one(letter.as_bytes()))
            .collect();
        let (word, rest) = asked.split_once(' ').unwrap_or((asked, ""));
        let needs = match (heard, word) {
            (Some((from, number)), _) => Needs::Letter {
                from,
                number,
                sum: self.sums.hash_one(rest.as_bytes()),
            },
            (None, "giveup") => rest.parse().map_or(Needs::Nothing, Needs::Stop),
            _ => Needs::Nothing,
        };
        Ok(Step {
            line: self.line,
            time: self.time,
            needs,
            letters,
            gave: self.gave(word, rest, said)?,
            welcomed: said
                .strip_prefix("welcomed ")
                .and_then(|number| number.parse().ok()),
            turn: said
                .strip_prefix("took ")
                .and_then(|took| Turn::of(took.split_once(' ')?.1)),
            standing: self.look(asked)?,
            text: self
                .keeps_text
                .then(|| (asked.to_string(), answer.to_string())),
        })
    }

    /// What a step gave to the application.
    fn gave(&mut self, word: &str, rest: &str, said: &str) -> Result<Gave, Cause> {
        let bad = || Cause::NoLine(format!("{said:?} is no outcome of {word}"));
        let (outcome, fields) = said.split_once(' ').unwrap_or((said, ""));
        match (word, outcome) {
            ("send", "queued") => {
                let request = fields.parse().map_err(|_| bad())?;
                let entry = format!("data {} {request} {rest}", self.head.name);
                self.sent.insert(request, entry);
                Ok(Gave::Nothing)
            }
            ("done", "sent") => {
                let (request, number) = fields.split_once(' ').ok_or_else(bad)?;
                let request = request.parse().map_err(|_| bad())?;
                let entry = self.sent.remove(&request).unwrap_or_default();
                Ok(Gave::Sent {
                    request,
                    number: number.parse().map_err(|_| bad())?,
                    sum: self.sums.hash_one(entry.as_bytes()),
                })
            }
            ("take", "took") => {
                let (number, entry) = fields.split_once(' ').ok_or_else(bad)?;
                let mut words = entry.split(' ');
                let (kind, name) = (
                    words.next(),
                    words.next().and_then(|name| name.parse().ok()),
                );
                let request = words.next().and_then(|request| request.parse().ok());
                Ok(Gave::Entry {
                    number: number.parse().map_err(|_| bad())?,
                    sum: self.sums.hash_one(entry.as_bytes()),
                    data: name.zip(request).filter(|_| kind == Some("data")),
                    joined: name.filter(|_| kind == Some("join")),
                })
            }
            _ => Ok(Gave::Nothing),
        }
    }

    /// What the node shows, if that changed.
    fn look(&mut self, asked: &str) -> Result<Option<Standing>, Cause> {
        if !may_show(asked) {
            return Ok(None);
        }
        let info = self
            .node
            .tell(b"info")
            .map_err(|error| Cause::NoAnswer(error.to_string()))?;
        let shown = &info[..end_of_words(info, SHOWN)];
        if shown == self.shown {
            return Ok(None);
        }
        self.shown = shown.to_vec();
        let words = String::from_utf8_lossy(&self.shown);
        let standing = standing_of(&words).ok_or_else(|| Cause::NoAnswer(words.to_string()))?;
        Ok(Some(standing))
    }
}
