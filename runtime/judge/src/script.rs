//! A run as a script, and the lines that its text must have, as long as it is short enough for `play` (docs/SCRIPTS.md).

use crate::finding::{Cause, Finding};
use crate::line::Founding;
use muoswyld::names::Name;
use std::collections::BTreeMap;
use std::fmt::Write as _;
use std::io::{self, BufRead, BufReader, Write as _};
use std::path::Path;
use std::process::{Child, Command, Stdio};
use std::thread;

/// The most events of a script.
pub(crate) const MOST: u64 = 100_000;

/// The kinds of packets, from 1 (docs/PROTOCOL.md, "Packets").
const KINDS: [&str; 18] = [
    "Request", "Spread", "Bcast", "Order", "Accept", "Ack", "Nack", "Hold", "JoinAsk", "Welcome",
    "LeaveAsk", "Gone", "Invite", "Vote", "Fetch", "Piece", "Result", "HandOver",
];

/// The script of the events so far, and the lines of its text.
#[derive(Debug, Default)]
pub(crate) struct Script {
    founding: String,
    events: String,
    lines: Vec<String>,
    /// The numbers in the text of each name's letters.
    packets: BTreeMap<Name, Vec<u64>>,
    count: u64,
}

fn kind_of(letter: &str) -> Option<&'static str> {
    let (_, bytes) = letter.split_once(' ')?;
    let number = usize::from_str_radix(bytes.get(6..8)?, 16).ok()?;
    KINDS.get(number.checked_sub(1)?).copied()
}

/// For whom a letter is, as a text has it.
fn shown_to(place: u8, to: &str) -> String {
    let others: Vec<String> = (0..16)
        .filter(|other| *other != place)
        .map(|other| other.to_string())
        .collect();
    if to.starts_with('*') || to == others.join(",") {
        "all".to_string()
    } else {
        to.to_string()
    }
}

/// The event of a script that a line of a place is.
fn event_of(place: u8, asked: &str, packet: u64) -> Option<String> {
    let (word, rest) = asked.split_once(' ').unwrap_or((asked, ""));
    let more = match word {
        "send" => format!(",\"body\":\"{}\"", if rest == "-" { "" } else { rest }),
        "done" => format!(",\"req\":{rest}"),
        "ask" => format!(",\"round\":{rest}"),
        "giveup" => {
            let name: Name = rest.parse().ok()?;
            let life = if name.life() > 1 {
                format!(",\"life\":{}", name.life())
            } else {
                String::new()
            };
            format!(",\"name\":{}{life}", name.place())
        }
        "reset" => match rest.split_once(" r") {
            Some((least, resilience)) => format!(",\"least\":{least},\"resilience\":{resilience}"),
            None => format!(",\"least\":{rest}"),
        },
        "hear" => format!(",\"packet\":{packet}"),
        "take" | "join" | "leave" | "state" | "tick" | "stop" | "return" => String::new(),
        _ => return None,
    };
    Some(format!("{{\"do\":\"{word}\",\"node\":{place}{more}}}"))
}

impl Script {
    /// One without events.
    pub(crate) fn new(founding: &Founding) -> Script {
        let founders: Vec<String> = founding
            .founders
            .iter()
            .map(|name| name.place().to_string())
            .collect();
        Script {
            founding: format!(
                "\"founders\":[{}],\"resilience\":{},\"window\":{},\"pb_up_to\":{}",
                founders.join(","),
                founding.resilience,
                founding.window,
                founding.pb_up_to
            ),
            ..Script::default()
        }
    }

    /// Adds what a name was given and what it answered; of a heard letter, whose it was and its number. None if it is no event.
    pub(crate) fn add(
        &mut self,
        name: Name,
        asked: &str,
        heard: Option<(Name, u64)>,
        answer: &str,
    ) -> Option<()> {
        let packet = match heard {
            None => 0,
            Some((from, number)) => {
                let at = usize::try_from(number.checked_sub(1)?).ok()?;
                *self.packets.get(&from)?.get(at)?
            }
        };
        let event = event_of(name.place(), asked, packet)?;
        let (word, rest) = asked.split_once(' ').unwrap_or((asked, ""));
        let number = self.lines.len() + 1;
        let mut parts = answer.split(" | ");
        let said = parts.next()?;
        let mut line = format!("{number} {word} {}", name.place());
        let rest = if word == "hear" {
            packet.to_string()
        } else {
            rest.to_string()
        };
        if !rest.is_empty() {
            let _ = write!(line, " {rest}");
        }
        let _ = write!(line, " : {said}");
        for letter in parts {
            self.count += 1;
            self.packets.entry(name).or_default().push(self.count);
            let (to, _) = letter.split_once(' ')?;
            let _ = write!(
                line,
                " | {} {} to {}",
                self.count,
                kind_of(letter)?,
                shown_to(name.place(), to)
            );
        }
        if !self.events.is_empty() {
            self.events.push(',');
        }
        self.events.push_str(&event);
        self.lines.push(line);
        Some(())
    }

    /// The script.
    fn text(&self) -> String {
        format!(
            "{{\"play\":{{{},\"events\":[{}]}}}}\n",
            self.founding, self.events
        )
    }

    /// Has the program's `play` print the text, compares each event's line, and gives its verdict.
    pub(crate) fn played(&self, program: &Path) -> Result<String, Finding> {
        let failed = |error: io::Error| Finding::of(Cause::NoText(error.to_string()));
        let mut child = Command::new(program)
            .arg("play")
            .stdin(Stdio::piped())
            .stdout(Stdio::piped())
            .spawn()
            .map_err(failed)?;
        let input = child.stdin.take();
        let text = self.text();
        let verdict = thread::scope(|scope| {
            scope.spawn(move || {
                // what isn't read is told by the program's status
                let _ = input.map(|mut input| input.write_all(text.as_bytes()));
            });
            self.compared(&mut child)
        });
        let status = child.wait().map_err(failed)?;
        match verdict {
            Ok(verdict) if status.success() => Ok(verdict),
            Ok(_) => Err(Finding::of(Cause::NoText(status.to_string()))),
            Err(finding) => Err(finding),
        }
    }

    fn compared(&self, child: &mut Child) -> Result<String, Finding> {
        let none = |what: &str| Finding::of(Cause::NoText(what.to_string()));
        let output = child
            .stdout
            .take()
            .ok_or_else(|| none("it has no output"))?;
        let mut printed = BufReader::new(output).lines();
        for line in &self.lines {
            match printed.next() {
                Some(Ok(prints)) if prints == *line => (),
                Some(Ok(prints)) => {
                    let journals = line.clone();
                    return Err(Finding::of(Cause::OtherText { prints, journals }));
                }
                Some(Err(error)) => return Err(none(&error.to_string())),
                None => return Err(none("it is cut off")),
            }
        }
        let last = printed.map_while(Result::ok).last();
        let is_verdict = |line: &String| line == "lawful" || line.starts_with("void from ");
        last.filter(is_verdict)
            .ok_or_else(|| none("it has no verdict"))
    }
}
