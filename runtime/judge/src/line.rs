//! The lines of a journal (docs/NETWORK.md, "Journals"), taken apart.

use muoswyld::names::{Name, Names};

/// The first line: whose journal it is, and the founding.
#[derive(Clone, Debug, PartialEq, Eq)]
pub(crate) struct Head {
    pub(crate) name: Name,
    pub(crate) founding: Founding,
    /// Which list it follows; None if it is a group's first one.
    pub(crate) follows: Option<Follows>,
}

/// Which list a list follows.
#[derive(Clone, Copy, Debug, PartialEq, Eq)]
pub(crate) struct Follows {
    /// How many lists of the group came before.
    pub(crate) generation: u32,
    /// The id of its group.
    pub(crate) group: u64,
    /// The id of the group whose list it follows.
    pub(crate) before: u64,
    /// The number of the entry that ended that.
    pub(crate) number: u64,
}

/// A founding, as the first line has it.
#[derive(Clone, Debug, PartialEq, Eq)]
pub(crate) struct Founding {
    pub(crate) founders: Names,
    pub(crate) resilience: u8,
    pub(crate) window: u16,
    pub(crate) pb_up_to: u16,
}

impl Head {
    /// The head of a first line without its end; None if it is none.
    pub(crate) fn of(line: &str) -> Option<Head> {
        let fields: Vec<&str> = line.split('\t').collect();
        let (["node", name, rest @ ..], Some(numbers)) = (&fields[..], fields.get(2..6)) else {
            return None;
        };
        let follows = match rest.get(4..)? {
            [] => None,
            [generation, group, before, entry] => Some(Follows {
                generation: generation.parse().ok().filter(|it| *it > 0)?,
                group: id(group)?,
                before: id(before)?,
                number: number(entry)?,
            }),
            _ => return None,
        };
        Some(Head {
            name: name.parse().ok()?,
            founding: Founding::of(numbers)?,
            follows,
        })
    }

    /// How many lists of its group came before its own one.
    pub(crate) fn generation(&self) -> u32 {
        self.follows.map_or(0, |follows| follows.generation)
    }

    /// The words by which its node is opened.
    pub(crate) fn options(&self) -> String {
        let founding = &self.founding;
        format!(
            "--name {} --founders {} --resilience {} --window {} --pb-up-to {}",
            self.name, founding.founders, founding.resilience, founding.window, founding.pb_up_to
        )
    }

    /// Whether it is a founder's first life.
    pub(crate) fn is_founder(&self) -> bool {
        self.founding.founders.has(self.name)
    }
}

impl Founding {
    /// A founding of four fields.
    fn of(fields: &[&str]) -> Option<Founding> {
        let [founders, resilience, window, pb_up_to] = fields else {
            return None;
        };
        Some(Founding {
            founders: founders.parse().ok()?,
            resilience: resilience.parse().ok()?,
            window: window.parse().ok()?,
            pb_up_to: pb_up_to.parse().ok()?,
        })
    }
}

/// An id of a group: sixteen lower-case digits.
fn id(text: &str) -> Option<u64> {
    let group = u64::from_str_radix(text, 16).ok()?;
    (format!("{group:016x}") == text).then_some(group)
}

/// A later line.
#[derive(Debug, PartialEq, Eq)]
pub(crate) enum Line<'a> {
    /// What the node was given, and what it answered.
    Step {
        time: u64,
        asked: &'a str,
        heard: Option<(Name, u64)>,
        answer: &'a str,
    },
    /// The list ended at an entry, and this one follows it.
    Next {
        number: u64,
        group: u64,
        founding: Founding,
    },
    /// The node departed, and its process ended.
    End,
}

/// A number as journals have it: digits alone.
fn number(text: &str) -> Option<u64> {
    let is_plain = !text.is_empty() && text.bytes().all(|byte| byte.is_ascii_digit());
    is_plain.then(|| text.parse().ok()).flatten()
}

impl Line<'_> {
    /// A line without its end; the cause if it is none.
    pub(crate) fn of(line: &str) -> Result<Line<'_>, &'static str> {
        if line == "end" {
            return Ok(Line::End);
        }
        if let Some(rest) = line.strip_prefix("next\t") {
            return Line::next(rest).ok_or("it doesn't say which list follows");
        }
        let mut fields = line.split('\t');
        let (Some(time), Some(asked), Some(heard), Some(answer), None) = (
            fields.next(),
            fields.next(),
            fields.next(),
            fields.next(),
            fields.next(),
        ) else {
            return Err("it doesn't have four fields");
        };
        let heard = match heard.split_once(' ') {
            _ if heard.is_empty() => None,
            Some((name, letter)) => Some((
                name.parse().map_err(|_| "the sender is no name")?,
                number(letter).ok_or("the letter has no number")?,
            )),
            None => return Err("the third field isn't a name and a number"),
        };
        if asked.starts_with("hear ") != heard.is_some() {
            return Err("a heard letter has a sender and a number, and nothing else has");
        }
        Ok(Line::Step {
            time: number(time).ok_or("the time is no number")?,
            asked,
            heard,
            answer,
        })
    }

    /// What stands after the word of a line that says which list follows.
    fn next(rest: &str) -> Option<Line<'_>> {
        let fields: Vec<&str> = rest.split('\t').collect();
        let (number_there, group) = (number(fields.first()?)?, id(fields.get(1)?)?);
        Some(Line::Next {
            number: number_there,
            group,
            founding: Founding::of(fields.get(2..)?)?,
        })
    }
}

#[cfg(test)]
mod tests {
    use super::*;

    #[test]
    fn heads() {
        let head = Head::of("node\t1/2\t0,1,2\t1\t16\t256").expect("a head");
        assert_eq!(
            head.options(),
            "--name 1/2 --founders 0,1,2 --resilience 1 --window 16 --pb-up-to 256"
        );
        assert!(!head.is_founder());
        for line in [
            "",
            "node\t1",
            "node\t16\t0,1\t0\t16\t256",
            "node\t1\t0,1\t0\t16\t256\t",
            "node\t1\t0,1\t0\t16\t256\t0\t0000000000000007\t0000000000000001\t9",
            "node\t1\t0,1\t0\t16\t256\t1\t7\t0000000000000001\t9",
            "node\t1\t0,1\t0\t16\t256\t1\t0000000000000007\t0000000000000001",
            "node\t1\t0,1\t0\t16\t256\t1\t0000000000000007\t0000000000000001\t9\t9",
        ] {
            assert_eq!(Head::of(line), None, "{line}");
        }
    }

    #[test]
    fn lists_that_follow_others() {
        let line = "node\t1\t0,1\t0\t16\t256\t2\t00000000000000a7\tf000000000000001\t9";
        let head = Head::of(line).expect("a head");
        let follows = Follows {
            generation: 2,
            group: 0xa7,
            before: 0xf000_0000_0000_0001,
            number: 9,
        };
        assert_eq!(head.follows, Some(follows));
        assert!(head.is_founder() && head.generation() == 2);
        let said = Line::of("next\t9\t00000000000000a7\t0,1\t0\t16\t256").expect("a line");
        let (number, group, founding) = (9, 0xa7, head.founding);
        assert_eq!(
            said,
            Line::Next {
                number,
                group,
                founding
            }
        );
        for line in [
            "next",
            "next\t9",
            "next\t9\ta7\t0,1\t0\t16\t256",
            "next\t9\t00000000000000a7\t0,1\t0\t16",
            "next\t9\t00000000000000a7\t0,1\t0\t16\t256\t1",
        ] {
            assert!(Line::of(line).is_err(), "{line}");
        }
    }

    #[test]
    fn lines() {
        let name = "2/3".parse().expect("a name");
        assert_eq!(
            Line::of("7\thear 1 4147\t2/3 9\tstored 2"),
            Ok(Line::Step {
                time: 7,
                asked: "hear 1 4147",
                heard: Some((name, 9)),
                answer: "stored 2"
            })
        );
        assert_eq!(Line::of("end"), Ok(Line::End));
        for line in [
            "",
            "7\ttick\t\tidle\t",
            "+7\ttick\t\tidle",
            "7\thear 1 4147\t\tstored 2",
            "7\ttick\t1 2\tidle",
            "7\thear 1 4147\t1\tstored 2",
            "7\thear 1 4147\t16 1\tstored 2",
        ] {
            assert!(Line::of(line).is_err(), "{line}");
        }
    }
}
