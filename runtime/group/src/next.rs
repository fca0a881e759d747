//! What the next list of a group has otherwise.

use muoswyld::names::Names;
use muoswyld_member::{Founding, Next};
use std::fmt;
use std::str::FromStr;
use thiserror::Error;

/// A text doesn't say what the next list has otherwise.
#[derive(Clone, Copy, Debug, PartialEq, Eq, Error)]
#[error("the next list has resilience 0..15, window 1..1008, pb-up-to 0..1024 and voters PLACES, each once at most")]
pub struct BadNextList;

/// What the next list of a group has otherwise than the latest one. Its founders are the members at the end of that.
///
/// ```
/// use muoswyld_group::NextList;
///
/// // the same numbers and voters, but a window of 1,000 entries
/// let next = NextList::new().window(1000);
/// ```
#[derive(Clone, Copy, Debug, Default, PartialEq, Eq)]
pub struct NextList {
    resilience: Option<u8>,
    window: Option<u16>,
    pb_up_to: Option<u16>,
    voters: Option<Names>,
}

impl NextList {
    /// All as it is. The voters are those that are members, less the highest one if their number is even.
    pub fn new() -> NextList {
        NextList::default()
    }

    /// How many members may stop between two resets, 0 to 15.
    pub fn resilience(mut self, resilience: u8) -> NextList {
        self.resilience = Some(resilience);
        self
    }

    /// How many entries may wait for the slowest member, 1 to 1,008.
    pub fn window(mut self, window: u16) -> NextList {
        self.window = Some(window);
        self
    }

    /// The longest body that goes by the sequencer, 0 to 1,024 bytes.
    pub fn pb_up_to(mut self, bytes: u16) -> NextList {
        self.pb_up_to = Some(bytes);
        self
    }

    /// The places that vote who has stopped, each as the first life of a member's place, odd in number.
    pub fn voters(mut self, voters: Names) -> NextList {
        self.voters = Some(voters);
        self
    }

    /// All of it, where the rest is as it is now.
    pub(crate) fn after(self, founding: &Founding, resilience: u8) -> Next {
        Next {
            resilience: self.resilience.unwrap_or(resilience),
            window: self.window.unwrap_or(founding.window),
            pb_up_to: self.pb_up_to.unwrap_or(founding.pb_up_to),
            voters: self.voters,
        }
    }
}

/// The words of what is otherwise, as `resilience 1 window 500`.
impl fmt::Display for NextList {
    fn fmt(&self, f: &mut fmt::Formatter<'_>) -> fmt::Result {
        let said = |word: &str, value: Option<String>| value.map(|value| format!("{word} {value}"));
        let words = [
            said("resilience", self.resilience.map(|it| it.to_string())),
            said("window", self.window.map(|it| it.to_string())),
            said("pb-up-to", self.pb_up_to.map(|it| it.to_string())),
            said("voters", self.voters.map(|it| it.to_string())),
        ];
        let words: Vec<String> = words.into_iter().flatten().collect();
        f.write_str(&words.join(" "))
    }
}

impl FromStr for NextList {
    type Err = BadNextList;

    fn from_str(text: &str) -> Result<NextList, BadNextList> {
        fn once<T: FromStr>(value: &str, into: &mut Option<T>) -> Result<(), BadNextList> {
            let value = value.parse().map_err(|_| BadNextList)?;
            match into.replace(value) {
                None => Ok(()),
                Some(_) => Err(BadNextList),
            }
        }
        let mut next = NextList::new();
        let mut words = text.split_ascii_whitespace();
        while let Some(word) = words.next() {
            let value = words.next().ok_or(BadNextList)?;
            match word {
                "resilience" => once(value, &mut next.resilience),
                "window" => once(value, &mut next.window),
                "pb-up-to" => once(value, &mut next.pb_up_to),
                "voters" => once(value, &mut next.voters),
                _ => Err(BadNextList),
            }?;
        }
        Ok(next)
    }
}

/// Whether a list is founded as it was asked for.
pub(crate) fn is_as_asked(asked: &Next, founding: &Founding, voters: Names) -> bool {
    founding.resilience == asked.resilience
        && founding.window == asked.window
        && founding.pb_up_to == asked.pb_up_to
        && asked.voters.is_none_or(|wanted| wanted == voters)
}

#[cfg(test)]
mod tests {
    use super::*;

    #[test]
    fn words_are_read_as_they_are_written() {
        let voters: Names = "0,2,3".parse().unwrap();
        let all = NextList::new().resilience(1).window(500).pb_up_to(0);
        let all = all.voters(voters);
        let text = "resilience 1 window 500 pb-up-to 0 voters 0,2,3";
        assert_eq!(all.to_string(), text);
        for next in [all, NextList::new(), NextList::new().window(7)] {
            assert_eq!(next.to_string().parse(), Ok(next));
        }
        for text in [
            "resilience",
            "resilience x",
            "resilience 256",
            "window 1 window 2",
            "members 0",
            "voters 2,1",
        ] {
            assert_eq!(text.parse::<NextList>(), Err(BadNextList), "{text}");
        }
    }

    #[test]
    fn what_is_not_said_stays() {
        let founding = Founding {
            founders: "0,1,2".parse().unwrap(),
            resilience: 0,
            window: 64,
            pb_up_to: 7,
        };
        let same = NextList::new().after(&founding, 1);
        assert_eq!((same.resilience, same.window, same.pb_up_to), (1, 64, 7));
        assert_eq!(same.voters, None);
        let voters: Names = "0".parse().unwrap();
        let next = NextList::new().resilience(2).window(9).pb_up_to(8);
        let next = next.voters(voters).after(&founding, 1);
        assert_eq!((next.resilience, next.window, next.pb_up_to), (2, 9, 8));
        assert_eq!(next.voters, Some(voters));
        let as_next = Founding {
            resilience: 2,
            window: 9,
            pb_up_to: 8,
            ..founding
        };
        assert!(is_as_asked(&next, &as_next, voters));
        assert!(!is_as_asked(&next, &as_next, "1".parse().unwrap()));
        assert!(!is_as_asked(&next, &founding, voters));
    }
}
