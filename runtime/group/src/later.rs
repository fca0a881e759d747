//! A list of a group that follows another one, as a place has to know it to begin there.

use muoswyld::names::Names;
use muoswyld_member::{Before, Founding};
use std::fmt::Write;

/// A list of a group that follows another one (docs/MEMBER.md, "Generations"): which one it is, and how it was founded.
#[derive(Clone, Copy, Debug, PartialEq, Eq)]
#[non_exhaustive]
pub struct LaterList {
    /// How many lists of the group came before, 1 at least.
    pub generation: u32,
    /// The id of its group.
    pub group: u64,
    /// The list that it follows.
    pub before: Before,
    /// The id of all that rests on its voters.
    pub failures: [u8; 16],
    /// Its founding.
    pub founding: Founding,
    /// Its voters.
    pub voters: Names,
}

/// Bytes of digits; None if these are none, or others than are written.
fn bytes_of(digits: &str) -> Option<[u8; 16]> {
    let number = u128::from_str_radix(digits, 16).ok()?;
    (format!("{number:032x}") == digits).then(|| number.to_be_bytes())
}

/// An id of sixteen digits.
fn id_of(digits: &str) -> Option<u64> {
    let number = u64::from_str_radix(digits, 16).ok()?;
    (format!("{number:016x}") == digits).then_some(number)
}

/// A founding as a line has it.
pub(crate) fn founding_line(founding: &Founding) -> String {
    let Founding {
        founders,
        resilience,
        window,
        pb_up_to,
    } = founding;
    format!("founding {founders} {resilience} {window} {pb_up_to}")
}

/// The founding of such a line.
pub(crate) fn founding_of(line: &str) -> Option<Founding> {
    let fields: Vec<&str> = line.strip_prefix("founding ")?.split(' ').collect();
    let [founders, resilience, window, pb_up_to] = fields[..] else {
        return None;
    };
    Some(Founding {
        founders: founders.parse().ok()?,
        resilience: resilience.parse().ok()?,
        window: window.parse().ok()?,
        pb_up_to: pb_up_to.parse().ok()?,
    })
}

impl LaterList {
    /// The line that says which list it is.
    pub(crate) fn line(&self) -> String {
        let mut line = format!(
            "list {} {:016x} {:016x} {} ",
            self.generation, self.group, self.before.group, self.before.number
        );
        for byte in self.failures {
            // writing to a string can't fail
            let _ = write!(line, "{byte:02x}");
        }
        line
    }

    /// The list of such a line, with its founding and its voters.
    pub(crate) fn of(line: &str, founding: Founding, voters: Names) -> Option<LaterList> {
        let fields: Vec<&str> = line.strip_prefix("list ")?.split(' ').collect();
        let [generation, group, before, number, failures] = fields[..] else {
            return None;
        };
        let list = LaterList {
            generation: generation.parse().ok().filter(|count| *count > 0)?,
            group: id_of(group)?,
            before: Before {
                group: id_of(before)?,
                number: number.parse().ok()?,
            },
            failures: bytes_of(failures)?,
            founding,
            voters,
        };
        (list.line() == line).then_some(list)
    }
}

#[cfg(test)]
pub(crate) fn list(generation: u32) -> LaterList {
    LaterList {
        generation,
        group: 0xa7 << 56 | 5,
        before: Before {
            group: 3,
            number: 17,
        },
        failures: [0xf0; 16],
        founding: Founding {
            founders: "0,1,2".parse().unwrap(),
            resilience: 1,
            window: 64,
            pb_up_to: 1024,
        },
        voters: "0,1,2".parse().unwrap(),
    }
}

#[cfg(test)]
mod tests {
    use super::*;

    #[test]
    fn a_list_is_read_as_it_was_written() {
        let list = list(3);
        let line = list.line();
        assert_eq!(
            line,
            "list 3 a700000000000005 0000000000000003 17 f0f0f0f0f0f0f0f0f0f0f0f0f0f0f0f0"
        );
        assert_eq!(LaterList::of(&line, list.founding, list.voters), Some(list));
        for at in 0..line.len() {
            let read = LaterList::of(&line[..at], list.founding, list.voters);
            assert_eq!(read, None);
        }
        for (from, to) in [
            ("3 a7", "0 a7"),
            (" 17", " +17"),
            ("a70", "A70"),
            ("f0f", "g0f"),
        ] {
            let other = line.replacen(from, to, 1);
            assert_eq!(LaterList::of(&other, list.founding, list.voters), None);
        }
    }

    #[test]
    fn a_founding_is_read_as_it_was_written() {
        let founding = list(1).founding;
        let line = founding_line(&founding);
        assert_eq!(line, "founding 0,1,2 1 64 1024");
        assert_eq!(founding_of(&line), Some(founding));
        assert_eq!(founding_of("founding 0,1,2 1 64"), None);
        assert_eq!(founding_of("foundling 0,1,2 1 64 7"), None);
    }
}
