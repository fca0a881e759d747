//! A life's file in a place's folder of state: the last life that was begun in a list, and which list that is.

use crate::later::{founding_line, founding_of, LaterList};
use ring::digest::{digest, SHA256};

/// The name of the file of a group's first list.
pub(crate) const LIFE: &str = "life";

/// The line of a life's file: the place, and the last life that was begun, 0 if none was.
pub(crate) fn line_of(place: u8, life: u8) -> String {
    format!("place {place} life {life}\n")
}

/// The place and the life of such a line.
fn of_line(text: &str) -> Option<(u8, u8)> {
    let rest = text.strip_prefix("place ")?.strip_suffix('\n')?;
    let (place, life) = rest.split_once(" life ")?;
    let (place, life) = (place.parse().ok()?, life.parse().ok()?);
    (line_of(place, life) == text && place < 16 && life <= 16).then_some((place, life))
}

/// The name of a file of a list.
pub(crate) fn file_of(kind: &str, generation: u32) -> String {
    match generation {
        0 => kind.to_string(),
        _ => format!("{kind}.{generation}"),
    }
}

/// The list of a file of this kind, by its name.
pub(crate) fn generation_of(kind: &str, file: &str) -> Option<u32> {
    if file == kind {
        return Some(0);
    }
    let generation = file.strip_prefix(kind)?.strip_prefix('.')?.parse().ok()?;
    (file_of(kind, generation) == file).then_some(generation)
}

/// What ends a life's file of a later list: eight bytes of a sum of what stands before.
fn sum_line(text: &str) -> String {
    let sum = digest(&SHA256, text.as_bytes());
    let bytes = sum.as_ref().iter().take(8);
    let sum = bytes.fold(0, |sum: u64, byte| sum << 8 | u64::from(*byte));
    format!("sum {sum:016x}\n")
}

/// What a life's file has.
#[derive(Clone, Copy, Debug, PartialEq, Eq)]
pub(crate) struct Begun {
    pub(crate) place: u8,
    /// The last life that was begun, 0 if none was.
    pub(crate) life: u8,
    /// Which list it is; None for the first one.
    pub(crate) list: Option<LaterList>,
}

impl Begun {
    /// The file's text.
    pub(crate) fn text(&self) -> String {
        let mut text = line_of(self.place, self.life);
        if let Some(list) = &self.list {
            let founding = founding_line(&list.founding);
            text += &format!("{}\n{founding}\nvoters {}\n", list.line(), list.voters);
            text += &sum_line(&text);
        }
        text
    }

    /// What the bytes of a list's file say; None if it isn't whole, or is another list's.
    pub(crate) fn of(bytes: &[u8], generation: u32) -> Option<Begun> {
        let text = std::str::from_utf8(bytes).ok()?;
        let (first, rest) = text.split_once('\n')?;
        let (place, life) = of_line(&format!("{first}\n"))?;
        let lines: Vec<&str> = rest.lines().collect();
        let list = match lines[..] {
            [] => None,
            [list, founding, voters, _] => {
                let voters = voters.strip_prefix("voters ")?.parse().ok()?;
                Some(LaterList::of(list, founding_of(founding)?, voters)?)
            }
            _ => return None,
        };
        let begun = Begun { place, life, list };
        let its = list.map_or(0, |list| list.generation);
        (begun.text() == text && its == generation).then_some(begun)
    }
}
