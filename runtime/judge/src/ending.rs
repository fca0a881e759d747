//! The end of a list, which another one follows (docs/MEMBER.md, "Generations"), as the entries say it that a life took.
//!
//! A body of control names an earlier entry M, the members there, and the next founding. At entry N it ends the list if between M and N
//! nobody joins or leaves and no view begins. The next group's id is made of the group's id, N and the body.

use crate::finding::Cause;
use crate::line::Founding;
use muoswyld::names::{Name, Names, PLACES};
use ring::digest::{digest, SHA256};

/// How the digits of a body begin that ends a list: control, of this kind.
const ENDS_LIST: &str = "4381";

/// What a body says that ends a list.
#[derive(Clone, Debug, PartialEq, Eq)]
pub(crate) struct Ends {
    group: u64,
    at: u64,
    members: Names,
    voters: Names,
    founding: Founding,
    body: Vec<u8>,
}

/// What an entry is to the end of its list.
#[derive(Clone, Debug, PartialEq, Eq)]
pub(crate) enum Turn {
    /// Somebody joins.
    Join(Name),
    /// Somebody leaves.
    Leave(Name),
    /// A view begins.
    View(Names),
    /// It says that the list ends.
    Ends(Ends),
}

/// The list that follows one, as the entry says that ended that.
#[derive(Clone, Debug, PartialEq, Eq)]
pub(crate) struct Following {
    /// The number of that entry.
    pub(crate) number: u64,
    /// The id of the group whose list ended.
    pub(crate) before: u64,
    /// The members there.
    pub(crate) members: Names,
    /// The next group's id.
    pub(crate) group: u64,
    /// Its founding.
    pub(crate) founding: Founding,
}

/// What a life knows of the end of its list.
#[derive(Debug, Default)]
pub(crate) struct Ending {
    /// The members after the last entry that it took, if they are known.
    members: Option<Names>,
    /// The last entry at which they changed, or a view began.
    changed_at: u64,
    /// Whether it took the entry that ended its list.
    pub(crate) is_over: bool,
}

/// Bytes of so many digits; None if these are none.
fn bytes_of(digits: &str) -> Option<Vec<u8>> {
    let byte = |pair: &[u8]| u8::from_str_radix(std::str::from_utf8(pair).ok()?, 16).ok();
    let pairs = digits.as_bytes().chunks_exact(2);
    let is_even = pairs.remainder().is_empty();
    pairs.map(byte).collect::<Option<_>>().filter(|_| is_even)
}

/// Takes the first bytes.
fn first<const N: usize>(bytes: &mut &[u8]) -> Option<[u8; N]> {
    let (taken, rest) = bytes.split_first_chunk()?;
    *bytes = rest;
    Some(*taken)
}

impl Ends {
    /// What a body says, by its digits; None if it doesn't end a list.
    fn of(digits: &str) -> Option<Ends> {
        if !digits.starts_with(ENDS_LIST) {
            return None;
        }
        let body = bytes_of(digits)?;
        let mut rest = body.get(2..)?;
        let group = u64::from_be_bytes(first(&mut rest)?);
        let at = u64::from(u32::from_be_bytes(first(&mut rest)?));
        let mask = u16::from_be_bytes(first(&mut rest)?);
        let members = Names::of_parts(mask, u64::from_be_bytes(first(&mut rest)?))?;
        let voters = Names::of_parts(u16::from_be_bytes(first(&mut rest)?), 0)?;
        let founding = Founding {
            founders: founders_of(members),
            resilience: u8::from_be_bytes(first(&mut rest)?),
            window: u16::from_be_bytes(first(&mut rest)?),
            pb_up_to: u16::from_be_bytes(first(&mut rest)?),
        };
        let is_whole = rest.is_empty();
        is_whole.then_some(Ends {
            group,
            at,
            members,
            voters,
            founding,
            body,
        })
    }

    /// Whether there can be a group of this founding, with these voters: founders, odd in number, or none.
    fn can_be(&self) -> bool {
        let founders = self.founding.founders;
        let votes = self.voters.len();
        self.voters.iter().all(|voter| founders.has(voter))
            && (votes == 0 || votes % 2 == 1)
            && !self.founding.founders.is_empty()
            && self.founding.resilience <= 15
            && (1..=1008).contains(&self.founding.window)
            && self.founding.pb_up_to <= 1024
    }

    /// The id of the group whose list follows, where this stands at a number.
    fn next_group(&self, number: u64) -> u64 {
        let number = u32::try_from(number).unwrap_or(u32::MAX);
        let parts = [
            &self.group.to_be_bytes()[..],
            &number.to_be_bytes(),
            &self.body,
        ];
        let sum = digest(&SHA256, &parts.concat());
        let bytes = sum.as_ref().iter().take(8);
        bytes.fold(0, |id, byte| id << 8 | u64::from(*byte))
    }
}

/// The first lives of the places of names.
fn founders_of(names: Names) -> Names {
    let places = (0..PLACES).filter(|place| names.at(*place).is_some());
    places.filter_map(Name::first).collect()
}

impl Turn {
    /// What an entry is by its words.
    pub(crate) fn of(entry: &str) -> Option<Turn> {
        let mut words = entry.split(' ');
        let (kind, first, second, third) =
            (words.next()?, words.next()?, words.next(), words.next());
        match kind {
            "join" => first.parse().ok().map(Turn::Join),
            "leave" => first.parse().ok().map(Turn::Leave),
            "view" => second?.parse().ok().map(Turn::View),
            "data" => Ends::of(third?).map(Turn::Ends),
            _ => None,
        }
    }
}

impl Ending {
    /// Takes in an entry of a group's list, whose id is known or not: what follows the list, if it ended here.
    pub(crate) fn take(
        &mut self,
        number: u64,
        turn: &Turn,
        group: Option<u64>,
    ) -> Result<Option<Following>, Cause> {
        match turn {
            Turn::Join(name) => self.members = self.members.map(|members| members.with(*name)),
            Turn::Leave(name) => {
                self.members = self.members.map(|members| members.without(*name));
            }
            Turn::View(members) => self.members = Some(*members),
            Turn::Ends(ends) => return self.end(number, ends, group),
        }
        self.changed_at = number;
        Ok(None)
    }

    fn end(
        &mut self,
        number: u64,
        ends: &Ends,
        group: Option<u64>,
    ) -> Result<Option<Following>, Cause> {
        let counts = ends.at < number && self.changed_at <= ends.at;
        let is_own = group.is_none_or(|group| group == ends.group);
        if self.is_over || !counts || !is_own || !ends.can_be() {
            return Ok(None);
        }
        if let Some(members) = self.members.filter(|members| *members != ends.members) {
            let said = ends.members;
            return Err(Cause::OtherMembers {
                number,
                said,
                members,
            });
        }
        self.is_over = true;
        Ok(Some(Following {
            number,
            before: ends.group,
            members: ends.members,
            group: ends.next_group(number),
            founding: ends.founding.clone(),
        }))
    }
}

/// The first number or name of a list that isn't what the entry says that ended the one before.
pub(crate) fn differs(
    (group, founding): (u64, &Founding),
    (number, before): (u64, u64),
    wanted: &Following,
) -> Option<Cause> {
    let other = |what, has: String, wanted: String| Cause::OtherList { what, has, wanted };
    let id = |group: u64| format!("{group:016x}");
    let its = &wanted.founding;
    let pairs = [
        ("group before", id(before), id(wanted.before)),
        (
            "entry that ended the list before",
            number.to_string(),
            wanted.number.to_string(),
        ),
        ("group", id(group), id(wanted.group)),
        (
            "founders",
            founding.founders.to_string(),
            its.founders.to_string(),
        ),
        (
            "resilience",
            founding.resilience.to_string(),
            its.resilience.to_string(),
        ),
        (
            "window",
            founding.window.to_string(),
            its.window.to_string(),
        ),
        (
            "length up to which a body goes by the sequencer",
            founding.pb_up_to.to_string(),
            its.pb_up_to.to_string(),
        ),
    ];
    let mut found = pairs.into_iter().filter(|(_, has, wanted)| has != wanted);
    found
        .next()
        .map(|(what, has, wanted)| other(what, has, wanted))
}

#[cfg(test)]
mod tests {
    use super::*;

    /// A body of group 7, entry 4, members 0 and 2/3, voter 0, resilience 1, window 64, 1,024 bytes: written by hand, as docs/MEMBER.md has
    /// its form.
    const BODY: &str = "43810000000000000007000000040005000000000000020000010100400400";

    fn ends() -> Turn {
        Turn::of(&format!("data 0 9 {BODY}")).expect("it ends a list")
    }

    #[test]
    fn a_body_is_read() {
        let Turn::Ends(ends) = ends() else {
            panic!("it ends a list");
        };
        assert_eq!((ends.group, ends.at), (7, 4));
        assert_eq!(ends.members.to_string(), "0,2/3");
        assert_eq!(ends.founding.founders.to_string(), "0,2");
        assert_eq!(ends.voters.to_string(), "0");
        assert!(ends.can_be());
        assert_eq!(
            (
                ends.founding.resilience,
                ends.founding.window,
                ends.founding.pb_up_to
            ),
            (1, 64, 1024)
        );
        for cut in 0..BODY.len() {
            assert_eq!(Turn::of(&format!("data 0 9 {}", &BODY[..cut])), None);
        }
        assert_eq!(Turn::of(&format!("data 0 9 {BODY}00")), None);
        assert_eq!(Turn::of("data 0 9 -"), None);
        // voters 0 and 2, voter 1, no voter
        for (voters, can_be) in [("0005", false), ("0002", false), ("0000", true)] {
            let (head, tail) = (&BODY[..48], &BODY[52..]);
            let other = Turn::of(&format!("data 0 9 {head}{voters}{tail}"));
            assert!(matches!(other, Some(Turn::Ends(ends)) if ends.can_be() == can_be));
        }
    }

    #[test]
    fn a_list_ends_only_if_its_members_did_not_change() {
        let name = |text: &str| text.parse::<Name>().expect("a name");
        let members = |text: &str| text.parse::<Names>().expect("names");
        let began = || {
            let mut ending = Ending::default();
            let view = Turn::View(members("0,2/3"));
            assert_eq!(ending.take(1, &view, None), Ok(None));
            ending
        };
        let mut ending = began();
        assert_eq!(ending.take(4, &ends(), None), Ok(None));
        assert_eq!(ending.take(6, &ends(), Some(8)), Ok(None));
        let next = ending.take(6, &ends(), Some(7)).expect("the members");
        let next = next.expect("the end");
        assert_eq!((next.number, next.before), (6, 7));
        assert_eq!(ending.take(7, &ends(), Some(7)), Ok(None));
        for turn in [
            Turn::Join(name("5")),
            Turn::Leave(name("0")),
            Turn::View(members("0,2/3")),
        ] {
            let mut ending = began();
            assert_eq!(ending.take(5, &turn, None), Ok(None));
            assert_eq!(ending.take(6, &ends(), None), Ok(None));
        }
        let mut ending = began();
        assert_eq!(ending.take(2, &Turn::Join(name("5")), None), Ok(None));
        let found = ending.take(6, &ends(), None);
        assert!(matches!(found, Err(Cause::OtherMembers { number: 6, .. })));
    }
}
