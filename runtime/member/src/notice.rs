//! Notices in words, for logs.

use crate::event::Notice;
use std::fmt;

/// A count, with the words for one or those for another number.
pub(crate) fn counted(count: usize, one: &str, more: &str) -> String {
    let words = if count == 1 { one } else { more };
    format!("{count} {words}")
}

impl fmt::Display for Notice {
    fn fmt(&self, f: &mut fmt::Formatter<'_>) -> fmt::Result {
        match self {
            Notice::FewFounders => f.write_str(
                "the group has fewer founders than twice its resilience and one more: a join while a member stops can stand still",
            ),
            Notice::Group(id) => write!(f, "the group's id is {id:016x}"),
            Notice::Silent(name) => write!(f, "nothing is heard of {name}"),
            Notice::Heard(name) => write!(f, "{name} is heard again"),
            Notice::Slow(name) => {
                write!(f, "the window is full: {name} has taken less than the others, and holds them")
            }
            Notice::Full(sequencer) => write!(
                f,
                "the window is full, so nothing is sent: {sequencer} tells who holds it"
            ),
            Notice::TooFew { running, least } => write!(
                f,
                "no reset: {}, and a reset goes on with at least {least}",
                counted(*running, "member runs", "members run")
            ),
            Notice::BeyondResilience(stopped) => write!(
                f,
                "{} stopped, more than its resilience: nothing is claimed of this run from here on",
                counted(*stopped, "member of a view has", "members of a view have")
            ),
            Notice::Resets => f.write_str("a member has stopped: this one resets the group"),
            Notice::ResetsStuck => {
                f.write_str("nothing is answered though all others are heard: this member resets the group")
            }
            Notice::NotReset(why) => write!(f, "a reset came to no view: {why}"),
            Notice::OtherGroup(name) => write!(
                f,
                "what comes of {name} is dropped: it is of another group, of an earlier run, of other settings, or of another version of this program"
            ),
            Notice::OtherProcess(name) => write!(
                f,
                "what comes of {name} is dropped: another process has this name already; a place comes back as its next life"
            ),
            Notice::OtherKey(place) => write!(
                f,
                "what comes of place {place} is dropped: it isn't sealed by this member's key"
            ),
            Notice::NotSucceeded => {
                write!(f, "the list goes on: somebody joined, left or stopped, or a view began, before its end")
            }
            Notice::NoNextVoters => f.write_str(
                "the list is to end by itself, and none of its voters is a member: end it, and name the next voters",
            ),
            Notice::LeaveWaits => {
                f.write_str("leaving waits for messages on their way, for a reset, or for another member that leaves")
            }
        }
    }
}

#[cfg(test)]
mod tests {
    use super::Notice;
    use crate::event::NotReset;

    #[test]
    fn one_member_is_told_in_the_singular() {
        let too_few = |running| Notice::TooFew { running, least: 2 }.to_string();
        let rest = "and a reset goes on with at least 2";
        assert_eq!(too_few(1), format!("no reset: 1 member runs, {rest}"));
        assert_eq!(too_few(0), format!("no reset: 0 members run, {rest}"));
        let beyond = |stopped| Notice::BeyondResilience(stopped).to_string();
        assert!(beyond(1).starts_with("1 member of a view has stopped, more"));
        assert!(beyond(2).starts_with("2 members of a view have stopped, more"));
        let left = |got| NotReset::TooFew { got, least: 3 }.to_string();
        assert_eq!(left(1), "1 member is left, of 3 at least");
        assert_eq!(left(2), "2 members are left, of 3 at least");
    }
}
