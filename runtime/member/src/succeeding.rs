//! Asking for the end of a list: who may, with which voters next, and by itself before lives or numbers run out.

use crate::config::{Limits, Plant, Time};
use crate::ends::{firsts_of, Ends};
use crate::event::{HandleError, Next, Notice};
use crate::member::Member;
use crate::queue::Load;
use muoswyld::answer::Role;
use muoswyld::names::{Name, Names};

/// The most numbers that a list has.
const MOST_NUMBERS: u32 = 2_000_000_000;
/// The lives of a place.
const LIVES: u8 = 16;
/// How long after somebody last asked to join it counts as one that asks, in microseconds.
const ASKS_FOR: u64 = 1_000_000;

/// The voters of the next list: those that are named, or those of this one that are members, without the highest one if they are even.
fn next_voters(
    voting: Option<Names>,
    named: Option<Names>,
    members: Names,
) -> Result<Names, HandleError> {
    let founders = firsts_of(members);
    match (voting, named) {
        (None, None) => Ok(Names::nobody()),
        (None, Some(_)) => Err(HandleError::Unvoted),
        (Some(_), Some(voters)) => {
            if let Some(voter) = voters.iter().find(|voter| !founders.has(*voter)) {
                return Err(HandleError::Voter(voter));
            }
            match voters.len() {
                count if count % 2 == 0 => Err(HandleError::EvenVoters(count)),
                _ => Ok(voters),
            }
        }
        (Some(voters), None) => {
            let left: Names = voters.iter().filter(|voter| founders.has(*voter)).collect();
            let highest = left.iter().last().ok_or(HandleError::NoVoters)?;
            match left.len() % 2 {
                0 => Ok(left.without(highest)),
                _ => Ok(left),
            }
        }
    }
}

impl Member {
    /// Whether a list may be ended now, as far as this member knows: nobody has stopped, is silent, leaves or asks to join.
    fn is_quiet(&self) -> bool {
        let heard = self.heard_regularly();
        self.stopped.among(self.standing.members).is_empty()
            && self.silent().is_empty()
            && heard.iter().all(|name| self.hearing.was_heard(name))
            && self.standing.role != Role::Coordinator
            && self.is_member()
            && !self.has_succeeded()
            && self.ending.is_confirmed()
            && !self.leaving.is_wanted()
            && !self.another_leaves()
            && self.now >= self.ending.asked_until
            && !self.ending.is_held_off
    }

    /// Says whether the list mustn't be ended now, by what this member doesn't know itself.
    pub(crate) fn hold_off(&mut self, is_held_off: bool) {
        self.ending.is_held_off = is_held_off;
    }

    /// Somebody asks to join.
    pub(crate) fn is_asked_by(&mut self, asker: Name) {
        if !self.standing.members.has(asker) {
            self.ending.asked_until = self.now.after(ASKS_FOR);
        }
    }

    /// Sends what ends the list.
    pub(crate) fn succeed(&mut self, next: Next) -> Result<(), HandleError> {
        let founders = match self.ending.members() {
            _ if self.has(Plant::FoundersAtTop) => Some(self.standing.members),
            members => members,
        };
        let (Some(members), Some(group), true) = (founders, self.hearing.group, self.is_quiet())
        else {
            return Err(HandleError::NotNow);
        };
        let ends = Ends {
            group,
            at: self.standing.taken,
            members,
            voters: next_voters(self.settings.voters, next.voters, members)?,
            next: Next {
                voters: None,
                ..next
            },
        };
        ends.founding().check().map_err(HandleError::Founding)?;
        self.sending.control = Some(Load::of_control(ends.body()));
        Ok(())
    }

    /// What is to end the list goes out only if nobody has stopped, become silent or left meanwhile. Else it is dropped.
    pub(crate) fn look_at_control(&mut self) {
        if self.sending.control.is_some() && !self.is_quiet() {
            self.sending.control = None;
            self.tell(Notice::NotSucceeded);
        }
    }

    /// Whether the list's lives or numbers are about to run out.
    fn is_near_its_end(&self, at: Limits) -> bool {
        let left = MOST_NUMBERS.saturating_sub(self.standing.top);
        let is_late = |name: Name| LIVES.saturating_sub(name.life()) <= at.lives;
        left <= at.numbers || self.standing.members.iter().any(is_late)
    }

    /// When the member ends the list by itself: the lowest one at once, others a while later each, so that one of them does.
    pub(crate) fn succeeds_at(&self) -> Time {
        match self.settings.succeed_at {
            Some(at) if self.is_member() && !self.has_succeeded() && self.is_near_its_end(at) => {
                self.ending.by_itself_at
            }
            _ => Time::NEVER,
        }
    }

    /// Ends the list by itself, if it is time. It tries again where that doesn't count.
    pub(crate) fn succeed_by_itself(&mut self) {
        let due = self.succeeds_at();
        if due == Time::NEVER || self.now < due {
            return;
        }
        let members = self.standing.members.iter();
        let lower = members.take_while(|name| *name < self.me()).count() as u64;
        let wait = self.settings.stuck_after;
        let is_first = self.ending.by_itself_at == Time(0);
        self.ending.by_itself_at = self.now.after(wait.saturating_mul(1 + lower));
        if is_first && lower > 0 {
            return;
        }
        let founding = self.settings.founding;
        let next = Next {
            resilience: founding.resilience,
            window: founding.window,
            pb_up_to: founding.pb_up_to,
            voters: None,
        };
        let is_asked = self.succeed(next);
        let has_none = is_asked == Err(HandleError::NoVoters);
        if has_none && !std::mem::replace(&mut self.ending.told_no_voters, true) {
            self.tell(Notice::NoNextVoters);
        }
    }
}

#[cfg(test)]
mod tests {
    use super::*;

    fn names(text: &str) -> Names {
        text.parse().expect("names")
    }

    #[test]
    fn voters_that_are_not_named_are_those_of_the_list_that_are_members() {
        let of = |voting: &str, members: &str| {
            let voters = next_voters(Some(names(voting)), None, names(members));
            voters.map(|voters| voters.to_string())
        };
        assert_eq!(of("0,1,2", "0,1,2,3"), Ok("0,1,2".into()));
        assert_eq!(of("0,1,2", "0/2,2/3,5"), Ok("0".into()));
        assert_eq!(of("0,1,2,3,4", "1,2,3/2,4"), Ok("1,2,3".into()));
        assert_eq!(of("0,1,2", "3,4"), Err(HandleError::NoVoters));
    }

    #[test]
    fn voters_that_are_named_are_members_and_odd() {
        let of = |named: &str| {
            let named = Some(names(named));
            next_voters(Some(names("0,1,2")), named, names("0,1/4,3"))
        };
        assert_eq!(of("1"), Ok(names("1")));
        assert_eq!(of("0,1,3"), Ok(names("0,1,3")));
        assert_eq!(of("0,1"), Err(HandleError::EvenVoters(2)));
        let no_member = |name: &str| Err(HandleError::Voter(name.parse().expect("a name")));
        assert_eq!(of("2"), no_member("2"));
        assert_eq!(of("1/4"), no_member("1/4"));
        let unvoted = next_voters(None, Some(names("0")), names("0"));
        assert_eq!(unvoted, Err(HandleError::Unvoted));
        assert_eq!(next_voters(None, None, names("0")), Ok(Names::nobody()));
    }
}
