//! A place that comes back: its next life that was never begun, and the list in which that begins.

use crate::asking::Facts;
use crate::config::Config;
use crate::error::CreateError;
use crate::later::LaterList;
use crate::state::{next_life, StateError};
use muoswyld::names::Name;
use std::cmp::Ordering;
use std::io::ErrorKind;
use std::time::Duration;

/// A place's next life that was never begun, and the list in which it begins; None if that is the group's first one.
pub type NextLife = (Name, Option<LaterList>);

/// The next life of a place in the latest list that is known: by its folder of state, as [`next_life`] says it, and by what members say. It is
/// an error if the place has no life left there, or if the folder has another list than the members.
pub fn latest_life(
    own: Result<NextLife, StateError>,
    facts: Option<&Facts>,
) -> Result<NextLife, CreateError> {
    let Some(facts) = facts else {
        return Ok(own?);
    };
    let known = facts.next.ok_or(CreateError::NoLife);
    let (next, list) = match own {
        Ok(own) => own,
        // a folder whose lives are used up: a later list has others
        Err(StateError::Begun { .. }) if facts.later.is_some() => {
            return Ok((known?, facts.later));
        }
        Err(error) => return Err(error.into()),
    };
    let generation = list.map_or(0, |list| list.generation);
    match facts.generation().cmp(&generation) {
        Ordering::Less => Ok((next, list)),
        Ordering::Equal if facts.later != list => Err(CreateError::OtherList),
        Ordering::Equal => Ok((next.max(known?), list)),
        Ordering::Greater => Ok((known?, facts.later)),
    }
}

impl Config {
    /// As the place's next life that was never begun, in the latest list of the group: as its folder of state says, and members at the other
    /// addresses that answer in this time. A place that has had no life isn't asked for, since its group may be about to be founded. It is an
    /// error if there is no folder, or it isn't the place's; and what [`latest_life`] and [`Facts::ask`] say, but not if nobody answers.
    pub fn next_life(self, most: Duration) -> Result<Config, CreateError> {
        let folder = self.failures.state.as_ref().ok_or(CreateError::NoState)?;
        let own = next_life(folder, self.name.place());
        let facts = match &own {
            Ok((next, None)) if next.life() == 1 => None,
            Ok(_) | Err(StateError::Begun { .. }) => self.ask_others(most)?,
            Err(_) => None,
        };
        let (name, list) = latest_life(own, facts.as_ref())?;
        let config = Config { name, ..self };
        Ok(match list {
            Some(list) => config.later(list),
            None => config,
        })
    }

    /// What members at the other addresses say; None if none answers.
    fn ask_others(&self, most: Duration) -> Result<Option<Facts>, CreateError> {
        let place = self.name.place();
        let own = self.bind.or_else(|| self.addresses.of(place));
        let own = own.ok_or(CreateError::NoAddress(place))?;
        let others = self.addresses.iter().filter(|(other, _)| *other != place);
        let others: Vec<_> = others.map(|(_, address)| address).collect();
        match Facts::ask(&others, (place, own), self.key.as_ref(), most) {
            Ok(facts) => Ok(Some(facts)),
            Err(error) if error.kind() == ErrorKind::TimedOut => Ok(None),
            Err(error) => Err(error.into()),
        }
    }
}
