//! Lists that aren't served any more, and who may still be echoed in one.

use crate::world::World;
use muoswyld_failures as failures;
use muoswyld_guarded::Closing;
use muoswyld_member::Name;

impl World<'_> {
    /// A list that has ended isn't served at a place any more: its voter's file is removed.
    pub(crate) fn closed(
        &mut self,
        place: u8,
        generation: u32,
        why: Closing,
    ) -> Result<(), String> {
        self.may_close(place, generation, why)?;
        self.machines[usize::from(place)].voters.remove(&generation);
        let process = self.process(place)?;
        if let Some(journal) = process.journals.get_mut(&generation) {
            journal.extend(b"end\n");
        }
        self.counts.closed += 1;
        self.counts.lists_lost += u64::from(why == Closing::Lost);
        Ok(())
    }

    /// Whether what a place says of why it doesn't serve a list any more is so.
    fn may_close(&self, place: u8, generation: u32, why: Closing) -> Result<(), String> {
        let process = self.places[usize::from(place)].as_ref();
        let name = process.and_then(|process| process.app.names.get(&generation));
        let Some(name) = name.copied() else {
            return Err(format!(
                "place {place} closes list {generation}, where it has no name"
            ));
        };
        let founders = self.list(generation + 1)?.founding.founders;
        let has_come = |founder: &Name| {
            let named = (generation + 1, *founder);
            self.begun.contains(&named) || self.has_stopped(generation + 1, *founder)
        };
        let is_so = match why {
            Closing::Over => founders.iter().all(|founder| has_come(&founder)),
            // it may be the first one that knows it
            Closing::GivenUp if self.given_up.contains_key(&(generation, name)) => true,
            Closing::GivenUp | Closing::Lost => !self.may_be_echoed(generation, name),
        };
        match is_so {
            true => Ok(()),
            false => Err(format!(
                "{name} closes list {generation}, though it isn't {why:?}: {}",
                self.shown()
            )),
        }
    }

    /// Whether all that vote in the latest list have their files. A founder that is given up before it begins a list has none there.
    pub(crate) fn has_all_voters(&self) -> bool {
        let last = self.last_list();
        let voters = self.lists.last().map_or(0, |list| list.voters);
        let machines = (0..16).zip(&self.machines);
        let mut voting = machines.filter(|(place, _)| voters >> place & 1 == 1);
        !self.plan.has_ends
            || !self.has_files()
            || voting.all(|(_, machine)| machine.voters.contains_key(&last))
    }

    /// Whether a place may echo a name in a list, now or later: it votes there, has its file, and hasn't refused the name.
    fn may_echo(&self, place: u8, generation: u32, name: Name) -> bool {
        let machine = &self.machines[usize::from(place)];
        let name = failures::Name::of_byte(name.byte());
        let Some((list, file)) =
            (self.lists.get(generation as usize)).zip(machine.voters.get(&generation))
        else {
            return false;
        };
        let process = self.places[usize::from(place)].as_ref();
        let serves = process.and_then(|process| process.member.failures_in(generation));
        match serves {
            Some(failures) => failures.no_voter.is_none() && !failures.refused.has(name),
            // it may come back in it
            None => {
                let refused = failures::refused_in(file, list.id, place);
                refused.is_some_and(|refused| !refused.has(name))
            }
        }
    }

    /// Whether a majority of the places that vote in a list may echo a name there, now or later.
    pub(crate) fn may_be_echoed(&self, generation: u32, name: Name) -> bool {
        let list = self.lists.get(generation as usize);
        let voters = list.map_or(0, |list| list.voters);
        let voting = (0..16).filter(|place| voters >> place & 1 == 1);
        let voting = voting.filter(|place| self.may_echo(*place, generation, name));
        voting.count() > voters.count_ones() as usize / 2
    }

    /// Whether too few of the places that vote in the latest list have their files, or will have: the group stands still for good.
    pub(crate) fn has_too_few_voters(&self) -> bool {
        let last = self.last_list();
        let counts = self.plan.has_ends && self.has_files();
        let Some(list) = self.lists.last().filter(|_| counts) else {
            return false;
        };
        let may_vote = |place: &u8| {
            let has_file = self.machines[usize::from(*place)]
                .voters
                .contains_key(&last);
            let begins = Name::first(*place).is_some_and(|name| {
                self.runs_as(last, name) && !self.begun.contains(&(last, name))
            });
            list.voters >> place & 1 == 1 && (has_file || begins)
        };
        let left = (0..16).filter(may_vote).count();
        left <= list.voters.count_ones() as usize / 2
    }
}
