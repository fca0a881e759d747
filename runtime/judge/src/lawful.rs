//! Whether a run is lawful, watched event by event (docs/PROTOCOL.md, "Complete views and lawful runs").
//!
//! It isn't proved. Tests compare it with what the proved `play` says.

use crate::line::Founding;
use crate::replay::Standing;
use muoswyld::names::{Name, Names, Stamp};
use std::collections::{BTreeMap, BTreeSet};

/// A decided view.
#[derive(Clone, Debug)]
struct View {
    stamp: Stamp,
    number: u64,
    members: Names,
    resilience: u8,
}

/// What is known of a name.
#[derive(Clone, Debug, Default)]
struct Known {
    has_departed: bool,
    has_stopped: bool,
    view: Option<Stamp>,
    /// The number of the Join by which it was welcomed.
    start: u64,
}

/// A run up to now.
#[derive(Debug)]
pub(crate) struct Watch {
    names: BTreeMap<Name, Known>,
    /// The views above the greatest complete one.
    pending: BTreeMap<Stamp, View>,
    /// Who showed each of these as the last in its list.
    stored: BTreeMap<Stamp, BTreeSet<Name>>,
    complete: View,
    broken: Option<u64>,
}

impl Watch {
    /// A run without events.
    pub(crate) fn new(founding: &Founding) -> Option<Watch> {
        let sequencer = founding.founders.iter().next()?;
        let stamp = Stamp {
            round: 1,
            name: sequencer,
        };
        let known = Known {
            view: Some(stamp),
            ..Known::default()
        };
        Some(Watch {
            names: founding
                .founders
                .iter()
                .map(|name| (name, known.clone()))
                .collect(),
            pending: BTreeMap::new(),
            stored: BTreeMap::new(),
            complete: View {
                stamp,
                number: 1,
                members: founding.founders,
                resilience: founding.resilience,
            },
            broken: None,
        })
    }

    /// The event from which on nothing is claimed.
    pub(crate) fn broken(&self) -> Option<u64> {
        self.broken
    }

    /// A name was welcomed.
    pub(crate) fn welcomed(&mut self, name: Name, number: u64) {
        self.names.entry(name).or_default().start = number;
    }

    /// After an event of this number, a name shows this.
    pub(crate) fn shows(&mut self, event: u64, name: Name, standing: &Standing) {
        let known = self.names.entry(name).or_default();
        known.has_departed = standing.has_departed;
        let has_new_view = standing.number > 0 && known.view != Some(standing.view);
        if standing.number > 0 {
            known.view = Some(standing.view);
        }
        if has_new_view && standing.view > self.complete.stamp {
            self.stored.entry(standing.view).or_default().insert(name);
            if standing.view.name == name {
                self.pending.entry(standing.view).or_insert(View {
                    stamp: standing.view,
                    number: standing.number,
                    members: standing.members,
                    resilience: standing.resilience,
                });
            }
        }
        self.look(event);
    }

    /// By an event of this number a name stops.
    pub(crate) fn stops(&mut self, event: u64, name: Name) {
        self.names.entry(name).or_default().has_stopped = true;
        self.look(event);
    }

    fn is_complete(&self, view: &View) -> bool {
        let needed = (usize::from(view.resilience) + 1).min(view.members.len());
        let have = self.stored.get(&view.stamp);
        let count = view
            .members
            .iter()
            .filter(|name| have.is_some_and(|names| names.contains(name)));
        let lags = |name: &Name| {
            self.names.get(name).is_none_or(|known| {
                !known.has_stopped && !known.has_departed && known.view < Some(view.stamp)
            })
        };
        count.count() >= needed && !view.members.iter().any(|name| lags(&name))
    }

    fn look(&mut self, event: u64) {
        let complete = self
            .pending
            .values()
            .rev()
            .find(|view| self.is_complete(view))
            .cloned();
        if let Some(view) = complete {
            self.pending = self.pending.split_off(&view.stamp);
            self.pending.remove(&view.stamp);
            self.stored.retain(|stamp, _| *stamp > view.stamp);
            self.complete = view;
        }
        let counts = |name: &Name, known: &Known| {
            known.has_stopped
                && !known.has_departed
                && (self.complete.members.has(*name) || known.start > self.complete.number)
        };
        let lost = self
            .names
            .iter()
            .filter(|(name, known)| counts(name, known))
            .count();
        if lost > usize::from(self.complete.resilience) && self.broken.is_none() {
            self.broken = Some(event);
        }
    }
}
