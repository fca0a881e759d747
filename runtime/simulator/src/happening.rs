//! What may happen in a run.

use crate::plan::Act;
use muoswyld_member::Name;
use std::collections::BTreeMap;
use std::rc::Rc;

/// What may happen.
#[derive(Clone, Debug)]
pub(crate) enum Happening {
    Arrives {
        place: u8,
        payload: Rc<[u8]>,
    },
    Wakes {
        place: u8,
        number: u64,
    },
    Releases {
        place: u8,
        number: u64,
    },
    Sends {
        place: u8,
        number: u64,
    },
    Consumes {
        place: u8,
        number: u64,
    },
    IsTold {
        place: u8,
        number: u64,
        name: Name,
    },
    IsToldOf {
        place: u8,
        number: u64,
        names: BTreeMap<u32, Name>,
    },
    Fences {
        place: u8,
        number: u64,
        generation: u32,
        name: Name,
        done: bool,
    },
    Looks {
        place: u8,
        number: u64,
    },
    Emits {
        place: u8,
        number: u64,
    },
    Synced {
        place: u8,
        number: u64,
    },
    Written {
        place: u8,
        number: u64,
        list: u32,
        write: u64,
    },
    Begins {
        place: u8,
        generation: u32,
        life: u8,
    },
    ListSynced {
        place: u8,
        number: u64,
        generation: u32,
    },
    ListBegins {
        place: u8,
        number: u64,
        generation: u32,
        is_written: bool,
    },
    Starts {
        place: u8,
    },
    StartsTwin {
        place: u8,
    },
    Acts {
        place: u8,
        act: Act,
    },
}

/// What happens when; of the same time what was planned first.
pub(crate) struct Planned {
    pub(crate) at: u64,
    pub(crate) order: u64,
    pub(crate) what: Happening,
}

impl PartialEq for Planned {
    fn eq(&self, other: &Planned) -> bool {
        (self.at, self.order) == (other.at, other.order)
    }
}

impl Eq for Planned {}

impl PartialOrd for Planned {
    fn partial_cmp(&self, other: &Planned) -> Option<std::cmp::Ordering> {
        Some(self.cmp(other))
    }
}

impl Ord for Planned {
    fn cmp(&self, other: &Planned) -> std::cmp::Ordering {
        (self.at, self.order).cmp(&(other.at, other.order))
    }
}
