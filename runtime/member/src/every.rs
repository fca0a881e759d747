//! Facts of each of the 256 names.

use muoswyld::names::{Name, Names};

/// A set of names in which a place may have several lives.
#[derive(Clone, Copy, Debug, Default, PartialEq, Eq)]
pub(crate) struct Every([u64; 4]);

impl Every {
    /// Whether a name is in it.
    pub(crate) fn has(&self, name: Name) -> bool {
        let byte = name.byte();
        self.0[usize::from(byte / 64)] >> (byte % 64) & 1 == 1
    }

    /// Adds a name; whether it is new.
    pub(crate) fn insert(&mut self, name: Name) -> bool {
        let is_new = !self.has(name);
        let byte = name.byte();
        self.0[usize::from(byte / 64)] |= 1 << (byte % 64);
        is_new
    }

    /// Those of some names that are in it.
    pub(crate) fn among(&self, names: Names) -> Names {
        names.iter().filter(|name| self.has(*name)).collect()
    }

    /// The latest life of each place.
    pub(crate) fn latest(&self) -> Names {
        (0..=255)
            .map(Name::of_byte)
            .filter(|name| self.has(*name))
            .collect()
    }
}

/// The random word of the process of each name, as it was first heard.
#[derive(Clone, Debug)]
pub(crate) struct Processes(Vec<Option<u64>>);

impl Processes {
    pub(crate) fn new() -> Processes {
        Processes(vec![None; 256])
    }

    /// Whether a name may have this process: it has, or none was heard of it.
    pub(crate) fn may_have(&self, name: Name, process: u64) -> bool {
        self.0[usize::from(name.byte())].is_none_or(|known| known == process)
    }

    /// Whether a name was heard.
    pub(crate) fn is_known(&self, name: Name) -> bool {
        self.0[usize::from(name.byte())].is_some()
    }

    /// Whether a name was heard with this process.
    pub(crate) fn is_of(&self, name: Name, process: u64) -> bool {
        self.0[usize::from(name.byte())] == Some(process)
    }

    /// Remembers the process of a name, if none was heard of it.
    pub(crate) fn remember(&mut self, name: Name, process: u64) {
        self.0[usize::from(name.byte())].get_or_insert(process);
    }
}

#[cfg(test)]
mod tests {
    use super::*;

    #[test]
    fn lives_of_a_place_are_apart() {
        let name = |text: &str| text.parse::<Name>().expect("a name");
        let mut every = Every::default();
        assert!(every.insert(name("3")) && every.insert(name("15/16")));
        assert!(!every.insert(name("3")));
        assert!(every.has(name("3")) && !every.has(name("3/2")));
        assert!(every.insert(name("3/2")));
        assert_eq!(every.latest().to_string(), "3/2,15/16");
        let members = "0,3,15/16".parse().expect("names");
        assert_eq!(every.among(members).to_string(), "3,15/16");
    }

    #[test]
    fn a_name_has_its_first_process() {
        let mut processes = Processes::new();
        let name = Name::of_byte(7);
        assert!(processes.may_have(name, 1) && !processes.is_of(name, 1));
        processes.remember(name, 2);
        processes.remember(name, 3);
        assert!(processes.is_of(name, 2) && !processes.is_of(name, 3));
        assert!(processes.may_have(name, 2) && !processes.may_have(name, 3));
        assert!(processes.may_have(Name::of_byte(8), 3));
    }
}
