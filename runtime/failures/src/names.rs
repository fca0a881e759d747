//! Names, sets of names, and sets of places.

use std::fmt;

/// A life, 1 to 16, of a place, 0 to 15. Its byte is place + 16 * (life - 1), as in datagrams of members.
#[derive(Clone, Copy, PartialEq, Eq, Hash)]
pub struct Name(u8);

/// Places, as bits: bit 0 is place 0.
pub type Places = u16;

/// The places of some numbers; those above 15 are left out.
pub fn places_of(places: impl IntoIterator<Item = u8>) -> Places {
    places
        .into_iter()
        .filter(|place| *place < 16)
        .fold(0, |all, place| all | 1 << place)
}

impl Name {
    /// The name of a byte.
    pub const fn of_byte(byte: u8) -> Name {
        Name(byte)
    }

    /// The first life of a place. A place above 15 is taken modulo 16.
    pub const fn first(place: u8) -> Name {
        Name(place % 16)
    }

    /// Its byte.
    pub const fn byte(self) -> u8 {
        self.0
    }

    /// Its place, 0 to 15.
    pub const fn place(self) -> u8 {
        self.0 % 16
    }

    /// Its life, 1 to 16.
    pub const fn life(self) -> u8 {
        self.0 / 16 + 1
    }

    /// The next life of its place; None after life 16.
    pub const fn next_life(self) -> Option<Name> {
        match self.0.checked_add(16) {
            Some(byte) => Some(Name(byte)),
            None => None,
        }
    }
}

impl PartialOrd for Name {
    fn partial_cmp(&self, other: &Name) -> Option<std::cmp::Ordering> {
        Some(self.cmp(other))
    }
}

impl Ord for Name {
    fn cmp(&self, other: &Name) -> std::cmp::Ordering {
        (self.place(), self.life()).cmp(&(other.place(), other.life()))
    }
}

impl fmt::Display for Name {
    fn fmt(&self, f: &mut fmt::Formatter<'_>) -> fmt::Result {
        match self.life() {
            1 => write!(f, "{}", self.place()),
            life => write!(f, "{}/{life}", self.place()),
        }
    }
}

impl fmt::Debug for Name {
    fn fmt(&self, f: &mut fmt::Formatter<'_>) -> fmt::Result {
        fmt::Display::fmt(self, f)
    }
}

/// A set of names, in which a place may have several lives.
#[derive(Clone, Copy, Default, PartialEq, Eq)]
pub struct NameSet([u64; 4]);

impl NameSet {
    /// Whether a name is in it.
    pub const fn has(&self, name: Name) -> bool {
        self.0[(name.0 / 64) as usize] >> (name.0 % 64) & 1 == 1
    }

    /// Adds a name; whether it is new.
    pub fn insert(&mut self, name: Name) -> bool {
        let is_new = !self.has(name);
        self.0[usize::from(name.0 / 64)] |= 1 << (name.0 % 64);
        is_new
    }

    /// Takes a name out; whether it was in it.
    pub fn remove(&mut self, name: Name) -> bool {
        let was_in = self.has(name);
        self.0[usize::from(name.0 / 64)] &= !(1 << (name.0 % 64));
        was_in
    }

    /// Its names, in the order of their bytes.
    pub fn iter(&self) -> impl Iterator<Item = Name> {
        let mut words = self.0;
        std::iter::from_fn(move || {
            let at = words.iter().position(|word| *word != 0)?;
            let bit = words[at].trailing_zeros();
            words[at] &= words[at] - 1;
            Some(Name((at as u32 * 64 + bit) as u8))
        })
    }

    /// How many names it has.
    pub fn len(&self) -> usize {
        self.0.iter().map(|word| word.count_ones() as usize).sum()
    }

    /// Whether it has none.
    pub fn is_empty(&self) -> bool {
        self.0 == [0; 4]
    }

    /// The names of both.
    pub fn and(&self, other: &NameSet) -> NameSet {
        let mut words = self.0;
        for (word, more) in words.iter_mut().zip(other.0) {
            *word |= more;
        }
        NameSet(words)
    }

    /// The names that aren't in another set.
    pub fn without(&self, other: &NameSet) -> NameSet {
        let mut words = self.0;
        for (word, less) in words.iter_mut().zip(other.0) {
            *word &= !less;
        }
        NameSet(words)
    }

    /// The names that are also in another set.
    pub fn among(&self, other: &NameSet) -> NameSet {
        self.without(&self.without(other))
    }

    /// The places of its names.
    pub fn places(&self) -> Places {
        self.0.iter().fold(0, |all, word| {
            all | *word as u16 | (word >> 16) as u16 | (word >> 32) as u16 | (word >> 48) as u16
        })
    }

    /// Its bytes.
    pub(crate) fn bytes(&self) -> [u8; 32] {
        let mut bytes = [0; 32];
        for (chunk, word) in bytes.chunks_exact_mut(8).zip(self.0) {
            chunk.copy_from_slice(&word.to_be_bytes());
        }
        bytes
    }

    /// The set of some bytes.
    pub(crate) fn of_bytes(bytes: [u8; 32]) -> NameSet {
        let mut words = [0; 4];
        for (index, byte) in bytes.into_iter().enumerate() {
            words[index / 8] = words[index / 8] << 8 | u64::from(byte);
        }
        NameSet(words)
    }
}

impl FromIterator<Name> for NameSet {
    fn from_iter<I: IntoIterator<Item = Name>>(names: I) -> NameSet {
        let mut set = NameSet::default();
        for name in names {
            set.insert(name);
        }
        set
    }
}

impl fmt::Debug for NameSet {
    fn fmt(&self, f: &mut fmt::Formatter<'_>) -> fmt::Result {
        f.debug_set().entries(self.iter()).finish()
    }
}

#[cfg(test)]
mod tests {
    use super::*;

    #[test]
    fn lives_of_a_place_are_apart() {
        let later = Name::first(3).next_life().expect("a life");
        let mut set: NameSet = [Name::first(3), Name::first(15)].into_iter().collect();
        assert!(set.has(Name::first(3)) && !set.has(later));
        assert!(set.insert(later) && !set.insert(later));
        assert_eq!((set.len(), set.places()), (3, 1 << 3 | 1 << 15));
        assert_eq!(NameSet::of_bytes(set.bytes()), set);
        assert!(set.remove(Name::first(3)) && !set.remove(Name::first(3)));
        assert_eq!(format!("{set:?}"), "{15, 3/2}");
        assert_eq!(Name::of_byte(255).next_life(), None);
    }
}
