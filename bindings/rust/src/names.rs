//! Names, sets of names, and stamps (docs/PROTOCOL.md, "Names").

use std::fmt;
use std::str::FromStr;

/// How many places a group has.
pub const PLACES: u8 = 16;
/// How many lives a place has.
pub const LIVES: u8 = 16;

/// A text that is no name, no set of names, or no stamp.
#[derive(Clone, Copy, Debug, PartialEq, Eq)]
pub struct BadName;

impl fmt::Display for BadName {
    fn fmt(&self, f: &mut fmt::Formatter<'_>) -> fmt::Result {
        f.write_str("a name is PLACE, 0 to 15, or PLACE/LIFE with a life of 2 to 16")
    }
}

impl std::error::Error for BadName {}

/// A name: one life, 1 to 16, of a place, 0 to 15. It is printed as `3`, or as `3/2` for a later life.
///
/// Names are ordered by place, then by life.
#[derive(Clone, Copy, PartialEq, Eq, Hash)]
pub struct Name(u8);

impl Name {
    /// A life of a place; None if the place is above 15 or the life isn't 1 to 16.
    pub fn new(place: u8, life: u8) -> Option<Name> {
        (place < PLACES && (1..=LIVES).contains(&life)).then(|| Name(place + 16 * (life - 1)))
    }

    /// The first life of a place; None if the place is above 15.
    pub fn first(place: u8) -> Option<Name> {
        Name::new(place, 1)
    }

    /// The name of a byte: place + 16 * (life - 1).
    pub const fn of_byte(byte: u8) -> Name {
        Name(byte)
    }

    /// Its byte.
    pub const fn byte(self) -> u8 {
        self.0
    }

    /// Its place, 0 to 15.
    pub const fn place(self) -> u8 {
        self.0 % 16
    }

    /// Its life, 1 to 16.
    pub const fn life(self) -> u8 {
        self.0 / 16 + 1
    }

    /// The next life of its place; None after life 16.
    pub fn next_life(self) -> Option<Name> {
        Name::new(self.place(), self.life() + 1)
    }
}

impl PartialOrd for Name {
    fn partial_cmp(&self, other: &Name) -> Option<std::cmp::Ordering> {
        Some(self.cmp(other))
    }
}

impl Ord for Name {
    fn cmp(&self, other: &Name) -> std::cmp::Ordering {
        (self.place(), self.life()).cmp(&(other.place(), other.life()))
    }
}

impl fmt::Display for Name {
    fn fmt(&self, f: &mut fmt::Formatter<'_>) -> fmt::Result {
        match self.life() {
            1 => write!(f, "{}", self.place()),
            life => write!(f, "{}/{life}", self.place()),
        }
    }
}

impl fmt::Debug for Name {
    fn fmt(&self, f: &mut fmt::Formatter<'_>) -> fmt::Result {
        fmt::Display::fmt(self, f)
    }
}

/// A number as it is printed: digits without a leading zero.
fn number(text: &str) -> Result<u8, BadName> {
    let is_plain = text.bytes().all(|byte| byte.is_ascii_digit())
        && (text.len() == 1 || !text.starts_with('0'));
    match text.parse() {
        Ok(number) if is_plain => Ok(number),
        _ => Err(BadName),
    }
}

impl FromStr for Name {
    type Err = BadName;

    fn from_str(text: &str) -> Result<Name, BadName> {
        let name = match text.split_once('/') {
            None => Name::first(number(text)?),
            Some((_, "1")) => None,
            Some((place, life)) => Name::new(number(place)?, number(life)?),
        };
        name.ok_or(BadName)
    }
}

/// A set of names: at most one life of each place. It is printed as `0,1/2,5`, and `-` if it is empty.
#[derive(Clone, Copy, PartialEq, Eq, Default, Hash)]
pub struct Names {
    /// The life of each place, 0 if none.
    lives: [u8; 16],
}

impl Names {
    /// The set without names.
    pub const fn nobody() -> Names {
        Names { lives: [0; 16] }
    }

    /// The set of a mask of places, whose bit 0 is place 0's, and of their lives less one, four bits a place; None if a place
    /// outside the mask has such bits.
    pub fn of_parts(mask: u16, lives: u64) -> Option<Names> {
        let mut names = Names::nobody();
        for place in 0..16 {
            let life = ((lives >> (4 * place)) % 16) as u8;
            if mask >> place & 1 == 1 {
                names.lives[place] = life + 1;
            } else if life != 0 {
                return None;
            }
        }
        Some(names)
    }

    /// The mask of its places and their lives less one, as [`Names::of_parts`] takes them.
    pub fn parts(self) -> (u16, u64) {
        let mut mask = 0;
        let mut lives = 0;
        for (place, life) in self.lives.iter().enumerate() {
            if *life > 0 {
                mask |= 1 << place;
                lives |= u64::from(life - 1) << (4 * place);
            }
        }
        (mask, lives)
    }

    /// Whether a name is in it.
    pub fn has(self, name: Name) -> bool {
        self.lives[usize::from(name.place())] == name.life()
    }

    /// The name of a place in it.
    pub fn at(self, place: u8) -> Option<Name> {
        Name::new(place, *self.lives.get(usize::from(place))?)
    }

    /// With this name, in place of another life of its place.
    pub fn with(mut self, name: Name) -> Names {
        self.lives[usize::from(name.place())] = name.life();
        self
    }

    /// Without this name.
    pub fn without(mut self, name: Name) -> Names {
        if self.has(name) {
            self.lives[usize::from(name.place())] = 0;
        }
        self
    }

    /// How many names it has.
    pub fn len(self) -> usize {
        self.lives.iter().filter(|life| **life > 0).count()
    }

    /// Whether it has none.
    pub fn is_empty(self) -> bool {
        self.lives == [0; 16]
    }

    /// Its names, in the order of their places.
    pub fn iter(self) -> impl Iterator<Item = Name> {
        (0..PLACES).filter_map(move |place| self.at(place))
    }
}

impl FromIterator<Name> for Names {
    fn from_iter<I: IntoIterator<Item = Name>>(names: I) -> Names {
        names.into_iter().fold(Names::nobody(), Names::with)
    }
}

impl fmt::Display for Names {
    fn fmt(&self, f: &mut fmt::Formatter<'_>) -> fmt::Result {
        if self.is_empty() {
            return f.write_str("-");
        }
        for (k, name) in self.iter().enumerate() {
            if k > 0 {
                f.write_str(",")?;
            }
            write!(f, "{name}")?;
        }
        Ok(())
    }
}

impl fmt::Debug for Names {
    fn fmt(&self, f: &mut fmt::Formatter<'_>) -> fmt::Result {
        fmt::Display::fmt(self, f)
    }
}

impl FromStr for Names {
    type Err = BadName;

    fn from_str(text: &str) -> Result<Names, BadName> {
        let mut names = Names::nobody();
        if text == "-" {
            return Ok(names);
        }
        let mut last = None;
        for word in text.split(',') {
            let name: Name = word.parse()?;
            if last.is_some_and(|place| name.place() <= place) {
                return Err(BadName);
            }
            last = Some(name.place());
            names = names.with(name);
        }
        Ok(names)
    }
}

/// A view's stamp: its round, and the name that began it, which is the sequencer of that view. It is printed as `1.0`. Stamps
/// are ordered by round, then by name.
#[derive(Clone, Copy, PartialEq, Eq, PartialOrd, Ord, Hash)]
pub struct Stamp {
    /// Its round.
    pub round: u32,
    /// Its name.
    pub name: Name,
}

impl fmt::Display for Stamp {
    fn fmt(&self, f: &mut fmt::Formatter<'_>) -> fmt::Result {
        write!(f, "{}.{}", self.round, self.name)
    }
}

impl fmt::Debug for Stamp {
    fn fmt(&self, f: &mut fmt::Formatter<'_>) -> fmt::Result {
        fmt::Display::fmt(self, f)
    }
}

impl FromStr for Stamp {
    type Err = BadName;

    fn from_str(text: &str) -> Result<Stamp, BadName> {
        let (round, name) = text.split_once('.').ok_or(BadName)?;
        Ok(Stamp {
            round: round.parse().map_err(|_| BadName)?,
            name: name.parse()?,
        })
    }
}
