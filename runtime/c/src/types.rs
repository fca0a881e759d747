//! Names, positions and deliveries, as C has them.

use crate::guard::{changing, guard_or};
use crate::status::muoswyld_status;
use group::{Delivery, Name, Names, NextList, Position};
use std::ffi::c_void;

/// A name: one life, 1 to 16, of a place, 0 to 15. A place comes back as its next life.
#[repr(C)]
#[derive(Clone, Copy, Debug, Default, PartialEq, Eq)]
pub struct muoswyld_name {
    /// The place, 0 to 15.
    pub place: u8,
    /// Its life, 1 to 16; 0 if there is no name.
    pub life: u8,
}

/// A set of names: at most one life of each place.
#[repr(C)]
#[derive(Clone, Copy, Debug, Default, PartialEq, Eq)]
pub struct muoswyld_names {
    /// The life of each place, 1 to 16; 0 if the place has none in the set.
    pub lives: [u8; 16],
}

/// Where something stands in the one order of its group. Compare the generation first, then the number, then the index.
#[repr(C)]
#[derive(Clone, Copy, Debug, Default, PartialEq, Eq)]
pub struct muoswyld_position {
    /// How many lists of the group came before this one, from 0.
    pub generation: u32,
    /// The number of the entry, from 1.
    pub number: u32,
    /// The index among the messages of one entry, from 0.
    pub index: u32,
}

/// What a delivery is.
#[repr(C)]
#[derive(Clone, Copy, Debug, PartialEq, Eq)]
pub enum muoswyld_kind {
    /// Nothing: a delivery that was cleared, or never filled.
    Nothing = 0,
    /// A message of a member.
    Message = 1,
    /// A name became a member. A joiner's first delivery is its own.
    Joined = 2,
    /// A member left.
    Left = 3,
    /// A view begins: these are the members now. A founder's first delivery is one.
    View = 4,
    /// The list ended, and another one follows it: its founders' view comes next.
    Succeeded = 5,
}

/// How a list of a group is founded.
#[repr(C)]
#[derive(Clone, Copy, Debug, Default, PartialEq, Eq)]
pub struct muoswyld_founding {
    /// Its founders, each the first life of its place.
    pub founders: muoswyld_names,
    /// The places that vote who has stopped, each as the first life; none if the policy has no voters.
    pub voters: muoswyld_names,
    /// How many members may stop between two resets, 0 to 15.
    pub resilience: u8,
    /// How many entries may wait for the slowest member, 1 to 1,008.
    pub window: u16,
    /// Up to how many bytes a body goes by the sequencer, 0 to 1,024.
    pub pb_up_to: u16,
}

/// What the next list of a group has otherwise than the latest one.
#[repr(C)]
#[derive(Clone, Copy, Debug, PartialEq, Eq)]
pub struct muoswyld_next {
    /// How many members may stop between two resets, 0 to 15; negative: as it is.
    pub resilience: i32,
    /// How many entries may wait for the slowest member, 1 to 1,008; negative: as it is.
    pub window: i32,
    /// Up to how many bytes a body goes by the sequencer, 0 to 1,024; negative: as it is.
    pub pb_up_to: i32,
    /// The places that vote who has stopped, each as the first life of a member's place, odd in number. None: those voters that are members, less the
    /// highest one if their number is even.
    pub voters: muoswyld_names,
}

/// A delivery. muoswyld_delivery_clear frees what it has; the struct itself is the caller's.
#[repr(C)]
pub struct muoswyld_delivery {
    /// What it is.
    pub kind: muoswyld_kind,
    /// Where it stands.
    pub at: muoswyld_position,
    /// Of a message who sent it; else who joined or left. Life 0 in a view, and at the end of a list.
    pub name: muoswyld_name,
    /// Of a view: its members. At the end of a list: the members there, by their names in the list that ended.
    pub members: muoswyld_names,
    /// Of a view: how many members may stop until the next one, 0 to 15.
    pub resilience: u8,
    /// At the end of a list: how the next one is founded. A member's name in that is the first life of its place.
    pub next: muoswyld_founding,
    /// Of a message: its bytes, which aren't changed. They stay until the delivery is cleared. Not NULL in a message, NULL else.
    pub message: *const u8,
    /// How many bytes the message has, 0 to 65,535.
    pub length: usize,
    /// The library's own: what it frees. Don't touch it.
    pub owner: *mut c_void,
}

/// Frees what a delivery has, and makes it MUOSWYLD_KIND_NOTHING. A delivery that has nothing, or NULL, is left as it is. Before a struct is used
/// for the next delivery it must be cleared, or its message is never freed.
///
/// From any thread, as the caller's own memory.
#[no_mangle]
pub unsafe extern "C" fn muoswyld_delivery_clear(delivery: *mut muoswyld_delivery) {
    guard_or((), || {
        // SAFETY: the caller's delivery, or NULL
        if let Ok(delivery) = unsafe { changing(delivery) } {
            let owner = std::mem::replace(delivery, muoswyld_delivery::nothing()).owner;
            // SAFETY: the library put it there, and it is there once
            unsafe { crate::guard::free(owner.cast::<Vec<u8>>()) };
        }
    });
}

impl muoswyld_name {
    /// The name; an error if it is none.
    pub(crate) fn name(self) -> Result<Name, muoswyld_status> {
        Name::new(self.place, self.life).ok_or(muoswyld_status::BadName)
    }
}

impl muoswyld_names {
    /// The set of names; an error if a life is none.
    pub(crate) fn names(self) -> Result<Names, muoswyld_status> {
        let mut names = Names::nobody();
        for (place, life) in (0..).zip(self.lives) {
            if life > 0 {
                names = names.with(Name::new(place, life).ok_or(muoswyld_status::BadName)?);
            }
        }
        Ok(names)
    }
}

impl muoswyld_next {
    /// The same; an error if a value is out of its range.
    pub(crate) fn list(&self) -> Result<NextList, muoswyld_status> {
        let number = |value: i32| u16::try_from(value).map_err(|_| muoswyld_status::BadValue);
        let mut next = NextList::new();
        if self.resilience >= 0 {
            let resilience = u8::try_from(self.resilience);
            next = next.resilience(resilience.map_err(|_| muoswyld_status::BadValue)?);
        }
        if self.window >= 0 {
            next = next.window(number(self.window)?);
        }
        if self.pb_up_to >= 0 {
            next = next.pb_up_to(number(self.pb_up_to)?);
        }
        let voters = self.voters.names()?;
        Ok(match voters.is_empty() {
            true => next,
            false => next.voters(voters),
        })
    }
}

impl From<Name> for muoswyld_name {
    fn from(name: Name) -> muoswyld_name {
        muoswyld_name {
            place: name.place(),
            life: name.life(),
        }
    }
}

impl From<Names> for muoswyld_names {
    fn from(names: Names) -> muoswyld_names {
        let mut lives = [0; 16];
        for name in names.iter() {
            lives[usize::from(name.place() % 16)] = name.life();
        }
        muoswyld_names { lives }
    }
}

impl From<Position> for muoswyld_position {
    fn from(at: Position) -> muoswyld_position {
        muoswyld_position {
            generation: at.generation,
            number: at.number,
            index: at.index,
        }
    }
}

impl muoswyld_delivery {
    pub(crate) fn nothing() -> muoswyld_delivery {
        muoswyld_delivery {
            kind: muoswyld_kind::Nothing,
            at: muoswyld_position::default(),
            name: muoswyld_name::default(),
            members: muoswyld_names::default(),
            resilience: 0,
            next: muoswyld_founding::default(),
            message: std::ptr::null(),
            length: 0,
            owner: std::ptr::null_mut(),
        }
    }
}

impl From<Delivery> for muoswyld_delivery {
    fn from(delivery: Delivery) -> muoswyld_delivery {
        let mut made = muoswyld_delivery::nothing();
        made.at = delivery.at().into();
        match delivery {
            Delivery::Message { from, message, .. } => {
                made.kind = muoswyld_kind::Message;
                made.name = from.into();
                made.length = message.len();
                // an empty one leads to no memory, and isn't NULL either
                made.message = message.as_ptr();
                made.owner = Box::into_raw(Box::new(message)).cast();
            }
            Delivery::Joined { name, .. } => {
                made.kind = muoswyld_kind::Joined;
                made.name = name.into();
            }
            Delivery::Left { name, .. } => {
                made.kind = muoswyld_kind::Left;
                made.name = name.into();
            }
            Delivery::View {
                members,
                resilience,
                ..
            } => {
                made.kind = muoswyld_kind::View;
                made.members = members.into();
                made.resilience = resilience;
            }
            Delivery::Succeeded {
                members,
                founding,
                voters,
                ..
            } => {
                made.kind = muoswyld_kind::Succeeded;
                made.members = members.into();
                made.next = muoswyld_founding {
                    founders: founding.founders.into(),
                    voters: voters.into(),
                    resilience: founding.resilience,
                    window: founding.window,
                    pb_up_to: founding.pb_up_to,
                };
            }
        }
        made
    }
}
