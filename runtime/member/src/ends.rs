//! What a control body says that ends a list, and what follows from it: the next founding, and the id of the next group.

use crate::body::CONTROL;
use crate::config::Founding;
use crate::event::Next;
use muoswyld::names::{Name, Names, PLACES};
use ring::digest::{Context, SHA256};

/// The kind of control that ends a list. Who doesn't know it must not go on, so it is above 127.
pub(crate) const ENDS_LIST: u8 = 129;

/// What a control body says that ends a list.
#[derive(Clone, Copy, Debug, PartialEq, Eq)]
pub(crate) struct Ends {
    pub(crate) group: u64,
    pub(crate) at: u32,
    pub(crate) members: Names,
    pub(crate) voters: Names,
    /// The numbers of the next founding; its voters stand above.
    pub(crate) next: Next,
}

impl Ends {
    pub(crate) fn body(&self) -> Vec<u8> {
        let mut body = vec![CONTROL, ENDS_LIST];
        let (mask, lives) = self.members.parts();
        body.extend(self.group.to_be_bytes());
        body.extend(self.at.to_be_bytes());
        body.extend(mask.to_be_bytes());
        body.extend(lives.to_be_bytes());
        body.extend(self.voters.parts().0.to_be_bytes());
        body.push(self.next.resilience);
        body.extend(self.next.window.to_be_bytes());
        body.extend(self.next.pb_up_to.to_be_bytes());
        body
    }

    /// What stands after the kind; None if it has another form.
    pub(crate) fn read(mut bytes: &[u8]) -> Option<Ends> {
        fn number<const N: usize>(bytes: &mut &[u8]) -> Option<[u8; N]> {
            let (number, rest) = bytes.split_first_chunk::<N>()?;
            *bytes = rest;
            Some(*number)
        }
        let group = u64::from_be_bytes(number(&mut bytes)?);
        let at = u32::from_be_bytes(number(&mut bytes)?);
        let mask = u16::from_be_bytes(number(&mut bytes)?);
        let members = Names::of_parts(mask, u64::from_be_bytes(number(&mut bytes)?))?;
        let voters = Names::of_parts(u16::from_be_bytes(number(&mut bytes)?), 0)?;
        let next = Next {
            resilience: u8::from_be_bytes(number(&mut bytes)?),
            window: u16::from_be_bytes(number(&mut bytes)?),
            pb_up_to: u16::from_be_bytes(number(&mut bytes)?),
            voters: None,
        };
        bytes.is_empty().then_some(Ends {
            group,
            at,
            members,
            voters,
            next,
        })
    }

    /// Whether it could be asked for: a founding that a group can have, and voters among its founders, odd in number or none.
    pub(crate) fn is_sound(&self) -> bool {
        let founders = firsts_of(self.members);
        let count = self.voters.len();
        self.founding().check().is_ok()
            && self.voters.iter().all(|voter| founders.has(voter))
            && (count == 0 || count % 2 == 1)
    }

    /// The founding that follows.
    pub(crate) fn founding(&self) -> Founding {
        Founding {
            founders: firsts_of(self.members),
            resilience: self.next.resilience,
            window: self.next.window,
            pb_up_to: self.next.pb_up_to,
        }
    }
}

/// The first lives of the places of some names.
pub(crate) fn firsts_of(names: Names) -> Names {
    let places = (0..PLACES).filter(|place| names.at(*place).is_some());
    places.filter_map(Name::first).collect()
}

/// The id of the group whose list follows one of another id, at an entry with this body. No other entry gives the same one.
pub(crate) fn id_after(group: u64, number: u32, body: &[u8]) -> u64 {
    let mut context = Context::new(&SHA256);
    context.update(&group.to_be_bytes());
    context.update(&number.to_be_bytes());
    context.update(body);
    let digest = context.finish();
    let (first, _) = digest
        .as_ref()
        .split_first_chunk()
        .unwrap_or((&[0; 8], &[]));
    u64::from_be_bytes(*first)
}

#[cfg(test)]
mod tests {
    use super::*;

    #[test]
    fn what_ends_a_list_is_read_as_it_was_written() {
        let ends = Ends {
            group: 7,
            at: 9,
            members: "0,2/3,15".parse().expect("names"),
            voters: "2".parse().expect("names"),
            next: Next {
                resilience: 2,
                window: 1008,
                pb_up_to: 0,
                voters: None,
            },
        };
        let body = ends.body();
        assert_eq!(body[..2], [CONTROL, ENDS_LIST]);
        assert_eq!(Ends::read(&body[2..]), Some(ends));
        for length in 2..body.len() {
            assert_eq!(Ends::read(&body[2..length]), None);
        }
        assert_eq!(ends.founding().founders.to_string(), "0,2,15");
        let longer = [&body[2..], &[0]].concat();
        assert_eq!(Ends::read(&longer), None);
    }

    #[test]
    fn voters_are_founders_and_odd_or_none() {
        let with = |voters: &str| {
            let next = Next {
                resilience: 0,
                window: 16,
                pb_up_to: 0,
                voters: None,
            };
            let ends = Ends {
                group: 1,
                at: 1,
                members: "0,1,2/3".parse().expect("names"),
                voters: voters.parse().expect("names"),
                next,
            };
            ends.is_sound()
        };
        assert!(with("0") && with("0,1,2") && with("-"));
        assert!(!with("0,1") && !with("3") && !with("2/3"));
    }

    #[test]
    fn each_entry_gives_another_id() {
        let ids = [
            id_after(1, 2, b"a"),
            id_after(2, 2, b"a"),
            id_after(1, 3, b"a"),
            id_after(1, 2, b"b"),
        ];
        for (k, id) in ids.iter().enumerate() {
            assert!(!ids[..k].contains(id));
        }
        assert_eq!(ids[0], id_after(1, 2, b"a"));
    }
}
