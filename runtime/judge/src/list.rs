//! What the lives took, compared as one list.

use crate::finding::Cause;
use crate::replay::Gave;
use crate::sums::Sums;
use muoswyld::names::Name;
use std::collections::{BTreeMap, HashMap};
use std::io;
use std::path::PathBuf;

/// What a life took so far.
#[derive(Debug, Default)]
pub(crate) struct Taken {
    /// The last number; 0 before the first.
    last: u64,
    /// The last request of each sender that it took.
    requests: HashMap<Name, u64>,
}

/// Where an answer said that a send stands, as long as nobody took that number.
#[derive(Debug)]
pub(crate) struct Claim {
    sum: u64,
    request: u64,
    file: PathBuf,
    line: u64,
}

/// The one list, as far as somebody took it.
#[derive(Debug, Default)]
pub(crate) struct List {
    entries: Sums,
    claims: BTreeMap<u64, Claim>,
}

/// Where something is said.
pub(crate) struct Place<'a> {
    pub(crate) name: Name,
    pub(crate) is_founder: bool,
    pub(crate) file: &'a std::path::Path,
    pub(crate) line: u64,
}

/// What isn't as it should be, and where if that is elsewhere.
pub(crate) type Wrong = (Cause, Option<(PathBuf, u64)>);

fn unread(error: io::Error) -> Wrong {
    (Cause::Unread(error.to_string()), None)
}

impl List {
    /// How long it is.
    pub(crate) fn len(&self) -> u64 {
        self.entries.len()
    }

    /// Takes in what a life's step gave.
    pub(crate) fn add(
        &mut self,
        taken: &mut Taken,
        gave: &Gave,
        place: &Place,
    ) -> Result<(), Wrong> {
        match *gave {
            Gave::Nothing => Ok(()),
            Gave::Entry {
                number,
                sum,
                data,
                joined,
            } => {
                taken
                    .follows(number, joined, place)
                    .map_err(|cause| (cause, None))?;
                taken
                    .in_turn(data, joined, place)
                    .map_err(|cause| (cause, None))?;
                self.took(number, sum)
            }
            Gave::Sent {
                request,
                number,
                sum,
            } => self.sent(request, number, sum, place),
        }
    }

    fn took(&mut self, number: u64, sum: u64) -> Result<(), Wrong> {
        let at = number.saturating_sub(1);
        match self.entries.get(at).map_err(unread)? {
            0 => self.entries.set(at, sum).map_err(unread)?,
            there if there == sum => return Ok(()),
            _ => return Err((Cause::OtherEntry(number), None)),
        }
        match self.claims.remove(&number) {
            Some(claim) if claim.sum != sum => {
                let cause = Cause::OtherSend {
                    request: claim.request,
                    number,
                };
                Err((cause, Some((claim.file, claim.line))))
            }
            _ => Ok(()),
        }
    }

    fn sent(&mut self, request: u64, number: u64, sum: u64, place: &Place) -> Result<(), Wrong> {
        let there = self.entries.get(number.saturating_sub(1)).map_err(unread)?;
        if there == 0 {
            let claim = Claim {
                sum,
                request,
                file: place.file.to_path_buf(),
                line: place.line,
            };
            if self.claims.insert(number, claim).is_none() {
                return Ok(());
            }
        } else if there == sum {
            return Ok(());
        }
        Err((Cause::OtherSend { request, number }, None))
    }
}

impl Taken {
    /// Whether an entry is the next that a life takes.
    fn follows(&mut self, number: u64, joined: Option<Name>, place: &Place) -> Result<(), Cause> {
        let begins = if place.is_founder {
            number == 1
        } else {
            joined == Some(place.name)
        };
        if self.last == 0 && !begins {
            return Err(Cause::Beginning(number));
        }
        if self.last > 0 && number != self.last + 1 {
            return Err(Cause::Gap {
                last: self.last,
                number,
            });
        }
        self.last = number;
        Ok(())
    }

    /// Whether a sender's request is the one after the last that this life took. A joiner's first of a sender may be any, unless it
    /// took that one's join.
    fn in_turn(
        &mut self,
        data: Option<(Name, u64)>,
        joined: Option<Name>,
        place: &Place,
    ) -> Result<(), Cause> {
        if let Some(name) = joined {
            self.requests.insert(name, 0);
        }
        let Some((from, request)) = data else {
            return Ok(());
        };
        let before = self.requests.insert(from, request);
        match before.or(place.is_founder.then_some(0)) {
            Some(last) if request != last + 1 => Err(Cause::OutOfTurn {
                from,
                request,
                wanted: last + 1,
            }),
            _ => Ok(()),
        }
    }
}

#[cfg(test)]
mod tests {
    use super::*;
    use std::path::Path;

    fn name(text: &str) -> Name {
        text.parse().expect("a name")
    }

    fn place(text: &str) -> Place<'static> {
        Place {
            name: name(text),
            is_founder: !text.contains('/'),
            file: Path::new("journal"),
            line: 9,
        }
    }

    fn entry(number: u64, sum: u64) -> Gave {
        Gave::Entry {
            number,
            sum,
            data: None,
            joined: None,
        }
    }

    fn data(number: u64, from: &str, request: u64) -> Gave {
        let data = Some((name(from), request));
        Gave::Entry {
            number,
            sum: 100 + number,
            data,
            joined: None,
        }
    }

    #[test]
    fn one_list_is_taken() {
        let (mut list, mut first, mut second) =
            (List::default(), Taken::default(), Taken::default());
        for number in 1..=3 {
            assert_eq!(
                list.add(&mut first, &entry(number, 10 + number), &place("0")),
                Ok(())
            );
        }
        let joined = Gave::Entry {
            number: 3,
            sum: 13,
            data: None,
            joined: Some(name("1/2")),
        };
        assert_eq!(list.add(&mut second, &joined, &place("1/2")), Ok(()));
        let other = list.add(&mut second, &entry(4, 14), &place("1/2"));
        assert_eq!((other, list.len()), (Ok(()), 4));
        let other = list.add(&mut first, &entry(4, 15), &place("0"));
        assert_eq!(other, Err((Cause::OtherEntry(4), None)));
    }

    #[test]
    fn pieces_have_no_gap() {
        let mut list = List::default();
        let mut taken = Taken::default();
        let first = list.add(&mut taken, &entry(2, 5), &place("0"));
        assert_eq!(first, Err((Cause::Beginning(2), None)));
        let mut taken = Taken::default();
        let first = list.add(&mut taken, &entry(2, 5), &place("1/2"));
        assert_eq!(first, Err((Cause::Beginning(2), None)));
        let mut taken = Taken {
            last: 4,
            ..Taken::default()
        };
        let gap = list.add(&mut taken, &entry(6, 5), &place("0"));
        assert_eq!(gap, Err((Cause::Gap { last: 4, number: 6 }, None)));
        let again = list.add(&mut taken, &entry(4, 5), &place("0"));
        assert_eq!(again, Err((Cause::Gap { last: 4, number: 4 }, None)));
    }

    #[test]
    fn requests_come_in_turn() {
        let mut list = List::default();
        let mut taken = Taken {
            last: 4,
            ..Taken::default()
        };
        let joiner = place("3/2");
        assert_eq!(list.add(&mut taken, &data(5, "1", 7), &joiner), Ok(()));
        let join = Gave::Entry {
            number: 6,
            sum: 9,
            data: None,
            joined: Some(name("2/4")),
        };
        assert_eq!(list.add(&mut taken, &join, &joiner), Ok(()));
        assert_eq!(list.add(&mut taken, &data(7, "1", 8), &joiner), Ok(()));
        let turn = |from, request, wanted| Cause::OutOfTurn {
            from: name(from),
            request,
            wanted,
        };
        let wrong = list.add(&mut taken, &data(8, "1", 8), &joiner);
        assert_eq!(wrong, Err((turn("1", 8, 9), None)));
        let wrong = list.add(&mut taken, &data(9, "2/4", 2), &joiner);
        assert_eq!(wrong, Err((turn("2/4", 2, 1), None)));
        let mut taken = Taken {
            last: 9,
            ..Taken::default()
        };
        let wrong = list.add(&mut taken, &data(10, "1", 2), &place("0"));
        assert_eq!(wrong, Err((turn("1", 2, 1), None)));
    }

    #[test]
    fn sends_stand_where_it_was_answered() {
        let sent = |number, sum| Gave::Sent {
            request: 3,
            number,
            sum,
        };
        let other = |number| Cause::OtherSend { request: 3, number };
        let mut list = List::default();
        let mut taken = Taken::default();
        assert_eq!(list.add(&mut taken, &sent(1, 11), &place("0")), Ok(()));
        assert_eq!(list.add(&mut taken, &sent(2, 12), &place("0")), Ok(()));
        assert_eq!(list.add(&mut taken, &entry(1, 11), &place("0")), Ok(()));
        let wrong = list.add(&mut taken, &entry(2, 13), &place("0"));
        assert_eq!(wrong, Err((other(2), Some((PathBuf::from("journal"), 9)))));
        assert_eq!(list.add(&mut taken, &sent(1, 11), &place("0")), Ok(()));
        assert_eq!(
            list.add(&mut taken, &sent(1, 12), &place("0")),
            Err((other(1), None))
        );
    }
}
