//! What is checked of what the applications saw.
//!
//! - All lives were given pieces of one list, over all of a group's lists: at a position everybody has the same delivery, and nobody
//!   misses one between its first and its last.
//! - A founder's piece begins with the founders' view, a joiner's with its own join.
//! - The messages of a sender stand in the list in the order in which it sent them, each once, and none that it didn't send.
//! - A message whose ticket was settled stands at the position that was told, and its sender was given it before.
//! - A message that is told as not sent is nowhere.
//! - Nobody who runs is left out, and nobody is given up who runs.

use muoswyld_member::{Delivery, Name, Position, Unsent, MOST_MESSAGE};
use std::collections::{BTreeMap, BTreeSet};

/// What a life's application did and saw.
#[derive(Clone, Debug)]
pub struct App {
    /// The life, as it is named where it begins.
    pub name: Name,
    /// Its name in each list that it has come to.
    pub names: BTreeMap<u32, Name>,
    /// What it was given, in order.
    pub log: Vec<Delivery>,
    /// What it sent; the index is the ticket.
    pub sent: Vec<Vec<u8>>,
    /// What became of the tickets.
    pub settled: BTreeMap<u64, Result<Position, Unsent>>,
    /// Whether it is the same life a second time, started by mistake: nothing may come of it.
    pub is_twin: bool,
}

impl App {
    /// An application that saw nothing yet, of a life that begins after so many lists.
    pub fn new(name: Name, generation: u32, is_twin: bool) -> App {
        App {
            name,
            names: BTreeMap::from([(generation, name)]),
            log: Vec::new(),
            sent: Vec::new(),
            settled: BTreeMap::new(),
            is_twin,
        }
    }

    /// Whether a name is this application's in a list.
    fn is_named(&self, generation: u32, name: Name) -> bool {
        self.names.get(&generation) == Some(&name)
    }

    /// Takes what became of a ticket.
    pub fn settle(&mut self, ticket: u64, result: Result<Position, Unsent>) -> Result<(), String> {
        let name = self.name;
        if self.settled.insert(ticket, result).is_some() {
            return Err(format!("{name}: ticket {ticket} was settled twice"));
        }
        let Some(message) = self.sent.get(ticket as usize) else {
            return Err(format!("{name}: ticket {ticket} was never given"));
        };
        let Ok(at) = result else {
            return Ok(());
        };
        let seen = self.log.binary_search_by_key(&at, Delivery::at);
        match seen.ok().and_then(|k| self.log.get(k)) {
            Some(Delivery::Message {
                from,
                message: seen,
                ..
            }) if self.is_named(at.generation, *from) && seen == message => Ok(()),
            _ => Err(format!(
                "{name}: ticket {ticket} was settled at {at:?}, and its message wasn't delivered there before"
            )),
        }
    }

    /// Takes a delivery.
    pub fn deliver(&mut self, delivery: Delivery) -> Result<(), String> {
        let (name, at) = (self.name, delivery.at());
        if let Delivery::Message { message, .. } = &delivery {
            if message.len() > MOST_MESSAGE {
                return Err(format!(
                    "{name} was given a message that is too long at {at:?}"
                ));
            }
        }
        if self.log.last().is_some_and(|last| last.at() >= at) {
            return Err(format!("{name} was given {at:?} behind what stands later"));
        }
        if self.log.is_empty() {
            let is_first = match &delivery {
                Delivery::Joined { name: joined, .. } => *joined == name,
                Delivery::View { members, .. } => at.number == 1 && members.has(name),
                _ => false,
            };
            if !is_first {
                return Err(format!("{name} was given {delivery:?} first"));
            }
        }
        self.log.push(delivery);
        Ok(())
    }
}

/// Checks what all lives saw together.
pub fn check(apps: &[App]) -> Result<(), String> {
    if let Some(twin) = apps.iter().find(|app| app.is_twin && !app.log.is_empty()) {
        return Err(format!(
            "{}: a second process was given something",
            twin.name
        ));
    }
    let apps: Vec<&App> = apps.iter().filter(|app| !app.is_twin).collect();
    let list = one_list(&apps)?;
    let whole = apps.iter().any(|app| is_whole(&app.log, &list));
    for app in &apps {
        is_gapless(app, &list)?;
        is_sent_by(app, &list, whole)?;
        is_settled(app, &list)?;
    }
    Ok(())
}

type List<'a> = BTreeMap<Position, &'a Delivery>;

fn one_list<'a>(apps: &[&'a App]) -> Result<List<'a>, String> {
    let mut list: List = BTreeMap::new();
    for app in apps {
        for delivery in &app.log {
            let there = list.entry(delivery.at()).or_insert(delivery);
            if *there != delivery {
                let text = format!("{delivery:?} and {there:?}");
                return Err(format!(
                    "{} was given another list: {:.300}",
                    app.name, text
                ));
            }
        }
    }
    Ok(list)
}

fn is_whole(log: &[Delivery], list: &List) -> bool {
    let ends =
        |log: Option<&Delivery>, list: Option<&Position>| log.map(Delivery::at).as_ref() == list;
    ends(log.first(), list.keys().next()) && ends(log.last(), list.keys().next_back())
}

/// Looks for what stands between two deliveries of a log and isn't in it.
fn is_gapless(app: &App, list: &List) -> Result<(), String> {
    let (Some(first), Some(last)) = (app.log.first(), app.log.last()) else {
        return Ok(());
    };
    let had: BTreeSet<Position> = app.log.iter().map(Delivery::at).collect();
    for (at, delivery) in list.range(first.at()..=last.at()) {
        if !had.contains(at) {
            let text = format!("{delivery:?}");
            let (first, last) = (first.at(), last.at());
            return Err(format!(
                "{} wasn't given {at:?}, of {first:?} to {last:?}: {text:.100}",
                app.name
            ));
        }
    }
    Ok(())
}

/// Looks whether the messages of a sender in the list are those that it sent, in their order, from the first one on.
fn is_sent_by(app: &App, list: &List, whole: bool) -> Result<(), String> {
    let mut sent = app.sent.iter();
    for (at, delivery) in list {
        let Delivery::Message { from, message, .. } = delivery else {
            continue;
        };
        if !app.is_named(at.generation, *from) {
            continue;
        }
        let found = match whole {
            true => sent.next() == Some(message),
            false => sent.any(|other| other == message),
        };
        if !found {
            return Err(format!("{at:?} isn't what {} sent next", app.name));
        }
    }
    Ok(())
}

fn is_settled(app: &App, list: &List) -> Result<(), String> {
    for (ticket, result) in &app.settled {
        let Some(message) = app.sent.get(*ticket as usize) else {
            continue;
        };
        let is_there = |delivery: &Delivery| matches!(delivery, Delivery::Message { at, from, message: there } if app.is_named(at.generation, *from) && there == message);
        match result {
            Ok(at) if !list.get(at).is_some_and(|there| is_there(there)) => {
                return Err(format!("{}: ticket {ticket} isn't at {at:?}", app.name));
            }
            Err(Unsent::NotSent)
                if message.len() >= 16 && list.values().any(|there| is_there(there)) =>
            {
                return Err(format!(
                    "{}: ticket {ticket} wasn't sent, and is there",
                    app.name
                ));
            }
            _ => {}
        }
    }
    Ok(())
}

#[cfg(test)]
mod tests {
    use super::*;

    fn name(text: &str) -> Name {
        text.parse().expect("a name")
    }

    fn view() -> Delivery {
        Delivery::View {
            at: Position {
                generation: 0,
                number: 1,
                index: 0,
            },
            members: "0,1".parse().expect("names"),
            resilience: 0,
        }
    }

    fn message(number: u32, index: u32, from: &str, text: &str) -> Delivery {
        Delivery::Message {
            at: Position {
                generation: 0,
                number,
                index,
            },
            from: name(from),
            message: text.into(),
        }
    }

    fn app(text: &str, sent: &[&str], log: Vec<Delivery>) -> App {
        let mut app = App::new(name(text), 0, false);
        app.sent = sent.iter().map(|text| text.as_bytes().to_vec()).collect();
        for delivery in log {
            app.deliver(delivery).expect("in order");
        }
        app
    }

    #[test]
    fn pieces_of_one_list_are_taken() {
        let log = vec![view(), message(2, 0, "0", "a"), message(2, 1, "0", "b")];
        let joined = Delivery::Joined {
            at: Position {
                generation: 0,
                number: 3,
                index: 0,
            },
            name: name("5"),
        };
        let longer = [log.clone(), vec![joined.clone()]].concat();
        let apps = [
            app("0", &["a", "b", "c"], log),
            app("1", &[], longer),
            app("5", &[], vec![joined]),
        ];
        assert_eq!(check(&apps), Ok(()));
    }

    #[test]
    fn what_is_wrong_is_refused() {
        let one = || vec![view(), message(2, 0, "0", "a"), message(3, 0, "0", "b")];
        let other = vec![view(), message(2, 0, "0", "x"), message(3, 0, "0", "b")];
        let gap = vec![view(), message(3, 0, "0", "b")];
        let twice = vec![view(), message(2, 0, "0", "a"), message(2, 1, "0", "a")];
        let sender = || app("0", &["a", "b"], one());
        for log in [other, gap] {
            assert!(check(&[sender(), app("1", &[], log)]).is_err());
        }
        assert!(check(&[app("0", &["a", "b"], twice)]).is_err());
        assert!(check(&[app("0", &["b", "a"], one())]).is_err());
        let mut early = app("0", &["a"], vec![view()]);
        let at = Position {
            generation: 0,
            number: 2,
            index: 0,
        };
        assert!(early.settle(0, Ok(at)).is_err());
        let mut late = app("0", &["a", "b"], one());
        assert_eq!(late.settle(0, Ok(at)), Ok(()));
        assert!(late.settle(0, Ok(at)).is_err());
        let mut again = app("0", &[], one());
        assert!(again.deliver(message(3, 0, "0", "b")).is_err());
        assert!(App::new(name("1"), 0, false)
            .deliver(message(2, 0, "0", "a"))
            .is_err());
    }
}
