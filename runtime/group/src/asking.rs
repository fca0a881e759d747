//! Joining by address: who knows one address of a group asks there how the group was founded and where its members are.
//!
//! A question is the byte `20` and a nonce of eight random bytes. Its answer is the byte `21`, the nonce, and lines of text. Both are
//! sealed as all datagrams are, and a question counts only from an address that a member has for a place. The nonce is drawn for each
//! question, so a recorded answer counts for nothing. The first line of an answer has the version of its form; another one isn't read.
//! What is told is of the latest list that the member knows.

use crate::addresses::BadAddress;
use crate::config::Config;
use crate::failures::Policy;
use crate::later::{founding_line, founding_of, LaterList};
use crate::seal::{fill, Key, Seal};
use muoswyld::names::{Name, Names};
use muoswyld_member::{Founding, Info};
use std::collections::BTreeMap;
use std::fmt::Write;
use std::io::{self, ErrorKind};
use std::net::{SocketAddr, UdpSocket};
use std::time::{Duration, Instant};

const ASKS: u8 = 0x20;
const ANSWERS: u8 = 0x21;
/// How many bytes a nonce has.
const NONCE: usize = 8;
/// How often a question is asked again.
const AGAIN: Duration = Duration::from_millis(200);
/// How long others are waited for after the first answer: one of them may know a later list.
const OTHERS: Duration = Duration::from_millis(250);
/// The first line of an answer: what it is, and the version of its form.
const FORM: &str = "muoswyld 3";
/// More bytes than a datagram with an answer has.
const MOST_BYTES: usize = 4096;

/// The number by which a question is known.
pub(crate) type Nonce = [u8; NONCE];

/// How a group was founded, and where its members are, as one of them says.
#[derive(Clone, Debug, PartialEq, Eq)]
#[non_exhaustive]
pub struct Facts {
    /// The founding of its latest list.
    pub founding: Founding,
    /// Which list that is; None if it is the group's first one.
    pub later: Option<LaterList>,
    /// What makes it certain that a name has stopped. The program of [`Policy::Command`] isn't told.
    pub policy: Policy,
    /// The voters.
    pub voters: Names,
    /// The next life of the asker's place, as far as the member knows; None after life 16.
    pub next: Option<Name>,
    /// The addresses of places.
    pub addresses: Vec<(u8, SocketAddr)>,
}

/// The nonce of a question; None if a payload is none.
pub(crate) fn nonce_of(payload: &[u8]) -> Option<Nonce> {
    match payload {
        [ASKS, nonce @ ..] => nonce.try_into().ok(),
        _ => None,
    }
}

/// What a member of this configuration tells everybody.
pub(crate) fn known(config: &Config) -> String {
    let founding = founding_line(&config.founding);
    // a list that follows another one has no voters if the policy has none
    let voters = config.list.map_or(config.voting(), |list| list.voters);
    let mut text = format!("{founding}\nfailures {voters} ");
    match config.failures.policy() {
        Policy::Told => text.push_str("told\n"),
        Policy::Command { .. } => text.push_str("command\n"),
        Policy::Echo => text.push_str("echo\n"),
        // writing to a string can't fail
        Policy::Lease { length, drift } => {
            let _ = writeln!(text, "lease {} {drift}", length.as_micros());
        }
    }
    if let Some(list) = &config.list {
        text += &format!("{}\n", list.line());
    }
    for (place, address) in config.addresses.iter() {
        let _ = writeln!(text, "address {place} {address}");
    }
    text
}

/// The payload of an answer to a place: what is known, and the last life of the place that the member knows.
pub(crate) fn answer(
    known: &str,
    founders: Names,
    info: &Info,
    place: u8,
    nonce: Nonce,
) -> Vec<u8> {
    let life = |names: Names| names.at(place).map_or(0, Name::life);
    let members = info.standing.members;
    let last = life(founders).max(life(members)).max(life(info.stopped));
    let mut payload = vec![ANSWERS];
    payload.extend(nonce);
    payload.extend(format!("{FORM}\nlife {last}\n{known}").bytes());
    payload
}

/// Reads an answer's lines for a place.
fn read(text: &str, place: u8) -> Option<Facts> {
    let mut lines = text.lines().peekable();
    let life: u8 = lines.next()?.strip_prefix("life ")?.parse().ok()?;
    let founding = founding_of(lines.next()?)?;
    let failures: Vec<&str> = lines
        .next()?
        .strip_prefix("failures ")?
        .split(' ')
        .collect();
    let (voters, policy) = match failures[..] {
        [voters, "told"] => (voters, Policy::Told),
        [voters, "echo"] => (voters, Policy::Echo),
        [voters, "command"] => {
            let (program, within) = (Default::default(), Duration::ZERO);
            (voters, Policy::Command { program, within })
        }
        [voters, "lease", length, drift] => {
            let length = Duration::from_micros(length.parse().ok()?);
            let drift = drift.parse().ok()?;
            (voters, Policy::Lease { length, drift })
        }
        _ => return None,
    };
    let address = |line: &str| -> Option<(u8, SocketAddr)> {
        let (place, address) = line.strip_prefix("address ")?.split_once(' ')?;
        let place = place.parse().ok().filter(|place| *place < 16)?;
        Some((place, address.parse().ok()?))
    };
    let voters = voters.parse().ok()?;
    let later = match lines.next_if(|line| line.starts_with("list ")) {
        Some(line) => Some(LaterList::of(line, founding, voters)?),
        None => None,
    };
    Some(Facts {
        founding,
        later,
        policy,
        voters,
        next: Name::new(place, life.checked_add(1)?),
        addresses: lines.map(address).collect::<Option<_>>()?,
    })
}

impl Facts {
    /// Asks members at some addresses, from the address that they have for this place, until one answers, and then the others for a moment:
    /// what is told of the latest list is taken. It is an error if none answers in time, if they run another version of this program, or if
    /// the system refuses a socket.
    pub fn ask(
        seeds: &[SocketAddr],
        (place, own): (u8, SocketAddr),
        key: Option<&Key>,
        most: Duration,
    ) -> io::Result<Facts> {
        let seal = match key {
            Some(key) => Seal::by(key)?,
            None => Seal::none(),
        };
        let mut nonce = [0; NONCE];
        fill(&mut nonce)?;
        let socket = UdpSocket::bind(own)?;
        socket.set_read_timeout(Some(AGAIN / 4))?;
        let mut asker = Asker {
            socket,
            seal,
            nonce,
            place,
            told: BTreeMap::new(),
            is_other: None,
        };
        asker.ask(seeds, Instant::now() + most);
        let latest = asker.told.into_values().max_by_key(Facts::order);
        latest.ok_or_else(|| match asker.is_other {
            Some(from) => {
                let line = format!("the member at {from} runs another version of this program");
                io::Error::new(ErrorKind::InvalidData, line)
            }
            None => {
                let shown: Vec<String> = seeds.iter().map(SocketAddr::to_string).collect();
                let line = format!("no member of the group answers at {}", shown.join(", "));
                io::Error::new(ErrorKind::TimedOut, line)
            }
        })
    }

    /// How many lists came before the latest one that is told.
    pub fn generation(&self) -> u32 {
        self.later.map_or(0, |list| list.generation)
    }

    /// Later lists come after earlier ones, and of one list what knows of later lives; no life left is the last.
    fn order(&self) -> (u32, u8) {
        (self.generation(), self.next.map_or(17, |next| next.life()))
    }

    /// The configuration of a name in this group, with the addresses of all places. It is an error if two places have one address.
    pub fn config(&self, name: Name) -> Result<Config, BadAddress> {
        let mut config = Config::new(name, self.founding.founders)
            .resilience(self.founding.resilience)
            .window(self.founding.window)
            .pb_up_to(self.founding.pb_up_to);
        if !self.voters.is_empty() {
            config = config.voters(self.voters);
        }
        if let Some(list) = self.later {
            config = config.later(list);
        }
        if !matches!(self.policy, Policy::Command { .. }) {
            config = config.policy(self.policy.clone());
        }
        for (place, address) in &self.addresses {
            config = config.address(*place, *address)?;
        }
        Ok(config)
    }
}

/// Who asks members how their group was founded.
struct Asker {
    socket: UdpSocket,
    seal: Seal,
    nonce: Nonce,
    place: u8,
    /// What was told, by whom.
    told: BTreeMap<SocketAddr, Facts>,
    /// Who answers in another form.
    is_other: Option<SocketAddr>,
}

impl Asker {
    /// Asks, again and again, until all have answered, some time after the first one has, or it is too late.
    fn ask(&mut self, seeds: &[SocketAddr], mut until: Instant) {
        let mut asked_at = None::<Instant>;
        while Instant::now() < until && self.told.len() < seeds.len() {
            if asked_at.is_none_or(|at| at.elapsed() >= AGAIN) {
                asked_at = Some(Instant::now());
                self.send(seeds);
            }
            if self.hear() && self.told.len() == 1 {
                until = until.min(Instant::now() + OTHERS);
            }
        }
    }

    fn send(&mut self, seeds: &[SocketAddr]) {
        let question = [&[ASKS][..], &self.nonce].concat();
        let mut datagram = Vec::new();
        if self.seal.seal(&question, &mut datagram) {
            for seed in seeds {
                // one that can't be reached now may be later
                let _sent = self.socket.send_to(&datagram, seed);
            }
        }
    }

    /// Hears an answer, if one comes soon; whether it says how the group was founded.
    fn hear(&mut self) -> bool {
        let mut bytes = [0; MOST_BYTES];
        let Ok((length, from)) = self.socket.recv_from(&mut bytes) else {
            return false;
        };
        match opened(&mut self.seal, &mut bytes[..length], self.nonce, self.place) {
            Some(Said::Facts(facts)) => {
                self.told.insert(from, *facts);
                true
            }
            Some(Said::OtherVersion) => {
                self.is_other = Some(from);
                false
            }
            None => false,
        }
    }
}

/// What an answer says.
#[derive(Debug, PartialEq, Eq)]
enum Said {
    /// How the group was founded.
    Facts(Box<Facts>),
    /// Something of another form.
    OtherVersion,
}

/// What an answer says by its text.
fn said(text: &str, place: u8) -> Said {
    let rest = text
        .strip_prefix(FORM)
        .and_then(|rest| rest.strip_prefix('\n'));
    match rest.and_then(|rest| read(rest, place)) {
        Some(facts) => Said::Facts(Box::new(facts)),
        None => Said::OtherVersion,
    }
}

/// The answer to a question in a datagram, if it is one.
fn opened(seal: &mut Seal, datagram: &mut [u8], nonce: Nonce, place: u8) -> Option<Said> {
    let payload = seal.open(datagram)?;
    let rest = payload.strip_prefix(&[ANSWERS])?;
    let text = rest.strip_prefix(&nonce[..])?;
    Some(said(std::str::from_utf8(text).ok()?, place))
}

#[cfg(test)]
mod tests {
    use super::*;

    fn config() -> Config {
        let founders = "0,1,2".parse().unwrap();
        Config::new("1".parse().unwrap(), founders)
            .resilience(1)
            .window(64)
            .pb_up_to(7)
            .address(0, "[2001:db8::2]:7000".parse().unwrap())
            .unwrap()
            .address(3, "[2001:db8::1]:7".parse().unwrap())
            .unwrap()
    }

    #[test]
    fn an_answer_is_read_as_it_was_written() {
        let lease = Policy::Lease {
            length: Duration::from_millis(400),
            drift: 50,
        };
        for policy in [Policy::Told, Policy::Echo, lease] {
            let voters = "0,1,2".parse().unwrap();
            let config = config().policy(policy.clone()).voters(voters);
            let text = format!("life 2\n{}", known(&config));
            let facts = read(&text, 3).unwrap();
            assert_eq!(facts.founding, config.founding);
            assert_eq!((&facts.policy, facts.voters), (&policy, voters));
            assert_eq!(facts.next, Some("3/3".parse().unwrap()));
            let addresses: Vec<_> = config.addresses.iter().collect();
            assert_eq!(facts.addresses, addresses);
            let made = facts.config("3/3".parse().unwrap()).unwrap();
            assert_eq!(known(&made), known(&config));
        }
    }

    #[test]
    fn the_latest_list_is_told() {
        let list = crate::later::list(2);
        let config = config().policy(Policy::Told).later(list);
        let text = format!("life 1\n{}", known(&config));
        let facts = read(&text, 3).unwrap();
        assert_eq!((facts.later, facts.generation()), (Some(list), 2));
        assert_eq!((facts.founding, facts.voters), (list.founding, list.voters));
        let made = facts.config("3/2".parse().unwrap()).unwrap();
        assert_eq!(known(&made), known(&config));
        let other = text.replacen("list 2 a7", "list 2 b", 1);
        assert_eq!(read(&other, 3), None);
        let earlier = read(&format!("life 9\n{}", known(&self::config())), 3).unwrap();
        assert!(facts.order() > earlier.order());
    }

    #[test]
    fn another_version_is_known_as_one() {
        let rest = format!("life 2\n{}", known(&config()));
        let facts = |text: String| matches!(said(&text, 3), Said::Facts(_));
        assert!(facts(format!("{FORM}\n{rest}")));
        // as the version before this one had it, and a later one
        assert!(!facts(rest.clone()));
        assert!(!facts(format!("muoswyld 4\n{rest}")));
    }

    #[test]
    fn what_is_no_answer_is_refused() {
        let text = format!("life 16\n{}", known(&config()));
        assert_eq!(read(&text, 3).unwrap().next, None);
        for at in 0..text.len() - 1 {
            // a beginning may be a whole answer with fewer addresses, and nothing panics
            let _read = read(&text[..at], 3);
        }
        for (from, to) in [
            ("life 16", "life x"),
            ("founding", "foundling"),
            ("founding 0,1,2 1 64 7", "founding 0,1,2 1 64"),
            ("told", "guess"),
            ("told", "lease 1"),
            ("address 3", "address 16"),
            ("[2001:db8::1]:7", "nowhere"),
        ] {
            assert!(text.contains(from));
            assert_eq!(read(&text.replacen(from, to, 1), 3), None, "{to}");
        }
    }

    #[test]
    fn only_a_question_has_a_nonce() {
        assert_eq!(
            nonce_of(&[ASKS, 1, 2, 3, 4, 5, 6, 7, 8]),
            Some([1, 2, 3, 4, 5, 6, 7, 8])
        );
        assert_eq!(nonce_of(&[ASKS, 1, 2, 3, 4, 5, 6, 7]), None);
        assert_eq!(nonce_of(&[ANSWERS, 1, 2, 3, 4, 5, 6, 7, 8]), None);
        assert_eq!(nonce_of(&[]), None);
    }
}
