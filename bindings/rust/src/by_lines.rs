//! Answers read from their lines.

use crate::answer::{Entry, Outcome, Packet, Role, Standing};
use crate::event::To;
use crate::names::Names;
use std::str::FromStr;

/// The bytes of digits, two for each, or none of `-`.
fn bytes_of(text: &str) -> Option<Vec<u8>> {
    if text == "-" {
        return Some(Vec::new());
    }
    let digit = |byte: u8| char::from(byte).to_digit(16);
    text.as_bytes()
        .chunks(2)
        .map(|pair| match pair {
            [high, low] => u8::try_from(16 * digit(*high)? + digit(*low)?).ok(),
            _ => None,
        })
        .collect()
}

/// The words of an answer, read one by one.
struct Words<'a> {
    words: std::str::Split<'a, char>,
}

impl<'a> Words<'a> {
    fn of(text: &'a str) -> Words<'a> {
        Words {
            words: text.split(' '),
        }
    }

    fn word(&mut self) -> Option<&'a str> {
        self.words.next()
    }

    fn read<T: FromStr>(&mut self) -> Option<T> {
        self.word()?.parse().ok()
    }

    fn end<T>(mut self, value: T) -> Option<T> {
        self.words.next().is_none().then_some(value)
    }
}

fn entry_of(words: &mut Words) -> Option<Entry> {
    Some(match words.word()? {
        "data" => Entry::Data {
            from: words.read()?,
            request: words.read()?,
            body: bytes_of(words.word()?)?,
        },
        "join" => Entry::Join(words.read()?),
        "leave" => Entry::Leave(words.read()?),
        "view" => Entry::View {
            stamp: words.read()?,
            members: words.read()?,
            resilience: match words.word() {
                None => None,
                Some(word) => Some(word.strip_prefix('r')?.parse().ok()?),
            },
        },
        _ => return None,
    })
}

/// The outcomes of one word.
fn plain_outcome(word: &str) -> Option<Outcome> {
    Some(match word {
        "unknown" => Outcome::Unknown,
        "empty" => Outcome::Empty,
        "asked" => Outcome::Asked,
        "leaving" => Outcome::Leaving,
        "departed" => Outcome::Departed,
        "stranger" => Outcome::Stranger,
        "not-member" => Outcome::NotMember,
        "ticked" => Outcome::Ticked,
        "idle" => Outcome::Idle,
        "again" => Outcome::Again,
        "kept" => Outcome::Kept,
        "known" => Outcome::Known,
        "behind" => Outcome::Behind,
        "unfit" => Outcome::Unfit,
        "noted" => Outcome::Noted,
        "elsewhere" => Outcome::Elsewhere,
        "voted" => Outcome::Voted,
        "not-coordinator" => Outcome::NotCoordinator,
        "not-addressed" => Outcome::NotAddressed,
        _ => return None,
    })
}

/// The outcomes of a word and fields.
fn outcome_of(words: &mut Words) -> Option<Outcome> {
    let word = words.word()?;
    Some(match word {
        "queued" => Outcome::Queued {
            request: words.read()?,
        },
        "busy" => Outcome::Busy {
            queued: words.read()?,
        },
        "pending" => Outcome::Pending {
            request: words.read()?,
        },
        "sent" => Outcome::Sent {
            request: words.read()?,
            number: words.read()?,
        },
        "took" => Outcome::Took {
            number: words.read()?,
            entry: entry_of(words)?,
        },
        "joined" => Outcome::Joined {
            number: words.read()?,
        },
        "put-off" => Outcome::PutOff {
            request: words.read()?,
            base: words.read()?,
            top: words.read()?,
        },
        "numbered" => Outcome::Numbered {
            number: words.read()?,
        },
        "early" => Outcome::Early {
            last: words.read()?,
        },
        "held" => Outcome::Held {
            base: words.read()?,
            top: words.read()?,
        },
        "stored" => Outcome::Stored {
            number: words.read()?,
        },
        "gap" => Outcome::Gap {
            want: words.read()?,
        },
        "no-body" => Outcome::NoBody {
            from: words.read()?,
            request: words.read()?,
        },
        "advanced" => Outcome::Advanced {
            accepted: words.read()?,
        },
        "accepted" => Outcome::Accepted {
            accepted: words.read()?,
        },
        "served" => Outcome::Served {
            count: words.read()?,
        },
        "welcomed" => Outcome::Welcomed {
            number: words.read()?,
        },
        "let-go" => Outcome::LetGo {
            number: words.read()?,
        },
        "refused" => Outcome::Refused {
            cause: words.read()?,
        },
        "newer" => Outcome::Newer {
            promise: words.read()?,
        },
        "catching" => Outcome::Catching {
            want: words.read()?,
        },
        "waiting" => Outcome::Waiting {
            names: words.read()?,
        },
        "fetching" => Outcome::Fetching {
            from: words.read()?,
            want: words.read()?,
        },
        "too-few" => Outcome::TooFew {
            got: words.read()?,
            least: words.read()?,
        },
        "crowded" => Outcome::Crowded {
            base: words.read()?,
            top: words.read()?,
        },
        "overtaken" => Outcome::Overtaken { by: words.read()? },
        "not-in" => Outcome::NotIn {
            best: words.read()?,
        },
        "decided" => Outcome::Decided {
            number: words.read()?,
            members: words.read()?,
        },
        "occupied" => Outcome::Occupied {
            name: words.read()?,
        },
        "bad" => match words.word()? {
            "line" => Outcome::Bad {
                cause: words.read()?,
            },
            _ => return None,
        },
        "no" => match (words.word()?, words.word()?) {
            ("numbers", "left") => Outcome::NoNumbersLeft,
            _ => return None,
        },
        word => plain_outcome(word)?,
    })
}

fn letter_of(text: &str) -> Option<Packet> {
    let (to, bytes) = text.split_once(' ')?;
    let any = to.starts_with('*');
    let names: Names = to.trim_start_matches('*').parse().ok()?;
    Some(Packet {
        to: To { any, names },
        bytes: bytes_of(bytes)?,
    })
}

/// The outcome and the letters of an answer; None if it is none.
pub(crate) fn did_of(text: &str) -> Option<(Outcome, Vec<Packet>)> {
    let mut parts = text.split(" | ");
    let mut words = Words::of(parts.next()?);
    let outcome = outcome_of(&mut words)?;
    let outcome = words.end(outcome)?;
    let letters = parts.map(letter_of).collect::<Option<_>>()?;
    Some((outcome, letters))
}

/// The answer to `info`; None if it is none.
pub(crate) fn standing_of(text: &str) -> Option<Standing> {
    let mut words = Words::of(text);
    let role = match words.word()? {
        "stranger" => Role::Stranger,
        "asking" => Role::Asking,
        "member" => Role::Member,
        "sequencer" => Role::Sequencer,
        "coordinator" => Role::Coordinator,
        "departed" => Role::Departed,
        _ => return None,
    };
    let standing = Standing {
        role,
        view: words.read()?,
        view_number: words.read()?,
        members: words.read()?,
        resilience: words.read()?,
        base: words.read()?,
        taken: words.read()?,
        accepted: words.read()?,
        top: words.read()?,
        waits_for: words.read()?,
    };
    words.end(standing)
}
