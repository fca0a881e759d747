//! Letters that are held until the contents are here that their bodies name, and those that come behind them.

use crate::body::Reference;
use crate::config::{Plant, Time};
use crate::frame::{self, Letter};
use crate::member::Member;
use crate::packet::{body_of, numbered, view_of};
use muoswyld::event::To;
use muoswyld::names::{Name, Names};
use std::collections::VecDeque;
use std::ops::Range;

/// The most letters that are held.
const MOST_HELD: usize = 256;
/// How often the contents of a letter are asked for in vain before it is dropped.
const MOST_ASKS: u32 = 10;
/// The most ranges that one datagram asks for.
const MOST_RANGES: usize = 64;

/// Bytes of a name's stream.
type Named = (Name, Range<u64>);

/// A letter that is held.
#[derive(Debug)]
pub(crate) struct Held {
    from: Name,
    number: u32,
    to: To,
    packet: Vec<u8>,
    /// What its body names.
    named: Option<Named>,
    /// When the missing bytes are asked for next.
    ask_at: Time,
    /// How often they were asked for since some came.
    asks: u32,
    /// How many bytes were missing when they were asked for last.
    missing: u64,
    /// When they were asked for last, until some come.
    asked_at: Option<Time>,
}

impl Held {
    /// Whether its body names bytes of a name's stream.
    pub(crate) fn is_of(&self, owner: Name) -> bool {
        self.named.as_ref().is_some_and(|named| named.0 == owner)
    }

    /// Whether it tells of the same entry, or has the same request.
    fn is_as(&self, packet: &[u8], named: Option<&Named>) -> bool {
        match (numbered(&self.packet), numbered(packet)) {
            (Some(own), Some(other)) => own == other && view_of(&self.packet) == view_of(packet),
            (None, None) => self.named.as_ref() == named,
            _ => false,
        }
    }
}

/// Letters that are held, in the order in which they came.
pub(crate) type AllHeld = VecDeque<Held>;

/// The bytes that a letter's body names, if it names some.
fn named_by(packet: &[u8]) -> Option<Named> {
    let (owner, body) = body_of(packet)?;
    Reference::read(body).map(|reference| (owner, reference.range()))
}

impl Member {
    /// Gives the node a letter, or holds it: until the contents are here that its body names, and until those are given before it that tell
    /// of earlier entries.
    pub(crate) fn hear_with_contents(&mut self, from: Name, letter: &Letter) -> Option<()> {
        let named = named_by(letter.packet);
        if named.as_ref().is_some_and(|named| self.is_passed(named)) {
            // an entry that all have taken: its letter is late
            return Some(());
        }
        let lacks = named.as_ref().is_some_and(|named| self.lacks(named));
        if lacks || self.is_behind_held(letter.packet) {
            self.hold(from, letter, named);
            return Some(());
        }
        if let Some((owner, range)) = named {
            self.contents.stream(owner).name(range.end);
        }
        self.give_letter(from, letter)
    }

    fn is_passed(&self, (owner, range): &Named) -> bool {
        range.end <= self.contents.floor_of(*owner)
    }

    fn lacks(&self, (owner, range): &Named) -> bool {
        !self.contents.has(*owner, range) && !self.has(Plant::GivesWithoutBytes)
    }

    /// Whether a letter tells of an entry, and one is held that tells of an earlier one, which the node doesn't have yet.
    fn is_behind_held(&self, packet: &[u8]) -> bool {
        let Some(number) = numbered(packet) else {
            return false;
        };
        let (top, view) = (self.standing.top, view_of(packet));
        self.contents.held.iter().any(|held| {
            let other = numbered(&held.packet).filter(|_| view_of(&held.packet) == view);
            other.is_some_and(|other| top < other && other < number)
        })
    }

    /// Holds a letter. It takes the place of an older one that tells the same.
    fn hold(&mut self, from: Name, letter: &Letter, named: Option<Named>) {
        // what was sent before the letter and hasn't come is lost
        let lacks = named.as_ref().is_some_and(|named| self.lacks(named));
        let ask_at = if lacks { self.now } else { Time::NEVER };
        let old = self.contents.held.iter_mut();
        let old = old.rev().find(|it| it.is_as(letter.packet, named.as_ref()));
        let mut held = Held {
            from,
            number: letter.number,
            to: letter.to,
            packet: letter.packet.to_vec(),
            named,
            ask_at,
            asks: 0,
            missing: 0,
            asked_at: None,
        };
        if let Some(old) = old {
            if old.named == held.named {
                (held.ask_at, held.asks, held.missing) = (old.ask_at, old.asks, old.missing);
                held.asked_at = old.asked_at;
            }
            *old = held;
            return;
        }
        self.counts.letters_held += 1;
        if self.contents.held.len() == MOST_HELD {
            self.contents.held.pop_front();
        }
        self.contents.held.push_back(held);
    }

    /// When missing contents are asked for next.
    pub(crate) fn wants_at(&self) -> Time {
        let times = self.contents.held.iter().map(|held| held.ask_at);
        times.min().unwrap_or(Time::NEVER)
    }

    /// Asks for the contents of the letters that are held, where it is time. A letter is dropped that this was tried for too often.
    pub(crate) fn want_contents(&mut self) {
        if self.now < self.wants_at() {
            return;
        }
        let mut all = std::mem::take(&mut self.contents.held);
        all.retain_mut(|held| self.now < held.ask_at || self.ask_for(held));
        self.contents.held = all;
    }

    /// After which time contents are asked for again that were asked for so often: a round trip at least, as it was measured by answers.
    fn answer_period(&self, asks: u32) -> u64 {
        let (first, most) = (self.settings.first_resend, self.settings.most_resend);
        let period = self.contents.round_trip.resend(first, most);
        Time::doubled(period, asks.saturating_sub(1)).min(most)
    }

    /// Bytes of a name's stream came that a letter waits for: measures how long that took.
    pub(crate) fn note_answer(&mut self, owner: Name, start: u64) {
        let is_in = |held: &&mut Held| {
            let named = held.named.as_ref();
            named.is_some_and(|(name, range)| *name == owner && range.contains(&start))
        };
        if let Some(held) = self.contents.held.iter_mut().find(is_in) {
            if let Some(asked) = held.asked_at.take() {
                let sample = self.now.since(asked);
                self.contents.round_trip.measure(sample, held.asks > 1);
            }
        }
    }

    /// Asks for the contents of a letter; whether it is held on.
    fn ask_for(&mut self, held: &mut Held) -> bool {
        let (Some(group), Some((owner, range))) = (self.hearing.group, &held.named) else {
            return false;
        };
        let gaps = self
            .contents
            .stream(*owner)
            .gaps(range.clone(), MOST_RANGES);
        let missing = gaps.iter().map(|gap| gap.end - gap.start).sum();
        if missing == 0 {
            held.ask_at = Time::NEVER;
            return true;
        }
        held.asks = match missing < held.missing {
            true => 0,
            false => held.asks + 1,
        };
        held.missing = missing;
        held.asked_at = Some(self.now);
        held.ask_at = self.now.after(self.answer_period(held.asks));
        if held.asks > MOST_ASKS {
            return false;
        }
        self.counts.bytes_asked += missing;
        let want = frame::want(group, self.speaker(), *owner, &gaps);
        self.send_direct(Names::nobody().with(held.from), want);
        true
    }

    /// The place of the next held letter that the node may be given, or that isn't needed any more: what tells of the earliest entry first.
    fn next_held(&self) -> Option<usize> {
        let is_free = |held: &Held| {
            let named = held.named.as_ref();
            named.is_some_and(|named| self.is_passed(named))
                || !named.is_some_and(|named| self.lacks(named))
                    && !self.is_behind_held(&held.packet)
        };
        let all = self.contents.held.iter().enumerate();
        let free = all.filter(|(_, held)| is_free(held));
        let first = free.min_by_key(|(at, held)| (numbered(&held.packet), *at));
        first.map(|(at, _)| at)
    }

    /// Gives the node the held letters that may be given to it now.
    pub(crate) fn give_held(&mut self) -> Option<()> {
        while let Some(held) = self
            .next_held()
            .and_then(|at| self.contents.held.remove(at))
        {
            let letter = Letter {
                number: held.number,
                to: held.to,
                packet: &held.packet,
            };
            self.hear_with_contents(held.from, &letter)?;
        }
        Some(())
    }
}
