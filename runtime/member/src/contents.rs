//! Contents beside the list (docs/MEMBER.md, "Contents beside the list"). A body may name bytes of its sender's stream. The node isn't given a
//! letter that has such a body before all of these bytes are here. So whoever's node has an entry has its contents, too.

use crate::body::{self, Reference};
use crate::config::Plant;
use crate::event::End;
use crate::frame::{self, Ranges};
use crate::held::AllHeld;
use crate::member::Member;
use crate::stream::Stream;
use crate::timers::RoundTrip;
use muoswyld::answer::{Entry, Role};
use muoswyld::names::{Name, Names};
use std::collections::{BTreeMap, VecDeque};
use std::ops::Range;

/// The most bytes that a turn sends to those that ask.
const MOST_ANSWERED: usize = 1 << 16;

/// What may go once an entry is passed by all.
#[derive(Clone, Copy, Debug)]
enum Passed {
    /// Bytes of a name's stream, up to an offset.
    Bytes(Name, u64),
    /// All of these names' streams: they are no members any more.
    Streams(Names),
}

/// The streams that a member keeps, and what waits for them.
#[derive(Debug, Default)]
pub(crate) struct Contents {
    streams: BTreeMap<u8, Stream>,
    /// Letters that wait for contents.
    pub(crate) held: AllHeld,
    /// How long an answer takes to come, once something is asked for.
    pub(crate) round_trip: RoundTrip,
    /// What may go once the entry of the number is passed by all, in the order of the entries.
    passed: VecDeque<(u32, Passed)>,
    /// How many bytes were sent to those that asked, since the last release.
    answered: usize,
    /// How many bytes were taken since this member last reported how far it took the list.
    unreported: u64,
    /// How many bytes were passed by all since the sequencer last told that.
    untold: u64,
}

impl Contents {
    /// The stream of a name.
    pub(crate) fn stream(&mut self, owner: Name) -> &mut Stream {
        self.streams.entry(owner.byte()).or_default()
    }

    fn known(&self, owner: Name) -> Option<&Stream> {
        self.streams.get(&owner.byte())
    }

    /// Below which offset nothing of a name's stream is needed any more.
    pub(crate) fn floor_of(&self, owner: Name) -> u64 {
        self.known(owner).map_or(0, Stream::floor)
    }

    /// The bytes of a range of a name's stream, if all are here.
    pub(crate) fn bytes_of(&self, owner: Name, range: Range<u64>) -> Option<Vec<u8>> {
        self.known(owner)?.slices(range).map(|them| them.concat())
    }

    /// A new turn begins.
    pub(crate) fn new_turn(&mut self) {
        self.answered = 0;
    }

    /// This member's report how far it took the list goes out.
    pub(crate) fn reported(&mut self) {
        self.unreported = 0;
    }

    /// It is told how far all took the list.
    pub(crate) fn told(&mut self) {
        self.untold = 0;
    }

    /// Whether all bytes of a range of a name's stream are here.
    pub(crate) fn has(&self, owner: Name, range: &Range<u64>) -> bool {
        self.known(owner).is_some_and(|stream| stream.has(range))
    }
}

impl Member {
    /// Somebody wants bytes of a stream: sends those that are here, as many as a turn has.
    pub(crate) fn send_wanted(&mut self, from: Name, owner: Name, ranges: Ranges) {
        let (most, group) = (self.chunk_size(), self.hearing.group.unwrap_or_default());
        let speaker = self.speaker();
        let mut payloads = Vec::new();
        let mut answered = self.contents.answered;
        if let Some(stream) = self.contents.known(owner) {
            let slices = ranges.flat_map(|range| stream.there(range));
            for (start, slice) in slices {
                for (k, bytes) in slice.chunks(most).enumerate() {
                    if answered >= MOST_ANSWERED {
                        break;
                    }
                    answered += bytes.len();
                    let start = start + (k * most) as u64;
                    payloads.push(frame::chunk(group, speaker, owner, start, bytes));
                }
            }
        }
        self.counts.bytes_answered += (answered - self.contents.answered) as u64;
        self.contents.answered = answered;
        for payload in payloads {
            self.send_direct(Names::nobody().with(from), payload);
        }
    }

    /// Takes a chunk of a stream, if it is needed.
    pub(crate) fn hear_chunk(&mut self, owner: Name, start: u64, bytes: &[u8]) {
        let is_waited_for = self.contents.held.iter().any(|held| held.is_of(owner));
        let is_member = self.standing.members.has(owner);
        let takes_any = self.has(Plant::TakesAnyOffset);
        let mut added = 0;
        if owner != self.me() && (is_member || is_waited_for) {
            let stream = self.contents.stream(owner);
            let gap = stream.first_gap(bytes.len()).filter(|_| takes_any);
            added = stream.add(gap.unwrap_or(start), bytes);
        }
        if added == 0 {
            self.counts.chunks_dropped += 1;
        } else if is_waited_for {
            self.note_answer(owner, start);
        }
    }

    /// The messages that a reference of a taken entry names. It ends the member if they aren't here, or aren't what it names.
    pub(crate) fn messages_named(
        &mut self,
        from: Name,
        reference: &Reference,
    ) -> Option<Vec<Vec<u8>>> {
        let bytes = self.contents.bytes_of(from, reference.range());
        let bytes = bytes.filter(|bytes| crc32fast::hash(bytes) == reference.sum);
        let messages = bytes.as_deref().and_then(body::messages_in);
        match messages {
            Some(messages) => Some(messages.map(<[u8]>::to_vec).collect()),
            None => {
                self.end(End::ContentsLost);
                None
            }
        }
    }

    /// Looks at an entry that was taken: what of the streams goes once all have taken it.
    pub(crate) fn note_taken(&mut self, number: u32, entry: &Entry) {
        let members = self.ending.members();
        let passed = match entry {
            Entry::Data { from, body, .. } => Reference::read(body).map(|reference| {
                self.contents.unreported += u64::from(reference.length);
                Passed::Bytes(*from, reference.range().end)
            }),
            Entry::Join(_) => None,
            Entry::Leave(name) => Some(Passed::Streams(Names::nobody().with(*name))),
            Entry::View { members: view, .. } => members.map(|before| {
                let gone = before.iter().filter(|name| !view.has(*name));
                Passed::Streams(gone.collect())
            }),
        };
        let number = match self.has(Plant::DropsBytesEarly) {
            true => 0,
            false => number,
        };
        self.contents.passed.extend(passed.map(|it| (number, it)));
    }

    /// Gives up the bytes that nobody needs any more.
    pub(crate) fn pass_contents(&mut self) {
        while let Some((number, passed)) = self.contents.passed.front().copied() {
            if number > self.standing.base {
                break;
            }
            self.contents.passed.pop_front();
            match passed {
                Passed::Bytes(owner, end) => {
                    let stream = self.contents.stream(owner);
                    let before = stream.floor();
                    stream.pass(end);
                    self.contents.untold += end.saturating_sub(before);
                }
                Passed::Streams(names) => {
                    for name in names.iter() {
                        self.contents.streams.remove(&name.byte());
                    }
                }
            }
        }
    }

    /// Whether so many bytes were taken, or passed by all, that others wait to hear of it.
    pub(crate) fn is_report_of_bytes_due(&self) -> bool {
        let quarter = self.settings.most_streamed as u64 / 4;
        match self.standing.role {
            Role::Member => self.contents.unreported >= quarter,
            Role::Sequencer => self.contents.untold >= quarter,
            _ => false,
        }
    }
}
