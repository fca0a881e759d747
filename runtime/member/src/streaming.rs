//! Own contents beside the list: messages become bytes of the own stream, which go out in chunks, and bodies name them.

use crate::body::{head_of, messages_in, size_of, Reference};
use crate::config::Plant;
use crate::event::End;
use crate::frame;
use crate::member::Member;
use crate::queue::Load;
use std::collections::VecDeque;

/// The most messages that one body names.
const MOST_NAMED: usize = 2048;

/// What of the own stream no body names yet.
#[derive(Debug, Default)]
pub(crate) struct Streaming {
    /// Bytes that wait for the rest of their chunk.
    tail: Vec<u8>,
    /// The offset behind the tail.
    end: u64,
    /// Up to which offset bodies name the bytes.
    named: u64,
    /// The messages that no body names yet: their tickets, and the offsets behind them.
    unnamed: VecDeque<(u64, u64)>,
}

impl Streaming {
    /// Whether no message waits for a body that names it.
    pub(crate) fn is_empty(&self) -> bool {
        self.unnamed.is_empty()
    }

    /// How many messages wait for a body that names them.
    pub(crate) fn len(&self) -> usize {
        self.unnamed.len()
    }

    /// Takes the tickets of these messages: no body will name them.
    pub(crate) fn clear(&mut self) -> Vec<u64> {
        self.unnamed.drain(..).map(|(ticket, _)| ticket).collect()
    }
}

impl Member {
    /// How many bytes of a stream a chunk has.
    pub(crate) fn chunk_size(&self) -> usize {
        self.settings.datagram - frame::CHUNK_HEAD
    }

    /// Whether the window of bytes that aren't taken by all has room for a message.
    fn may_stream(&self, length: usize) -> bool {
        let out = self.sending.streaming.end - self.contents.floor_of(self.me());
        out + size_of(length) as u64 <= self.settings.most_streamed as u64
    }

    /// Has the first message that waits go by the stream, if the window has room for it.
    fn stream_first(&mut self) -> bool {
        let length = self.sending.queue.first_length();
        if !length.is_some_and(|length| self.may_stream(length)) {
            return false;
        }
        let Some((ticket, message)) = self.sending.queue.take() else {
            return false;
        };
        self.append(&head_of(&message));
        self.append(&message);
        let streaming = &mut self.sending.streaming;
        streaming.unnamed.push_back((ticket, streaming.end));
        true
    }

    fn append(&mut self, mut bytes: &[u8]) {
        let most = self.chunk_size();
        while !bytes.is_empty() {
            let streaming = &mut self.sending.streaming;
            streaming.tail.reserve_exact(most - streaming.tail.len());
            let room = most - streaming.tail.len();
            let (now, later) = bytes.split_at(room.min(bytes.len()));
            streaming.tail.extend(now);
            streaming.end += now.len() as u64;
            bytes = later;
            if streaming.tail.len() == most {
                self.cut();
            }
        }
    }

    /// Cuts a chunk: it is kept, and goes out to the other members.
    fn cut(&mut self) {
        let tail = std::mem::take(&mut self.sending.streaming.tail);
        if tail.is_empty() {
            return;
        }
        let start = self.sending.streaming.end - tail.len() as u64;
        let (me, group) = (self.me(), self.hearing.group.unwrap_or_default());
        let to = self.running().without(me);
        self.counts.bytes_streamed += tail.len() as u64;
        if !to.is_empty() {
            let payload = frame::chunk(group, self.speaker(), me, start, &tail);
            self.send_direct(to, payload);
        }
        self.contents.stream(me).add(start, &tail);
    }

    /// While an own body is under way and more waits than fits into one: what fills chunks goes out at once.
    pub(crate) fn stream_ahead(&mut self) {
        let most = self.chunk_size();
        let is_full = |member: &Member| {
            member.sending.queue.size() + member.sending.streaming.tail.len() >= most
        };
        while is_full(self) && self.stream_first() {}
    }

    /// The next body of what waits: all of it if it fits into one, else one that names what goes by the stream.
    pub(crate) fn next_load(&mut self) -> Option<Load> {
        if self.sending.streaming.is_empty() && self.sending.queue.fits_into_one_body() {
            return self.sending.queue.next();
        }
        while self.sending.streaming.len() < MOST_NAMED && self.stream_first() {}
        self.name_streamed()
    }

    /// The body that names what was streamed and isn't named yet. The rest of the last chunk goes out with it.
    fn name_streamed(&mut self) -> Option<Load> {
        if !self.has(Plant::NamesBeforeCut) {
            self.cut();
        }
        let me = self.me();
        let streaming = &self.sending.streaming;
        let count = streaming.unnamed.len().min(MOST_NAMED);
        let (_, end) = *streaming.unnamed.get(count.checked_sub(1)?)?;
        let range = streaming.named..end;
        let cut = (streaming.end - streaming.tail.len() as u64).max(range.start);
        let stream = self.contents.stream(me);
        stream.name(end);
        let Some(slices) = stream.slices(range.start..range.end.min(cut)) else {
            self.end(End::ContentsLost);
            return None;
        };
        let mut sum = crc32fast::Hasher::new();
        slices.iter().for_each(|slice| sum.update(slice));
        let reference = Reference {
            start: range.start,
            length: u32::try_from(range.end - range.start).ok()?,
            sum: sum.finalize(),
        };
        let streaming = &mut self.sending.streaming;
        streaming.named = end;
        let named = streaming.unnamed.drain(..count);
        Some(Load {
            body: reference.body(),
            tickets: named.map(|(ticket, _)| ticket).collect(),
        })
    }

    /// The messages of an own body, with their tickets.
    pub(crate) fn messages_of(&self, load: Load) -> Vec<(u64, Vec<u8>)> {
        let Some(reference) = Reference::read(&load.body) else {
            return load.into_messages();
        };
        let bytes = self.contents.bytes_of(self.me(), reference.range());
        with_messages(load.tickets, &bytes.unwrap_or_default())
    }

    /// Takes the messages out that no body names yet, with their tickets.
    pub(crate) fn take_unnamed(&mut self) -> Vec<(u64, Vec<u8>)> {
        let streaming = &self.sending.streaming;
        let cut = streaming.end - streaming.tail.len() as u64;
        let from = streaming.named.min(cut)..cut;
        let mut bytes = self.contents.bytes_of(self.me(), from).unwrap_or_default();
        bytes.extend(&streaming.tail);
        let tickets = self.sending.streaming.clear();
        with_messages(tickets, &bytes)
    }
}

fn with_messages(tickets: Vec<u64>, bytes: &[u8]) -> Vec<(u64, Vec<u8>)> {
    let messages = messages_in(bytes).into_iter().flatten();
    tickets
        .into_iter()
        .zip(messages.map(<[u8]>::to_vec))
        .collect()
}
