//! Messages that wait to be sent, and the bodies that they go out in.

use crate::body::{fit_into_one, is_whole_body, read, size_of, Body, Packing};
use crate::config::MESSAGE_HEAD;
use std::collections::VecDeque;

#[derive(Debug)]
struct Message {
    ticket: u64,
    bytes: Vec<u8>,
}

/// A body to be sent.
#[derive(Clone, Debug, PartialEq, Eq)]
pub(crate) struct Load {
    /// Its bytes.
    pub(crate) body: Vec<u8>,
    /// The tickets of its messages, in their order.
    pub(crate) tickets: Vec<u64>,
}

impl Load {
    /// A control body.
    pub(crate) fn of_control(body: Vec<u8>) -> Load {
        Load {
            body,
            tickets: Vec::new(),
        }
    }

    /// Its messages with their tickets, if they stand in it.
    pub(crate) fn into_messages(self) -> Vec<(u64, Vec<u8>)> {
        let messages = match read(&self.body) {
            Body::Packed(messages) => messages.map(<[u8]>::to_vec).collect(),
            Body::Plain => vec![self.body],
            Body::Reference(_) | Body::Part { .. } | Body::Control(_) => Vec::new(),
        };
        self.tickets.into_iter().zip(messages).collect()
    }
}

/// Messages that wait, at most so many bytes of them.
#[derive(Debug)]
pub(crate) struct Queue {
    messages: VecDeque<Message>,
    waiting: usize,
    most: usize,
}

impl Queue {
    pub(crate) fn new(most: usize) -> Queue {
        Queue {
            messages: VecDeque::new(),
            waiting: 0,
            most,
        }
    }

    /// How many bytes of messages fit now, with their heads.
    pub(crate) fn free(&self) -> usize {
        self.most.saturating_sub(self.waiting)
    }

    /// How many bytes a message may have now.
    pub(crate) fn room(&self) -> usize {
        self.free().saturating_sub(MESSAGE_HEAD)
    }

    /// How many bytes wait, with the messages' heads.
    pub(crate) fn waiting(&self) -> usize {
        self.waiting
    }

    /// How many messages wait.
    pub(crate) fn len(&self) -> usize {
        self.messages.len()
    }

    /// How many bytes the messages that wait take in a stream.
    pub(crate) fn size(&self) -> usize {
        self.waiting - self.len() * (MESSAGE_HEAD - size_of(0))
    }

    /// How many bytes the first message has.
    pub(crate) fn first_length(&self) -> Option<usize> {
        self.messages.front().map(|first| first.bytes.len())
    }

    /// Whether all that waits fits into one body.
    pub(crate) fn fits_into_one_body(&self) -> bool {
        fit_into_one(self.size()) || self.len() == 1 && self.is_first_whole()
    }

    fn is_first_whole(&self) -> bool {
        let first = self.messages.front();
        first.is_some_and(|first| is_whole_body(&first.bytes))
    }

    pub(crate) fn is_empty(&self) -> bool {
        self.messages.is_empty()
    }

    /// Adds a message; gives it back if it doesn't fit.
    pub(crate) fn push(&mut self, ticket: u64, bytes: Vec<u8>) -> Result<(), Vec<u8>> {
        let size = bytes.len() + MESSAGE_HEAD;
        if size > self.free() {
            return Err(bytes);
        }
        self.waiting += size;
        self.messages.push_back(Message { ticket, bytes });
        Ok(())
    }

    /// Adds a message that was taken before, by another queue.
    pub(crate) fn push_again(&mut self, ticket: u64, bytes: Vec<u8>) {
        self.waiting += bytes.len() + MESSAGE_HEAD;
        self.messages.push_back(Message { ticket, bytes });
    }

    /// The next body, if all that waits fits into one.
    pub(crate) fn next(&mut self) -> Option<Load> {
        match self.messages.front() {
            None => None,
            Some(_) if !self.fits_into_one_body() => None,
            Some(_) if self.is_first_whole() => self.next_whole(),
            Some(_) => Some(self.next_packed()),
        }
    }

    /// Takes the first message out, with its ticket.
    pub(crate) fn take(&mut self) -> Option<(u64, Vec<u8>)> {
        self.pop().map(|message| (message.ticket, message.bytes))
    }

    fn pop(&mut self) -> Option<Message> {
        let message = self.messages.pop_front()?;
        self.waiting -= message.bytes.len() + MESSAGE_HEAD;
        Some(message)
    }

    fn next_whole(&mut self) -> Option<Load> {
        let message = self.pop()?;
        Some(Load {
            body: message.bytes,
            tickets: vec![message.ticket],
        })
    }

    fn next_packed(&mut self) -> Load {
        let mut packing = Packing::new();
        let mut tickets = Vec::new();
        while self
            .messages
            .front()
            .is_some_and(|message| packing.fits(message.bytes.len()))
        {
            if let Some(message) = self.pop() {
                packing.push(&message.bytes);
                tickets.push(message.ticket);
            }
        }
        Load {
            body: packing.into_body(),
            tickets,
        }
    }

    /// Takes all messages out, with their tickets.
    pub(crate) fn clear(&mut self) -> impl Iterator<Item = (u64, Vec<u8>)> + '_ {
        self.waiting = 0;
        let messages = self.messages.drain(..);
        messages.map(|message| (message.ticket, message.bytes))
    }
}

#[cfg(test)]
mod tests {
    use super::*;
    use crate::body::REFERENCE;

    fn queue_of(lengths: &[usize]) -> Queue {
        let mut queue = Queue::new(1 << 20);
        for (k, length) in lengths.iter().enumerate() {
            queue.push(k as u64, vec![k as u8; *length]).expect("room");
        }
        queue
    }

    /// The tickets and the length of the body, if all fits into one.
    fn load(lengths: &[usize]) -> Option<(Vec<u64>, usize)> {
        let mut queue = queue_of(lengths);
        let fits = queue.fits_into_one_body() && !lengths.is_empty();
        let load = queue.next();
        assert_eq!(load.is_some(), fits);
        if load.is_some() {
            assert_eq!((queue.waiting(), queue.len()), (0, 0));
        }
        load.map(|load| (load.tickets, load.body.len()))
    }

    #[test]
    fn what_fits_into_one_body_is_one() {
        assert_eq!(load(&[]), None);
        assert_eq!(load(&[0]), Some((vec![0], 3)));
        assert_eq!(load(&[64; 3]), Some((vec![0, 1, 2], 199)));
        assert_eq!(load(&[1019, 0]), Some((vec![0, 1], 1024)));
        assert_eq!(load(&[1020, 0]), None);
        assert_eq!(load(&[1021]), Some((vec![0], 1024)));
        assert_eq!(load(&[64; 15]), Some(((0..15).collect(), 991)));
        assert_eq!(load(&[64; 16]), None);
    }

    #[test]
    fn a_message_that_fills_a_body_goes_as_it_is() {
        for length in 1022..=1024 {
            assert_eq!(load(&[length]), Some((vec![0], length)));
            assert_eq!(load(&[length, 0]), None);
        }
        assert_eq!(load(&[1025]), None);
        for first in *b"SPC" {
            let mut queue = Queue::new(1 << 20);
            // read as a part, as a packed message or as control it wouldn't come back
            let mut message = vec![0; 1024];
            message[..5].copy_from_slice(&[first, 0, 0, 0, 2]);
            message[1..3].copy_from_slice(&if first == b'P' { [3, 253] } else { [0, 0] });
            queue.push(7, message.clone()).expect("room");
            assert_eq!(queue.next(), None);
            assert_eq!(queue.take(), Some((7, message)));
        }
        let mut queue = Queue::new(1 << 20);
        let message = vec![REFERENCE; 1024];
        queue.push(7, message.clone()).expect("room");
        // no reference is as long
        assert_eq!(queue.next().map(|load| load.body), Some(message));
    }

    #[test]
    fn all_lengths_and_first_bytes_come_back_from_a_body() {
        for length in 0..=1024 {
            let all = 0..=255;
            let near_an_edge = (1015..1030).contains(&length) || (14..20).contains(&length);
            let firsts: Vec<u8> = match near_an_edge {
                true => all.collect(),
                false => b"SPRC\0x".to_vec(),
            };
            for first in firsts {
                let mut message: Vec<u8> = (0..length).map(|k| k as u8).collect();
                if let Some(byte) = message.first_mut() {
                    *byte = first;
                }
                let mut queue = Queue::new(1 << 20);
                queue.push(5, message.clone()).expect("room");
                let Some(load) = queue.next() else {
                    assert!(length > 1021, "{length} {first}");
                    continue;
                };
                assert_eq!(load.into_messages(), [(5, message)], "{length} {first}");
            }
        }
    }

    #[test]
    fn the_size_is_what_a_stream_takes() {
        let queue = queue_of(&[0, 5, 65_535]);
        assert_eq!((queue.size(), queue.first_length()), (65_546, Some(0)));
        let size: usize = [0, 5, 65_535].into_iter().map(size_of).sum();
        assert_eq!(queue.size(), size);
    }

    #[test]
    fn what_does_not_fit_comes_back() {
        let mut queue = Queue::new(100);
        assert_eq!(queue.room(), 68);
        assert_eq!(queue.push(1, vec![1; 69]), Err(vec![1; 69]));
        assert_eq!(queue.push(1, vec![1; 30]), Ok(()));
        assert_eq!(queue.room(), 6);
        assert_eq!(queue.push(2, vec![2; 7]), Err(vec![2; 7]));
        assert_eq!(queue.push(2, vec![2; 6]), Ok(()));
        assert_eq!(queue.room(), 0);
        assert_eq!(queue.push(3, vec![]), Err(vec![]));
        let load = queue.next().expect("a body");
        assert_eq!(load.tickets, [1, 2]);
        let Body::Packed(messages) = read(&load.body) else {
            panic!("not packed");
        };
        assert_eq!(messages.collect::<Vec<_>>(), [&[1; 30][..], &[2; 6]]);
        assert_eq!(queue.room(), 68);
    }

    #[test]
    fn a_queue_that_is_cleared_tells_all_tickets() {
        let mut queue = queue_of(&[3000, 1, 2]);
        let messages: Vec<_> = queue.clear().collect();
        let lengths: Vec<_> = messages
            .iter()
            .map(|(t, bytes)| (*t, bytes.len()))
            .collect();
        assert_eq!(lengths, [(0, 3000), (1, 1), (2, 2)]);
        assert_eq!((queue.waiting(), queue.is_empty()), (0, true));
    }
}
