//! One connection's requests and replies, without I/O: what comes is read, what is asked is told, and replies go out in the order of
//! their requests.

use crate::op::Op;
use crate::resp::{reply, Decoder, MOST_REQUEST};
use crate::words::{asked, Asked};
use std::collections::VecDeque;

/// How many requests of a connection may wait for their replies, before no more is read.
const MOST_WAITING: usize = 1_024;
/// How many bytes of replies may wait to be sent, before no more is read.
const MOST_OUT: usize = 16 << 20;

/// Something to do for a connection.
#[derive(Clone, Debug, PartialEq, Eq)]
pub struct Todo {
    /// Which of its requests this is.
    pub request: u64,
    /// What is asked.
    pub what: What,
}

/// What is asked.
#[derive(Clone, Debug, PartialEq, Eq)]
pub enum What {
    /// Something of the store.
    Op(Op),
    /// The state of the server.
    Info(Vec<String>),
    /// Settings.
    Config(Vec<Vec<u8>>),
    /// Who the server is.
    Hello,
}

/// What a transaction has so far.
#[derive(Debug, Default)]
struct Multi {
    ops: Vec<Op>,
    bytes: usize,
    /// Whether one of its commands was wrong.
    is_spoilt: bool,
}

/// A connection's requests and replies.
#[derive(Debug, Default)]
pub struct Dialog {
    decoder: Decoder,
    /// The replies of requests, in their order; None as long as there is none.
    replies: VecDeque<Option<Vec<u8>>>,
    /// The number of the first of these requests.
    first: u64,
    /// Replies that can be sent.
    out: VecDeque<u8>,
    multi: Option<Multi>,
    is_over: bool,
    /// Whether reading stopped before all requests were read.
    has_unread: bool,
}

impl Dialog {
    /// One in which nothing was said.
    pub fn new() -> Dialog {
        Dialog::default()
    }

    /// Takes bytes of the client.
    pub fn push(&mut self, bytes: &[u8]) {
        self.decoder.push(bytes);
    }

    /// Whether more may be read: not so where the client doesn't take its replies.
    pub fn may_read(&self) -> bool {
        !self.is_over
            && self.replies.len() < MOST_WAITING
            && self.out.len() < MOST_OUT
            && self.decoder.waiting() <= 2 * MOST_REQUEST
    }

    /// Whether it ends once all replies are sent.
    pub fn is_over(&self) -> bool {
        self.is_over
    }

    /// Whether all requests before this one are answered.
    pub fn is_next(&self, request: u64) -> bool {
        request == self.first
    }

    /// Whether a whole request may be there that wasn't read.
    pub fn has_more(&self) -> bool {
        self.has_unread
    }

    /// Whether the client waits for something.
    pub fn waits(&self) -> bool {
        !self.replies.is_empty()
    }

    /// What is to be done next; None if nothing is, as far as the requests are whole.
    pub fn next_todo(&mut self) -> Option<Todo> {
        self.has_unread = true;
        while !self.is_over && self.replies.len() < MOST_WAITING && self.out.len() < MOST_OUT {
            let words = match self.decoder.next_request() {
                Ok(Some(words)) => words,
                Ok(None) => {
                    self.has_unread = false;
                    return None;
                }
                Err(error) => {
                    self.say(reply::error(&format!("ERR {error}")));
                    self.is_over = true;
                    return None;
                }
            };
            let what = match (asked(&words), self.multi.is_some()) {
                (Ok(asked), true) => self.in_multi(asked),
                (Ok(asked), false) => self.alone(asked),
                (Err(wrong), true) if wrong.spoils => {
                    self.spoil(&wrong.text);
                    None
                }
                (Err(wrong), true) => {
                    self.collect(Op::Say(reply::error(&wrong.text)));
                    None
                }
                (Err(wrong), false) => {
                    self.say(reply::error(&wrong.text));
                    None
                }
            };
            if let Some(what) = what {
                let request = self.first + self.replies.len() as u64;
                self.replies.push_back(None);
                return Some(Todo { request, what });
            }
        }
        None
    }

    /// A request outside of a transaction.
    fn alone(&mut self, asked: Asked) -> Option<What> {
        match asked {
            Asked::Op(Op::Say(reply)) => self.say(reply),
            Asked::Op(op) => return Some(What::Op(op)),
            Asked::Info(sections) => return Some(What::Info(sections)),
            Asked::Config(patterns) => return Some(What::Config(patterns)),
            Asked::Hello => return Some(What::Hello),
            Asked::Multi => {
                self.multi = Some(Multi::default());
                self.say(reply::status("OK"));
            }
            Asked::Exec => self.say(reply::error("ERR EXEC without MULTI")),
            Asked::Discard => self.say(reply::error("ERR DISCARD without MULTI")),
            Asked::Quit => self.quit(),
        }
        None
    }

    /// A request within a transaction.
    fn in_multi(&mut self, asked: Asked) -> Option<What> {
        match asked {
            Asked::Op(op) => self.collect(op),
            Asked::Multi => self.say(reply::error("ERR MULTI calls can not be nested")),
            Asked::Discard => {
                self.multi = None;
                self.say(reply::status("OK"));
            }
            Asked::Quit => self.quit(),
            Asked::Exec => match self.multi.take() {
                Some(multi) if !multi.is_spoilt => return Some(What::Op(Op::All(multi.ops))),
                _ => self.say(reply::error(
                    "EXECABORT Transaction discarded because of previous errors.",
                )),
            },
            Asked::Info(_) | Asked::Config(_) | Asked::Hello => {
                self.spoil("ERR Command not allowed inside a transaction");
            }
        }
        None
    }

    fn spoil(&mut self, why: &str) {
        if let Some(multi) = &mut self.multi {
            multi.is_spoilt = true;
            multi.ops.clear();
        }
        self.say(reply::error(why));
    }

    fn collect(&mut self, op: Op) {
        let Some(multi) = &mut self.multi else {
            return;
        };
        multi.bytes += op.bytes().len();
        if multi.bytes > MOST_REQUEST - 64 {
            return self.spoil("ERR the transaction is too long");
        }
        multi.ops.push(op);
        self.say(reply::status("QUEUED"));
    }

    fn quit(&mut self) {
        self.say(reply::status("OK"));
        self.is_over = true;
    }

    /// A reply to the request that was read last.
    fn say(&mut self, reply: Vec<u8>) {
        self.replies.push_back(Some(reply));
        self.move_out();
    }

    /// The reply to a request.
    pub fn answer(&mut self, request: u64, reply: Vec<u8>) {
        let index = request.checked_sub(self.first);
        let place = index.and_then(|index| self.replies.get_mut(index as usize));
        if let Some(place) = place {
            *place = Some(reply);
            self.move_out();
        }
    }

    fn move_out(&mut self) {
        while let Some(Some(_)) = self.replies.front() {
            let reply = self.replies.pop_front().flatten();
            self.out.extend(reply.unwrap_or_default());
            self.first += 1;
        }
    }

    /// The replies that can be sent, as far as they stand together.
    pub fn out(&self) -> &[u8] {
        self.out.as_slices().0
    }

    /// So many bytes were sent.
    pub fn sent(&mut self, count: usize) {
        self.out.drain(..count.min(self.out.len()));
    }
}

#[cfg(test)]
mod tests {
    use super::*;
    use proptest::prelude::*;

    fn taken(dialog: &mut Dialog) -> String {
        let mut all = Vec::new();
        while !dialog.out().is_empty() {
            let count = dialog.out().len();
            all.extend_from_slice(dialog.out());
            dialog.sent(count);
        }
        String::from_utf8_lossy(&all).replace("\r\n", " ")
    }

    fn said(lines: &str) -> (Dialog, Vec<Todo>) {
        let mut dialog = Dialog::new();
        dialog.push(lines.as_bytes());
        let todos = std::iter::from_fn(|| dialog.next_todo()).collect();
        (dialog, todos)
    }

    #[test]
    fn replies_are_in_the_order_of_requests() {
        let (mut dialog, todos) = said("get a\nping\nset a b\necho x\n");
        assert_eq!(todos.len(), 2);
        assert_eq!(taken(&mut dialog), "");
        dialog.answer(todos[1].request, reply::status("OK"));
        assert_eq!(taken(&mut dialog), "");
        dialog.answer(todos[0].request, reply::nil());
        assert_eq!(taken(&mut dialog), "$-1 +PONG +OK $1 x ");
        assert!(!dialog.waits());
        dialog.answer(todos[0].request, reply::nil());
        assert_eq!(taken(&mut dialog), "");
    }

    #[test]
    fn a_transaction_is_one_operation() {
        let (mut dialog, todos) = said("multi\nincr a\nping\nget a\nexec\n");
        let Some(What::Op(Op::All(ops))) = todos.first().map(|todo| todo.what.clone()) else {
            panic!("{todos:?}");
        };
        assert_eq!(ops.len(), 3);
        assert_eq!(taken(&mut dialog), "+OK +QUEUED +QUEUED +QUEUED ");
        let (mut dialog, todos) = said(
            "exec\ndiscard\nmulti\nmulti\nget\nincr a\nexec\nmulti\nset a b\ndiscard\nget a\n",
        );
        assert_eq!(todos.len(), 1);
        assert_eq!(
            taken(&mut dialog),
            "-ERR EXEC without MULTI -ERR DISCARD without MULTI +OK -ERR MULTI calls can not be nested \
             -ERR wrong number of arguments for 'get' command +QUEUED \
             -EXECABORT Transaction discarded because of previous errors. +OK +QUEUED +OK "
        );
    }

    #[test]
    fn what_is_no_request_ends_it() {
        let (mut dialog, todos) = said("ping\n*1\r\nx\r\nping\n");
        assert!(todos.is_empty() && dialog.is_over() && !dialog.may_read());
        assert_eq!(
            taken(&mut dialog),
            "+PONG -ERR Protocol error: expected '$', got 'x' "
        );
        let (mut dialog, _) = said("quit\nping\n");
        assert!(dialog.is_over());
        assert_eq!(taken(&mut dialog), "+OK ");
    }

    #[test]
    fn who_takes_no_replies_is_read_no_further() {
        let (dialog, todos) = said(&"get a\n".repeat(2 * MOST_WAITING));
        assert_eq!(todos.len(), MOST_WAITING);
        assert!(!dialog.may_read());
    }

    proptest! {
        #[test]
        fn any_bytes_are_answered(bytes in prop::collection::vec(prop::sample::select(&b"*$123\r\n\"'\\x get ping multi exec "[..]), 0..200)) {
            let mut dialog = Dialog::new();
            for piece in bytes.chunks(7) {
                dialog.push(piece);
                while let Some(todo) = dialog.next_todo() {
                    dialog.answer(todo.request, reply::nil());
                }
                prop_assert!(!dialog.waits());
            }
        }
    }
}
