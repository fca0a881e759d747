//! A client's connection.

use crate::dialog::{Dialog, Todo};
use mio::net::TcpStream;
use mio::{Interest, Registry, Token};
use std::io::{self, Read, Write};

/// How many bytes are read at a time.
const PIECE: usize = 64 << 10;
/// How often a client is read in a turn.
const MOST_PIECES: usize = 8;

/// A connection and what is said over it.
pub struct Client {
    stream: TcpStream,
    /// What is said.
    pub dialog: Dialog,
    /// Whether something may be there to be read.
    is_readable: bool,
    /// Whether the client sends nothing more.
    has_ended: bool,
    /// Whether the connection is broken.
    is_broken: bool,
}

impl Client {
    /// A connection over which nothing was said.
    pub fn new(stream: TcpStream) -> Client {
        // replies that wait for each other cost time; a system that can't say so only costs that
        let _set = stream.set_nodelay(true);
        Client {
            stream,
            dialog: Dialog::new(),
            is_readable: true,
            has_ended: false,
            is_broken: false,
        }
    }

    /// Has its events told.
    pub fn register(&mut self, registry: &Registry, token: Token) -> io::Result<()> {
        let interest = Interest::READABLE | Interest::WRITABLE;
        registry.register(&mut self.stream, token, interest)
    }

    /// Has its events told no more.
    pub fn close(&mut self, registry: &Registry) {
        // one that can't be taken out is closed with its descriptor
        let _gone = registry.deregister(&mut self.stream);
    }

    /// Says a last reply.
    pub fn refuse(&mut self, reply: &[u8]) {
        // who doesn't hear it sees the connection end
        let _said = self.stream.write(reply);
    }

    /// Notes that something may be there.
    pub fn note(&mut self, is_readable: bool) {
        self.is_readable |= is_readable;
    }

    /// Reads what is there, and gives what is asked.
    pub fn read(&mut self, mut give: impl FnMut(Todo)) {
        let mut piece = [0; PIECE];
        for _ in 0..MOST_PIECES {
            while let Some(todo) = self.dialog.next_todo() {
                give(todo);
            }
            if !self.is_readable || self.has_ended || !self.dialog.may_read() {
                return;
            }
            match self.stream.read(&mut piece) {
                Ok(0) => self.has_ended = true,
                Ok(count) => self.dialog.push(&piece[..count]),
                Err(error) => match error.kind() {
                    io::ErrorKind::WouldBlock => self.is_readable = false,
                    io::ErrorKind::Interrupted => {}
                    _ => self.is_broken = true,
                },
            }
        }
    }

    /// Writes replies, as far as the client takes them.
    pub fn write(&mut self) {
        while !self.dialog.out().is_empty() && !self.is_broken {
            match self.stream.write(self.dialog.out()) {
                Ok(0) => self.is_broken = true,
                Ok(count) => self.dialog.sent(count),
                Err(error) => match error.kind() {
                    io::ErrorKind::WouldBlock => return,
                    io::ErrorKind::Interrupted => {}
                    _ => self.is_broken = true,
                },
            }
        }
    }

    /// Whether there is more to read now.
    pub fn wants_more(&self) -> bool {
        let may_have = self.is_readable && !self.has_ended || self.dialog.has_more();
        may_have && self.dialog.may_read() && !self.is_broken
    }

    /// Whether it is to be closed.
    pub fn is_done(&self) -> bool {
        let said_all = !self.dialog.waits() && self.dialog.out().is_empty();
        self.is_broken || said_all && (self.dialog.is_over() || self.has_ended)
    }
}
