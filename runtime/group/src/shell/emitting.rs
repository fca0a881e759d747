//! What a member's thread lets out: a batch as a whole, or nothing of it.

use super::{Shell, Waiter};
use crate::error::{End, ResetError, SendError};
use crate::shared::{is_counted, Reset, Sent};
use muoswyld::names::Names;
use muoswyld_member::{Delivery, Input, Notice, Output, Position, Released, Unsent};

impl Shell {
    /// Lets out what came of all that, or holds it: all or nothing. The end, if the member has ended.
    pub(super) fn let_out(&mut self) -> Option<End> {
        self.member.fix(self.now());
        if let Some(end) = self.do_deeds() {
            return Some(end);
        }
        // read after the batch was complete
        if !self.member.look(self.now()) {
            self.udp.flush();
            return None;
        }
        let end = self.emit();
        let now = self.now();
        self.member.emitted(now);
        let consumed = std::mem::take(&mut self.consumed);
        if consumed > 0 {
            self.handle(Input::Consumed(consumed));
        }
        end
    }

    /// Lets all of a batch out: the journal's lines first, then datagrams, then deliveries and answers. Meanwhile the member is given
    /// nothing. The end, if it has ended.
    pub(super) fn emit(&mut self) -> Option<End> {
        let mut outputs = std::mem::take(&mut self.outputs);
        self.member.batch(self.now(), &mut outputs);
        let mut end = None;
        for Released { generation, output } in outputs.drain(..) {
            match output {
                Output::Journal(line) => {
                    if let Err(error) = self.write(generation, &line) {
                        return Some(End::Failed(format!(
                            "the journal can't be written: {error}"
                        )));
                    }
                }
                Output::Datagram { to, payload } => self.push(to, &payload),
                Output::Deliver(delivery) => {
                    // a founder's first view, or a joiner's own join, comes first
                    self.shared.is_in.fill(true);
                    self.deliver(delivery);
                }
                Output::Settled { ticket, result } => self.settle(ticket, result),
                Output::ResetDone { ticket, result } => {
                    self.was_reset(ticket, result.map_err(ResetError::NotReset));
                }
                Output::Told(notice) => {
                    self.tell(notice);
                    if notice == Notice::NotSucceeded {
                        self.not_succeeded();
                    }
                }
                Output::Succeeded(next) => self.succeeded(generation, next),
                Output::Ended(ended) => end = Some(ended.into()),
            }
        }
        self.outputs = outputs;
        self.udp.flush();
        let has_some = !self.deliveries.is_empty();
        self.shared.deliver(&mut self.deliveries);
        if has_some {
            self.tell_arrival();
        }
        end
    }

    pub(super) fn tell_arrival(&self) {
        if let Some(call) = &self.on_arrival {
            (call.0)(());
        }
    }

    /// Gives a delivery to the application's call, or adds it to those that wait.
    pub(super) fn deliver(&mut self, delivery: Delivery) {
        match &self.on_delivery {
            Some(call) => {
                self.consumed += usize::from(is_counted(&delivery));
                (call.0)(delivery);
            }
            None => self.deliveries.push(delivery),
        }
    }

    pub(super) fn tell(&self, notice: Notice) {
        match &self.on_notice {
            Some(call) => (call.0)(notice),
            None => tracing::warn!("{notice}"),
        }
    }

    pub(super) fn push(&mut self, to: Names, payload: &[u8]) {
        if self.seal.seal(payload, &mut self.datagram) {
            let places = to.iter().map(|name| name.place());
            self.udp.push(&self.datagram, places);
        }
    }

    /// A message was delivered, or won't be.
    pub(super) fn settle(&mut self, ticket: u64, result: Result<Position, Unsent>) {
        let ended = || {
            let ended = self.member.member().info().ended;
            ended.map_or(End::Stopped, End::from)
        };
        let result = result.map_err(|why| match why {
            Unsent::NotSent => SendError::NotSent(ended()),
            Unsent::Unknown => SendError::Ended(ended()),
        });
        self.sent(ticket, result);
    }

    pub(super) fn sent(&mut self, ticket: u64, result: Sent) {
        if let Some(Waiter::Send(slot)) = self.waiters.remove(&ticket) {
            slot.fill(result);
        }
    }

    pub(super) fn was_reset(&mut self, ticket: u64, result: Reset) {
        if let Some(Waiter::Reset(slot)) = self.waiters.remove(&ticket) {
            slot.fill(result);
        }
    }
}
