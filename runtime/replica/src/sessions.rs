//! Sessions: what of each was done, and the answers that are kept.

use crate::digest::Digest;
use crate::event::{Answer, Plant, SessionId, Settings};
use crate::message::{put_position, put_session, Reader};
use muoswyld_member::Position;
use std::collections::{BTreeMap, VecDeque};

/// How much is kept. It is part of the state: a joiner takes it from the snapshot.
#[derive(Clone, Copy, Debug, PartialEq, Eq)]
pub(crate) struct Limits {
    /// Open sessions.
    pub(crate) sessions: u32,
    /// Answers of a session.
    pub(crate) answers: u32,
    /// Bytes of a session's answers.
    pub(crate) bytes: u32,
}

impl Limits {
    pub(crate) fn of(settings: &Settings) -> Limits {
        Limits {
            sessions: settings.most_sessions.max(1),
            answers: settings.most_answers,
            bytes: settings.most_answer_bytes,
        }
    }
}

/// A command's place in its session.
#[derive(Clone, Copy, Debug)]
pub(crate) struct Turn {
    pub(crate) session: SessionId,
    pub(crate) sequence: u64,
    pub(crate) answered: u64,
}

/// A session.
#[derive(Clone, Debug, PartialEq, Eq)]
struct Session {
    last: u64,
    used: Position,
    answers: VecDeque<(u64, Vec<u8>)>,
    bytes: usize,
}

impl Session {
    fn new(used: Position) -> Session {
        Session {
            last: 0,
            used,
            answers: VecDeque::new(),
            bytes: 0,
        }
    }

    fn drop_first(&mut self) {
        if let Some((_, answer)) = self.answers.pop_front() {
            self.bytes -= answer.len();
        }
    }

    /// Forgets the answers that its caller has.
    fn answered(&mut self, up_to: u64) {
        while self.answers.front().is_some_and(|(of, _)| *of <= up_to) {
            self.drop_first();
        }
    }

    fn keep(&mut self, answer: &[u8], limits: Limits) {
        self.last += 1;
        self.bytes += answer.len();
        self.answers.push_back((self.last, answer.to_vec()));
        while self.answers.len() > limits.answers as usize || self.bytes > limits.bytes as usize {
            self.drop_first();
        }
    }

    fn kept(&self, sequence: u64) -> Answer {
        let found = self.answers.iter().find(|(of, _)| *of == sequence);
        found.map_or(Answer::NotKept, |(_, answer)| Answer::Done(answer.clone()))
    }
}

/// The open sessions.
#[derive(Clone, Debug, PartialEq, Eq)]
pub(crate) struct Sessions {
    pub(crate) limits: Limits,
    table: BTreeMap<SessionId, Session>,
    /// The sessions by the position of their last use.
    by_use: BTreeMap<Position, SessionId>,
}

impl Sessions {
    pub(crate) fn new(limits: Limits) -> Sessions {
        Sessions {
            limits,
            table: BTreeMap::new(),
            by_use: BTreeMap::new(),
        }
    }

    /// How many are open.
    pub(crate) fn len(&self) -> usize {
        self.table.len()
    }

    fn insert(&mut self, id: SessionId, session: Session) {
        self.by_use.insert(session.used, id);
        self.table.insert(id, session);
    }

    /// Opens a session at its position; the one that was used least recently ends, if there are too many.
    pub(crate) fn open(&mut self, id: SessionId) {
        self.insert(id, Session::new(id.at));
        while self.table.len() > self.limits.sessions as usize {
            let Some((_, id)) = self.by_use.pop_first() else {
                return;
            };
            self.table.remove(&id);
        }
    }

    /// Closes a session; whether it was open.
    pub(crate) fn close(&mut self, id: SessionId) -> bool {
        let closed = self.table.remove(&id);
        if let Some(session) = &closed {
            self.by_use.remove(&session.used);
        }
        closed.is_some()
    }

    /// Forgets all of them: a defect that a test plants.
    pub(crate) fn forget(&mut self) {
        *self = Sessions::new(self.limits);
    }

    /// Does a command once: `apply` is called only if it is the session's next.
    pub(crate) fn command(
        &mut self,
        at: Position,
        turn: Turn,
        plant: Option<Plant>,
        apply: impl FnOnce() -> Vec<u8>,
    ) -> Answer {
        let limits = self.limits;
        let Some(session) = self.table.get_mut(&turn.session) else {
            return match plant {
                Some(Plant::ExpiredIsNew) => Answer::Done(apply()),
                _ => Answer::NoSession,
            };
        };
        self.by_use.remove(&session.used);
        session.used = at;
        self.by_use.insert(at, turn.session);
        session.answered(turn.answered);
        if plant == Some(Plant::NoSessions) || turn.sequence == session.last + 1 {
            let answer = apply();
            session.keep(&answer, limits);
            return Answer::Done(answer);
        }
        match turn.sequence {
            1.. if turn.sequence <= session.last => session.kept(turn.sequence),
            _ => Answer::OutOfOrder { last: session.last },
        }
    }

    /// With all sessions.
    pub(crate) fn digest(&self, digest: Digest, plant: Option<Plant>) -> Digest {
        if plant == Some(Plant::LeavesSessionsOut) {
            return digest;
        }
        let digest = digest.number(self.limits.sessions.into());
        let digest = digest.number(self.limits.answers.into());
        let digest = digest.number(self.limits.bytes.into());
        let records = self.records(plant);
        records.fold(digest, |digest, record| digest.bytes(&record))
    }

    /// The sessions, a record each.
    pub(crate) fn records(&self, plant: Option<Plant>) -> impl Iterator<Item = Vec<u8>> + '_ {
        let are_left_out = plant == Some(Plant::LeavesSessionsOut);
        let has_answers = plant != Some(Plant::LeavesAnswersOut);
        let all = self.table.iter().filter(move |_| !are_left_out);
        all.map(move |(id, session)| {
            let mut record = Vec::new();
            put_session(&mut record, *id);
            record.extend(session.last.to_be_bytes());
            put_position(&mut record, session.used);
            for (sequence, answer) in session.answers.iter().filter(|_| has_answers) {
                record.extend(sequence.to_be_bytes());
                record.extend((answer.len() as u32).to_be_bytes());
                record.extend(answer);
            }
            record
        })
    }

    /// Takes a record.
    pub(crate) fn restore(&mut self, record: &[u8]) -> Option<()> {
        let mut rest = Reader(record);
        let id = rest.session()?;
        let last = rest.u64()?;
        let mut session = Session::new(rest.position()?);
        session.last = last;
        while !rest.0.is_empty() {
            let sequence = rest.u64()?;
            let length = rest.u32()? as usize;
            let answer = rest.bytes(length)?.to_vec();
            session.bytes += length;
            session.answers.push_back((sequence, answer));
        }
        let is_new = !self.table.contains_key(&id) && !self.by_use.contains_key(&session.used);
        self.insert(id, session);
        is_new.then_some(())
    }
}

#[cfg(test)]
mod tests {
    use super::*;

    fn at(number: u32) -> Position {
        Position {
            generation: 0,
            number,
            index: 0,
        }
    }

    fn id(number: u32) -> SessionId {
        SessionId {
            list: 7,
            at: at(number),
        }
    }

    fn limits() -> Limits {
        Limits {
            sessions: 2,
            answers: 2,
            bytes: 6,
        }
    }

    /// A command whose answer is its number in all of the test.
    fn ask(sessions: &mut Sessions, number: u32, turn: (u32, u64, u64), done: &mut u32) -> Answer {
        let (session, sequence, answered) = turn;
        let turn = Turn {
            session: id(session),
            sequence,
            answered,
        };
        sessions.command(at(number), turn, None, || {
            *done += 1;
            done.to_string().into_bytes()
        })
    }

    #[test]
    fn a_command_is_done_once_and_in_order() {
        let (mut sessions, mut done) = (Sessions::new(limits()), 0);
        sessions.open(id(1));
        let said = |text: &str| Answer::Done(text.into());
        assert_eq!(ask(&mut sessions, 2, (1, 1, 0), &mut done), said("1"));
        assert_eq!(ask(&mut sessions, 3, (1, 1, 0), &mut done), said("1"));
        assert_eq!(
            ask(&mut sessions, 4, (1, 3, 0), &mut done),
            Answer::OutOfOrder { last: 1 }
        );
        assert_eq!(
            ask(&mut sessions, 5, (1, 0, 0), &mut done),
            Answer::OutOfOrder { last: 1 }
        );
        assert_eq!(ask(&mut sessions, 6, (1, 2, 0), &mut done), said("2"));
        assert_eq!(ask(&mut sessions, 7, (1, 3, 0), &mut done), said("3"));
        // two answers are kept, and those that the caller has aren't
        assert_eq!(ask(&mut sessions, 8, (1, 1, 0), &mut done), Answer::NotKept);
        assert_eq!(ask(&mut sessions, 9, (1, 3, 2), &mut done), said("3"));
        assert_eq!(
            ask(&mut sessions, 10, (1, 2, 2), &mut done),
            Answer::NotKept
        );
        assert_eq!(done, 3);
    }

    #[test]
    fn the_session_that_was_used_least_recently_ends() {
        let (mut sessions, mut done) = (Sessions::new(limits()), 0);
        sessions.open(id(1));
        sessions.open(id(2));
        assert_eq!(
            ask(&mut sessions, 3, (1, 1, 0), &mut done),
            Answer::Done(b"1".to_vec())
        );
        sessions.open(id(4));
        assert_eq!(
            ask(&mut sessions, 5, (2, 1, 0), &mut done),
            Answer::NoSession
        );
        assert_eq!(
            ask(&mut sessions, 6, (1, 2, 0), &mut done),
            Answer::Done(b"2".to_vec())
        );
        assert!(sessions.close(id(1)));
        assert!(!sessions.close(id(1)));
        assert_eq!(
            ask(&mut sessions, 7, (1, 3, 0), &mut done),
            Answer::NoSession
        );
        assert_eq!((sessions.len(), done), (1, 2));
    }

    #[test]
    fn a_session_of_another_group_is_none() {
        let mut sessions = Sessions::new(limits());
        sessions.open(id(1));
        let other = SessionId { list: 8, ..id(1) };
        let turn = Turn {
            session: other,
            sequence: 1,
            answered: 0,
        };
        let answer = sessions.command(at(2), turn, None, || panic!("it isn't done"));
        assert_eq!(answer, Answer::NoSession);
        assert!(!sessions.close(other));
        assert_eq!(sessions.len(), 1);
    }

    #[test]
    fn records_have_all_of_it() {
        let (mut sessions, mut done) = (Sessions::new(limits()), 0);
        sessions.open(id(1));
        sessions.open(id(2));
        for sequence in 1..=3 {
            ask(
                &mut sessions,
                10 + sequence as u32,
                (1, sequence, 0),
                &mut done,
            );
        }
        let mut other = Sessions::new(limits());
        for record in sessions.records(None) {
            other.restore(&record).unwrap();
        }
        assert_eq!(other, sessions);
        let record = sessions.records(None).next().unwrap();
        assert_eq!(other.restore(&record), None);
        for length in 0..record.len() {
            let mut new = Sessions::new(limits());
            if new.restore(&record[..length]).is_some() {
                assert_ne!(new, sessions);
            }
        }
    }
}
