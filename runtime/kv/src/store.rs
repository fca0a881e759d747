//! The store: keys and values, as a deterministic state machine.

use crate::op::{Op, When};
use crate::pattern;
use crate::resp::{integer, reply};
use muoswyld_group::Position;
use muoswyld_replica::{Digest, StateMachine, Unreadable};
use std::collections::BTreeMap;
use std::sync::Arc;

/// The most bytes of a key or a value.
pub const MOST_VALUE: usize = 64 << 10;
/// What a key counts beside its bytes and its value's.
const ENTRY_HEAD: u64 = 96;
/// How many keys a SCAN looks at, where nothing is said.
pub const SCAN_COUNT: u64 = 10;

const OUT_OF_MEMORY: &str = "OOM command not allowed when used memory > 'maxmemory'.";
const NO_INTEGER: &str = "ERR value is not an integer or out of range";
const OVERFLOW: &str = "ERR increment or decrement would overflow";
/// The error for what is too long.
pub const TOO_LONG: &str = "ERR string exceeds maximum allowed size (proto-max-bulk-len)";

/// The kind of the record of a store's limit.
const LIMIT: u8 = b'L';
/// The kind of an entry's.
const ENTRY: u8 = b'E';

type Bytes = Arc<[u8]>;

/// The place of a key: keys stand in the order of their hashes, so that a cursor is a hash, and stays one whatever is added.
fn place_of(key: &[u8]) -> u64 {
    Digest::new().bytes(key).end() | 1
}

/// The store.
#[derive(Clone, Debug)]
pub struct Store {
    entries: BTreeMap<(u64, Bytes), Bytes>,
    used: u64,
    most: u64,
    /// The sum of the entries' digests.
    sum: u64,
}

/// What an entry adds to the digest.
fn digest_of(key: &[u8], value: &[u8]) -> u64 {
    Digest::new().bytes(key).bytes(value).end()
}

fn cost_of(key: &[u8], value: &[u8]) -> u64 {
    ENTRY_HEAD + key.len() as u64 + value.len() as u64
}

impl Store {
    /// An empty store, which takes so many bytes at most.
    pub fn new(most: u64) -> Store {
        Store {
            entries: BTreeMap::new(),
            used: 0,
            most,
            sum: 0,
        }
    }

    /// How many bytes it takes, as it counts them.
    pub fn used(&self) -> u64 {
        self.used
    }

    /// How many bytes it takes at most.
    pub fn most(&self) -> u64 {
        self.most
    }

    /// How many keys it has.
    pub fn len(&self) -> usize {
        self.entries.len()
    }

    /// Whether it has none.
    pub fn is_empty(&self) -> bool {
        self.entries.is_empty()
    }

    fn get(&self, key: &[u8]) -> Option<&Bytes> {
        self.entries.get(&(place_of(key), key.into()))
    }

    /// Sets a key, if there is memory for it.
    fn set(&mut self, key: &[u8], value: &[u8]) -> Result<(), &'static str> {
        if key.len() > MOST_VALUE || value.len() > MOST_VALUE {
            return Err(TOO_LONG);
        }
        let before = self.get(key).map_or(0, |old| cost_of(key, old));
        let used = self.used - before + cost_of(key, value);
        if used > self.most && used > self.used {
            return Err(OUT_OF_MEMORY);
        }
        self.used = used;
        let place = (place_of(key), Bytes::from(key));
        let old = self.entries.insert(place, value.into());
        let old = old.map_or(0, |old| digest_of(key, &old));
        self.sum = self.sum.wrapping_sub(old);
        self.sum = self.sum.wrapping_add(digest_of(key, value));
        Ok(())
    }

    fn remove(&mut self, key: &[u8]) -> Option<Bytes> {
        let value = self.entries.remove(&(place_of(key), key.into()))?;
        self.used -= cost_of(key, &value);
        self.sum = self.sum.wrapping_sub(digest_of(key, &value));
        Some(value)
    }

    fn clear(&mut self) {
        *self = Store::new(self.most);
    }

    /// What an operation gives that changes nothing; None for one that may.
    pub fn read(&self, op: &Op) -> Option<Vec<u8>> {
        let is_there = |key: &&Vec<u8>| self.get(key).is_some();
        Some(match op {
            Op::Get(key) => reply::maybe(self.get(key).map(|value| &value[..])),
            Op::Exists(keys) => reply::integer(keys.iter().filter(is_there).count() as i64),
            Op::GetMany(keys) => {
                let values = keys.iter().map(|key| self.get(key).map(|value| &value[..]));
                let replies: Vec<Vec<u8>> = values.map(reply::maybe).collect();
                reply::array(&replies)
            }
            Op::Length(key) => reply::integer(self.get(key).map_or(0, |value| value.len() as i64)),
            Op::Keys(wanted) => {
                let keys = self.entries.keys().map(|(_, key)| &key[..]);
                reply::bulks(keys.filter(|key| pattern::matches(wanted, key)))
            }
            Op::Scan {
                cursor,
                pattern,
                count,
                nothing,
            } => self.scan(*cursor, pattern.as_deref(), *count, *nothing),
            Op::Count => reply::integer(self.entries.len() as i64),
            Op::Say(reply) => reply.clone(),
            _ => return None,
        })
    }

    /// Keys from a place on: so many, and those that share the last one's place.
    fn scan(&self, cursor: u64, wanted: Option<&[u8]>, count: u64, nothing: bool) -> Vec<u8> {
        let mut found: Vec<&[u8]> = Vec::new();
        let mut next = 0;
        let mut last = None;
        let rest = self.entries.range((cursor, Bytes::default())..);
        for (looked, (place, key)) in (0..).zip(rest.map(|(key, _)| key)) {
            if looked >= count && last != Some(*place) {
                next = *place;
                break;
            }
            last = Some(*place);
            if !nothing && wanted.is_none_or(|wanted| pattern::matches(wanted, key)) {
                found.push(key);
            }
        }
        reply::array(&[
            reply::bulk(next.to_string().as_bytes()),
            reply::bulks(found),
        ])
    }

    /// Does an operation; its reply.
    pub fn act(&mut self, op: &Op) -> Vec<u8> {
        if let Some(reply) = self.read(op) {
            return reply;
        }
        let done = match op {
            Op::Set {
                key,
                value,
                when,
                get,
            } => self.set_when(key, value, *when, *get),
            Op::SetNew(key, value) => match self.get(key) {
                Some(_) => Ok(reply::integer(0)),
                None => self.set(key, value).map(|()| reply::integer(1)),
            },
            Op::Delete(keys) => {
                let count = keys.iter().filter(|key| self.remove(key).is_some()).count();
                Ok(reply::integer(count as i64))
            }
            Op::Add(key, number) => self.add(key, *number),
            Op::Append(key, more) => self.append(key, more),
            Op::SetMany(pairs) => self.set_many(pairs),
            Op::Take(key) => Ok(reply::maybe(self.remove(key).as_deref())),
            Op::Clear => {
                self.clear();
                Ok(reply::status("OK"))
            }
            Op::All(all) => {
                let replies: Vec<Vec<u8>> = all.iter().map(|op| self.act(op)).collect();
                Ok(reply::array(&replies))
            }
            _ => Err("ERR no such operation"),
        };
        done.unwrap_or_else(reply::error)
    }

    fn set_when(
        &mut self,
        key: &[u8],
        value: &[u8],
        when: When,
        get: bool,
    ) -> Result<Vec<u8>, &'static str> {
        let before = self.get(key).cloned();
        let is_due = match when {
            When::Always => true,
            When::Absent => before.is_none(),
            When::Present => before.is_some(),
        };
        if is_due {
            self.set(key, value)?;
        }
        Ok(match (get, is_due) {
            (true, _) => reply::maybe(before.as_deref()),
            (false, true) => reply::status("OK"),
            (false, false) => reply::nil(),
        })
    }

    fn add(&mut self, key: &[u8], number: i64) -> Result<Vec<u8>, &'static str> {
        let before = match self.get(key) {
            Some(value) => integer(value).ok_or(NO_INTEGER)?,
            None => 0,
        };
        let sum = before.checked_add(number).ok_or(OVERFLOW)?;
        self.set(key, sum.to_string().as_bytes())?;
        Ok(reply::integer(sum))
    }

    fn append(&mut self, key: &[u8], more: &[u8]) -> Result<Vec<u8>, &'static str> {
        let mut value = self.get(key).map_or_else(Vec::new, |value| value.to_vec());
        value.extend_from_slice(more);
        self.set(key, &value)?;
        Ok(reply::integer(value.len() as i64))
    }

    /// All or nothing: where there is no memory for one of them, none is set.
    fn set_many(&mut self, pairs: &[Vec<u8>]) -> Result<Vec<u8>, &'static str> {
        let mut set = Vec::new();
        for pair in pairs.chunks_exact(2) {
            let before = self.get(&pair[0]).cloned();
            if let Err(error) = self.set(&pair[0], &pair[1]) {
                self.undo(set);
                return Err(error);
            }
            set.push((&pair[0], before));
        }
        Ok(reply::status("OK"))
    }

    /// Has keys as they were, the last one first.
    fn undo(&mut self, set: Vec<(&Vec<u8>, Option<Bytes>)>) {
        for (key, before) in set.into_iter().rev() {
            self.remove(key);
            if let Some(value) = before {
                self.put(key, &value);
            }
        }
    }

    /// Adds an entry that isn't there, whatever memory it takes.
    fn put(&mut self, key: &[u8], value: &[u8]) {
        self.used += cost_of(key, value);
        self.sum = self.sum.wrapping_add(digest_of(key, value));
        self.entries
            .insert((place_of(key), key.into()), value.into());
    }
}

/// A store's records: its limit, and each entry.
pub struct Records {
    most: Option<u64>,
    entries: std::vec::IntoIter<(Bytes, Bytes)>,
}

impl Iterator for Records {
    type Item = Vec<u8>;

    fn next(&mut self) -> Option<Vec<u8>> {
        if let Some(most) = self.most.take() {
            return Some([&[LIMIT][..], &most.to_be_bytes()].concat());
        }
        let (key, value) = self.entries.next()?;
        let mut record = vec![ENTRY];
        record.extend((key.len() as u32).to_be_bytes());
        record.extend_from_slice(&key);
        record.extend_from_slice(&value);
        Some(record)
    }
}

impl StateMachine for Store {
    type Snapshot = Records;

    fn apply(&mut self, _at: Position, command: &[u8]) -> Vec<u8> {
        match Op::read(command) {
            Some(op) => self.act(&op),
            None => reply::error("ERR no such operation"),
        }
    }

    fn snapshot(&self) -> Records {
        let entries = self.entries.iter();
        let entries: Vec<(Bytes, Bytes)> = entries
            .map(|((_, key), value)| (key.clone(), value.clone()))
            .collect();
        Records {
            most: Some(self.most),
            entries: entries.into_iter(),
        }
    }

    fn restore(&mut self, record: &[u8]) -> Result<(), Unreadable> {
        let (kind, rest) = record.split_first().ok_or(Unreadable)?;
        if *kind == LIMIT {
            self.most = u64::from_be_bytes(rest.try_into().map_err(|_| Unreadable)?);
            return Ok(());
        }
        let (length, rest) = rest.split_first_chunk().ok_or(Unreadable)?;
        let length = u32::from_be_bytes(*length) as usize;
        let (key, value) = rest.split_at_checked(length).ok_or(Unreadable)?;
        if *kind != ENTRY || self.get(key).is_some() {
            return Err(Unreadable);
        }
        self.put(key, value);
        Ok(())
    }

    fn digest(&self) -> u64 {
        let digest = Digest::new().number(self.sum).number(self.most);
        digest.number(self.entries.len() as u64).end()
    }
}

#[cfg(test)]
mod tests {
    use super::*;
    use crate::op::tests::any_op;
    use proptest::prelude::*;

    fn at() -> Position {
        Position {
            generation: 0,
            number: 1,
            index: 0,
        }
    }

    fn copied(store: &Store) -> Store {
        let mut copy = Store::new(0);
        for record in store.snapshot() {
            copy.restore(&record).unwrap();
        }
        copy
    }

    fn text(reply: &[u8]) -> String {
        String::from_utf8_lossy(reply).replace("\r\n", " ")
    }

    /// What a store answers to operations, one after the other.
    fn said(store: &mut Store, all: &[Op]) -> Vec<String> {
        all.iter().map(|op| text(&store.act(op))).collect()
    }

    fn b(text: &str) -> Vec<u8> {
        text.as_bytes().to_vec()
    }

    fn set(key: &str, value: &str, when: When, get: bool) -> Op {
        Op::Set {
            key: b(key),
            value: b(value),
            when,
            get,
        }
    }

    #[test]
    fn replies_are_as_in_redis() {
        let mut store = Store::new(u64::MAX);
        let all = [
            (set("k", "1", When::Present, false), "$-1 "),
            (set("k", "1", When::Absent, true), "$-1 "),
            (set("k", "2", When::Absent, false), "$-1 "),
            (set("k", "2", When::Always, true), "$1 1 "),
            (Op::Add(b("k"), 5), ":7 "),
            (
                Op::Add(b("k"), i64::MAX),
                "-ERR increment or decrement would overflow ",
            ),
            (Op::Append(b("k"), b("x")), ":2 "),
            (
                Op::Add(b("k"), 1),
                "-ERR value is not an integer or out of range ",
            ),
            (Op::Get(b("k")), "$2 7x "),
            (Op::Exists(vec![b("k"), b("k"), b("l")]), ":2 "),
            (Op::SetMany(vec![b("a"), b("1"), b("b"), b("2")]), "+OK "),
            (Op::GetMany(vec![b("a"), b("c")]), "*2 $1 1 $-1 "),
            (Op::SetNew(b("a"), b("3")), ":0 "),
            (Op::SetNew(b("c"), b("3")), ":1 "),
            (Op::Take(b("c")), "$1 3 "),
            (Op::Take(b("c")), "$-1 "),
            (Op::Length(b("k")), ":2 "),
            (Op::Count, ":3 "),
            (Op::Keys(b("[k]")), "*1 $1 k "),
            (Op::Delete(vec![b("k"), b("k"), b("a")]), ":2 "),
            (
                Op::All(vec![Op::Add(b("n"), 1), Op::Get(b("n"))]),
                "*2 :1 $1 1 ",
            ),
            (Op::Clear, "+OK "),
            (Op::Count, ":0 "),
        ];
        for (op, reply) in all {
            assert_eq!(
                said(&mut store, std::slice::from_ref(&op)),
                [reply],
                "{op:?}"
            );
        }
        assert_eq!((store.used(), store.sum), (0, 0));
    }

    #[test]
    fn memory_and_lengths_have_limits() {
        let mut store = Store::new(2 * (ENTRY_HEAD + 2));
        let full = format!("-{OUT_OF_MEMORY} ");
        let long = "x".repeat(MOST_VALUE + 1);
        assert_eq!(
            said(&mut store, &[set("a", "1", When::Always, false)]),
            ["+OK "]
        );
        let many = Op::SetMany(vec![b("a"), b("2"), b("b"), b("1"), b("c"), b("1")]);
        assert_eq!(said(&mut store, &[many]), [&full[..]]);
        assert_eq!(
            said(&mut store, &[Op::GetMany(vec![b("a"), b("b")])]),
            ["*2 $1 1 $-1 "]
        );
        assert_eq!(
            said(&mut store, &[set("b", "1", When::Always, false)]),
            ["+OK "]
        );
        assert_eq!(said(&mut store, &[Op::Append(b("b"), b("1"))]), [&full[..]]);
        assert_eq!(said(&mut store, &[Op::Add(b("c"), 1)]), [full]);
        assert_eq!(
            said(&mut store, &[set("b", &long, When::Always, false)]),
            [format!("-{TOO_LONG} ")]
        );
        assert_eq!(copied(&store).digest(), store.digest());
    }

    #[test]
    fn a_scan_finds_each_key_that_stays() {
        let mut store = Store::new(u64::MAX);
        for k in 0..500 {
            store.act(&set(&format!("key {k}"), "", When::Always, false));
        }
        let (mut cursor, mut found) = (0, std::collections::BTreeSet::new());
        for turn in 0.. {
            let reply = store.scan(cursor, Some(b"key*"), 7, false);
            let reply = String::from_utf8(reply).unwrap();
            let lines: Vec<&str> = reply.split("\r\n").collect();
            found.extend(
                lines
                    .iter()
                    .filter(|line| line.starts_with("key "))
                    .map(ToString::to_string),
            );
            cursor = lines[2].parse().unwrap();
            // others come and go meanwhile
            store.act(&set(&format!("other {turn}"), "", When::Always, false));
            store.act(&Op::Delete(vec![b(&format!("other {}", turn / 2))]));
            if cursor == 0 {
                break;
            }
        }
        assert_eq!(found.len(), 500);
    }

    proptest! {
        #[test]
        fn a_copy_is_equal_and_counts_hold(ops in prop::collection::vec(any_op(), 0..40), most in 0u64..800) {
            let mut store = Store::new(most);
            for op in &ops {
                let before = store.used();
                let reply = store.apply(at(), &op.bytes());
                prop_assert!(!reply.is_empty() || matches!(op, Op::Say(_)));
                prop_assert!(store.used() <= before.max(most));
            }
            let entries = store.entries.iter();
            let used: u64 = entries.clone().map(|((_, key), value)| cost_of(key, value)).sum();
            let sum = entries.fold(0u64, |sum, ((_, key), value)| sum.wrapping_add(digest_of(key, value)));
            prop_assert_eq!((used, sum), (store.used, store.sum));
            let copy = copied(&store);
            prop_assert_eq!(copy.digest(), store.digest());
            prop_assert_eq!(copy.entries, store.entries);
        }

        #[test]
        fn any_record_is_taken_or_refused(record in prop::collection::vec(any::<u8>(), 0..20)) {
            let mut store = Store::new(0);
            let _ = store.restore(&record);
            let _ = store.apply(at(), &record);
        }
    }
}
