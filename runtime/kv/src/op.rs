//! What a store is asked: its operations, and their bytes in the group's list.
//!
//! A number is in groups of seven bits, the least significant first, with the eighth bit set where more follow. A string is its length
//! and its bytes, and strings their count and they.

/// When a SET does something.
#[derive(Clone, Copy, Debug, PartialEq, Eq)]
pub enum When {
    /// Always.
    Always,
    /// Where the key isn't there.
    Absent,
    /// Where it is.
    Present,
}

/// An operation.
#[derive(Clone, Debug, PartialEq, Eq)]
pub enum Op {
    /// Gives a key's value.
    Get(Vec<u8>),
    /// Sets a key; with `get` it gives the value before.
    Set {
        /// The key.
        key: Vec<u8>,
        /// Its value.
        value: Vec<u8>,
        /// When.
        when: When,
        /// Whether the value before is given.
        get: bool,
    },
    /// Sets a key that isn't there; 1 if it did.
    SetNew(Vec<u8>, Vec<u8>),
    /// Deletes keys; how many were there.
    Delete(Vec<Vec<u8>>),
    /// How many of these keys are there.
    Exists(Vec<Vec<u8>>),
    /// Adds to a number.
    Add(Vec<u8>, i64),
    /// Adds bytes to a value; its length then.
    Append(Vec<u8>, Vec<u8>),
    /// The values of keys.
    GetMany(Vec<Vec<u8>>),
    /// Sets keys and their values, one after the other.
    SetMany(Vec<Vec<u8>>),
    /// Gives a key's value, and deletes it.
    Take(Vec<u8>),
    /// The length of a value.
    Length(Vec<u8>),
    /// The keys of a pattern.
    Keys(Vec<u8>),
    /// Some keys from a cursor on.
    Scan {
        /// Where it goes on; 0 at the beginning.
        cursor: u64,
        /// Their pattern.
        pattern: Option<Vec<u8>>,
        /// How many are looked at.
        count: u64,
        /// Whether a type is asked for that no value has.
        nothing: bool,
    },
    /// How many keys there are.
    Count,
    /// Deletes all keys.
    Clear,
    /// A reply that is known already.
    Say(Vec<u8>),
    /// Operations that are done as one.
    All(Vec<Op>),
}

fn put_number(to: &mut Vec<u8>, mut number: u64) {
    while number >= 0x80 {
        to.push(number as u8 | 0x80);
        number >>= 7;
    }
    to.push(number as u8);
}

fn put(to: &mut Vec<u8>, string: &[u8]) {
    put_number(to, string.len() as u64);
    to.extend_from_slice(string);
}

fn put_all(to: &mut Vec<u8>, strings: &[Vec<u8>]) {
    put_number(to, strings.len() as u64);
    for string in strings {
        put(to, string);
    }
}

/// Reads from the front of bytes.
struct Reader<'a>(&'a [u8]);

impl<'a> Reader<'a> {
    fn byte(&mut self) -> Option<u8> {
        let (first, rest) = self.0.split_first()?;
        self.0 = rest;
        Some(*first)
    }

    fn number(&mut self) -> Option<u64> {
        let mut number = 0u64;
        for shift in (0..64).step_by(7) {
            let byte = self.byte()?;
            let bits = u64::from(byte & 0x7f);
            if bits << shift >> shift != bits {
                return None;
            }
            number |= bits << shift;
            if byte < 0x80 {
                // one number has one form
                return (byte != 0 || shift == 0).then_some(number);
            }
        }
        None
    }

    fn string(&mut self) -> Option<Vec<u8>> {
        let length = usize::try_from(self.number()?).ok()?;
        let (string, rest) = self.0.split_at_checked(length)?;
        self.0 = rest;
        Some(string.to_vec())
    }

    fn strings(&mut self) -> Option<Vec<Vec<u8>>> {
        let count = self.number()?;
        // each takes a byte at least
        (count <= self.0.len() as u64).then_some(())?;
        (0..count).map(|_| self.string()).collect()
    }

    fn flag(&mut self) -> Option<bool> {
        match self.byte()? {
            0 => Some(false),
            1 => Some(true),
            _ => None,
        }
    }
}

impl Op {
    /// Whether it changes nothing, whatever the store has.
    pub fn only_reads(&self) -> bool {
        matches!(
            self,
            Op::Get(_)
                | Op::Exists(_)
                | Op::GetMany(_)
                | Op::Length(_)
                | Op::Keys(_)
                | Op::Scan { .. }
                | Op::Count
                | Op::Say(_)
        )
    }

    /// Its bytes.
    pub fn bytes(&self) -> Vec<u8> {
        let mut to = Vec::with_capacity(64);
        self.put(&mut to);
        to
    }

    fn put(&self, to: &mut Vec<u8>) {
        to.push(self.code());
        match self {
            Op::Get(key) | Op::Take(key) | Op::Length(key) | Op::Keys(key) | Op::Say(key) => {
                put(to, key);
            }
            Op::Set {
                key,
                value,
                when,
                get,
            } => {
                to.push(*when as u8 | u8::from(*get) << 2);
                put(to, key);
                put(to, value);
            }
            Op::SetNew(key, value) | Op::Append(key, value) => {
                put(to, key);
                put(to, value);
            }
            Op::Delete(keys) | Op::Exists(keys) | Op::GetMany(keys) | Op::SetMany(keys) => {
                put_all(to, keys);
            }
            Op::Add(key, number) => {
                put(to, key);
                to.extend(number.to_be_bytes());
            }
            Op::Scan {
                cursor,
                pattern,
                count,
                nothing,
            } => {
                put_number(to, *cursor);
                put_all(to, pattern.as_slice());
                put_number(to, *count);
                to.push(u8::from(*nothing));
            }
            Op::Count | Op::Clear => {}
            Op::All(all) => {
                put_number(to, all.len() as u64);
                for op in all {
                    op.put(to);
                }
            }
        }
    }

    fn code(&self) -> u8 {
        match self {
            Op::Get(_) => b'g',
            Op::Set { .. } => b's',
            Op::SetNew(..) => b'n',
            Op::Delete(_) => b'd',
            Op::Exists(_) => b'e',
            Op::Add(..) => b'i',
            Op::Append(..) => b'a',
            Op::GetMany(_) => b'G',
            Op::SetMany(_) => b'S',
            Op::Take(_) => b't',
            Op::Length(_) => b'l',
            Op::Keys(_) => b'k',
            Op::Scan { .. } => b'c',
            Op::Count => b'#',
            Op::Clear => b'F',
            Op::Say(_) => b'"',
            Op::All(_) => b'X',
        }
    }

    /// The operation of some bytes; None if they are none.
    pub fn read(bytes: &[u8]) -> Option<Op> {
        let mut rest = Reader(bytes);
        let op = Op::next(&mut rest, true)?;
        rest.0.is_empty().then_some(op)
    }

    fn next(rest: &mut Reader, may_have_more: bool) -> Option<Op> {
        Some(match rest.byte()? {
            b'g' => Op::Get(rest.string()?),
            b's' => Op::next_set(rest)?,
            b'n' => Op::SetNew(rest.string()?, rest.string()?),
            b'd' => Op::Delete(rest.strings()?),
            b'e' => Op::Exists(rest.strings()?),
            b'i' => {
                let key = rest.string()?;
                let (number, left) = rest.0.split_first_chunk()?;
                rest.0 = left;
                Op::Add(key, i64::from_be_bytes(*number))
            }
            b'a' => Op::Append(rest.string()?, rest.string()?),
            b'G' => Op::GetMany(rest.strings()?),
            b'S' => Op::SetMany(rest.strings().filter(|all| all.len().is_multiple_of(2))?),
            b't' => Op::Take(rest.string()?),
            b'l' => Op::Length(rest.string()?),
            b'k' => Op::Keys(rest.string()?),
            b'c' => Op::Scan {
                cursor: rest.number()?,
                pattern: rest.strings().filter(|all| all.len() < 2)?.pop(),
                count: rest.number()?,
                nothing: rest.flag()?,
            },
            b'#' => Op::Count,
            b'F' => Op::Clear,
            b'"' => Op::Say(rest.string()?),
            b'X' if may_have_more => {
                let count = rest.number()?;
                (count <= rest.0.len() as u64).then_some(())?;
                let all = (0..count).map(|_| Op::next(rest, false));
                Op::All(all.collect::<Option<_>>()?)
            }
            _ => return None,
        })
    }

    fn next_set(rest: &mut Reader) -> Option<Op> {
        let flags = rest.byte()?;
        let when = match flags & 3 {
            0 => When::Always,
            1 => When::Absent,
            2 => When::Present,
            _ => return None,
        };
        (flags < 8).then_some(())?;
        Some(Op::Set {
            key: rest.string()?,
            value: rest.string()?,
            when,
            get: flags & 4 != 0,
        })
    }
}

#[cfg(test)]
pub(crate) mod tests {
    use super::*;
    use proptest::prelude::*;

    fn string() -> impl Strategy<Value = Vec<u8>> {
        prop::collection::vec(prop::sample::select(&b"abk\0\xff1"[..]), 0..4)
    }

    fn strings() -> impl Strategy<Value = Vec<Vec<u8>>> {
        prop::collection::vec(string(), 0..4)
    }

    fn pairs() -> impl Strategy<Value = Vec<Vec<u8>>> {
        prop::collection::vec((string(), string()), 0..3)
            .prop_map(|all| all.into_iter().flat_map(|(k, v)| [k, v]).collect())
    }

    /// Any operation but several as one.
    pub(crate) fn one() -> impl Strategy<Value = Op> {
        let when = prop::sample::select(&[When::Always, When::Absent, When::Present][..]);
        let pattern = prop::option::of(string());
        prop_oneof![
            string().prop_map(Op::Get),
            (string(), string(), when, any::<bool>()).prop_map(|(key, value, when, get)| Op::Set {
                key,
                value,
                when,
                get
            }),
            (string(), string()).prop_map(|(key, value)| Op::SetNew(key, value)),
            strings().prop_map(Op::Delete),
            strings().prop_map(Op::Exists),
            (string(), any::<i64>()).prop_map(|(key, number)| Op::Add(key, number)),
            (string(), -3i64..4).prop_map(|(key, number)| Op::Add(key, number)),
            (string(), string()).prop_map(|(key, value)| Op::Append(key, value)),
            strings().prop_map(Op::GetMany),
            pairs().prop_map(Op::SetMany),
            string().prop_map(Op::Take),
            string().prop_map(Op::Length),
            string().prop_map(Op::Keys),
            (any::<u64>(), pattern, any::<u64>(), any::<bool>()).prop_map(
                |(cursor, pattern, count, nothing)| Op::Scan {
                    cursor,
                    pattern,
                    count,
                    nothing
                }
            ),
            Just(Op::Count),
            Just(Op::Clear),
            string().prop_map(Op::Say),
        ]
    }

    /// Any operation.
    pub(crate) fn any_op() -> impl Strategy<Value = Op> {
        prop_oneof![9 => one(), 1 => prop::collection::vec(one(), 0..4).prop_map(Op::All)]
    }

    proptest! {
        #[test]
        fn what_is_written_is_read(op in any_op()) {
            prop_assert_eq!(Op::read(&op.bytes()), Some(op));
        }

        #[test]
        fn what_is_read_is_written_again(bytes in prop::collection::vec(prop::sample::select(&b"gsndeiaGStlkc#F\"X\0\x01\x02\x03\x80a"[..]), 0..24)) {
            if let Some(op) = Op::read(&bytes) {
                prop_assert_eq!(op.bytes(), bytes);
            }
        }
    }
}
