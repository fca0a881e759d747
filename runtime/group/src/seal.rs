//! Sealed datagrams: what goes over the network can be read and written only by who has the group's key.
//!
//! A datagram is a head and a sealed payload. The head is a byte for the form, a word of 16 random bytes that the sending
//! process drew as it began, and a counter of 8 bytes. The key of a process is derived by HKDF-SHA-256 from the group's key and
//! its word; the payload is sealed by AES-256-GCM under it, with the counter as the nonce and the head as further data. A
//! process counts each datagram that it seals, so no nonce comes twice under a key. No window of replays is kept: a datagram
//! that comes again is a letter that comes again, which a group takes.

use ring::aead::{Aad, LessSafeKey, Nonce, UnboundKey, AES_256_GCM, NONCE_LEN};
use ring::hkdf::{KeyType, Salt, HKDF_SHA256};
use ring::rand::{SecureRandom, SystemRandom};
use std::io;

/// How many bytes a key has.
pub const KEY: usize = 32;
/// How many bytes stand before a sealed payload.
const HEAD: usize = 1 + WORD + 8;
/// How many bytes a process's word has.
const WORD: usize = 16;
/// How many bytes sealing adds to a payload.
pub const OVERHEAD: usize = HEAD + 16;
/// The first byte of a sealed datagram.
const SEALED: u8 = 0xa1;
/// The first byte of a datagram that isn't sealed.
const OPEN: u8 = 0xa0;
/// How many processes' keys are kept: more than a group's processes at a time.
const MOST_KEYS: usize = 64;

/// A group's key: who has it is trusted.
#[derive(Clone)]
pub struct Key([u8; KEY]);

impl Key {
    /// A key of these bytes.
    pub fn of(bytes: [u8; KEY]) -> Key {
        Key(bytes)
    }

    /// A new random key. It is an error if the system gives no random bytes.
    pub fn random() -> io::Result<Key> {
        let mut bytes = [0; KEY];
        fill(&mut bytes)?;
        Ok(Key(bytes))
    }

    /// Its bytes.
    pub fn bytes(&self) -> &[u8; KEY] {
        &self.0
    }
}

impl std::fmt::Debug for Key {
    fn fmt(&self, f: &mut std::fmt::Formatter<'_>) -> std::fmt::Result {
        f.write_str("Key(..)")
    }
}

/// Fills bytes with random ones of the system.
pub(crate) fn fill(bytes: &mut [u8]) -> io::Result<()> {
    SystemRandom::new()
        .fill(bytes)
        .map_err(|_| io::Error::other("the system gives no random bytes"))
}

/// The length of a derived key.
struct Length;

impl KeyType for Length {
    fn len(&self) -> usize {
        KEY
    }
}

/// The key of a process, by its word; None if the library refuses, which it doesn't for these lengths.
fn derived(key: &Key, word: &[u8; WORD]) -> Option<LessSafeKey> {
    let mut bytes = [0; KEY];
    let secret = Salt::new(HKDF_SHA256, word).extract(&key.0);
    let expanded = secret.expand(&[b"muoswyld datagram 1"], Length).ok()?;
    expanded.fill(&mut bytes).ok()?;
    UnboundKey::new(&AES_256_GCM, &bytes)
        .ok()
        .map(LessSafeKey::new)
}

/// The length of an id.
struct IdLength;

impl KeyType for IdLength {
    fn len(&self) -> usize {
        16
    }
}

/// An id of a group's key and a text: who has another key or another text has another id.
pub(crate) fn id_of(key: Option<&Key>, text: &[u8]) -> io::Result<[u8; 16]> {
    let none = [0; KEY];
    let secret = Salt::new(HKDF_SHA256, b"muoswyld failures 1");
    let secret = secret.extract(key.map_or(&none, |key| &key.0));
    let mut id = [0; 16];
    let info = [text];
    let filled = secret
        .expand(&info, IdLength)
        .and_then(|key| key.fill(&mut id));
    filled.map_err(|_| io::Error::other("no id was derived"))?;
    Ok(id)
}

fn nonce(counter: u64) -> Nonce {
    let mut bytes = [0; NONCE_LEN];
    bytes[NONCE_LEN - 8..].copy_from_slice(&counter.to_be_bytes());
    Nonce::assume_unique_for_key(bytes)
}

/// A key of some process, and whose it is.
struct Known {
    word: [u8; WORD],
    key: LessSafeKey,
}

/// What seals and opens datagrams.
pub struct Seal {
    /// None if datagrams aren't sealed.
    secret: Option<Secret>,
}

struct Secret {
    key: Key,
    word: [u8; WORD],
    own: LessSafeKey,
    counter: u64,
    known: Vec<Known>,
}

impl Seal {
    /// Datagrams that aren't sealed: whoever can send to a member's address can write them.
    pub fn none() -> Seal {
        Seal { secret: None }
    }

    /// Datagrams that are sealed by a key. It is an error if the system gives no random bytes.
    pub fn by(key: &Key) -> io::Result<Seal> {
        let mut word = [0; WORD];
        fill(&mut word)?;
        let own = derived(key, &word).ok_or_else(|| io::Error::other("no key was derived"))?;
        Ok(Seal {
            secret: Some(Secret {
                key: key.clone(),
                word,
                own,
                counter: 0,
                known: Vec::new(),
            }),
        })
    }

    /// How many bytes a datagram has more than its payload.
    pub fn overhead(&self) -> usize {
        match self.secret {
            Some(_) => OVERHEAD,
            None => 1,
        }
    }

    /// Writes the datagram of a payload to `out`, in place of what is there. False if it can't be sealed: after 2^64 - 1
    /// datagrams.
    pub fn seal(&mut self, payload: &[u8], out: &mut Vec<u8>) -> bool {
        out.clear();
        let Some(secret) = &mut self.secret else {
            out.push(OPEN);
            out.extend_from_slice(payload);
            return true;
        };
        let Some(counter) = secret.counter.checked_add(1) else {
            return false;
        };
        secret.counter = counter;
        out.push(SEALED);
        out.extend_from_slice(&secret.word);
        out.extend_from_slice(&counter.to_be_bytes());
        let mut head = [0; HEAD];
        head.copy_from_slice(out);
        out.extend_from_slice(payload);
        match secret.own.seal_in_place_separate_tag(
            nonce(counter),
            Aad::from(head),
            &mut out[HEAD..],
        ) {
            Ok(tag) => {
                out.extend_from_slice(tag.as_ref());
                true
            }
            Err(_) => false,
        }
    }

    /// The payload of a datagram, opened where it stands; None if it isn't sealed by this key, or isn't of the form.
    pub fn open<'a>(&mut self, datagram: &'a mut [u8]) -> Option<&'a [u8]> {
        let Some(secret) = &mut self.secret else {
            let (first, payload) = datagram.split_first()?;
            return (*first == OPEN).then_some(payload);
        };
        if datagram.len() < OVERHEAD || datagram[0] != SEALED {
            return None;
        }
        let (head, sealed) = datagram.split_at_mut(HEAD);
        let head: [u8; HEAD] = (&*head).try_into().ok()?;
        let word: [u8; WORD] = head[1..=WORD].try_into().ok()?;
        let counter = u64::from_be_bytes(head[1 + WORD..].try_into().ok()?);
        let place = secret.known.iter().position(|known| known.word == word);
        if let Some(at) = place {
            let key = &secret.known[at].key;
            let opened = key.open_in_place(nonce(counter), Aad::from(head), sealed);
            return opened.ok().map(|payload| &*payload);
        }
        let key = derived(&secret.key, &word)?;
        let payload = key
            .open_in_place(nonce(counter), Aad::from(head), sealed)
            .ok()?;
        if secret.known.len() >= MOST_KEYS {
            secret.known.remove(0);
        }
        secret.known.push(Known { word, key });
        Some(payload)
    }
}

#[cfg(test)]
mod tests {
    use super::*;

    fn sealed(by: &mut Seal, payload: &[u8]) -> Vec<u8> {
        let mut out = Vec::new();
        assert!(by.seal(payload, &mut out));
        out
    }

    proptest::proptest! {
        #[test]
        fn any_bytes_are_opened_or_dropped(
            mut bytes in proptest::collection::vec(proptest::prelude::any::<u8>(), 0..200),
            first in proptest::prelude::prop_oneof![
                proptest::prelude::Just(SEALED),
                proptest::prelude::Just(OPEN),
                proptest::prelude::any::<u8>(),
            ],
        ) {
            if let Some(byte) = bytes.first_mut() {
                *byte = first;
            }
            assert_eq!(Seal::by(&Key::of([7; KEY])).unwrap().open(&mut bytes.clone()), None);
            let opened = Seal::none().open(&mut bytes.clone()).map(<[u8]>::to_vec);
            assert_eq!(opened.is_some(), bytes.first() == Some(&OPEN));
        }
    }

    #[test]
    fn what_is_sealed_is_opened_by_the_key_alone() {
        let key = Key::of([7; KEY]);
        let (mut one, mut two) = (Seal::by(&key).unwrap(), Seal::by(&key).unwrap());
        for payload in [&b""[..], b"x", &[9; 1400]] {
            let datagram = sealed(&mut one, payload);
            assert_eq!(datagram.len(), payload.len() + OVERHEAD);
            assert_eq!(two.open(&mut datagram.clone()), Some(payload));
            assert_eq!(two.open(&mut datagram.clone()), Some(payload));
            let mut other = Seal::by(&Key::of([8; KEY])).unwrap();
            assert_eq!(other.open(&mut datagram.clone()), None);
            assert_eq!(Seal::none().open(&mut datagram.clone()), None);
        }
    }

    #[test]
    fn each_changed_byte_is_refused() {
        let key = Key::of([7; KEY]);
        let (mut one, mut two) = (Seal::by(&key).unwrap(), Seal::by(&key).unwrap());
        let datagram = sealed(&mut one, b"a letter");
        for at in 0..datagram.len() {
            let mut changed = datagram.clone();
            changed[at] ^= 1;
            assert_eq!(two.open(&mut changed), None, "byte {at}");
            assert_eq!(two.open(&mut datagram[..at].to_vec()), None);
        }
    }

    #[test]
    fn no_nonce_comes_twice() {
        let mut one = Seal::by(&Key::of([7; KEY])).unwrap();
        let (first, second) = (sealed(&mut one, b"x"), sealed(&mut one, b"x"));
        assert_ne!(first[..HEAD], second[..HEAD]);
        assert_ne!(first[HEAD..], second[HEAD..]);
    }

    #[test]
    fn strangers_take_no_room() {
        let mut one = Seal::by(&Key::of([7; KEY])).unwrap();
        for n in 0..1000u32 {
            let mut datagram = vec![SEALED; 100];
            datagram[1..5].copy_from_slice(&n.to_be_bytes());
            assert_eq!(one.open(&mut datagram), None);
        }
        assert!(one.secret.unwrap().known.is_empty());
    }

    #[test]
    fn unsealed_ones_have_a_byte_more() {
        let mut none = Seal::none();
        let datagram = sealed(&mut none, b"x");
        assert_eq!(none.open(&mut datagram.clone()), Some(&b"x"[..]));
        assert_eq!(none.open(&mut []), None);
    }
}
