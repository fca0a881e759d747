//! Digests of states: against accidents and mistakes, not against forgers.

/// The 64-bit FNV-1a of what it was given, with each byte string's length before it, and its bits mixed at the end.
#[derive(Clone, Copy, Debug, PartialEq, Eq)]
pub struct Digest(u64);

impl Default for Digest {
    fn default() -> Digest {
        Digest(0xcbf2_9ce4_8422_2325)
    }
}

impl Digest {
    /// The digest of nothing.
    pub fn new() -> Digest {
        Digest::default()
    }

    /// With a number.
    pub fn number(mut self, number: u64) -> Digest {
        self.add(&number.to_be_bytes());
        self
    }

    /// With a string of bytes.
    pub fn bytes(self, bytes: &[u8]) -> Digest {
        let mut with = self.number(bytes.len() as u64);
        with.add(bytes);
        with
    }

    fn add(&mut self, bytes: &[u8]) {
        for byte in bytes {
            self.0 = (self.0 ^ u64::from(*byte)).wrapping_mul(0x0100_0000_01b3);
        }
    }

    /// The number.
    pub fn end(self) -> u64 {
        let mut word = self.0;
        word = (word ^ (word >> 30)).wrapping_mul(0xbf58_476d_1ce4_e5b9);
        word = (word ^ (word >> 27)).wrapping_mul(0x94d0_49bb_1331_11eb);
        word ^ (word >> 31)
    }
}

#[cfg(test)]
mod tests {
    use super::*;

    #[test]
    fn lengths_count() {
        let of = |parts: &[&[u8]]| {
            let all = parts
                .iter()
                .fold(Digest::new(), |sum, part| sum.bytes(part));
            all.end()
        };
        assert_eq!(of(&[b"ab", b"c"]), of(&[b"ab", b"c"]));
        assert_ne!(of(&[b"ab", b"c"]), of(&[b"a", b"bc"]));
        assert_ne!(of(&[b""]), of(&[]));
    }
}
