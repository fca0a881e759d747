//! The bytes of one life's stream that a member keeps: chunks, by their offsets.

use std::collections::BTreeMap;
use std::ops::Range;

/// The most bytes of a stream that a member keeps. A sender has at most half of it out that isn't passed by all, so what a node was given
/// always has room.
pub(crate) const MOST_KEPT: usize = 8 << 20;

/// What a member keeps of a stream.
#[derive(Debug, Default)]
pub(crate) struct Stream {
    /// No two of them have a byte in common, and none is empty.
    chunks: BTreeMap<u64, Vec<u8>>,
    /// How many bytes they have.
    kept: usize,
    /// What is below isn't needed any more.
    floor: u64,
    /// Up to where bytes are named by what the node was given. These are never given up.
    named: u64,
}

impl Stream {
    /// Below which offset nothing is needed any more.
    pub(crate) fn floor(&self) -> u64 {
        self.floor
    }

    /// How many bytes are kept.
    #[cfg(test)]
    pub(crate) fn kept(&self) -> usize {
        self.kept
    }

    /// Whether it has all bytes of a range.
    pub(crate) fn has(&self, range: &Range<u64>) -> bool {
        self.slices(range.clone()).is_some()
    }

    /// The node was given something that names these bytes.
    pub(crate) fn name(&mut self, end: u64) {
        self.named = self.named.max(end);
    }

    /// The chunk that has an offset or is the last one before it, with its start.
    fn at_or_before(&self, offset: u64) -> Option<(u64, &Vec<u8>)> {
        let last = self.chunks.range(..=offset).next_back();
        last.map(|(start, bytes)| (*start, bytes))
    }

    /// The bytes of a range, as they are kept; None if some are missing.
    pub(crate) fn slices(&self, range: Range<u64>) -> Option<Vec<&[u8]>> {
        let mut found = Vec::new();
        let mut at = range.start;
        let first = self.at_or_before(at).map_or(at, |(start, _)| start);
        for (start, bytes) in self.chunks.range(first..range.end.max(first)) {
            let end = start + bytes.len() as u64;
            if end <= at {
                continue;
            }
            if *start > at {
                break;
            }
            let to = end.min(range.end);
            found.push(&bytes[(at - start) as usize..(to - start) as usize]);
            at = to;
        }
        (at >= range.end).then_some(found)
    }

    /// Which of the bytes of a range are missing: the first ones of these gaps.
    pub(crate) fn gaps(&self, range: Range<u64>, most: usize) -> Vec<Range<u64>> {
        let mut gaps = Vec::new();
        let mut at = range.start.max(self.floor);
        let first = self.at_or_before(at).map_or(at, |(start, _)| start);
        for (start, bytes) in self.chunks.range(first..range.end.max(first)) {
            if *start > at {
                gaps.push(at..*start);
            }
            at = at.max(start + bytes.len() as u64);
        }
        if at < range.end {
            gaps.push(at..range.end);
        }
        gaps.truncate(most);
        gaps
    }

    /// The bytes of a range that are kept, with their offsets.
    pub(crate) fn there(&self, range: Range<u64>) -> Vec<(u64, &[u8])> {
        let first = self.at_or_before(range.start);
        let first = first.map_or(range.start, |(start, _)| start);
        let chunks = self.chunks.range(first..range.end.max(first));
        let parts = chunks.map(|(start, bytes)| {
            let from = range.start.max(*start);
            let to = range.end.min(start + bytes.len() as u64);
            let slice = bytes.get((from - start) as usize..to.saturating_sub(*start) as usize);
            (from, slice.unwrap_or_default())
        });
        parts.filter(|(_, slice)| !slice.is_empty()).collect()
    }

    /// Takes bytes from an offset on, as far as they are new, needed and bounded; how many of them it keeps.
    pub(crate) fn add(&mut self, start: u64, bytes: &[u8]) -> usize {
        let Some(end) = start.checked_add(bytes.len() as u64) else {
            return 0;
        };
        let mut added = 0;
        for gap in self.gaps(start..end, usize::MAX) {
            let new = &bytes[(gap.start - start) as usize..(gap.end - start) as usize];
            if self.make_room(gap.start, new.len()) {
                self.kept += new.len();
                added += new.len();
                self.chunks.insert(gap.start, new.to_vec());
            }
        }
        added
    }

    /// Makes room for bytes at an offset: what stands highest goes, as it is needed last, but nothing that is named or stands lower.
    fn make_room(&mut self, offset: u64, length: usize) -> bool {
        while self.kept + length > MOST_KEPT {
            match self.chunks.last_key_value() {
                Some((last, _)) if *last > offset && *last >= self.named => {
                    let gone = self.chunks.pop_last().map_or(0, |(_, bytes)| bytes.len());
                    self.kept -= gone;
                }
                _ => return false,
            }
        }
        true
    }

    /// Gives up what stands below an offset: nobody needs it any more.
    pub(crate) fn pass(&mut self, floor: u64) {
        self.floor = self.floor.max(floor);
        while let Some(first) = self.chunks.first_entry() {
            if first.key() + first.get().len() as u64 > self.floor {
                break;
            }
            self.kept -= first.remove().len();
        }
    }

    /// With a planted defect: where bytes are missing from some offset on, for which any others are taken.
    pub(crate) fn first_gap(&self, length: usize) -> Option<u64> {
        let (start, bytes) = self.at_or_before(self.named.max(self.floor))?;
        let at = start + bytes.len() as u64;
        let gap = self.gaps(at..at + length as u64, 1);
        gap.first().map(|gap| gap.start)
    }
}

#[cfg(test)]
mod tests {
    use super::*;
    use proptest::prelude::*;

    fn joined(stream: &Stream, range: Range<u64>) -> Option<Vec<u8>> {
        stream.slices(range).map(|slices| slices.concat())
    }

    #[test]
    fn chunks_in_any_order_become_one() {
        let mut stream = Stream::default();
        assert_eq!(stream.add(4, b"efgh"), 4);
        assert_eq!(stream.gaps(0..10, 9), [0..4, 8..10]);
        assert_eq!(stream.gaps(0..10, 1).first(), Some(&(0..4)));
        assert!(!stream.has(&(0..8)) && stream.has(&(5..7)));
        assert_eq!(stream.add(0, b"abcdefghij"), 6);
        assert_eq!(joined(&stream, 0..10).as_deref(), Some(&b"abcdefghij"[..]));
        assert_eq!(joined(&stream, 3..9).as_deref(), Some(&b"defghi"[..]));
        assert_eq!(joined(&stream, 3..11), None);
        assert_eq!(stream.add(0, b"abcdefghij"), 0);
        assert_eq!(stream.kept(), 10);
        stream.add(20, b"uvw");
        assert_eq!(stream.there(9..22), [(9, &b"j"[..]), (20, b"uv")]);
        assert_eq!(stream.there(5..7), [(5, &b"fg"[..])]);
        assert_eq!(stream.there(12..20), []);
    }

    #[test]
    fn what_is_passed_goes_and_is_not_taken_again() {
        let mut stream = Stream::default();
        stream.add(0, b"abcd");
        stream.add(4, b"efgh");
        stream.pass(6);
        assert_eq!((stream.kept(), stream.floor()), (4, 6));
        assert_eq!(stream.add(0, b"abcdef"), 0);
        assert_eq!(joined(&stream, 6..8).as_deref(), Some(&b"gh"[..]));
        stream.pass(3);
        assert_eq!(stream.floor(), 6);
    }

    #[test]
    fn what_stands_highest_goes_first_and_nothing_that_is_named() {
        let mut stream = Stream::default();
        let half = vec![1; MOST_KEPT / 2];
        let far = 1 << 40;
        assert_eq!(stream.add(far, &half), half.len());
        assert_eq!(stream.add(1000, &half), half.len());
        // there is no room for what stands higher still
        assert_eq!(stream.add(far + half.len() as u64, b"x"), 0);
        assert_eq!(stream.add(0, b"x"), 1);
        assert_eq!(stream.kept(), half.len() + 1);
        stream.name(far + 1);
        assert_eq!(stream.add(far, &half[1..]), half.len() - 1);
        assert_eq!(stream.add(1, b"yy"), 0);
        assert!(stream.has(&(far..far + 1)));
    }

    proptest! {
        #[test]
        fn bytes_come_back_whatever_comes(
            adds in prop::collection::vec((0_u64..200, 1_usize..40), 0..40),
            passes in prop::collection::vec(0_u64..200, 0..4),
        ) {
            let whole: Vec<u8> = (0..240).map(|k| k as u8).collect();
            let mut stream = Stream::default();
            let mut had = vec![false; 240];
            let mut floor = 0;
            for (k, (start, length)) in adds.iter().enumerate() {
                let range = *start as usize..*start as usize + length;
                let new = range.clone().filter(|at| *at as u64 >= floor && !had[*at]).count();
                prop_assert_eq!(stream.add(*start, &whole[range.clone()]), new);
                had[range].fill(true);
                if let Some(to) = passes.get(k) {
                    floor = floor.max(*to);
                    stream.pass(*to);
                }
            }
            for start in floor..240 {
                for end in start..240 {
                    let all = had[start as usize..end as usize].iter().all(|it| *it);
                    let wanted = all.then(|| whole[start as usize..end as usize].to_vec());
                    prop_assert_eq!(joined(&stream, start..end), wanted);
                }
            }
        }
    }
}
