//! Times of one process's clock.

/// A time on the caller's own clock, in microseconds. It never goes back. It means nothing to another process, nor to the next one of
/// the same place: so no such time leaves a process, in a message or on a disk.
#[derive(Clone, Copy, Debug, PartialEq, Eq, PartialOrd, Ord, Hash, Default)]
pub struct Time(pub u64);

impl Time {
    /// The time that never comes.
    pub const NEVER: Time = Time(u64::MAX);

    /// This time and so many microseconds.
    pub const fn after(self, micros: u64) -> Time {
        Time(self.0.saturating_add(micros))
    }

    /// The microseconds from an earlier time to this one; 0 if it isn't earlier.
    pub const fn since(self, earlier: Time) -> u64 {
        self.0.saturating_sub(earlier.0)
    }
}
