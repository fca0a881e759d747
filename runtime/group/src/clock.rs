//! A member's clock.

use muoswyld_member::Time;
use std::time::{Duration, SystemTime};

/// The time since the machine began: a clock that runs while the machine sleeps, and that nobody sets.
fn boottime() -> Duration {
    let mut time = libc::timespec {
        tv_sec: 0,
        tv_nsec: 0,
    };
    // SAFETY: the call writes to `time` alone. It fails for no clock that the system has, and Linux has this one.
    unsafe { libc::clock_gettime(libc::CLOCK_BOOTTIME, &mut time) };
    let seconds = u64::try_from(time.tv_sec).unwrap_or(0);
    Duration::new(seconds, u32::try_from(time.tv_nsec).unwrap_or(0))
}

/// Microseconds since 1970 as the system has them at a member's start, and from then on a clock that never goes back, that nobody sets,
/// and that runs while the machine sleeps: the journals of members on one machine have one time, and a lease ends in time.
pub(crate) struct Clock {
    began: Duration,
    epoch: Duration,
}

impl Clock {
    /// A clock that begins now.
    pub(crate) fn new() -> Clock {
        let epoch = SystemTime::UNIX_EPOCH.elapsed();
        Clock {
            began: boottime(),
            // a system that is set to a time before 1970 counts from 0
            epoch: epoch.unwrap_or_default(),
        }
    }

    /// What it shows.
    pub(crate) fn now(&self) -> Time {
        let elapsed = boottime().saturating_sub(self.began);
        let now = self.epoch.saturating_add(elapsed);
        Time(u64::try_from(now.as_micros()).unwrap_or(u64::MAX))
    }
}
