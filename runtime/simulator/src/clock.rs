//! A machine's clock.

use muoswyld_member::Time;

/// What a clock showed when its process began, and how many thousandths of real time it runs.
#[derive(Clone, Copy, Debug)]
pub(crate) struct Clock {
    pub(crate) base: u64,
    pub(crate) began: u64,
    pub(crate) rate: u64,
}

impl Clock {
    /// The clock that shows real time.
    pub(crate) const REAL: Clock = Clock {
        base: 0,
        began: 0,
        rate: 1000,
    };

    /// What it shows at a real time.
    pub(crate) fn time(&self, now: u64) -> Time {
        let passed = now.saturating_sub(self.began);
        Time(self.base + passed * self.rate / 1000)
    }

    /// The first real time at which it shows a time.
    pub(crate) fn when(&self, time: Time) -> u64 {
        let passed = u128::from(time.0.saturating_sub(self.base)) * 1000;
        let passed = passed.div_ceil(u128::from(self.rate.max(1)));
        let when = u128::from(self.began) + passed;
        u64::try_from(when).unwrap_or(u64::MAX)
    }
}

#[cfg(test)]
mod tests {
    use super::*;

    #[test]
    fn a_fast_clock_shows_a_time_early() {
        let clock = Clock {
            base: 5_000,
            began: 100,
            rate: 1100,
        };
        assert_eq!(clock.time(100), Time(5_000));
        assert_eq!(clock.time(1_100), Time(6_100));
        assert_eq!(clock.when(Time(6_100)), 1_100);
        assert_eq!(clock.when(Time(6_101)), 1_101);
        assert_eq!(clock.when(Time(1)), 100);
        assert_eq!(Clock::REAL.when(Time(77)), 77);
    }
}
