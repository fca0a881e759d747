//! What is told at the start.

use crate::names::{Name, NameSet, Places};
use std::fmt;

/// What a lease rests on: clocks that run at about the rate of real time.
#[derive(Clone, Copy, Debug, PartialEq, Eq)]
pub struct Lease {
    /// How long a member may act after the sending of a heartbeat that was echoed, in microseconds.
    pub length: u64,
    /// By how many thousandths the rate of a running machine's clock may differ from real time. 100 is the usual one: a clock that a
    /// time server's client slews may differ by 83.
    pub drift: u64,
    /// The finest step of a clock, in microseconds.
    pub granule: u64,
}

impl Lease {
    /// How long a voter waits after its last echo of a name before its refusal is ripe: length (1 + drift) / (1 - drift), rounded up,
    /// and a granule for each of the two clocks. The member's clock may be slow all the time, and the voter's fast.
    pub fn wait(&self) -> u64 {
        self.scaled(1000 + self.drift, 1000u64.saturating_sub(self.drift))
            .saturating_add(2 * self.granule)
    }

    /// Its length times a fraction, rounded up.
    pub(crate) fn scaled(&self, over: u64, under: u64) -> u64 {
        let product = u128::from(self.length) * u128::from(over);
        let wait = product.div_ceil(u128::from(under.max(1)));
        u64::try_from(wait).unwrap_or(u64::MAX)
    }
}

/// What makes it certain that a name has stopped.
#[derive(Clone, Copy, Debug, PartialEq, Eq)]
pub enum Policy {
    /// Somebody outside says so.
    Told,
    /// A program outside that ends a process or a machine says that it did.
    Command,
    /// It can't let anything out, since a majority of the voters doesn't echo it any more. No clocks are trusted.
    Echo,
    /// Its lease has run out.
    Lease(Lease),
}

/// A defect that a test plants, to see that it is found. A value without one is the only one to use.
#[doc(hidden)]
#[derive(Clone, Copy, Debug, PartialEq, Eq)]
#[allow(missing_docs)]
pub enum Plant {
    LooksBefore,
    OpensBatch,
    LeaseFromReceipt,
    LeaseFromLatest,
    OutAtFirstEcho,
    ForgetsRefusals,
    TellsBeforeSync,
    EchoesAgain,
    WaitsFromDecision,
    KeepsTimes,
    GoesOnWithoutFile,
    GoesOnWithOlder,
    EchoByPlace,
    OneLess,
    HalfIsEnough,
    MajorityOfView,
    CountsLives,
    WaitsSinceFirst,
    WaitsLength,
    WaitsLengthAndDrift,
    WaitsBetween,
    AskerIsFree,
    ConfirmsBefore,
    EndsWhenRefused,
    SuspectsAfterPause,
    FrozenByItsWord,
    LimitCountsAll,
    NoLimit,
    EchoOfAnyList,
}

/// What is told at the start.
#[derive(Clone, Debug)]
pub struct Settings {
    /// The id of the group's founding. What has another id is dropped.
    pub id: [u8; 16],
    /// Its name. A life of a place is never begun twice.
    pub name: Name,
    /// A random word of this process.
    pub process: u64,
    /// The members that it begins with, and how many of them a reset goes on with at least.
    pub members: NameSet,
    /// The fewest members that a reset goes on with.
    pub least: u8,
    /// The places that vote: named in the founding, odd in number, for ever the same.
    pub voters: Places,
    /// What makes it certain that a name has stopped.
    pub policy: Policy,
    /// Microseconds between two heartbeats.
    pub period: u64,
    /// How much the time differs that datagrams take, usually.
    pub delay: u64,
    /// After how many microseconds of silence a name is suspected.
    pub silence: u64,
    /// How many microseconds a fence may take; None: twenty silences.
    pub fence_within: Option<u64>,
    /// Whether a founder that never ran is waited for, as at a group's founding. In a list that follows another one it isn't.
    pub awaits_founders: bool,
    #[doc(hidden)]
    pub plant: Option<Plant>,
    /// As a test wants it: times and voters of any kind. What is let out is right whatever the times are.
    #[doc(hidden)]
    pub unchecked: bool,
}

impl Settings {
    /// The settings of a name among founders that all vote, with usual times: heartbeats each 100 milliseconds, and suspicion as soon
    /// as it may be.
    pub fn new(
        id: [u8; 16],
        name: Name,
        process: u64,
        founders: Places,
        policy: Policy,
    ) -> Settings {
        let members: NameSet = (0..16)
            .filter(|place| founders >> place & 1 == 1)
            .map(Name::first)
            .collect();
        let mut settings = Settings {
            id,
            name,
            process,
            members,
            least: members.len() as u8 / 2 + 1,
            voters: founders,
            policy,
            period: 100_000,
            delay: 50_000,
            silence: 0,
            fence_within: None,
            awaits_founders: true,
            plant: None,
            unchecked: false,
        };
        settings.silence = settings.least_silence();
        settings
    }

    /// How long a voter waits after its last echo of a name: nothing where no clock is trusted.
    pub(crate) fn wait(&self) -> u64 {
        let Policy::Lease(lease) = self.policy else {
            return 0;
        };
        let near = lease.scaled(1000 + lease.drift, 1000);
        match self.plant {
            Some(Plant::WaitsLength) => lease.length,
            Some(Plant::WaitsLengthAndDrift) => near,
            Some(Plant::WaitsBetween) => near + (lease.wait().saturating_sub(near)) / 2,
            _ => lease.wait(),
        }
    }

    /// For how long a member counts as one that may act: its lease; without clocks half of the silence, which is for liveness alone.
    pub(crate) fn length(&self) -> u64 {
        match self.policy {
            Policy::Lease(lease) => lease.length,
            _ => self.silence / 2,
        }
    }

    /// The shortest silence to suspect a name after. It is longer than a lease, two heartbeats and the spread of delays: so if the
    /// whole network fails, everybody's lease ends before anybody suspects anybody. It is longer than a refusal takes to get ripe and
    /// one heartbeat: so a refusal is ripe when it is made, and nothing is gained by less.
    pub fn least_silence(&self) -> u64 {
        let margin = 2 * self.period + self.delay;
        match self.policy {
            Policy::Lease(lease) => (lease.length + margin).max(lease.wait() + self.period),
            _ => 4 * margin,
        }
    }

    /// How many of the voters are a majority.
    pub fn majority(&self) -> usize {
        let count = self.voters.count_ones() as usize;
        match self.plant {
            Some(Plant::HalfIsEnough) if count.is_multiple_of(2) => count / 2,
            _ => count / 2 + 1,
        }
    }

    pub(crate) fn check(&self) -> Result<(), StartError> {
        let count = self.voters.count_ones();
        let votes = matches!(self.policy, Policy::Echo | Policy::Lease(_));
        let drift = match self.policy {
            Policy::Lease(lease) => lease.drift,
            _ => 0,
        };
        match () {
            _ if self.period == 0 => Err(StartError::Period),
            _ if drift >= 1000 => Err(StartError::Drift),
            _ if self.unchecked => Ok(()),
            _ if votes && count.is_multiple_of(2) => Err(StartError::EvenVoters(count)),
            _ if self.policy == Policy::Told => Ok(()),
            _ if self.silence < self.least_silence() => Err(StartError::Silence {
                least: self.least_silence(),
            }),
            _ if self.length() <= 2 * self.period + self.delay => Err(StartError::Length {
                above: 2 * self.period + self.delay,
            }),
            _ => Ok(()),
        }
    }
}

/// Why settings are refused.
#[derive(Clone, Copy, Debug, PartialEq, Eq)]
pub enum StartError {
    /// Heartbeats have no period.
    Period,
    /// A clock may stand still or go back.
    Drift,
    /// The number of voters is even: half of them could refuse the other half.
    EvenVoters(u32),
    /// The silence is shorter than it may be.
    Silence {
        /// The shortest one, in microseconds.
        least: u64,
    },
    /// The lease ends before it can be renewed.
    Length {
        /// It must be longer than this, in microseconds.
        above: u64,
    },
}

impl fmt::Display for StartError {
    fn fmt(&self, f: &mut fmt::Formatter<'_>) -> fmt::Result {
        match self {
            StartError::Period => f.write_str("a heartbeat comes after a microsecond at least"),
            StartError::Drift => f.write_str("a clock drifts by less than a thousand thousandths"),
            StartError::EvenVoters(count) => write!(
                f,
                "the number of voters is odd, and {count} isn't: name one place more or less"
            ),
            StartError::Silence { least } => {
                write!(f, "a name is suspected after {least} microseconds at least")
            }
            StartError::Length { above } => {
                write!(f, "a lease is longer than {above} microseconds")
            }
        }
    }
}

impl std::error::Error for StartError {}

#[cfg(test)]
mod tests {
    use super::*;

    const LEASE: Lease = Lease {
        length: 1_000_000,
        drift: 100,
        granule: 1,
    };

    #[test]
    fn a_refusal_waits_for_the_slowest_and_the_fastest_clock() {
        // 1,000,000 * 1.1 / 0.9 = 1,222,222.2, rounded up, and two granules
        assert_eq!(LEASE.wait(), 1_222_225);
        let exact = Lease { drift: 0, ..LEASE };
        assert_eq!(exact.wait(), 1_000_002);
    }

    #[test]
    fn settings_that_can_not_work_are_refused() {
        let usual = || Settings::new([7; 16], Name::first(0), 1, 0b111, Policy::Lease(LEASE));
        assert_eq!(usual().check(), Ok(()));
        // the longer one of 1,000,000 + 2 * 100,000 + 50,000 and 1,222,225 + 100,000
        assert_eq!(usual().silence, 1_322_225);
        let mut even = usual();
        even.voters = 0b1111;
        assert_eq!(even.check(), Err(StartError::EvenVoters(4)));
        let mut short = usual();
        short.silence -= 1;
        assert_eq!(short.check(), Err(StartError::Silence { least: 1_322_225 }));
        let mut slow = usual();
        slow.period = 500_000;
        slow.silence = 10_000_000;
        assert_eq!(slow.check(), Err(StartError::Length { above: 1_050_000 }));
    }
}
