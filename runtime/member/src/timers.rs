//! Ticks by need: a tick is what sends again. They are many while something isn't answered, and few else.

use crate::config::Time;
use crate::member::Member;
use crate::packet::{front_of, kind_of, taken_of, Front, Kind};
use muoswyld::answer::{Outcome, Role};
use muoswyld::event::Event;
use muoswyld::names::{Name, Stamp};

/// The least time after which something is sent again, however short the round trip is.
const LEAST_RESEND: u64 = 1_000;

/// The measured round trip: its smoothed value and its variation, as TCP has them.
#[derive(Clone, Copy, Debug, Default)]
pub(crate) struct RoundTrip {
    measured: Option<(u64, u64)>,
    /// Whether a sample was sure. Before the first one the others may not run yet, and what waits for them is no round trip.
    is_sure: bool,
}

impl RoundTrip {
    /// Adds a sample. One that may be of a later sending counts as four round trips at most. The first one that is sure takes the place of all
    /// before it.
    pub(crate) fn measure(&mut self, sample: u64, is_doubtful: bool) {
        let is_first = !is_doubtful && !self.is_sure;
        self.is_sure |= !is_doubtful;
        self.measured = Some(match self.measured.filter(|_| !is_first) {
            None => (sample, sample / 2),
            Some((smooth, vary)) => {
                let sample = if is_doubtful {
                    sample.min(smooth.saturating_mul(4))
                } else {
                    sample
                };
                let vary = vary - vary / 4 + smooth.abs_diff(sample) / 4;
                (smooth - smooth / 8 + sample / 8, vary)
            }
        });
    }

    /// The smoothed value.
    pub(crate) fn smooth(&self) -> Option<u64> {
        self.measured.map(|(smooth, _)| smooth)
    }

    /// After which time something is sent again.
    pub(crate) fn resend(&self, first: u64, most: u64) -> u64 {
        let (smooth, vary) = self.measured.unwrap_or((first, 0));
        smooth
            .saturating_add(vary.saturating_mul(4))
            .max(LEAST_RESEND)
            .min(most)
    }
}

/// What moves where the group goes on.
#[derive(Clone, Copy, Debug, PartialEq, Eq)]
struct Marks {
    role: Role,
    view: Stamp,
    base: u32,
    accepted: u32,
    top: u32,
}

/// When a member ticks.
#[derive(Debug)]
pub(crate) struct Timers {
    pub(crate) round_trip: RoundTrip,
    marks: Option<Marks>,
    /// When the marks last moved, or a tick tried to move them.
    moved_at: Time,
    /// Since when they stand.
    pub(crate) stands_since: Time,
    tries: u32,
    last_tick: Time,
    /// When the sequencer first asked for reports that it didn't get yet, and whether it asked again.
    polled: Option<(Time, bool)>,
    /// Whether something that is wanted was missing when it was last heard of.
    is_behind: bool,
    is_wanted: bool,
    /// Up to where the sequencer was told that this member took the list.
    reported: u32,
    /// Up to where each place said that it took the list.
    pub(crate) taken: [u32; 16],
    /// Which places were told as slow.
    pub(crate) slow: [bool; 16],
    /// Whether it was told that the sequencer has no room.
    pub(crate) full: bool,
}

impl Timers {
    pub(crate) fn new(now: Time) -> Timers {
        Timers {
            round_trip: RoundTrip::default(),
            marks: None,
            moved_at: now,
            stands_since: now,
            tries: 0,
            last_tick: now,
            polled: None,
            is_behind: false,
            is_wanted: false,
            reported: 0,
            taken: [0; 16],
            slow: [false; 16],
            full: false,
        }
    }

    /// The node begins to speak.
    pub(crate) fn begin(&mut self, now: Time) {
        self.moved_at = now;
        self.stands_since = now;
        self.last_tick = now;
    }

    /// A tick is to come at once.
    pub(crate) fn want_tick(&mut self) {
        self.is_wanted = true;
    }

    /// Looks at the answer to a letter.
    pub(crate) fn heard(&mut self, now: Time, outcome: &Outcome) {
        match outcome {
            Outcome::Voted
            | Outcome::Catching { .. }
            | Outcome::Gap { .. }
            | Outcome::NoBody { .. }
            | Outcome::Fetching { .. } => self.is_behind = true,
            Outcome::Stored { .. }
            | Outcome::Advanced { .. }
            | Outcome::Welcomed { .. }
            | Outcome::Decided { .. } => self.is_behind = false,
            Outcome::Noted | Outcome::Accepted { .. } => {
                if let Some((polled, again)) = self.polled.take() {
                    self.round_trip.measure(now.since(polled), again);
                }
            }
            _ => {}
        }
    }
}

impl Member {
    /// Looks at a packet that goes out: whether it reports how far this member took the list, or begins a ballot.
    pub(crate) fn note_sent(&mut self, packet: &[u8]) {
        if let Some((Front::Accepted, _)) = front_of(packet) {
            self.contents.told();
        }
        match kind_of(packet) {
            Some(Kind::Report) => {
                self.timers.reported = taken_of(packet).unwrap_or(self.timers.reported);
                self.contents.reported();
            }
            Some(Kind::Invite) => self.invited(packet),
            _ => {}
        }
    }

    /// Looks at a report that came.
    pub(crate) fn note_report(&mut self, from: Name, packet: &[u8]) {
        if let (Some(Kind::Report), Some(taken)) = (kind_of(packet), taken_of(packet)) {
            self.timers.taken[usize::from(from.place())] = taken;
        }
    }

    /// Looks whether the group went on.
    pub(crate) fn note_progress(&mut self) {
        let standing = &self.standing;
        let marks = Marks {
            role: standing.role,
            view: standing.view,
            base: standing.base,
            accepted: standing.accepted,
            top: standing.top,
        };
        let Some(before) = self.timers.marks.replace(marks) else {
            return;
        };
        if before == marks {
            return;
        }
        if marks.view != before.view {
            self.new_view();
        }
        if marks.base > before.base && self.sending.put_off {
            self.timers.want_tick();
        }
        self.timers.tries = 0;
        self.timers.moved_at = self.now;
        self.timers.stands_since = self.now;
    }

    /// Whether the group is to go on, by what this member knows.
    fn expects(&self) -> bool {
        let standing = &self.standing;
        match standing.role {
            Role::Asking | Role::Coordinator => true,
            Role::Sequencer => standing.base < standing.top,
            Role::Member => self.timers.is_behind || self.leaving.is_asked(),
            Role::Stranger | Role::Departed => false,
        }
    }

    /// Whether so much was taken without a report that one is due.
    fn is_report_due(&self) -> bool {
        let quarter = u32::from(self.settings.founding.window / 4).max(1);
        let taken = self.standing.taken.saturating_sub(self.timers.reported);
        self.standing.role == Role::Member && taken >= quarter
    }

    /// After which time something is asked again that was asked so often.
    pub(crate) fn period(&self, tries: u32) -> u64 {
        let most = self.settings.most_resend;
        let first = self.settings.first_resend;
        let resend = self.timers.round_trip.resend(first, most);
        Time::doubled(resend, tries).min(most)
    }

    /// When the next tick comes.
    pub(crate) fn tick_at(&self) -> Time {
        let timers = &self.timers;
        if timers.is_wanted {
            return self.now;
        }
        let mut at = timers.last_tick.after(self.settings.slow_tick);
        if self.expects() {
            at = at.min(timers.moved_at.after(self.period(timers.tries)));
        }
        if let Some(own) = &self.sending.under_way {
            at = at.min(own.sent_at.after(self.period(own.tries)));
        }
        at
    }

    /// Whether a tick is due.
    pub(crate) fn wants_tick(&self) -> bool {
        let is_due = self.is_report_due() || self.is_report_of_bytes_due();
        self.hearing.group.is_some() && (self.now >= self.tick_at() || is_due)
    }

    /// Ticks.
    pub(crate) fn tick(&mut self) -> Option<()> {
        let timers = &mut self.timers;
        timers.is_wanted = false;
        timers.last_tick = self.now;
        timers.moved_at = self.now;
        timers.tries = timers.tries.saturating_add(1);
        if self.standing.role == Role::Sequencer {
            let first = timers.polled.map(|(first, _)| (first, true));
            timers.polled = first.or(Some((self.now, false)));
        }
        if let Some(own) = &mut self.sending.under_way {
            own.sent_at = self.now;
            own.tries = own.tries.saturating_add(1);
        }
        self.counts.ticks += 1;
        let outcome = self.step(&Event::Tick, None)?;
        self.timers.reported = self.timers.reported.max(self.standing.taken);
        self.contents.reported();
        self.contents.told();
        if self.standing.role != Role::Member {
            self.sending.put_off = matches!(outcome, Outcome::PutOff { .. });
        }
        self.look_for_silence();
        self.look_for_slow();
        self.left_by(&outcome)
    }
}

#[cfg(test)]
mod tests {
    use super::RoundTrip;

    #[test]
    fn a_resend_waits_for_the_round_trip_and_four_variations() {
        let mut trip = RoundTrip::default();
        assert_eq!(trip.resend(10_000, 200_000), 10_000);
        trip.measure(8_000, false);
        assert_eq!(trip.smooth(), Some(8_000));
        assert_eq!(trip.resend(10_000, 200_000), 24_000);
        assert_eq!(trip.resend(10_000, 20_000), 20_000);
        for _ in 0..100 {
            trip.measure(80, false);
        }
        assert_eq!(trip.resend(10_000, 200_000), 1_000);
    }

    #[test]
    fn a_doubtful_sample_counts_four_round_trips_at_most() {
        let mut trip = RoundTrip::default();
        trip.measure(800, false);
        trip.measure(1_000_000, true);
        assert_eq!(trip.smooth(), Some(700 + 400));
    }

    #[test]
    fn the_first_sure_sample_takes_the_place_of_doubtful_ones() {
        let mut trip = RoundTrip::default();
        trip.measure(900_000, true);
        trip.measure(800_000, true);
        assert_eq!(trip.resend(10_000, 200_000), 200_000);
        trip.measure(400, false);
        // 400 and four times its half
        let resend = trip.resend(10_000, 200_000);
        assert_eq!((trip.smooth(), resend), (Some(400), 1_200));
        // 7/8 of 400, and an eighth of 2,400
        trip.measure(2_400, false);
        assert_eq!(trip.smooth(), Some(350 + 300));
    }

    #[test]
    fn no_later_sample_takes_the_place_of_others() {
        let mut trip = RoundTrip::default();
        trip.measure(800, false);
        trip.measure(1_000_000, true);
        assert_eq!(trip.smooth(), Some(700 + 400));
        // 1,100 less the whole part of its eighth, and an eighth of 800
        trip.measure(800, false);
        assert_eq!(trip.smooth(), Some(1_100 - 137 + 100));
    }
}
