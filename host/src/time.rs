//! Times of the radio's clock.
use core::fmt;
use core::time::Duration;

/// A time of the radio's own clock, in nanoseconds since that clock's zero. The service asks of no two which is earlier: it passes them
/// on, sees whether OutboundSeen has the start of the Tx that waits, and adds 10 microseconds to one, the entry into an ACK's wait.
///
/// ```
/// use widosha::LocalClockInstant;
///
/// let entry = LocalClockInstant::from_nanos(1_832_000);
/// assert_eq!((entry.as_nanos(), entry.to_string()), (1_832_000, "1832000 ns".into()));
/// assert!(LocalClockInstant::default() < entry);
/// ```
///
/// A port reckons with times by the methods that `std::time::Instant` has too; none of them panics:
///
/// ```
/// use core::time::Duration;
/// use widosha::LocalClockInstant;
///
/// const ACK_SPACING: Duration = Duration::from_micros(192);
/// const SENT: LocalClockInstant = LocalClockInstant::from_nanos(1_640_000);
/// const ENTRY: Option<LocalClockInstant> = SENT.checked_add(ACK_SPACING);
///
/// assert_eq!(ENTRY, Some(LocalClockInstant::from_nanos(1_832_000)));
/// assert_eq!(ENTRY.and_then(|entry| entry.checked_duration_since(SENT)), Some(ACK_SPACING));
/// ```
#[derive(Clone, Copy, Debug, Default, PartialEq, Eq, PartialOrd, Ord, Hash)]
pub struct LocalClockInstant(u64);

impl LocalClockInstant {
    /// The time so many nanoseconds after the clock's zero.
    pub const fn from_nanos(nanoseconds: u64) -> Self {
        Self(nanoseconds)
    }

    /// How many nanoseconds after the clock's zero it is.
    pub const fn as_nanos(self) -> u64 {
        self.0
    }

    /// The time so much later. None where that is more than 64 bits of nanoseconds after the clock's zero.
    pub const fn checked_add(self, duration: Duration) -> Option<Self> {
        let nanoseconds = duration.as_nanos();
        if nanoseconds > u64::MAX as u128 {
            return None;
        }
        match self.0.checked_add(nanoseconds as u64) {
            Some(sum) => Some(Self(sum)),
            None => None,
        }
    }

    /// How much later than another time it is. None where it is earlier.
    pub const fn checked_duration_since(self, earlier: Self) -> Option<Duration> {
        match self.0.checked_sub(earlier.0) {
            Some(nanoseconds) => Some(Duration::from_nanos(nanoseconds)),
            None => None,
        }
    }

    /// How much later than another time it is; nothing where it is earlier.
    pub const fn saturating_duration_since(self, earlier: Self) -> Duration {
        Duration::from_nanos(self.0.saturating_sub(earlier.0))
    }
}

impl fmt::Display for LocalClockInstant {
    fn fmt(&self, f: &mut fmt::Formatter<'_>) -> fmt::Result {
        write!(f, "{} ns", self.0)
    }
}

#[cfg(test)]
mod tests {
    use super::*;

    const fn at(nanoseconds: u64) -> LocalClockInstant {
        LocalClockInstant::from_nanos(nanoseconds)
    }

    // To the last nanosecond that 64 bits have, and not past it; the longest duration has more than 64 bits of them.
    #[test]
    fn sums_end_where_the_clock_does() {
        let last = u64::MAX;
        for (time, nanoseconds, sum) in [(5, 0, 5), (5, 7, 12), (last - 1, 1, last), (last, 0, last), (0, last, last)] {
            assert_eq!(at(time).checked_add(Duration::from_nanos(nanoseconds)), Some(at(sum)));
        }
        let beyond = Duration::from_nanos(last) + Duration::from_nanos(1);
        for (time, duration) in [
            (last, Duration::from_nanos(1)),
            (2, Duration::from_nanos(last - 1)),
            (0, beyond),
            (last, beyond),
            (0, Duration::MAX),
            (last, Duration::MAX),
        ] {
            assert_eq!(at(time).checked_add(duration), None, "{time} and {duration:?}");
        }
    }

    #[test]
    fn differences_are_those_of_the_later_time() {
        let last = u64::MAX;
        for (time, earlier) in [(12, 5), (5, 5), (last, 0), (last, last), (6_000_000_007, 7)] {
            let difference = Duration::from_nanos(time - earlier);
            assert_eq!(at(time).checked_duration_since(at(earlier)), Some(difference));
            assert_eq!(at(time).saturating_duration_since(at(earlier)), difference);
            assert_eq!(at(earlier).checked_add(difference), Some(at(time)));
        }
        for (time, later) in [(5, 6), (0, last), (last - 1, last)] {
            assert_eq!(at(time).checked_duration_since(at(later)), None);
            assert_eq!(at(time).saturating_duration_since(at(later)), Duration::ZERO);
        }
    }
}
