//! How fast commands were answered.

use std::fmt::{self, Display, Formatter};
use std::time::Duration;

pub struct Summary {
    /// The commands a second.
    rate: u128,
    /// What half of the commands took at most.
    median: Nanoseconds,
    /// What all but one of a hundred took at most.
    late: Nanoseconds,
}

impl Summary {
    /// Of the time that each command took, in nanoseconds, and the time from the first to the last. All is 0 where
    /// there are none.
    pub fn new(mut times: Vec<u64>, wall: Duration) -> Summary {
        times.sort_unstable();
        let at = |place: usize| Nanoseconds(times.get(place).copied().unwrap_or(0));
        let rest = times.len() - times.len() / 100;
        Summary {
            rate: times.len() as u128 * 1_000_000_000 / wall.as_nanos().max(1),
            median: at(times.len() / 2),
            late: at(rest.saturating_sub(1)),
        }
    }
}

impl Display for Summary {
    fn fmt(&self, f: &mut Formatter<'_>) -> fmt::Result {
        let Summary { rate, median, late } = self;
        write!(
            f,
            "{rate} commands a second, median {median} us, 99th percentile {late} us"
        )
    }
}

/// A time that is written in microseconds, with one place.
struct Nanoseconds(u64);

impl Display for Nanoseconds {
    fn fmt(&self, f: &mut Formatter<'_>) -> fmt::Result {
        write!(f, "{}.{}", self.0 / 1_000, self.0 / 100 % 10)
    }
}
