//! Times and durations as whole milliseconds, with the operations of std::time that the source uses.
use std::ops::{Add, Mul};

#[derive(Clone, Copy, PartialEq, Eq, PartialOrd, Ord)]
pub struct Instant(pub u64);

#[derive(Clone, Copy)]
pub struct Duration(u64);

impl Duration {
    pub const fn from_millis(ms: u64) -> Self {
        Self(ms)
    }

    pub const fn from_secs(s: u64) -> Self {
        Self(s * 1000)
    }
}

impl Add<Duration> for Instant {
    type Output = Instant;
    fn add(self, d: Duration) -> Instant {
        Instant(self.0 + d.0)
    }
}

impl Mul<u32> for Duration {
    type Output = Duration;
    fn mul(self, n: u32) -> Duration {
        Duration(self.0 * n as u64)
    }
}
