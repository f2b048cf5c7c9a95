//! Stand-in for the crate `web-time`: `Instant` reads a simulated clock.
//!
//! The clock and the ping interval are thread-local numbers of nanoseconds
//! which the harness sets.

use std::cell::Cell;
use std::ops::Add;

pub use std::time::Duration;

thread_local! {
    static NOW: Cell<u64> = const { Cell::new(0) };
    static PING_INTERVAL: Cell<u64> = const { Cell::new(10_000_000_000) };
}

/// Set the simulated clock (it may go backwards).
pub fn set_now(ns: u64) {
    NOW.with(|c| c.set(ns))
}

/// Set what replaces `rtt::PING_INTERVAL`.
pub fn set_ping_interval(ns: u64) {
    PING_INTERVAL.with(|c| c.set(ns))
}

/// Replaces the constant `rtt::PING_INTERVAL` where it is used.
pub fn ping_interval() -> Duration {
    Duration::from_nanos(PING_INTERVAL.with(|c| c.get()))
}

/// Nanoseconds of the simulated clock.
#[derive(Copy, Clone, Debug, PartialEq, Eq, PartialOrd, Ord)]
pub struct Instant(u64);

impl Instant {
    pub fn now() -> Self {
        Instant(NOW.with(|c| c.get()))
    }

    /// Like `std::time::Instant::elapsed`: zero if the clock went backwards.
    pub fn elapsed(&self) -> Duration {
        Duration::from_nanos(Self::now().0.saturating_sub(self.0))
    }
}

impl Add<Duration> for Instant {
    type Output = Instant;

    fn add(self, d: Duration) -> Instant {
        let ns = u64::try_from(d.as_nanos())
            .ok()
            .and_then(|d| self.0.checked_add(d))
            .expect("overflow when adding duration to instant");
        Instant(ns)
    }
}
