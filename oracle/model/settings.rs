//! Document 01, section "Settings", with the numbers of M-100.

use super::{CREDIT, TOP, TOP_TIME};

/// What the trace reader permits. `replay` has the first; the second is for what no trace of `replay` reaches.
#[derive(Clone, Copy)]
pub struct Bounds {
    pub slots: u64,
    pub pool: u64,
    pub body: u64,
}

pub const REPLAY: Bounds = Bounds { slots: 300, pool: 16_384, body: 16_384 };
pub const WIDE: Bounds = Bounds { slots: 1_024, pool: TOP, body: 1 << 24 };

#[derive(Clone, Copy, Default)]
pub struct Settings {
    pub mode: u64,
    pub streams: u64,
    pub limit: u64,
    pub read_after_close: u64,
    pub split: u64,
    pub interval: u64,
    pub first_time: u64,
    pub first_ping: u64,
    pub slots: u64,
    pub pool: u64,
}

impl Settings {
    pub fn numbers(&self) -> [u64; 10] {
        let s = self;
        [
            s.mode,
            s.streams,
            s.limit,
            s.read_after_close,
            s.split,
            s.interval,
            s.first_time,
            s.first_ping,
            s.slots,
            s.pool,
        ]
    }

    pub fn from(n: [u64; 10]) -> Self {
        let [mode, streams, limit, read_after_close, split, interval, first_time, first_ping, slots, pool] = n;
        Settings { mode, streams, limit, read_after_close, split, interval, first_time, first_ping, slots, pool }
    }

    /// The number of the first wrong one, in the order in which they are read: 21 for the mode to 30 for the pool.
    pub fn wrong(&self, b: Bounds) -> Option<u64> {
        let right = [
            self.mode <= 1,
            self.streams <= 512,
            self.limit >= self.streams.saturating_mul(CREDIT),
            self.read_after_close <= 1,
            (1..=TOP).contains(&self.split),
            (1..=TOP_TIME).contains(&self.interval),
            self.first_time <= TOP_TIME,
            self.first_ping <= TOP,
            (1..=b.slots).contains(&self.slots) && self.slots >= self.streams,
            self.pool <= b.pool,
        ];
        (21..).zip(right).find(|(_, right)| !right).map(|(number, _)| number)
    }
}
