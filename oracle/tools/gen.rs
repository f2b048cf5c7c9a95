//! Seeded traces that the original can follow: settings within their bounds, no reply 7 to 10 or 13, and a tick before each
//! event at whose time a ping is due. The model tells both, and the state that the choices lean on.

use crate::model::{
    header, trace, Connection, Event, Settings, State, Stream, ACK, CREDIT, FIN, RST, SYN, TOP, TOP_TIME,
};

/// splitmix64.
pub struct Rng(pub u64);

impl Rng {
    pub fn next(&mut self) -> u64 {
        self.0 = self.0.wrapping_add(0x9e37_79b9_7f4a_7c15);
        let mut z = self.0;
        z = (z ^ (z >> 30)).wrapping_mul(0xbf58_476d_1ce4_e5b9);
        z = (z ^ (z >> 27)).wrapping_mul(0x94d0_49bb_1331_11eb);
        z ^ (z >> 31)
    }

    pub fn below(&mut self, n: u64) -> u64 {
        self.next() % n.max(1)
    }

    pub fn chance(&mut self, percent: u64) -> bool {
        self.below(100) < percent
    }

    pub fn pick<T: Copy>(&mut self, from: &[T]) -> T {
        from[self.below(from.len() as u64) as usize]
    }
}

#[derive(Clone)]
pub struct Trace {
    pub settings: Settings,
    /// The first own id, where the harness sets it.
    pub next_id: Option<u32>,
    pub wide: bool,
    pub events: Vec<(u64, Event)>,
}

impl Trace {
    pub fn bytes(&self) -> Vec<u8> {
        let mut out = trace::put_settings(&self.settings);
        for (time, event) in &self.events {
            out.extend(trace::put_event(*time, event));
        }
        out
    }
}

/// Whether the original can follow, as far as the model knows.
pub fn is_followed(trace: &Trace) -> bool {
    let mut c = Connection::new(trace.settings, trace.next_id);
    trace.events.iter().all(|(time, event)| {
        let ticked = matches!(event, Event::Tick) || !c.ping_is_due(*time);
        ticked && !is_left_out(c.step(*time, event).reply)
    })
}

fn is_left_out(reply: u8) -> bool {
    matches!(reply, 7..=10 | 13)
}

/// What a trace is mostly about.
#[derive(Clone, Copy, PartialEq)]
enum Theme {
    General,
    Growth,
    Writes,
    Backlog,
    Edges,
}

pub struct Gen {
    pub rng: Rng,
    pub c: Connection,
    pub events: Vec<(u64, Event)>,
    pub now: u64,
    theme: Theme,
    /// Ids that were used, for frames that come late and ids used again.
    used: Vec<u32>,
    largest_body: u64,
}

/// The trace number `index` of a seed. With `wide`, one that only the library's bounds permit.
pub fn trace(seed: u64, index: u64, wide: bool) -> Trace {
    let mut rng = Rng(seed.wrapping_mul(0x2545_f491_4f6c_dd1d) ^ index.wrapping_mul(0x9e37_79b9_7f4a_7c15));
    let theme = match rng.below(100) {
        0..=54 => Theme::General,
        55..=64 => Theme::Growth,
        65..=77 => Theme::Writes,
        78..=80 => Theme::Backlog,
        _ => Theme::Edges,
    };
    let settings = settings(&mut rng, theme, wide);
    let next_id = (wide && rng.chance(60)).then(|| {
        let top = if settings.mode == 0 { u32::MAX } else { u32::MAX - 1 };
        top - 2 * rng.below(6) as u32
    });
    let length = match theme {
        Theme::Backlog => 300 + rng.below(150),
        Theme::Growth => 60 + rng.below(120),
        _ => 10 + rng.below(170),
    };
    let largest_body = if wide { 300_000 } else { 16_384 };
    let now = settings.first_time.saturating_sub(rng.pick(&[0, 0, 1, 1000]));
    let c = Connection::new(settings, next_id);
    let mut g = Gen { rng, c, events: Vec::new(), now, theme, used: Vec::new(), largest_body };
    let mut after_end = g.rng.below(25);
    while (g.events.len() as u64) < length && after_end > 0 {
        g.turn();
        if g.c.ended {
            after_end -= 1;
        }
    }
    Trace { settings, next_id, wide, events: g.events }
}

fn settings(rng: &mut Rng, theme: Theme, wide: bool) -> Settings {
    let streams = match theme {
        Theme::Backlog => 257 + rng.below(44),
        Theme::Growth => 1 + rng.below(3),
        _ => match rng.below(20) {
            0 => 0,
            1 => rng.below(301),
            2 => 300,
            3 | 4 => 1,
            _ => 1 + rng.below(8),
        },
    };
    let top_slots = if wide { 1_024 } else { 300 };
    let slots = match rng.below(3) {
        0 => streams.max(1),
        1 => (streams + 1 + rng.below(8)).min(top_slots),
        _ => streams.max(1) + rng.below(top_slots - streams.max(1) + 1),
    };
    let spare = [0, 1, 2, 1000, 131_071, 131_072, 262_143, 262_144, 524_288, 1_000_000, 1 << 32, u64::MAX];
    let spare = if theme == Theme::Growth || rng.chance(50) { rng.pick(&spare) } else { 1 << 30 };
    let pool = if wide { rng.pick(&[16_384, 262_144, 600_000, TOP]) } else { 16_384 };
    let random_split = 1 + rng.below(20_000);
    Settings {
        mode: rng.below(2),
        streams,
        limit: (streams * CREDIT).saturating_add(spare),
        read_after_close: rng.below(2),
        split: rng.pick(&[1, 2, 7, 100, 1_000, 16_383, 16_384, 16_384, TOP, random_split]),
        interval: rng.pick(&[1, 2, 10, 1_000, 1_000, 10_000_000_000, TOP_TIME]),
        first_time: rng.pick(&[0, 0, 1, 1_000, 5_000_000_000, TOP_TIME - 1, TOP_TIME]),
        first_ping: rng.pick(&[0, 0, 1, 1_000, TOP - 1, TOP]),
        slots,
        pool: if theme == Theme::Growth { pool } else { rng.pick(&[0, 1, 10, 500, 8_192, pool, pool, pool]) },
    }
}

impl Gen {
    /// Do the event where the original can follow, after the tick that it may need. Returns the reply.
    pub fn push(&mut self, event: Event) -> Option<u8> {
        if self.c.ping_is_due(self.now) {
            self.c.step(self.now, &Event::Tick);
            self.events.push((self.now, Event::Tick));
        }
        let answer = self.c.step(self.now, &event);
        if is_left_out(answer.reply) {
            return None;
        }
        if let (Some(id), Event::Frame(..) | Event::Open) = (answer.value, &event) {
            self.used.push(id as u32);
        }
        self.events.push((self.now, event));
        Some(answer.reply)
    }

    fn held(&mut self) -> Option<usize> {
        let held: Vec<usize> = (0..self.c.slots.len()).filter(|k| self.c.slots[*k].is_some()).collect();
        (!held.is_empty()).then(|| self.rng.pick(&held))
    }

    fn stream(&self, slot: usize) -> &Stream {
        self.c.slots[slot].as_ref().expect("held")
    }

    fn turn(&mut self) {
        if self.rng.chance(35) {
            self.advance();
        }
        let long = self.rng.below(100);
        match self.theme {
            Theme::Growth if long < 25 => self.pump(),
            Theme::Growth if long < 45 => self.round_trip(),
            Theme::Writes if long < 8 => self.exhaust(),
            Theme::Backlog if long < 10 => self.flood(),
            Theme::General if long < 6 => self.round_trip(),
            _ => self.single(),
        }
    }

    /// Time stands still mostly, goes on, goes back, and hits what the rules compare it with.
    fn advance(&mut self) {
        let noted = self.held().map_or(0, |k| self.stream(k).noted);
        let two = noted.saturating_add(self.c.round_trip.unwrap_or(0).saturating_mul(2));
        let step = self.c.settings.interval.min(1 << 40);
        self.now = match self.rng.below(20) {
            0..=6 => self.now + self.rng.below(10),
            7 | 8 => self.now + self.rng.below(step + 1),
            9 => self.now + step,
            10 => self.now.saturating_sub(self.rng.below(10)),
            11 => self.rng.below(self.now.saturating_add(1)),
            12 => two,
            13 => two.saturating_sub(1),
            14 => self.c.ping_due,
            15 => self.c.ping_due.saturating_sub(1),
            16 if self.rng.chance(20) => TOP_TIME,
            17 if self.rng.chance(20) => 0,
            _ => self.now + 1,
        }
        .min(TOP_TIME);
    }

    fn single(&mut self) {
        let slot = self.held();
        let event = match (self.rng.below(1000), slot) {
            (0..=2, _) => Event::Gone,
            (3..=40, _) => Event::Tick,
            (41..=130, _) if self.may_open() => Event::Open,
            (131..=270, Some(slot)) => Event::Read(slot as u64, self.read_count(slot)),
            (271..=410, Some(slot)) => self.write(slot),
            (411..=480, Some(slot)) => Event::Close(slot as u64),
            (481..=550, Some(slot)) => Event::Drop(slot as u64),
            (551..=600, _) => self.ping(),
            _ => self.frame(),
        };
        self.push(event);
    }

    /// An open with a full table ends the connection: rarely.
    fn may_open(&mut self) -> bool {
        (self.c.listed() as u64) < self.c.settings.streams || self.rng.chance(4)
    }

    fn read_count(&mut self, slot: usize) -> u64 {
        let unread = self.stream(slot).unread.len() as u64;
        let some = self.rng.below(unread + 2);
        self.rng.pick(&[0, 1, 2, some, some, unread, unread, unread + 1, self.largest_body]).min(self.largest_body)
    }

    fn bytes(&mut self, n: u64) -> Vec<u8> {
        let start = self.rng.next();
        (0..n).map(|i| (start.wrapping_add(i.wrapping_mul(start | 1)) >> 13) as u8).collect()
    }

    fn write(&mut self, slot: usize) -> Event {
        let (window, split) = (self.stream(slot).send, self.c.settings.split);
        let some = self.rng.below(300);
        let n = self.rng.pick(&[0, 1, 2, some, some, some, split, split + 1, window, window + 1, 16_384]);
        let n = n.min(if self.theme == Theme::Writes { 16_384 } else { 600 });
        Event::Write(slot as u64, self.bytes(n))
    }

    fn ping(&mut self) -> Event {
        let id = self.frame_id();
        let awaited = self.c.ping.map_or(0, |p| p.0);
        let (flags, value) = match self.rng.below(10) {
            0..=3 => (ACK, awaited),
            4 => (ACK | self.rng.below(16) as u16, awaited.wrapping_add(1)),
            5 => (self.rng.next() as u16, awaited),
            _ => (self.rng.pick(&[0, SYN, FIN, RST]), self.rng.next() as u32),
        };
        Event::Frame(header(2, flags, self.rng.pick(&[0, 0, id]), value.into()), Vec::new())
    }

    fn frame_id(&mut self) -> u32 {
        let held = self.held().map(|k| self.stream(k).id);
        let edges = self.theme == Theme::Edges;
        match (self.rng.below(100), held) {
            (0..=44, Some(id)) => id,
            (45..=59, _) if !self.used.is_empty() => {
                let k = self.rng.below(self.used.len() as u64);
                self.used[k as usize]
            }
            (60..=75, _) if edges => u32::MAX - self.rng.below(6) as u32,
            (60..=84, _) => self.rng.below(7) as u32,
            (85..=88, _) => u32::MAX - self.rng.below(5) as u32,
            (89..=91, _) => self.rng.next() as u32,
            // A fresh one of the remote's.
            _ => (2 * self.used.len() as u64 + 2 - self.c.settings.mode) as u32,
        }
    }

    fn flags(&mut self) -> u16 {
        match self.rng.below(100) {
            0..=29 => 0,
            30..=49 => SYN,
            50..=61 => ACK,
            62..=69 => FIN,
            70..=74 => RST,
            75..=79 => self.rng.pick(&[SYN | FIN, SYN | ACK, ACK | FIN]),
            80..=94 => self.rng.below(16) as u16,
            _ => self.rng.next() as u16,
        }
    }

    fn frame(&mut self) -> Event {
        let (id, flags) = (self.frame_id(), self.flags());
        let known = self.c.find(id).map(|k| (self.stream(k).receive, self.stream(k).send));
        let roll = self.rng.below(1000);
        if roll < 550 {
            let room = self.c.room();
            let (small, some) = (self.rng.below(12), self.rng.below(400));
            let receive = known.map_or(CREDIT, |k| k.0);
            let sizes = [0, 0, 1, small, small, small, some, room, receive, receive + 1, CREDIT + 1, 16_384];
            let n = self.rng.pick(&sizes).min(self.largest_body);
            let n = if n > 600 && self.rng.chance(80) { small } else { n };
            return Event::Frame(header(0, flags, id, n), self.bytes(n));
        }
        if roll < 985 {
            let send = known.map_or(CREDIT, |k| k.1);
            let some = self.rng.below(100_000);
            let credits = [0, 1, some, some, CREDIT, TOP - send, TOP - send + 1, TOP - CREDIT, TOP - CREDIT + 1, TOP];
            let credit = self.rng.pick(&credits).min(TOP);
            let credit = if credit > 1 << 30 && self.rng.chance(60) { some } else { credit };
            return Event::Frame(header(1, flags, id, credit), Vec::new());
        }
        let mut h = header(self.rng.pick(&[3, 3, 4, 255, 2, 1]), flags, id, self.rng.next());
        h[0] = self.rng.pick(&[0, 0, 1, 255]);
        Event::Frame(h, Vec::new())
    }

    /// A ping and its pong, some time between.
    fn round_trip(&mut self) {
        if self.c.ping.is_none() {
            self.now = self.now.max(self.c.ping_due).min(TOP_TIME);
            self.push(Event::Tick);
        }
        let Some((id, _)) = self.c.ping else { return };
        self.now = (self.now + self.rng.pick(&[0, 1, 5, 1_000, 1_000_000, 1 << 40])).min(TOP_TIME);
        self.push(Event::Frame(header(2, ACK, 0, id.into()), Vec::new()));
    }

    /// Bodies that fill the room, read at once, until a window update is due.
    fn pump(&mut self) {
        let readable = |s: &Stream| s.listed && matches!(s.state, State::Open { .. } | State::SendClosed);
        let Some(slot) = self.held().filter(|k| readable(self.stream(*k))) else {
            let event = if self.may_open() { Event::Open } else { self.frame() };
            self.push(event);
            return;
        };
        let id = self.stream(slot).id;
        for _ in 0..9 {
            let n = self.c.room().min(self.stream(slot).receive).min(self.largest_body);
            let n = if self.rng.chance(10) { self.rng.below(n + 1) } else { n };
            let body = vec![self.rng.next() as u8; n as usize];
            self.push(Event::Frame(header(0, 0, id, n), body));
            let count = if self.rng.chance(95) { 16_384 } else { self.rng.below(16_384) };
            self.push(Event::Read(slot as u64, count));
            if self.rng.chance(5) {
                self.advance();
            }
        }
        self.push(Event::Read(slot as u64, 16_384));
    }

    /// Writes until the window is gone, the wait, and the window update that wakes.
    fn exhaust(&mut self) {
        let writes = |s: &Stream| matches!(s.state, State::Open { .. } | State::RecvClosed);
        let Some(slot) = self.held().filter(|k| !self.c.ended && writes(self.stream(*k))) else { return };
        let mut left = 18;
        while left > 0 && self.stream(slot).send > 0 {
            let bytes = self.bytes(16_384);
            self.push(Event::Write(slot as u64, bytes));
            left -= 1;
        }
        self.push(Event::Write(slot as u64, vec![1]));
        if self.rng.chance(70) {
            let (id, flags) = (self.stream(slot).id, self.flags());
            let credit = self.rng.below(20_000);
            self.push(Event::Frame(header(1, flags, id, credit), Vec::new()));
        }
    }

    /// Opens until one waits, then what may wake it.
    fn flood(&mut self) {
        for _ in 0..300 {
            if (self.c.listed() as u64) >= self.c.settings.streams || self.push(Event::Open) != Some(0) {
                break;
            }
        }
        let Some(slot) = self.held() else { return };
        if self.rng.chance(50) {
            self.push(Event::Read(slot as u64, 9));
        }
        let id = if self.rng.chance(50) { self.stream(slot).id } else { self.frame_id() };
        let flags = self.flags() | ACK;
        let kind = self.rng.below(2) as u8;
        self.push(Event::Frame(header(kind, flags, id, 0), Vec::new()));
    }
}
