//! Document 01 and its readings as a plain program: the third opinion beside the original and `replay`.
//!
//! Written from the document, not from the original. `Connection::step` is one event; `trace::run` is `replay`.
//! Where a reply of 7 to 10 is given nothing has changed, so a generator may try an event and leave it out.

mod calls;
mod settings;
pub mod trace;

pub use settings::{Bounds, Settings, REPLAY, WIDE};

use std::collections::VecDeque;

pub const CREDIT: u64 = 262_144;
pub const TOP: u64 = u32::MAX as u64;
pub const TOP_TIME: u64 = (1 << 62) - 1;

pub const SYN: u16 = 1;
pub const ACK: u16 = 2;
pub const FIN: u16 = 4;
pub const RST: u16 = 8;

#[derive(Clone, Debug)]
pub enum Event {
    Tick,
    Frame([u8; 12], Vec<u8>),
    Open,
    Read(u64, u64),
    Write(u64, Vec<u8>),
    Close(u64),
    Drop(u64),
    Gone,
}

#[derive(Clone, Copy, PartialEq, Eq, Debug)]
pub enum State {
    Open { acknowledged: bool },
    SendClosed,
    RecvClosed,
    Closed,
}

impl State {
    /// "Open to whatever is next; RecvClosed and SendClosed to Closed by each other or by Closed; .. the rest no change."
    fn next(self, next: State) -> State {
        match (self, next) {
            (State::Open { .. }, _) => next,
            (State::RecvClosed, State::SendClosed | State::Closed) => State::Closed,
            (State::SendClosed, State::RecvClosed | State::Closed) => State::Closed,
            _ => self,
        }
    }

    fn is_open(self) -> bool {
        matches!(self, State::Open { .. })
    }
}

/// A held handle's stream; `listed` while it is in the table.
#[derive(Clone)]
pub struct Stream {
    pub id: u32,
    pub listed: bool,
    pub state: State,
    /// The flag still owed: SYN, ACK or 0.
    pub owed: u16,
    pub max: u64,
    pub receive: u64,
    pub send: u64,
    pub noted: u64,
    pub unread: VecDeque<u8>,
    pub reader: bool,
    pub writer: bool,
}

#[derive(Default)]
pub struct Answer {
    pub reply: u8,
    pub slot: Option<usize>,
    pub value: Option<u64>,
    pub header: Option<[u8; 12]>,
    pub reader: bool,
    pub writer: bool,
    pub open: bool,
    pub ended: bool,
    pub bytes: Vec<u8>,
    /// Of a written frame; no line shows it.
    pub body: Vec<u8>,
}

fn refuse(reply: u8) -> Answer {
    Answer { reply, ..Answer::default() }
}

pub fn header(kind: u8, flags: u16, id: u32, length: u64) -> [u8; 12] {
    let mut h = [0; 12];
    h[1] = kind;
    h[2..4].copy_from_slice(&flags.to_be_bytes());
    h[4..8].copy_from_slice(&id.to_be_bytes());
    h[8..12].copy_from_slice(&(length as u32).to_be_bytes());
    h
}

fn go_away(code: u64) -> Answer {
    Answer { reply: 2, value: Some(code), header: Some(header(3, 0, 0, code)), ..Answer::default() }
}

#[derive(Clone)]
pub struct Connection {
    pub settings: Settings,
    pub ended: bool,
    pub next_id: u64,
    pub open_wait: bool,
    pub growth: u64,
    /// Id and time of the ping outstanding.
    pub ping: Option<(u32, u64)>,
    pub ping_due: u64,
    pub next_ping: u32,
    pub round_trip: Option<u64>,
    pub slots: Vec<Option<Stream>>,
}

impl Connection {
    pub fn new(settings: Settings, next_id: Option<u32>) -> Self {
        Connection {
            settings,
            ended: false,
            next_id: next_id.map_or(1 + settings.mode, u64::from),
            open_wait: false,
            growth: 0,
            ping: None,
            ping_due: settings.first_time,
            next_ping: settings.first_ping as u32,
            round_trip: None,
            slots: (0..settings.slots).map(|_| None).collect(),
        }
    }

    fn held(&self) -> impl Iterator<Item = &Stream> {
        self.slots.iter().flatten()
    }

    pub fn listed(&self) -> usize {
        self.held().filter(|s| s.listed).count()
    }

    pub fn find(&self, id: u32) -> Option<usize> {
        self.slots.iter().position(|s| s.as_ref().is_some_and(|s| s.listed && s.id == id))
    }

    pub fn room(&self) -> u64 {
        self.settings.pool - self.held().map(|s| s.unread.len() as u64).sum::<u64>()
    }

    /// "Even ids, 0 among them, are the server's."
    pub fn is_own(&self, id: u32) -> bool {
        (id % 2 == 0) == (self.settings.mode == 1)
    }

    fn stream(&mut self, slot: usize) -> &mut Stream {
        self.slots[slot].as_mut().expect("held")
    }

    pub fn ping_is_due(&self, time: u64) -> bool {
        !self.ended && self.ping.is_none() && self.ping_due <= time
    }

    pub fn step(&mut self, time: u64, event: &Event) -> Answer {
        if time > TOP_TIME {
            return refuse(10);
        }
        match event {
            Event::Tick if self.ended => refuse(5),
            Event::Tick => self.tick(time),
            Event::Frame(..) | Event::Open | Event::Gone if self.ended => refuse(5),
            Event::Frame(h, body) => self.frame(time, h, body),
            Event::Open => self.open(time),
            Event::Gone => self.end(5),
            Event::Read(slot, _) | Event::Write(slot, _) | Event::Close(slot) | Event::Drop(slot) => {
                let slot = *slot as usize;
                if !matches!(self.slots.get(slot), Some(Some(_))) {
                    return refuse(9);
                }
                let answer = match event {
                    Event::Read(_, n) => self.read(time, slot, *n),
                    Event::Write(_, bytes) => self.write(slot, bytes),
                    Event::Close(_) => self.close(slot),
                    _ => self.drop(slot),
                };
                Answer { slot: Some(slot), ..answer }
            }
        }
    }

    /// "Ending empties the table, makes each stream in it Closed, clears all waits."
    fn end(&mut self, reply: u8) -> Answer {
        for s in self.slots.iter_mut().flatten() {
            if s.listed {
                s.listed = false;
                s.state = State::Closed;
            }
            s.reader = false;
            s.writer = false;
        }
        self.open_wait = false;
        self.ended = true;
        Answer { ended: true, ..refuse(reply) }
    }

    fn tick(&mut self, time: u64) -> Answer {
        if !self.ping_is_due(time) {
            return Answer::default();
        }
        let id = self.next_ping;
        self.next_ping = id.wrapping_add(1);
        self.ping = Some((id, time));
        Answer { value: Some(id.into()), header: Some(header(2, SYN, 0, id.into())), ..Answer::default() }
    }

    fn frame(&mut self, time: u64, h: &[u8; 12], body: &[u8]) -> Answer {
        let flags = u16::from_be_bytes([h[2], h[3]]);
        let id = u32::from_be_bytes([h[4], h[5], h[6], h[7]]);
        let length = u32::from_be_bytes([h[8], h[9], h[10], h[11]]);
        match (h[0], h[1]) {
            (0, 0) => self.stream_frame(time, flags, id, 0, Some(body)),
            (0, 1) => self.stream_frame(time, flags, id, length.into(), None),
            (0, 2) if flags & ACK != 0 => self.pong(time, length),
            (0, 2) if id == 0 || self.find(id).is_some() => Answer {
                value: Some(length.into()),
                header: Some(header(2, ACK, 0, length.into())),
                ..Answer::default()
            },
            (0, 2) => Answer::default(),
            (0, 3) => self.end(5),
            (0, _) => self.end(12),
            _ => self.end(11),
        }
    }

    fn pong(&mut self, time: u64, id: u32) -> Answer {
        match self.ping {
            Some((awaited, sent)) if awaited == id => {
                self.round_trip = Some(time.saturating_sub(sent));
                self.ping_due = time + self.settings.interval;
                self.ping = None;
                Answer::default()
            }
            _ => go_away(1),
        }
    }

    /// Data (with a body) or WindowUpdate (without): the ACK step, then the rules; 7 and 8 undo the ACK step.
    fn stream_frame(&mut self, time: u64, flags: u16, id: u32, credit: u64, body: Option<&[u8]>) -> Answer {
        let known = self.find(id);
        let before = (known.map(|k| self.stream(k).state), self.open_wait);
        let mut woken = false;
        if flags & ACK != 0 {
            if let Some(k) = known.filter(|k| self.stream(*k).state.is_open()) {
                self.stream(k).state = State::Open { acknowledged: true };
            }
            woken = self.open_wait;
            self.open_wait = false;
        }
        let mut answer = match known {
            Some(k) if flags & RST != 0 => self.reset(k),
            None if flags & RST != 0 => Answer::default(),
            _ if flags & SYN != 0 => self.inbound(time, flags, id, credit, body),
            Some(k) => match body {
                Some(body) => self.on_data(k, flags, body),
                None => self.on_window_update(k, flags, credit),
            },
            None => Answer::default(),
        };
        if matches!(answer.reply, 7 | 8) {
            if let (Some(k), Some(state)) = (known, before.0) {
                self.stream(k).state = state;
            }
            self.open_wait = before.1;
        } else {
            answer.open = woken;
        }
        answer
    }

    fn reset(&mut self, k: usize) -> Answer {
        let s = self.stream(k);
        s.state = State::Closed;
        s.listed = false;
        woken(s, k, true, true)
    }

    fn inbound(&mut self, time: u64, flags: u16, id: u32, credit: u64, body: Option<&[u8]>) -> Answer {
        let full = self.listed() as u64 >= self.settings.streams;
        if self.is_own(id) || self.find(id).is_some() {
            return go_away(1);
        }
        if full {
            return go_away(if body.is_some() { 2 } else { 1 });
        }
        let bytes = body.unwrap_or(&[]);
        let size = bytes.len() as u64;
        if size > CREDIT || credit + CREDIT > TOP {
            return go_away(1);
        }
        let Some(slot) = self.slots.iter().position(Option::is_none) else { return refuse(7) };
        if size > self.room() {
            return refuse(8);
        }
        self.insert(slot, id, time);
        let s = self.stream(slot);
        s.send += credit;
        s.receive -= size;
        s.unread.extend(bytes);
        if flags & FIN != 0 {
            s.state = State::RecvClosed;
        }
        Answer { slot: Some(slot), value: Some(id.into()), ..Answer::default() }
    }

    fn insert(&mut self, slot: usize, id: u32, time: u64) {
        self.slots[slot] = Some(Stream {
            id,
            listed: true,
            state: State::Open { acknowledged: false },
            owed: if self.is_own(id) { SYN } else { ACK },
            max: CREDIT,
            receive: CREDIT,
            send: CREDIT,
            noted: time,
            unread: VecDeque::new(),
            reader: false,
            writer: false,
        });
    }

    fn on_data(&mut self, k: usize, flags: u16, body: &[u8]) -> Answer {
        let size = body.len() as u64;
        let room = self.room();
        let s = self.stream(k);
        if size > s.receive {
            return go_away(1);
        }
        if size > room {
            return refuse(8);
        }
        s.receive -= size;
        finish(s, flags);
        s.unread.extend(body);
        woken(s, k, true, false)
    }

    fn on_window_update(&mut self, k: usize, flags: u16, credit: u64) -> Answer {
        let s = self.stream(k);
        if s.send + credit > TOP {
            return go_away(1);
        }
        s.send += credit;
        finish(s, flags);
        woken(s, k, flags & FIN != 0, true)
    }
}

/// FIN: next state RecvClosed; a stream Closed after it leaves the table.
fn finish(s: &mut Stream, flags: u16) {
    if flags & FIN != 0 {
        s.state = s.state.next(State::RecvClosed);
        s.listed = s.state != State::Closed;
    }
}

/// "Woken means: cleared and reported if it was waiting." The slot is told where something is reported.
fn woken(s: &mut Stream, slot: usize, reader: bool, writer: bool) -> Answer {
    let reader = reader && std::mem::take(&mut s.reader);
    let writer = writer && std::mem::take(&mut s.writer);
    Answer { slot: (reader || writer).then_some(slot), reader, writer, ..Answer::default() }
}
