//! Document 01, sections "Local calls" and "Windows and pings".

use super::{header, refuse, woken, Answer, Connection, State, Stream, ACK, CREDIT, FIN, RST, TOP};

/// Own streams that may be Open and unacknowledged before an open waits.
const BACKLOG: usize = 256;

impl Connection {
    pub(super) fn open(&mut self, time: u64) -> Answer {
        if self.listed() as u64 >= self.settings.streams {
            return self.end(3);
        }
        let pending = State::Open { acknowledged: false };
        let backlog = self.held().filter(|s| s.listed && self.is_own(s.id) && s.state == pending).count();
        if backlog >= BACKLOG {
            self.open_wait = true;
            return refuse(1);
        }
        if self.next_id + 2 > TOP {
            return self.end(4);
        }
        let Some(slot) = self.slots.iter().position(Option::is_none) else { return refuse(7) };
        let id = self.next_id as u32;
        self.next_id += 2;
        self.insert(slot, id, time);
        Answer { slot: Some(slot), value: Some(id.into()), ..Answer::default() }
    }

    pub(super) fn read(&mut self, time: u64, slot: usize, n: u64) -> Answer {
        if self.ended && self.settings.read_after_close == 0 {
            return Answer { value: Some(0), ..Answer::default() };
        }
        let header = self.window_update(time, slot);
        let s = self.stream(slot);
        let n = s.unread.len().min(n as usize);
        let bytes: Vec<u8> = s.unread.drain(..n).collect();
        if n == 0 && (s.state.is_open() || s.state == State::SendClosed) {
            s.reader = true;
            return Answer { header, ..refuse(1) };
        }
        Answer { value: Some(n as u64), header, bytes, ..Answer::default() }
    }

    /// "Due = maximum - receive window - unread. Below half the maximum (rounded down): none."
    fn window_update(&mut self, time: u64, slot: usize) -> Option<[u8; 12]> {
        let (round_trip, growth) = (self.round_trip, self.growth);
        let (limit, reserved) = (self.settings.limit, self.settings.streams * CREDIT);
        let s = self.stream(slot);
        let due = |s: &Stream| (s.max - s.receive).saturating_sub(s.unread.len() as u64);
        if !(s.state.is_open() || s.state == State::SendClosed) || due(s) < s.max / 2 {
            return None;
        }
        let elapsed = u128::from(time.saturating_sub(s.noted));
        let mut rise = 0;
        if round_trip.is_some_and(|r| elapsed < 2 * u128::from(r)) {
            let budget = limit - reserved - growth;
            let max = (2 * s.max).min(TOP).min(s.max.saturating_add(budget));
            rise = max - s.max;
            s.max = max;
        }
        let credit = due(s);
        s.receive += credit;
        s.noted = time;
        let flags = std::mem::take(&mut s.owed);
        let header = header(1, flags, s.id, credit);
        self.growth += rise;
        Some(header)
    }

    pub(super) fn write(&mut self, slot: usize, given: &[u8]) -> Answer {
        let (ended, split) = (self.ended, self.settings.split);
        let s = self.stream(slot);
        if ended || matches!(s.state, State::SendClosed | State::Closed) {
            return refuse(6);
        }
        if s.send == 0 {
            s.writer = true;
            return refuse(1);
        }
        let n = s.send.min(given.len() as u64).min(split);
        s.send -= n;
        let flags = std::mem::take(&mut s.owed);
        if flags == ACK && s.state.is_open() {
            s.state = State::Open { acknowledged: true };
        }
        let header = Some(header(0, flags, s.id, n));
        Answer { value: Some(n), header, body: given[..n as usize].to_vec(), ..Answer::default() }
    }

    pub(super) fn close(&mut self, slot: usize) -> Answer {
        let s = self.stream(slot);
        if s.state == State::Closed {
            return Answer::default();
        }
        let ack = if s.owed == ACK { std::mem::take(&mut s.owed) } else { 0 };
        s.state = s.state.next(State::SendClosed);
        Answer { header: Some(header(0, FIN | ack, s.id, 0)), ..Answer::default() }
    }

    /// "Frees the slot, then removes from the table whichever stream has that id."
    pub(super) fn drop(&mut self, slot: usize) -> Answer {
        let id = self.stream(slot).id;
        let removed = self.find(id);
        let mut answer = Answer::default();
        if let Some(k) = removed {
            let s = self.stream(k);
            answer = woken(s, k, true, true);
            answer.header = match s.state {
                State::Open { .. } => Some(header(0, RST, id, 0)),
                State::RecvClosed => Some(header(0, FIN, id, 0)),
                _ => None,
            };
            s.state = State::Closed;
            s.listed = false;
        }
        let freed = self.slots[slot].take().expect("held");
        self.growth -= freed.max - CREDIT;
        answer
    }
}
