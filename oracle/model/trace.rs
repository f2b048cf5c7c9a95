//! The trace reader, the trace writer, and the lines of document 01, section `replay`.

use super::{Answer, Bounds, Connection, Event, Settings};
use std::fmt::Write;

const ALLOWANCE: u64 = 1_000_000;

pub struct Input<'a> {
    pub rest: &'a [u8],
    pub bounds: Bounds,
}

impl Input<'_> {
    fn take(&mut self, n: u64) -> Option<Vec<u8>> {
        let n = usize::try_from(n).ok().filter(|n| *n <= self.rest.len())?;
        let (head, tail) = self.rest.split_at(n);
        self.rest = tail;
        Some(head.to_vec())
    }

    fn number(&mut self) -> Option<u64> {
        let mut value: u128 = 0;
        for group in 0..10 {
            let b = self.take(1)?[0];
            value |= u128::from(b & 0x7f) << (7 * group);
            if b & 0x80 == 0 {
                return u64::try_from(value).ok();
            }
        }
        None
    }

    fn count(&mut self) -> Option<u64> {
        self.number().filter(|n| *n <= self.bounds.body)
    }

    pub fn settings(&mut self) -> Option<Settings> {
        let mut n = [0; 10];
        for x in &mut n {
            *x = self.number()?;
        }
        Some(Settings::from(n))
    }

    /// The next event; `None` where the trace is unreadable.
    pub fn event(&mut self) -> Option<(u64, Event)> {
        let kind = self.number().filter(|k| *k <= 7)?;
        let time = self.number()?;
        let event = match kind {
            0 => Event::Tick,
            1 => {
                let h: [u8; 12] = self.take(12)?.try_into().expect("twelve");
                let length = u32::from_be_bytes([h[8], h[9], h[10], h[11]]).into();
                match h[1] {
                    0 if length > self.bounds.body => return None,
                    0 => Event::Frame(h, self.take(length)?),
                    _ => Event::Frame(h, Vec::new()),
                }
            }
            2 => Event::Open,
            3 => Event::Read(self.number()?, self.count()?),
            4 => {
                let slot = self.number()?;
                let n = self.count()?;
                Event::Write(slot, self.take(n)?)
            }
            5 => Event::Close(self.number()?),
            6 => Event::Drop(self.number()?),
            _ => Event::Gone,
        };
        Some((time, event))
    }
}

fn or_dash(s: String) -> String {
    if s.is_empty() {
        "-".into()
    } else {
        s
    }
}

pub fn hex(bytes: &[u8]) -> String {
    const DIGITS: &[u8; 16] = b"0123456789abcdef";
    let mut s = String::with_capacity(2 * bytes.len());
    for b in bytes {
        s.push(DIGITS[usize::from(b >> 4)] as char);
        s.push(DIGITS[usize::from(b & 15)] as char);
    }
    s
}

/// The line without its number.
pub fn line(a: &Answer) -> String {
    let wakes = match a {
        Answer { ended: true, .. } => "a".into(),
        _ => [(a.reader, 'r'), (a.writer, 'w'), (a.open, 'o')].iter().filter(|x| x.0).map(|x| x.1).collect(),
    };
    if (3..=13).contains(&a.reply) {
        return format!("{} - - - {} -", a.reply, or_dash(wakes));
    }
    let slot = a.slot.map_or(String::new(), |s| s.to_string());
    let value = a.value.filter(|_| a.reply != 1).map_or(String::new(), |v| v.to_string());
    let header = a.header.map_or(String::new(), |h| hex(&h));
    let fields = [slot, value, header, wakes, hex(&a.bytes)].map(or_dash);
    format!("{} {}", a.reply, fields.join(" "))
}

/// What `replay` prints for the trace. With `bodies`, a line `body HEX` follows that of each written frame.
pub fn run(trace: &[u8], bounds: Bounds, next_id: Option<u32>, bodies: bool) -> String {
    let mut input = Input { rest: trace, bounds };
    let Some(settings) = input.settings() else { return "bad 0 0\n".into() };
    if let Some(number) = settings.wrong(bounds) {
        return format!("config {number}\n");
    }
    let mut connection = Connection::new(settings, next_id);
    let mut out = String::new();
    let mut applied = 0;
    while applied < ALLOWANCE && !input.rest.is_empty() {
        let start = trace.len() - input.rest.len();
        let Some((time, event)) = input.event() else {
            let _ = writeln!(out, "bad {applied} {start}");
            return out;
        };
        let answer = connection.step(time, &event);
        applied += 1;
        let _ = writeln!(out, "{applied} {}", line(&answer));
        if bodies && matches!(event, Event::Write(..)) && answer.reply == 0 {
            let _ = writeln!(out, "body {}", or_dash(hex(&answer.body)));
        }
    }
    let _ = writeln!(out, "end {applied} {}", connection.growth);
    out
}

fn put_number(out: &mut Vec<u8>, mut n: u64) {
    while n > 0x7f {
        out.push(n as u8 | 0x80);
        n >>= 7;
    }
    out.push(n as u8);
}

/// A number in its shortest groups.
pub fn number(n: u64) -> Vec<u8> {
    let mut out = Vec::new();
    put_number(&mut out, n);
    out
}

/// The settings as a trace starts with them.
pub fn put_settings(s: &Settings) -> Vec<u8> {
    let mut out = Vec::new();
    for n in s.numbers() {
        put_number(&mut out, n);
    }
    out
}

/// An event as it stands in a trace.
pub fn put_event(time: u64, event: &Event) -> Vec<u8> {
    let (kind, slot) = match event {
        Event::Tick => (0, None),
        Event::Frame(..) => (1, None),
        Event::Open => (2, None),
        Event::Read(slot, _) => (3, Some(slot)),
        Event::Write(slot, _) => (4, Some(slot)),
        Event::Close(slot) => (5, Some(slot)),
        Event::Drop(slot) => (6, Some(slot)),
        Event::Gone => (7, None),
    };
    let mut out = vec![kind];
    put_number(&mut out, time);
    slot.map(|s| put_number(&mut out, *s));
    match event {
        Event::Frame(h, body) => out.extend(h.iter().chain(body)),
        Event::Read(_, n) => put_number(&mut out, *n),
        Event::Write(_, bytes) => {
            put_number(&mut out, bytes.len() as u64);
            out.extend(bytes);
        }
        _ => {}
    }
    out
}
