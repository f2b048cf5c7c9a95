//! Every sequence of events over a small alphabet, under three settings. Sequences that the original cannot follow
//! (reply 7 to 9) are cut there; the shorter ones are the beginnings of the longer.

use crate::gen::Trace;
use crate::model::{header, Connection, Event, Settings, ACK, CREDIT, FIN, RST, SYN};
use crate::{check, Second, Tally};

type Letter = (u64, Event);

/// Data with a one-byte body and WindowUpdate with a credit of 1, with each of the flag sets.
fn frames(id: u32, flag_sets: &[u16]) -> Vec<Letter> {
    let data = flag_sets.iter().map(|f| (0, Event::Frame(header(0, *f, id, 1), vec![b'a' + *f as u8])));
    let credit = flag_sets.iter().map(|f| (0, Event::Frame(header(1, *f, id, 1), Vec::new())));
    data.chain(credit).collect()
}

fn calls(slot: u64) -> [Letter; 4] {
    [Event::Read(slot, 9), Event::Write(slot, vec![b'z']), Event::Close(slot), Event::Drop(slot)].map(|e| (0, e))
}

/// The alphabet and the events that come before. The ping is due at 5; all but it and the pong are at 0.
fn alphabet(name: &str, mode: u64) -> (Vec<Letter>, Vec<Letter>) {
    let (own, remote) = (1 + mode as u32, 2 - mode as u32);
    let all: Vec<u16> = (0..16).collect();
    let few = [0, SYN, ACK, FIN, RST];
    let ping = |flags, id| Event::Frame(header(2, flags, id, 0), Vec::new());
    let mut letters: Vec<Letter> = vec![(0, Event::Open)];
    let mut before = Vec::new();
    match name {
        "small" => letters.extend(frames(remote, &few)),
        "remote" => letters.extend(frames(remote, &all)),
        "own" => letters.extend(frames(own, &all)),
        "both" => letters.extend(frames(own, &all).into_iter().chain(frames(remote, &all))),
        _ => panic!("{name}: no such alphabet"),
    }
    if name == "own" {
        before.push((0, Event::Open));
    }
    letters.extend(calls(0));
    letters.extend(calls(1));
    if name != "small" {
        letters.extend([(0, Event::Gone), (0, ping(0, remote)), (5, Event::Tick), (7, ping(ACK, 0))]);
    }
    (letters, before)
}

pub fn run(depth: usize, name: &str, second: &Second, tally: &mut Tally) {
    for (mode, streams, read_after_close) in [(0, 2, 0), (1, 1, 1), (0, 1, 1)] {
        let settings = Settings {
            mode,
            streams,
            limit: streams * CREDIT,
            read_after_close,
            split: 1_000,
            interval: 1_000,
            first_time: 5,
            first_ping: 0,
            slots: streams + 1,
            pool: 16_384,
        };
        let (letters, before) = alphabet(name, mode);
        let mut trace = Trace { settings, next_id: None, wide: false, events: Vec::new() };
        let mut c = Connection::new(settings, None);
        for (time, event) in before {
            c.step(time, &event);
            trace.events.push((time, event));
        }
        walk(depth, &letters, &c, &mut trace, second, tally);
    }
}

/// Runs each sequence that goes on from this one; this one alone where none does.
fn walk(depth: usize, letters: &[Letter], c: &Connection, trace: &mut Trace, second: &Second, tally: &mut Tally) {
    if depth == 0 {
        return check(trace, second, tally);
    }
    let mut longer = false;
    for (time, event) in letters {
        let mut next = c.clone();
        let length = trace.events.len();
        if next.ping_is_due(*time) && !matches!(event, Event::Tick) {
            next.step(*time, &Event::Tick);
            trace.events.push((*time, Event::Tick));
        }
        if !matches!(next.step(*time, event).reply, 7..=9) {
            trace.events.push((*time, event.clone()));
            walk(depth - 1, letters, &next, trace, second, tally);
            longer = true;
        }
        trace.events.truncate(length);
    }
    if !longer {
        check(trace, second, tally);
    }
}
