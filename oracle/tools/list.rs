//! The fixed list: traces of a seed, each taken because it reaches something that none before it does, and shortened
//! while it still does.

use crate::gen::{self, Trace};
use crate::model::trace::hex;
use crate::model::{Connection, Event, State, Stream, ACK, CREDIT, SYN, TOP};
use crate::shrink::shrink;
use std::collections::BTreeSet;
use yamux::{oracle_run, OracleOptions};

/// Bytes that a trace and its lines may take up in the file.
const ROOM: usize = 9_000;

/// Below, at, just above or above.
fn side(x: u64, edge: u64) -> char {
    match x {
        _ if x < edge => '<',
        _ if x == edge => '=',
        _ if x == edge + 1 => '+',
        _ => '>',
    }
}

/// Where a frame stands beside the numbers that the rules compare it with.
fn frame_edge(c: &Connection, h: &[u8; 12], known: Option<&Stream>) -> String {
    let id = u32::from_be_bytes([h[4], h[5], h[6], h[7]]);
    let n = u64::from(u32::from_be_bytes([h[8], h[9], h[10], h[11]]));
    let full = c.listed() as u64 >= c.settings.streams;
    let size = match (h[1], known) {
        (0, Some(s)) => side(n, s.receive),
        (0, None) => side(n, c.room()),
        (1, Some(s)) => side(n + s.send, TOP),
        (1, None) => side(n + CREDIT, TOP),
        (2, _) if h[3] & ACK as u8 != 0 => side(n, c.ping.map_or(u64::MAX, |p| p.0.into())),
        _ => '.',
    };
    let place = if id == 0 || id > u32::MAX - 2 { "edge" } else { "" };
    format!("{size}{}{full}{place}", n.min(1))
}

fn call_edge(c: &Connection, time: u64, event: &Event, s: &Stream) -> String {
    match event {
        Event::Read(_, n) => {
            let due = (s.max - s.receive).saturating_sub(s.unread.len() as u64);
            let elapsed = time.saturating_sub(s.noted);
            let early = c.round_trip.map(|r| side(elapsed, r.saturating_mul(2)));
            let budget = side(c.settings.limit - c.settings.streams * CREDIT - c.growth, s.max);
            let early = early.filter(|_| due >= s.max / 2);
            let asked = side(*n, s.unread.len() as u64);
            format!("{asked}{}{early:?}{:?}{}", side(due, s.max / 2), early.map(|_| budget), s.max > CREDIT)
        }
        Event::Write(_, given) => {
            let n = given.len() as u64;
            format!("{}{}{}", side(n, s.send), side(n, c.settings.split), s.send.min(1))
        }
        _ => format!("{}{}", s.reader, s.writer),
    }
}

/// What an event met and what came of it, as far as the rules tell cases apart.
fn reached(before: &Connection, time: u64, event: &Event, after: &Connection, line: &str) -> String {
    let of_slot = |slot: &u64| before.slots.get(*slot as usize).and_then(Option::as_ref);
    let of_id = |id: u32| before.find(id).and_then(|k| before.slots[k].as_ref());
    let (kind, stream) = match event {
        Event::Tick => (format!("tick{}{}", side(time, before.ping_due), before.next_ping < 2), None),
        Event::Open => (format!("open{}", before.listed().min(1)), None),
        Event::Gone => ("gone".into(), None),
        Event::Read(slot, _) => ("read".into(), of_slot(slot)),
        Event::Write(slot, _) => ("write".into(), of_slot(slot)),
        Event::Close(slot) => ("close".into(), of_slot(slot)),
        Event::Drop(slot) => {
            let handle = of_slot(slot);
            let newer = handle.and_then(|h| of_id(h.id).filter(|_| !h.listed));
            (format!("drop{:?}", newer.map(|s| s.state)), handle)
        }
        Event::Frame(h, _) => {
            let id = u32::from_be_bytes([h[4], h[5], h[6], h[7]]);
            let known = of_id(id);
            let flags = if h[1] < 2 { h[3] & 15 } else { h[3] & (SYN | ACK) as u8 };
            let (own, edge) = (before.is_own(id), frame_edge(before, h, known));
            (format!("frame{}v{}own{own}flags{flags}{edge}", h[1].min(4), h[0].min(1)), known)
        }
    };
    let edge = stream.map(|s| match event {
        Event::Frame(..) => String::new(),
        _ => call_edge(before, time, event, s),
    });
    let stream = stream.map(|s| match s.state {
        State::Open { acknowledged } => format!("open{acknowledged}"),
        other => format!("{other:?}{}", s.listed),
    });
    let fields: Vec<&str> = line.split(' ').collect();
    let grown = after.growth.cmp(&before.growth);
    let sent = fields[4].get(2..8).unwrap_or("-");
    format!("{kind} {stream:?} {edge:?} {} {sent} {} {grown:?} {}", fields[1], fields[5], before.ended)
}

/// Runs of a byte as `HH{N}`.
fn short(hex: &str) -> String {
    let pairs: Vec<&str> = (0..hex.len() / 2).map(|i| &hex[2 * i..2 * i + 2]).collect();
    let runs = pairs.chunk_by(|a, b| a == b);
    runs.map(|r| if r.len() < 6 { r.concat() } else { format!("{}{{{}}}", r[0], r.len()) }).collect()
}

/// The original's lines and what the trace reaches; `None` where the original cannot follow.
fn reaches(trace: &Trace) -> Option<(String, BTreeSet<String>)> {
    let lines = oracle_run(&trace.bytes(), &OracleOptions::default());
    if lines.contains("oracle-") {
        return None;
    }
    let mut c = Connection::new(trace.settings, None);
    let mut set = BTreeSet::new();
    for ((time, event), line) in trace.events.iter().zip(lines.lines()) {
        let before = c.clone();
        c.step(*time, event);
        set.insert(reached(&before, *time, event, &c, line));
    }
    Some((lines, set))
}

/// The bytes of hex with runs.
fn spelt(short: &str) -> Vec<u8> {
    let digit = |c: char| c.to_digit(16).unwrap_or_else(|| panic!("{c}: not hex")) as u8;
    let mut out = Vec::new();
    let mut rest = short.chars();
    while let Some(c) = rest.next() {
        if c == '{' {
            let n: String = rest.by_ref().take_while(|c| *c != '}').collect();
            let last = *out.last().expect("a byte before its count");
            out.extend(vec![last; n.parse::<usize>().expect("a count") - 1]);
        } else {
            out.push(16 * digit(c) + digit(rest.next().expect("two digits")));
        }
    }
    out
}

/// Traces as the file has them, from standard input, with the original's answers put after each; comments are kept.
pub fn answer() {
    for line in std::io::stdin().lines() {
        let line = line.expect("standard input");
        if line.starts_with('#') {
            println!("{line}");
        } else if let Some(trace) = line.strip_prefix("> ") {
            let lines = oracle_run(&spelt(trace), &OracleOptions::default());
            print!("{line}\n{}", short_lines(&lines));
        }
    }
}

/// A trace as the file has it: `> ` and its bytes in hex.
pub fn short_trace(trace: &Trace) -> String {
    format!("> {}\n", short(&hex(&trace.bytes())))
}

/// Lines with runs of a byte shortened.
pub fn short_lines(lines: &str) -> String {
    let mut out = String::new();
    for line in lines.lines() {
        let (head, bytes) = line.rsplit_once(' ').unwrap_or((line, ""));
        let has_bytes = line.starts_with("body") || line.starts_with(|c: char| c.is_ascii_digit());
        let plain = bytes == "-" || !has_bytes;
        out += &if plain { format!("{line}\n") } else { format!("{head} {}\n", short(bytes)) };
    }
    out
}

/// Long bodies become runs of one byte, which the file can hold.
fn even_out(event: &mut Event) {
    if let Event::Frame(_, bytes) | Event::Write(_, bytes) = event {
        if bytes.len() > 64 {
            let first = bytes[0];
            bytes.fill(first);
        }
    }
}

pub fn print(n: usize, seed: u64) {
    let mut seen = BTreeSet::new();
    let mut taken = 0;
    for index in 0..100_000 {
        if taken == n {
            break;
        }
        let mut trace = gen::trace(seed, index, false);
        // Every tenth is taken at its length, so that windows grow and backlogs fill.
        if index % 10 != 0 {
            trace.events.truncate(40);
        }
        trace.events.iter_mut().for_each(|e| even_out(&mut e.1));
        let Some((_, set)) = reaches(&trace) else { continue };
        let fresh: BTreeSet<String> = set.difference(&seen).cloned().collect();
        if fresh.len() < if index % 10 == 0 { 1 } else { 4 } {
            continue;
        }
        let still = |t: &Trace| gen::is_followed(t) && reaches(t).is_some_and(|r| fresh.is_subset(&r.1));
        let trace = shrink(trace, &still);
        let Some((lines, set)) = reaches(&trace) else { continue };
        let text = short_trace(&trace) + &short_lines(&lines);
        if text.len() <= ROOM {
            seen.extend(set);
            print!("{text}");
            taken += 1;
        }
    }
    eprintln!("{taken} traces reach {} cases", seen.len());
}
