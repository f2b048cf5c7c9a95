//! Traces that the original cannot follow: replies 7 to 10, wrong settings, times out of order with pings, traces cut short
//! or spoilt, needless zero groups. Only the model and the second program are compared on them.

use crate::gen::{self, Rng};
use crate::model::{header, trace, Event, Settings, CREDIT, TOP, TOP_TIME};

/// Ten groups are the most that a number may have.
const GROUPS: usize = 10;

/// The trace number `index` of a seed, as bytes.
pub fn bytes(seed: u64, index: u64) -> Vec<u8> {
    let mut t = gen::trace(seed, index, false);
    let mut rng = Rng(seed ^ index.rotate_left(32) ^ 0x6c6f_6f73_6500);
    if rng.chance(60) {
        t.settings.slots = t.settings.streams.max(1);
        t.settings.pool = rng.below(600);
    }
    for _ in 0..rng.below(8) {
        let at = rng.below(t.events.len() as u64 + 1) as usize;
        let event = any_event(&mut rng, t.settings.slots);
        let time = if rng.chance(30) { rng.pick(&[TOP_TIME + 1, u64::MAX, TOP_TIME]) } else { rng.below(2_000) };
        t.events.insert(at, (time, event));
    }
    if rng.chance(50) {
        t.events.retain(|e| !matches!(e.1, Event::Tick));
    }
    let mut numbers = t.settings.numbers();
    let wrong = rng.chance(25);
    if wrong {
        spoil_settings(&mut rng, &mut numbers);
        t.events.truncate(3);
    }
    let padded = if rng.chance(25) { 20 } else { 0 };
    let mut out = trace::put_settings(&Settings::from(numbers));
    pad(&mut rng, padded, &mut out, 0, numbers.len());
    if rng.chance(if wrong { 20 } else { 2 }) {
        return unreadable_settings(&mut rng, out);
    }
    // Where the whole events end, and what cannot be read comes after them.
    let spoilt = rng.chance(30);
    let few = rng.pick(&[0, 1, 2, t.events.len()]);
    if spoilt && rng.chance(50) {
        t.events.truncate(few);
    }
    for (time, event) in &t.events {
        let start = out.len();
        out.extend(trace::put_event(*time, event));
        pad(&mut rng, padded, &mut out, start, numbers_of(event));
    }
    if spoilt {
        unreadable(&mut rng, padded, out)
    } else {
        spoil(&mut rng, out)
    }
}

fn any_event(rng: &mut Rng, slots: u64) -> Event {
    let near = rng.below(slots + 2);
    let slot = rng.pick(&[near, near, near, 0, slots, 1 << 32, u64::MAX]);
    match rng.below(6) {
        0 => Event::Read(slot, rng.below(20)),
        1 => Event::Write(slot, vec![7; rng.below(20) as usize]),
        2 => Event::Close(slot),
        3 => Event::Drop(slot),
        4 => Event::Open,
        _ => Event::Tick,
    }
}

/// One to three settings at the edges of their ranges and past them, mostly past; two are often neighbours.
fn spoil_settings(rng: &mut Rng, n: &mut [u64; 10]) {
    let mut which = rng.below(10) as usize;
    for _ in 0..rng.pick(&[1, 2, 2, 3]) {
        let around = n[which].wrapping_add(rng.pick(&[1, u64::MAX]));
        n[which] = match rng.below(10) {
            0 => around,
            1 => rng.pick(&edges(which, n)),
            _ => rng.pick(&edges(which, n)[2..]),
        };
        which = if rng.chance(50) { (which + 1) % 10 } else { rng.below(10) as usize };
    }
}

/// Settings cut short, or with a number of eleven groups.
fn unreadable_settings(rng: &mut Rng, mut out: Vec<u8>) -> Vec<u8> {
    out.truncate(rng.below(out.len() as u64) as usize);
    if rng.chance(30) {
        out.extend([0x80; GROUPS]);
        out.push(0);
    }
    out
}

/// For each setting the ends of its range, then what is past them or may be.
fn edges(which: usize, n: &[u64; 10]) -> Vec<u64> {
    let (streams, reserved) = (n[1], n[1].saturating_mul(CREDIT));
    match which {
        0 | 3 => vec![0, 1, 2, 256, u64::MAX],
        1 => vec![0, 512, 513, 301, 1 << 46, n[8].saturating_add(1), u64::MAX],
        2 => vec![reserved, u64::MAX, reserved.saturating_sub(1), 0],
        4 => vec![1, TOP, TOP + 1, 0, u64::MAX],
        5 => vec![1, TOP_TIME, TOP_TIME + 1, 0, u64::MAX],
        6 => vec![0, TOP_TIME, TOP_TIME + 1, u64::MAX],
        7 => vec![0, TOP, TOP + 1, u64::MAX],
        8 => vec![1, 300, 301, 0, 1_024, 1_025, (1 << 32) + 4, streams.saturating_sub(1), u64::MAX],
        _ => vec![0, 16_384, 16_385, TOP, TOP + 1, u64::MAX],
    }
}

/// How many numbers an event starts with.
fn numbers_of(event: &Event) -> usize {
    match event {
        Event::Read(..) | Event::Write(..) => 4,
        Event::Close(_) | Event::Drop(_) => 3,
        _ => 2,
    }
}

/// Needless zero groups after some of the numbers that stand at the end of a trace, from `at`.
fn pad(rng: &mut Rng, percent: u64, out: &mut Vec<u8>, mut at: usize, numbers: usize) {
    for _ in 0..numbers {
        let last = at + out[at..].iter().position(|b| b & 0x80 == 0).expect("a number's last group");
        let room = GROUPS - (last + 1 - at);
        at = last + 1;
        if room > 0 && rng.chance(percent) {
            let needless = 1 + rng.below(room as u64) as usize;
            out[last] |= 0x80;
            out.splice(at..at, (1..needless).map(|_| 0x80).chain([0]));
            at += needless;
        }
    }
}

/// An event that cannot be read, of any form, put after the trace; perhaps more after it.
fn unreadable(rng: &mut Rng, padded: u64, mut out: Vec<u8>) -> Vec<u8> {
    const BEYOND: [u64; 4] = [16_385, 1 << 32, 1 << 62, u64::MAX];
    let start = out.len();
    let time = rng.pick(&[0, 1_000, TOP_TIME]);
    match rng.below(6) {
        // A kind above 7.
        0 => out.extend(trace::number(rng.pick(&[8, 127, 128, 256, 1 << 32, u64::MAX]))),
        // A number of eleven groups, or 2^64 and above: the kind, the time, the slot or the count.
        1 => {
            let kind = rng.pick(&[3, 4]);
            let before = rng.below(4) as usize;
            out.extend(&[kind, 0, 0][..before.min(3)]);
            let tail: &[u8] = rng.pick(&[&[0x80, 0][..], &[2], &[0x7f], &[0x81, 0]]);
            out.extend([0x80; GROUPS - 1].iter().chain(tail));
        }
        // A count above its bound.
        2 => {
            out.push(rng.pick(&[3, 4]));
            out.extend([time, rng.below(4), rng.pick(&BEYOND)].into_iter().flat_map(trace::number));
        }
        // A body above its bound.
        3 => {
            let mut h = header(0, rng.below(16) as u16, rng.below(5) as u32, rng.pick(&[16_385, 1 << 31, TOP]));
            h[0] = rng.pick(&[0, 0, 1, 255]);
            out.extend(trace::put_event(time, &Event::Frame(h, Vec::new())));
        }
        // An event of any kind cut short, and nothing after it.
        _ => {
            let n = rng.pick(&[0, 1, 5, 300, 16_384]);
            let event = match rng.below(4) {
                0 => Event::Frame(header(0, 1, 2, n), vec![3; n as usize]),
                1 => Event::Write(rng.pick(&[0, 200]), vec![3; n as usize]),
                2 => rng.pick(&[&Event::Gone, &Event::Read(200, n), &Event::Frame(header(1, 1, 2, n), vec![])]).clone(),
                _ => any_event(rng, 300),
            };
            out.extend(trace::put_event(time, &event));
            pad(rng, padded, &mut out, start, numbers_of(&event));
            // Near the front as often as anywhere.
            let length = (out.len() - start) as u64;
            let near = length.min(rng.pick(&[6, 20, length]));
            out.truncate(start + 1 + rng.below(near - 1) as usize);
            return out;
        }
    }
    for _ in 0..rng.pick(&[0, 0, 1, 20]) {
        out.push(rng.next() as u8);
    }
    out
}

/// Mostly the trace as it is; else cut short, a byte changed, or bytes put in.
fn spoil(rng: &mut Rng, mut out: Vec<u8>) -> Vec<u8> {
    let at = rng.below(out.len() as u64) as usize;
    match rng.below(12) {
        0 | 1 => out.truncate(at),
        2 => out[at] = rng.next() as u8,
        3 => out[at] ^= 0x80,
        4 => out.extend([8, 0]),
        5 => out.extend((0..rng.below(12)).map(|_| 0x80)),
        _ => {}
    }
    out
}
