//! The oracle: runs a `replay` trace (document 01) on the original code and prints one line for each event.
//!
//! It drives the original `Connection` (`poll_next_inbound`, `poll_new_outbound`) and `Stream` (`poll_read`,
//! `poll_write`, `poll_close`, drop). Every answer is what that code did: the result of the call, the bytes that
//! came out of the pipe, the wakers that were woken, the streams that were handed out. The rules of document 01 are
//! not repeated here, but for the format, the slots, and the tests that tell that a run left the domain on which the
//! two can be compared (`unsupported`).

mod calls;
mod pipe;
mod trace;

use super::{Active, Connection, ConnectionState, Stream};
use crate::frame::header::{self, Tag, HEADER_SIZE};
use crate::frame::FrameDecodeError;
use crate::{ConnectionError, HeaderDecodeError};
use parking_lot::Mutex;
use pipe::{Log, Pipe, Recorder, Who};
use std::any::Any;
use std::fmt::Write as _;
use std::io;
use std::panic::{catch_unwind, AssertUnwindSafe};
use std::sync::Arc;
use std::task::{Context, Poll, Waker};
use trace::{Event, Input, Settings};

const ALLOWANCE: u64 = 1_000_000;
const TOP_TIME: u64 = (1 << 62) - 1;
const CREDIT: u64 = crate::DEFAULT_CREDIT as u64;

/// Settings of the harness that no trace has.
#[derive(Clone, Copy, Default)]
pub struct Options {
    /// The bounds of the library in place of `replay`'s, and bodies up to 2^24.
    pub wide: bool,
    /// The first own stream id.
    pub next_id: Option<u32>,
    /// A line `body HEX` after that of each written frame.
    pub bodies: bool,
    /// The last line alone.
    pub quiet: bool,
}

/// Why the run stops before its end.
enum Stop {
    /// The trace is unreadable.
    Bad,
    /// The run left the domain on which the Rust and document 01 are compared.
    Unsupported(String),
    /// The original did what the harness has no line for.
    Surprise(String),
}

fn surprise<T>(s: impl Into<String>) -> Result<T, Stop> {
    Err(Stop::Surprise(s.into()))
}

fn unsupported<T>(s: impl Into<String>) -> Result<T, Stop> {
    Err(Stop::Unsupported(s.into()))
}

struct Held {
    serial: u64,
    stream: Stream,
}

/// A frame that came out of the pipe.
struct Sent {
    header: [u8; HEADER_SIZE],
    tag: Tag,
    flags: u16,
    id: u32,
    length: u32,
    body: Vec<u8>,
}

/// What one event gave.
#[derive(Default)]
struct Answer {
    reply: u8,
    slot: Option<usize>,
    value: Option<u64>,
    header: Option<[u8; HEADER_SIZE]>,
    bytes: Vec<u8>,
    /// The body of a written frame.
    body: Option<Vec<u8>>,
}

/// What polling the connection until nothing moved gave.
struct Settled {
    new: Vec<Stream>,
    /// The connection is over; the error if one was given.
    over: Option<Option<ConnectionError>>,
    sent: Vec<Sent>,
}

struct Run {
    connection: Connection<Pipe>,
    pipe: Pipe,
    held: Vec<Option<Held>>,
    pool: u64,
    /// At least the unread bytes.
    unread: u64,
    growth: Arc<Mutex<usize>>,
    log: Log,
    /// The connection's.
    waker: Waker,
    serial: u64,
}

impl Run {
    fn new(s: &Settings, next_id: Option<u32>) -> Self {
        // `Rtt::new` takes the time of the first ping from the clock.
        web_time::set_now(s.first_time);
        web_time::set_ping_interval(s.interval);
        let pipe = Pipe::default();
        let mut connection = Connection::new(pipe.clone(), s.config(), s.mode);
        let ConnectionState::Active(active) = &mut connection.inner else { unreachable!() };
        active.rtt.oracle_set_next_id(s.first_id);
        if let Some(id) = next_id {
            active.next_id = id;
        }
        let growth = active.accumulated_max_stream_windows.clone();
        let held = (0..s.slots).map(|_| None).collect();
        let log = Log::default();
        let waker = Waker::from(Arc::new(Recorder { who: Who::Connection, log: log.clone() }));
        Run { connection, pipe, held, pool: s.pool, unread: 0, growth, log, waker, serial: 0 }
    }

    fn active(&self) -> Option<&Active<Pipe>> {
        match &self.connection.inner {
            ConnectionState::Active(a) => Some(a),
            _ => None,
        }
    }

    fn waker(&self, who: Who) -> Waker {
        Waker::from(Arc::new(Recorder { who, log: self.log.clone() }))
    }

    /// Poll the connection until it neither gives anything nor asks for more.
    fn settle(&mut self) -> Result<Settled, Stop> {
        let waker = self.waker.clone();
        let mut cx = Context::from_waker(&waker);
        let mut new = Vec::new();
        let over = loop {
            self.log.lock().retain(|w| *w != Who::Connection);
            match self.connection.poll_next_inbound(&mut cx) {
                Poll::Ready(Some(Ok(s))) => new.push(s),
                Poll::Ready(Some(Err(e))) => break Some(Some(e)),
                Poll::Ready(None) => break Some(None),
                Poll::Pending if self.log.lock().contains(&Who::Connection) => {}
                Poll::Pending => break None,
            }
        };
        self.log.lock().retain(|w| *w != Who::Connection);
        if over.is_none() && !self.pipe.0.borrow().inbox.is_empty() {
            return surprise("the connection left input unread");
        }
        let sent = self.take_sent()?;
        Ok(Settled { new, over, sent })
    }

    /// The frames that came out of the pipe.
    fn take_sent(&mut self) -> Result<Vec<Sent>, Stop> {
        let bytes = std::mem::take(&mut self.pipe.0.borrow_mut().outbox);
        let mut rest = &bytes[..];
        let mut sent = Vec::new();
        while let Some((head, tail)) = rest.split_first_chunk::<HEADER_SIZE>() {
            let Ok(h) = header::decode(head) else {
                return surprise("a frame sent has a header that cannot be decoded");
            };
            let n = if h.tag() == Tag::Data { h.len().val() as usize } else { 0 };
            let Some((body, tail)) = tail.split_at_checked(n) else {
                return surprise("a frame sent has a body shorter than its length");
            };
            rest = tail;
            sent.push(Sent {
                header: *head,
                tag: h.tag(),
                flags: h.flags().val(),
                id: h.stream_id().val(),
                length: h.len().val(),
                body: body.to_vec(),
            });
        }
        if !rest.is_empty() {
            return surprise("less than a header was sent");
        }
        Ok(sent)
    }

    /// Settle after a call that must not give a stream or end the connection.
    fn settle_after_call(&mut self) -> Result<Option<Sent>, Stop> {
        let before = self.active().is_some();
        let s = self.settle()?;
        if !s.new.is_empty() || (s.over.is_some() && before) {
            return surprise("a stream was made or the connection ended by a local call");
        }
        Self::at_most_one(s.sent)
    }

    /// The frame sent by an event that is no tick.
    fn at_most_one(mut sent: Vec<Sent>) -> Result<Option<Sent>, Stop> {
        if sent.iter().any(|s| s.tag == Tag::Ping && s.flags & header::ACK.val() == 0) {
            return unsupported("a ping was due: no tick at the same time precedes this event");
        }
        if sent.len() > 1 {
            return surprise("more than one frame sent");
        }
        Ok(sent.pop())
    }

    /// Take the lowest free slot.
    fn hold(&mut self, stream: Stream) -> Result<usize, Stop> {
        let Some(slot) = self.held.iter().position(Option::is_none) else {
            return unsupported("all slots in use, reply 7");
        };
        self.serial += 1;
        self.held[slot] = Some(Held { serial: self.serial, stream });
        Ok(slot)
    }

    fn slot(&self, n: u64) -> Result<usize, Stop> {
        match usize::try_from(n).ok().and_then(|n| self.held.get(n)) {
            Some(Some(_)) => Ok(n as usize),
            _ => unsupported("handle not held, reply 9"),
        }
    }

    fn held(&mut self, slot: usize) -> &mut Held {
        self.held[slot].as_mut().expect("slot was tested")
    }

    /// The reply for an error that the connection gave.
    fn refusal(e: Option<ConnectionError>) -> Result<Answer, Stop> {
        let reply = match e {
            None | Some(ConnectionError::Closed) => 5,
            Some(ConnectionError::TooManyStreams) => 3,
            Some(ConnectionError::NoMoreStreamIds) => 4,
            Some(ConnectionError::Decode(FrameDecodeError::Header(HeaderDecodeError::Version(_)))) => 11,
            Some(ConnectionError::Decode(FrameDecodeError::Header(HeaderDecodeError::Type(_)))) => 12,
            Some(e) => return surprise(format!("connection error: {e}")),
        };
        Ok(Answer { reply, ..Default::default() })
    }

    /// Run one event and write its line, without the number; none where the run is quiet.
    fn event(&mut self, time: u64, event: Event, options: &Options) -> Result<String, Stop> {
        if time > TOP_TIME {
            return unsupported("time above 2^62-1, reply 10");
        }
        web_time::set_now(time);
        self.log.lock().clear();
        let was_active = self.active().is_some();
        let is_frame = matches!(event, Event::Frame(_));
        let mut a = self.call(event)?;
        let log = std::mem::take(&mut *self.log.lock());
        let wakes = if was_active && self.active().is_none() { "a".into() } else { self.wakes(log, is_frame, &mut a)? };
        if options.quiet {
            return Ok(String::new());
        }
        let mut line = format!(
            "{} {} {} {} {} {}",
            a.reply,
            or_dash(a.slot.map(|s| s.to_string())),
            or_dash(a.value.map(|v| v.to_string())),
            or_dash(a.header.map(|h| hex(&h))),
            or_dash(Some(wakes)),
            or_dash(Some(hex(&a.bytes))),
        );
        if let (true, Some(body)) = (options.bodies, a.body) {
            let _ = write!(line, "\nbody {}", or_dash(Some(hex(&body))));
        }
        Ok(line)
    }

    /// The letters of the wakers woken; a frame's answer gets the slot of the stream woken.
    fn wakes(&self, log: Vec<Who>, is_frame: bool, a: &mut Answer) -> Result<String, Stop> {
        let mut woken = None;
        let mut marks = [false; 3];
        for who in log {
            let (k, serial) = match who {
                Who::Reader(s) => (0, Some(s)),
                Who::Writer(s) => (1, Some(s)),
                Who::Open => (2, None),
                Who::Closer(_) | Who::Connection => return surprise("an unknown wake"),
            };
            if marks[k] {
                return surprise("a waker was woken twice");
            }
            marks[k] = true;
            if serial.is_some_and(|s| woken.is_some_and(|w| w != s)) {
                return surprise("two streams woken by one event");
            }
            woken = serial.or(woken);
        }
        if let (true, Some(serial)) = (is_frame, woken) {
            let is_woken = |h: &Option<Held>| h.as_ref().is_some_and(|h| h.serial == serial);
            let slot = self.held.iter().position(is_woken);
            if slot.is_none() || a.slot.is_some() {
                return surprise("a frame woke a stream without a handle, or made one too");
            }
            a.slot = slot;
        }
        Ok("rwo".chars().zip(marks).filter(|x| x.1).map(|x| x.0).collect())
    }
}

fn or_dash(s: Option<String>) -> String {
    s.filter(|s| !s.is_empty()).unwrap_or("-".into())
}

fn hex(bytes: &[u8]) -> String {
    let digit = |d: u8| b"0123456789abcdef"[usize::from(d)];
    let digits = bytes.iter().flat_map(|b| [digit(b >> 4), digit(b & 15)]).collect();
    String::from_utf8(digits).expect("digits")
}

fn panic_text(p: &(dyn Any + Send)) -> String {
    let s = match (p.downcast_ref::<String>(), p.downcast_ref::<&str>()) {
        (Some(s), _) => s,
        (_, Some(s)) => *s,
        _ => "?",
    };
    s.replace('\n', " ")
}

/// The lines of a trace, as one text.
pub fn run(bytes: &[u8], options: &Options) -> String {
    let mut out = Vec::new();
    run_into(bytes, options, &mut out).expect("memory");
    String::from_utf8(out).expect("lines")
}

/// Writes the lines of a trace. The last is `end` or `bad` as `replay` has it, or says `oracle-unsupported` or
/// `oracle-surprise`, the number of the event, and why.
pub fn run_into(trace: impl io::BufRead, options: &Options, out: &mut impl io::Write) -> io::Result<()> {
    let mut written = Ok(());
    let mut applied = 0;
    let mut input = Input::new(trace, if options.wide { 1 << 24 } else { 16_384 });
    let result = (|| {
        let settings = Settings::read(&mut input, options)?;
        let mut run = Run::new(&settings, options.next_id);
        while applied < ALLOWANCE {
            let Some((time, event)) = input.event()? else { break };
            let line = match catch_unwind(AssertUnwindSafe(|| run.event(time, event, options))) {
                Ok(line) => line?,
                Err(p) => {
                    std::mem::forget(run); // after a panic its drops could panic again
                    return surprise(format!("panic: {}", panic_text(&*p)));
                }
            };
            applied += 1;
            if !options.quiet && written.is_ok() {
                written = writeln!(out, "{applied} {line}");
            }
        }
        let growth = *run.growth.lock();
        Ok(growth)
    })();
    written?;
    match result {
        Ok(growth) => writeln!(out, "end {applied} {growth}"),
        Err(Stop::Bad) => writeln!(out, "bad {applied} {}", input.start),
        Err(Stop::Unsupported(s)) => writeln!(out, "oracle-unsupported {} {s}", applied + 1),
        Err(Stop::Surprise(s)) => writeln!(out, "oracle-surprise {} {s}", applied + 1),
    }
}
