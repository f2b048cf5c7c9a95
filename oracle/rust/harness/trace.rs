//! The trace reader: numbers, settings and events as document 01 has them.

use super::{unsupported, Options, Stop, CREDIT, TOP_TIME};
use crate::connection::Mode;
use crate::frame::header::HEADER_SIZE;
use crate::Config;
use std::io::{BufRead, ErrorKind};

pub(super) enum Event {
    Tick,
    Frame(Vec<u8>),
    Open,
    Read(u64, usize),
    Write(u64, Vec<u8>),
    Close(u64),
    Drop(u64),
    Gone,
}

pub(super) struct Input<R> {
    rest: R,
    /// Bound on counts and bodies.
    bound: u64,
    /// Bytes taken.
    taken: u64,
    /// Where the settings or the last event starts.
    pub(super) start: u64,
}

impl<R: BufRead> Input<R> {
    pub(super) fn new(rest: R, bound: u64) -> Self {
        Input { rest, bound, taken: 0, start: 0 }
    }

    fn fill(&mut self, to: &mut [u8]) -> Result<(), Stop> {
        match self.rest.read_exact(to) {
            Err(e) if e.kind() == ErrorKind::UnexpectedEof => Err(Stop::Bad),
            done => {
                self.taken += to.len() as u64;
                Ok(done.expect("the trace"))
            }
        }
    }

    fn bytes(&mut self, n: usize) -> Result<Vec<u8>, Stop> {
        let mut bytes = vec![0; n];
        self.fill(&mut bytes)?;
        Ok(bytes)
    }

    fn byte(&mut self) -> Result<u8, Stop> {
        let mut byte = [0];
        self.fill(&mut byte)?;
        Ok(byte[0])
    }

    fn number(&mut self) -> Result<u64, Stop> {
        let mut value = 0;
        let mut shift = 0;
        loop {
            let b = self.byte()?;
            let group = u64::from(b & 0x7f);
            if shift == 63 && (group > 1 || b & 0x80 != 0) {
                return Err(Stop::Bad); // an eleventh group, or 2^64 and above
            }
            value |= group << shift;
            if b & 0x80 == 0 {
                return Ok(value);
            }
            shift += 7;
        }
    }

    fn count(&mut self) -> Result<usize, Stop> {
        match self.number()? {
            n if n <= self.bound => Ok(n as usize),
            _ => Err(Stop::Bad),
        }
    }

    /// The next event, `None` at the end of the trace.
    pub(super) fn event(&mut self) -> Result<Option<(u64, Event)>, Stop> {
        if self.rest.fill_buf().expect("the trace").is_empty() {
            return Ok(None);
        }
        self.start = self.taken;
        let kind = self.number()?;
        if kind > 7 {
            return Err(Stop::Bad);
        }
        let time = self.number()?;
        let event = match kind {
            0 => Event::Tick,
            1 => {
                let mut bytes = self.bytes(HEADER_SIZE)?;
                if bytes[1] == 0 {
                    let n = u32::from_be_bytes([bytes[8], bytes[9], bytes[10], bytes[11]]);
                    if u64::from(n) > self.bound {
                        return Err(Stop::Bad);
                    }
                    bytes.extend(self.bytes(n as usize)?);
                }
                Event::Frame(bytes)
            }
            2 => Event::Open,
            3 => Event::Read(self.number()?, self.count()?),
            4 => {
                let slot = self.number()?;
                let n = self.count()?;
                Event::Write(slot, self.bytes(n)?)
            }
            5 => Event::Close(self.number()?),
            6 => Event::Drop(self.number()?),
            _ => Event::Gone,
        };
        Ok(Some((time, event)))
    }
}

pub(super) struct Settings {
    pub(super) mode: Mode,
    streams: usize,
    limit: u64,
    read_after_close: bool,
    split: usize,
    pub(super) interval: u64,
    pub(super) first_time: u64,
    pub(super) first_id: u32,
    pub(super) slots: usize,
    pub(super) pool: u64,
}

impl Settings {
    pub(super) fn read(input: &mut Input<impl BufRead>, options: &Options) -> Result<Self, Stop> {
        let mut n = [0; 10];
        for x in &mut n {
            *x = input.number()?;
        }
        let [mode, streams, limit, rac, split, interval, first_time, first_id, slots, pool] = n;
        let (top_slots, top_pool) = match options.wide {
            false => (300, 16_384),
            true => (1_024, u64::from(u32::MAX)),
        };
        let good = mode <= 1
            && streams <= 512
            && limit >= streams * CREDIT
            && rac <= 1
            && (1..=u64::from(u32::MAX)).contains(&split)
            && (1..=TOP_TIME).contains(&interval)
            && first_time <= TOP_TIME
            && first_id <= u64::from(u32::MAX)
            && (1..=top_slots).contains(&slots)
            && slots >= streams
            && pool <= top_pool;
        if !good {
            return unsupported("settings, reply 21 to 30");
        }
        Ok(Settings {
            mode: if mode == 0 { Mode::Client } else { Mode::Server },
            streams: streams as usize,
            limit,
            read_after_close: rac == 1,
            split: split as usize,
            interval,
            first_time,
            first_id: first_id as u32,
            slots: slots as usize,
            pool,
        })
    }

    pub(super) fn config(&self) -> Config {
        let mut c = Config::default();
        c.set_max_connection_receive_window(None)
            .set_max_num_streams(self.streams)
            .set_read_after_close(self.read_after_close)
            .set_split_send_size(self.split);
        if self.limit != u64::MAX {
            c.set_max_connection_receive_window(Some(self.limit as usize));
        }
        c
    }
}
