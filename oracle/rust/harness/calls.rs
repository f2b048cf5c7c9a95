//! The events as calls of the original.

use super::{header, surprise, unsupported, Answer, Event, Run, Stop, Tag, Who};
use futures::io::{AsyncRead, AsyncWrite};
use std::io;
use std::pin::Pin;
use std::task::{Context, Poll};

impl Run {
    pub(super) fn call(&mut self, event: Event) -> Result<Answer, Stop> {
        match event {
            Event::Tick => self.tick(),
            Event::Frame(bytes) => self.frame(bytes),
            Event::Open => self.open(),
            Event::Read(slot, n) => self.read(self.slot(slot)?, n),
            Event::Write(slot, bytes) => self.write(self.slot(slot)?, &bytes),
            Event::Close(slot) => self.close(self.slot(slot)?),
            Event::Drop(slot) => self.drop_handle(self.slot(slot)?),
            Event::Gone => self.gone(),
        }
    }

    fn tick(&mut self) -> Result<Answer, Stop> {
        let s = self.settle()?;
        if !s.new.is_empty() || s.sent.len() > 1 {
            return surprise("a tick made a stream or sent more than one frame");
        }
        if let Some(e) = s.over {
            return Self::refusal(e);
        }
        let mut a = Answer::default();
        if let Some(f) = s.sent.first() {
            if f.tag != Tag::Ping || f.flags != header::SYN.val() || f.id != 0 {
                return surprise("a tick sent something else than a Ping SYN");
            }
            a.value = Some(f.length.into());
            a.header = Some(f.header);
        }
        Ok(a)
    }

    fn frame(&mut self, bytes: Vec<u8>) -> Result<Answer, Stop> {
        self.unread += bytes.len() as u64;
        self.pipe.0.borrow_mut().inbox.extend(bytes);
        let mut s = self.settle()?;
        let sent = Self::at_most_one(s.sent)?;
        if let Some(e) = s.over {
            if sent.is_some() || !s.new.is_empty() {
                return surprise("a frame that ended the connection gave something");
            }
            self.pipe.0.borrow_mut().inbox.clear();
            return Self::refusal(e);
        }
        let mut a = Answer::default();
        if s.new.len() > 1 {
            return surprise("one frame made two streams");
        }
        if let Some(stream) = s.new.pop() {
            a.value = Some(stream.id().val().into());
            a.slot = Some(self.hold(stream)?);
        }
        // Counted only where it may be too much.
        if self.unread > self.pool {
            self.unread = self.held.iter().flatten().map(|h| h.stream.shared().buffer.len() as u64).sum();
        }
        if self.unread > self.pool {
            return unsupported("body longer than the room, reply 8");
        }
        if let Some(f) = sent {
            if a.value.is_some() {
                return surprise("a frame that made a stream was answered");
            }
            a.reply = match f.tag {
                Tag::GoAway => 2,
                Tag::Ping => 0,
                _ => return surprise("a frame was answered by Data or WindowUpdate"),
            };
            a.value = Some(f.length.into());
            a.header = Some(f.header);
        }
        Ok(a)
    }

    fn open(&mut self) -> Result<Answer, Stop> {
        let waker = self.waker(Who::Open);
        let mut cx = Context::from_waker(&waker);
        let mut a = Answer::default();
        match self.connection.poll_new_outbound(&mut cx) {
            Poll::Ready(Ok(stream)) => {
                a.value = Some(stream.id().val().into());
                a.slot = Some(self.hold(stream)?);
            }
            Poll::Ready(Err(e)) => a = Self::refusal(Some(e))?,
            Poll::Pending => a.reply = 1,
        }
        if self.settle_after_call()?.is_some() {
            return surprise("an open sent a frame");
        }
        Ok(a)
    }

    fn read(&mut self, slot: usize, n: usize) -> Result<Answer, Stop> {
        let mut a = Answer { slot: Some(slot), ..Default::default() };
        let serial = self.held(slot).serial;
        let waker = self.waker(Who::Reader(serial));
        let mut cx = Context::from_waker(&waker);
        let mut buf = vec![0; n];
        match Pin::new(&mut self.held(slot).stream).poll_read(&mut cx, &mut buf) {
            Poll::Ready(Ok(n)) => {
                buf.truncate(n);
                a.value = Some(n as u64);
                a.bytes = buf;
            }
            Poll::Ready(Err(e)) => return surprise(format!("read: {e}")),
            Poll::Pending => a.reply = 1,
        }
        if let Some(f) = self.settle_after_call()? {
            if f.tag != Tag::WindowUpdate {
                return surprise("a read sent something else than a window update");
            }
            a.header = Some(f.header);
        }
        Ok(a)
    }

    fn write(&mut self, slot: usize, bytes: &[u8]) -> Result<Answer, Stop> {
        let mut a = Answer { slot: Some(slot), ..Default::default() };
        let serial = self.held(slot).serial;
        let waker = self.waker(Who::Writer(serial));
        let mut cx = Context::from_waker(&waker);
        let r = Pin::new(&mut self.held(slot).stream).poll_write(&mut cx, bytes);
        let sent = self.settle_after_call()?;
        match r {
            Poll::Ready(Ok(n)) => {
                let Some(f) = sent else { return surprise("a write sent no frame") };
                if f.tag != Tag::Data || f.body != bytes[..n] {
                    return surprise("a write's frame does not carry the bytes written");
                }
                a.value = Some(n as u64);
                a.header = Some(f.header);
                a.body = Some(f.body);
                return Ok(a);
            }
            Poll::Ready(Err(e)) if e.kind() == io::ErrorKind::WriteZero => {
                a.reply = 6;
                a.slot = None;
            }
            Poll::Ready(Err(e)) => return surprise(format!("write: {e}")),
            Poll::Pending => a.reply = 1,
        }
        if sent.is_some() {
            return surprise("a write that failed or waits sent a frame");
        }
        Ok(a)
    }

    fn close(&mut self, slot: usize) -> Result<Answer, Stop> {
        let serial = self.held(slot).serial;
        let waker = self.waker(Who::Closer(serial));
        let mut cx = Context::from_waker(&waker);
        match Pin::new(&mut self.held(slot).stream).poll_close(&mut cx) {
            Poll::Ready(Ok(())) => {}
            Poll::Ready(Err(e)) => return surprise(format!("close: {e}")),
            Poll::Pending => return surprise("a close waits"),
        }
        let header = self.settle_after_call()?.map(|f| f.header);
        Ok(Answer { slot: Some(slot), header, ..Default::default() })
    }

    fn drop_handle(&mut self, slot: usize) -> Result<Answer, Stop> {
        drop(self.held[slot].take());
        let header = self.settle_after_call()?.map(|f| f.header);
        Ok(Answer { slot: Some(slot), header, ..Default::default() })
    }

    fn gone(&mut self) -> Result<Answer, Stop> {
        self.pipe.0.borrow_mut().eof = true;
        let s = self.settle()?;
        if !s.new.is_empty() || Self::at_most_one(s.sent)?.is_some() {
            return surprise("the end of input gave something");
        }
        let Some(e) = s.over else { return surprise("the connection outlived its peer") };
        Self::refusal(e)
    }
}
