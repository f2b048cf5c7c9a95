//! The socket and the wakers of the harness.

use futures::io::{AsyncRead, AsyncWrite};
use parking_lot::Mutex;
use std::cell::RefCell;
use std::collections::VecDeque;
use std::io::{self, Read};
use std::pin::Pin;
use std::rc::Rc;
use std::sync::Arc;
use std::task::{Context, Poll, Wake};

/// The socket: bytes put in by the harness, bytes written by the connection.
#[derive(Clone, Default)]
pub(super) struct Pipe(pub(super) Rc<RefCell<PipeInner>>);

#[derive(Default)]
pub(super) struct PipeInner {
    pub(super) inbox: VecDeque<u8>,
    pub(super) eof: bool,
    pub(super) outbox: Vec<u8>,
}

impl AsyncRead for Pipe {
    fn poll_read(self: Pin<&mut Self>, _: &mut Context<'_>, buf: &mut [u8]) -> Poll<io::Result<usize>> {
        let mut p = self.0.borrow_mut();
        if p.inbox.is_empty() && !p.eof {
            return Poll::Pending; // the harness polls again, no waker needed
        }
        Poll::Ready(p.inbox.read(buf))
    }
}

impl AsyncWrite for Pipe {
    fn poll_write(self: Pin<&mut Self>, _: &mut Context<'_>, buf: &[u8]) -> Poll<io::Result<usize>> {
        self.0.borrow_mut().outbox.extend_from_slice(buf);
        Poll::Ready(Ok(buf.len()))
    }

    fn poll_flush(self: Pin<&mut Self>, _: &mut Context<'_>) -> Poll<io::Result<()>> {
        Poll::Ready(Ok(()))
    }

    fn poll_close(self: Pin<&mut Self>, _: &mut Context<'_>) -> Poll<io::Result<()>> {
        Poll::Ready(Ok(()))
    }
}

/// Who would be woken. Streams have serial numbers that are never used again.
#[derive(Copy, Clone, Debug, PartialEq, Eq)]
pub(super) enum Who {
    Connection,
    Open,
    Reader(u64),
    Writer(u64),
    Closer(u64),
}

pub(super) type Log = Arc<Mutex<Vec<Who>>>;

pub(super) struct Recorder {
    pub(super) who: Who,
    pub(super) log: Log,
}

impl Wake for Recorder {
    fn wake(self: Arc<Self>) {
        self.log.lock().push(self.who)
    }
}
