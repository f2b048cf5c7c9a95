//! Stand-in for `frame/io.rs`, which is not in the checkout.
//!
//! Frames in and out of a byte pipe, with the original `header::decode` and
//! `header::encode`. The body length check of the original is left behind by
//! the port: a Data frame is followed by as many body bytes as its header
//! says. Always ready for another frame.

use super::header::{self, HeaderDecodeError, Tag, HEADER_SIZE};
use super::Frame;
use crate::connection::Id;
use futures::io::{AsyncRead, AsyncWrite};
use futures::ready;
use futures::sink::Sink;
use futures::stream::Stream;
use std::pin::Pin;
use std::task::{Context, Poll};
use std::{fmt, io};

pub(crate) struct Io<T> {
    io: T,
    input: Vec<u8>,
    output: Vec<u8>,
}

impl<T: AsyncRead + AsyncWrite + Unpin> Io<T> {
    pub(crate) fn new(_id: Id, io: T) -> Self {
        Io { io, input: Vec::new(), output: Vec::new() }
    }

    /// Read until `n` bytes of the frame are there; false at the end of input.
    fn poll_fill(&mut self, cx: &mut Context<'_>, n: usize) -> Poll<io::Result<bool>> {
        while self.input.len() < n {
            let have = self.input.len();
            self.input.resize(n, 0);
            let got = Pin::new(&mut self.io).poll_read(cx, &mut self.input[have..]);
            let k = match &got {
                Poll::Ready(Ok(k)) => *k,
                _ => 0,
            };
            self.input.truncate(have + k);
            match ready!(got) {
                Ok(0) if have == 0 => return Poll::Ready(Ok(false)),
                Ok(0) => return Poll::Ready(Err(io::ErrorKind::UnexpectedEof.into())),
                Ok(_) => {}
                Err(e) => return Poll::Ready(Err(e)),
            }
        }
        Poll::Ready(Ok(true))
    }
}

impl<T: AsyncRead + AsyncWrite + Unpin> Stream for Io<T> {
    type Item = Result<Frame<()>, FrameDecodeError>;

    fn poll_next(mut self: Pin<&mut Self>, cx: &mut Context<'_>) -> Poll<Option<Self::Item>> {
        let this = &mut *self;
        if !ready!(this.poll_fill(cx, HEADER_SIZE))? {
            return Poll::Ready(None);
        }
        let mut head = [0; HEADER_SIZE];
        head.copy_from_slice(&this.input[..HEADER_SIZE]);
        let header = header::decode(&head)?;
        let body_len = match header.tag() {
            Tag::Data => header.len().val() as usize,
            _ => 0,
        };
        ready!(this.poll_fill(cx, HEADER_SIZE + body_len))?;
        let body = this.input.split_off(HEADER_SIZE);
        this.input.clear();
        Poll::Ready(Some(Ok(Frame { header, body })))
    }
}

impl<T: AsyncRead + AsyncWrite + Unpin> Sink<Frame<()>> for Io<T> {
    type Error = io::Error;

    fn poll_ready(self: Pin<&mut Self>, _: &mut Context<'_>) -> Poll<io::Result<()>> {
        Poll::Ready(Ok(()))
    }

    fn start_send(mut self: Pin<&mut Self>, f: Frame<()>) -> io::Result<()> {
        let head = header::encode(&f.header);
        self.output.extend_from_slice(&head);
        self.output.extend_from_slice(&f.body);
        Ok(())
    }

    fn poll_flush(mut self: Pin<&mut Self>, cx: &mut Context<'_>) -> Poll<io::Result<()>> {
        let this = &mut *self;
        while !this.output.is_empty() {
            let n = ready!(Pin::new(&mut this.io).poll_write(cx, &this.output))?;
            this.output.drain(..n);
        }
        Pin::new(&mut this.io).poll_flush(cx)
    }

    fn poll_close(self: Pin<&mut Self>, cx: &mut Context<'_>) -> Poll<io::Result<()>> {
        self.poll_flush(cx)
    }
}

/// Why the pipe gave no frame; the name is the one that the original frame.rs exports.
#[derive(Debug)]
pub enum FrameDecodeError {
    Io(io::Error),
    Header(HeaderDecodeError),
}

impl fmt::Display for FrameDecodeError {
    fn fmt(&self, f: &mut fmt::Formatter) -> fmt::Result {
        match self {
            FrameDecodeError::Io(e) => write!(f, "the pipe: {e}"),
            FrameDecodeError::Header(e) => write!(f, "the header: {e}"),
        }
    }
}

impl std::error::Error for FrameDecodeError {}

impl From<io::Error> for FrameDecodeError {
    fn from(e: io::Error) -> Self {
        FrameDecodeError::Io(e)
    }
}

impl From<HeaderDecodeError> for FrameDecodeError {
    fn from(e: HeaderDecodeError) -> Self {
        FrameDecodeError::Header(e)
    }
}
