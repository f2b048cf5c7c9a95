// Loops over the original's handlers for calls.c, as a module of its connection.rs. Each makes a server's connection, lets the remote open
// `streams` streams, does n events, and gives how many went as they should.
use super::{Action, Active, Mode, Stream};
use crate::frame::header::{Header, StreamId};
use crate::frame::Frame;
use crate::Config;
use futures::io::{AsyncRead, AsyncWrite, Cursor};
use futures::StreamExt;
use std::pin::Pin;
use std::task::{Context, Poll};

// No loop polls the socket.
type Connection = Active<Cursor<Vec<u8>>>;

// Events of each stream before the n that count, so that its queues and channels have their memory.
const WARM: u64 = 2;

// The credit that each stream is opened with, enough for every write.
const CREDIT: u32 = 2_000_000_000;

fn id(stream: usize) -> StreamId {
    StreamId::new(2 * stream as u32 + 1)
}

// Takes what the streams have sent off their channels, as a poll of the connection does; how many streams were dropped with a frame to say so.
fn take_sent(c: &mut Connection, cx: &mut Context<'_>) -> u64 {
    let mut dropped = 0;
    while let Poll::Ready(Some((id, command))) = c.stream_receivers.poll_next_unpin(cx) {
        if command.is_none() {
            dropped += c.on_drop_stream(id).is_some() as u64;
        }
    }
    dropped
}

// event(connection, handles, context, stream, i): 1 where it went as it should.
fn run(
    streams: usize,
    n: u64,
    mut event: impl FnMut(&mut Connection, &mut [Stream], &mut Context<'_>, usize, u64) -> u64,
) -> u64 {
    let waker = futures::task::noop_waker();
    let mut cx = Context::from_waker(&waker);
    let mut config = Config::default();
    config.set_max_num_streams(512);
    // The first ping is due at the time at which the connection is made: all events are before it.
    web_time::set_now(1);
    let mut c = Active::new(Cursor::new(Vec::new()), config, Mode::Server);
    web_time::set_now(0);
    let mut handles = Vec::new();
    for stream in 0..streams {
        let mut header = Header::window_update(id(stream), CREDIT);
        header.syn();
        match c.on_frame(Frame::new(header).into()) {
            Ok(Action::New(handle)) => handles.push(handle),
            _ => return 0,
        }
    }
    let mut count = 0;
    let mut stream = 0;
    for i in 0..n + WARM * streams as u64 {
        count += event(&mut c, &mut handles, &mut cx, stream, i);
        stream += 1;
        if stream == streams {
            stream = 0;
        }
    }
    count
}

#[no_mangle]
pub extern "C" fn rust_update(streams: usize, _: usize, n: u64) -> u64 {
    run(streams, n, |c, _, _, stream, _| {
        c.on_frame(Frame::new(Header::window_update(id(stream), 1)).into()).is_ok() as u64
    })
}

#[no_mangle]
pub extern "C" fn rust_data(streams: usize, len: usize, n: u64) -> u64 {
    let body = vec![7u8; len];
    let mut out = vec![0u8; len];
    run(streams, n, |c, handles, cx, stream, i| {
        let taken = c.on_frame(Frame::data(id(stream), body.clone()).unwrap().into()).is_ok();
        let read = Pin::new(&mut handles[stream]).poll_read(cx, &mut out);
        if i % 8 == 0 {
            take_sent(c, cx);
        }
        (taken && matches!(read, Poll::Ready(Ok(n)) if n == len)) as u64
    })
}

#[no_mangle]
pub extern "C" fn rust_write(streams: usize, len: usize, n: u64) -> u64 {
    let body = vec![7u8; len];
    run(streams, n, |c, handles, cx, stream, i| {
        let written = Pin::new(&mut handles[stream]).poll_write(cx, &body);
        if i % 8 == 0 {
            take_sent(c, cx);
        }
        matches!(written, Poll::Ready(Ok(n)) if n == len) as u64
    })
}

#[no_mangle]
pub extern "C" fn rust_tick(streams: usize, _: usize, n: u64) -> u64 {
    run(streams, n, |c, _, _, _, _| c.rtt.next_ping().is_none() as u64)
}

#[no_mangle]
pub extern "C" fn rust_open(streams: usize, _: usize, n: u64) -> u64 {
    run(streams, n, |c, _, cx, _, _| {
        let opened = c.poll_new_outbound(cx);
        let done = matches!(opened, Poll::Ready(Ok(_)));
        drop(opened);
        done as u64 * take_sent(c, cx)
    })
}
