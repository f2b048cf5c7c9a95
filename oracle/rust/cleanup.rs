//! Stand-in for `connection/cleanup.rs`, which is not in the checkout.
//!
//! The connection has ended with an error and its table has been emptied by
//! `Active::cleanup`. What is left to do: close the receivers, so that the
//! streams see a closed channel, throw away what is still queued in them, and
//! hand on the error. Unlike a real executor's, this future is ready at once.

use super::StreamCommand;
use crate::frame::header::StreamId;
use crate::tagged_stream::TaggedStream;
use crate::ConnectionError;
use futures::channel::mpsc;
use futures::stream::SelectAll;
use futures::StreamExt;
use std::future::Future;
use std::pin::Pin;
use std::task::{Context, Poll};

pub(crate) struct Cleanup {
    receivers: SelectAll<TaggedStream<StreamId, mpsc::Receiver<StreamCommand>>>,
    error: Option<ConnectionError>,
}

impl Cleanup {
    pub(crate) fn new(
        receivers: SelectAll<TaggedStream<StreamId, mpsc::Receiver<StreamCommand>>>,
        error: ConnectionError,
    ) -> Self {
        Cleanup { receivers, error: Some(error) }
    }
}

impl Future for Cleanup {
    type Output = ConnectionError;

    fn poll(mut self: Pin<&mut Self>, cx: &mut Context<'_>) -> Poll<Self::Output> {
        for r in self.receivers.iter_mut() {
            r.inner_mut().close();
        }
        while let Poll::Ready(Some(_)) = self.receivers.poll_next_unpin(cx) {}
        Poll::Ready(self.error.take().expect("polled after completion"))
    }
}
