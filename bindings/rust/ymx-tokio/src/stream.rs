//! One stream, as tokio's traits have it, and with the feature `futures` as those of the crate of that name.

use crate::{Shared, State, Waits};
use std::io;
use std::pin::Pin;
use std::sync::Arc;
use std::task::{Context, Poll};
use tokio::io::{AsyncRead, AsyncWrite, ReadBuf};
use ymx::{Got, Next};

/// One stream.
///
/// At the peer's end it reads 0 bytes. A reset is `ConnectionReset`, and a connection that ends before the stream
/// `ConnectionAborted`, whose inner error is an [`Ended`](crate::Ended). `shutdown` ends this side. Dropped without it, the
/// stream is reset, both ways: nobody has said that what was written is whole.
///
/// `flush` and `shutdown` return once what was written, and with `shutdown` the end, has gone to what the connection runs
/// over. A `flush` or `shutdown` that has failed fails again.
#[derive(Debug)]
pub struct Stream {
    shared: Arc<Shared>,
    id: u32,
    is_finished: bool,
}

impl Stream {
    pub(crate) fn new(shared: &Arc<Shared>, id: u32) -> Stream {
        Stream {
            shared: Arc::clone(shared),
            id,
            is_finished: false,
        }
    }

    /// The stream's number on the wire.
    pub fn id(&self) -> u32 {
        self.id
    }

    fn poll_get(&mut self, context: &mut Context<'_>, buffer: &mut [u8]) -> Poll<io::Result<usize>> {
        let mut state = self.shared.lock();
        match state.session.read(self.id, buffer) {
            Ok(Got::Bytes(count)) => {
                state.notify_if_due(); // there may be credit to send
                return Poll::Ready(Ok(count));
            }
            Ok(Got::End) => return Poll::Ready(Ok(0)),
            Err(refused) if refused.name() != "LOST" => return Poll::Ready(Err(refused.into())),
            Ok(Got::Wait) | Err(_) => state.check()?,
        }
        state.streams.entry(self.id).or_default().reader = Some(context.waker().clone());
        state.notify_if_due(); // the peer may wait to hear that the stream was accepted
        Poll::Pending
    }

    fn poll_put(&mut self, context: &mut Context<'_>, bytes: &[u8]) -> Poll<io::Result<usize>> {
        let mut state = self.shared.lock();
        state.check()?;
        let count = match state.session.write(self.id, bytes)? {
            Some(count) => count,
            None => {
                state.streams.entry(self.id).or_default().writer = Some(context.waker().clone());
                return Poll::Pending;
            }
        };
        state.written(self.id);
        state.notify();
        Poll::Ready(Ok(count))
    }

    fn poll_gone(&mut self, context: &mut Context<'_>) -> Poll<io::Result<()>> {
        let mut state = self.shared.lock();
        if !state.has_gone(self.id) && state.over.is_none() {
            state.note_flush(self.id);
            drop(state);
            self.shared.push();
            state = self.shared.lock();
        }
        if state.has_gone(self.id) {
            state.promised = state.went;
            return Poll::Ready(Ok(()));
        }
        if state.session.is_reset(self.id) && !state.is_noted(self.id) {
            state.session.reset(self.id)?; // which says that it was reset
        }
        state.check()?;
        state.streams.entry(self.id).or_default().writer = Some(context.waker().clone());
        state.note_flush(self.id);
        state.notify();
        Poll::Pending
    }

    fn poll_end(&mut self, context: &mut Context<'_>) -> Poll<io::Result<()>> {
        if !self.is_finished {
            let mut state = self.shared.lock();
            state.check()?; // an end that still got out would be taken for a good one
            state.session.finish(self.id)?;
            state.written(self.id).is_finished = true;
            state.note_flush(self.id); // the task may send the end right now, and the peer answer it by a reset
            drop(state);
            self.is_finished = true;
        }
        self.poll_gone(context)
    }
}

impl State {
    /// There is more of this stream to go.
    fn written(&mut self, id: u32) -> &mut Waits {
        let waits = self.streams.entry(id).or_default();
        waits.goes_with = None;
        waits
    }

    /// Whether all that was written to a stream has gone, and its end too if it was finished.
    pub(crate) fn has_gone(&mut self, id: u32) -> bool {
        self.note_block(id);
        let block = self.streams.get(&id).and_then(|waits| waits.goes_with);
        block.map_or(false, |block| block <= self.gone)
    }

    /// Whether all of it has been emitted, so that a reset comes too late.
    fn is_noted(&self, id: u32) -> bool {
        self.streams.get(&id).map_or(false, |waits| waits.goes_with.is_some())
    }

    /// Somebody waits until what was written to a stream has gone.
    fn note_flush(&mut self, id: u32) {
        if !self.flushing.contains(&id) {
            self.flushing.push(id);
        }
    }

    /// Notes with which block the last byte of a stream goes, once that is emitted. A reset that comes later changes nothing.
    pub(crate) fn note_block(&mut self, id: u32) {
        let waits = match self.streams.get_mut(&id) {
            Some(waits) if waits.goes_with.is_none() => waits,
            _ => return, // it is known, or the stream was dropped meanwhile
        };
        let (next, is_rest) = self.session.next_of(id);
        let is_due = match next {
            Some(Next::First) => true,
            next => waits.is_finished && next.is_some(),
        };
        // a session that broke emits no end any more
        let is_cut = self.session.is_reset(id) || waits.is_finished && self.session.fault().is_some();
        if !is_due && !is_cut && self.session.unsent(id) == 0 {
            waits.goes_with = Some(self.emitted + u64::from(is_rest)); // the rest of a frame begins the next block
        }
    }
}

impl AsyncRead for Stream {
    fn poll_read(
        mut self: Pin<&mut Self>,
        context: &mut Context<'_>,
        buffer: &mut ReadBuf<'_>,
    ) -> Poll<io::Result<()>> {
        let got = self.poll_get(context, buffer.initialize_unfilled());
        got.map_ok(|count| buffer.advance(count))
    }
}

impl AsyncWrite for Stream {
    fn poll_write(mut self: Pin<&mut Self>, context: &mut Context<'_>, bytes: &[u8]) -> Poll<io::Result<usize>> {
        self.poll_put(context, bytes)
    }

    fn poll_flush(mut self: Pin<&mut Self>, context: &mut Context<'_>) -> Poll<io::Result<()>> {
        self.poll_gone(context)
    }

    fn poll_shutdown(mut self: Pin<&mut Self>, context: &mut Context<'_>) -> Poll<io::Result<()>> {
        self.poll_end(context)
    }
}

#[cfg(feature = "futures")]
impl futures_io::AsyncRead for Stream {
    fn poll_read(mut self: Pin<&mut Self>, context: &mut Context<'_>, buffer: &mut [u8]) -> Poll<io::Result<usize>> {
        self.poll_get(context, buffer)
    }
}

#[cfg(feature = "futures")]
impl futures_io::AsyncWrite for Stream {
    fn poll_write(mut self: Pin<&mut Self>, context: &mut Context<'_>, bytes: &[u8]) -> Poll<io::Result<usize>> {
        self.poll_put(context, bytes)
    }

    fn poll_flush(mut self: Pin<&mut Self>, context: &mut Context<'_>) -> Poll<io::Result<()>> {
        self.poll_gone(context)
    }

    fn poll_close(mut self: Pin<&mut Self>, context: &mut Context<'_>) -> Poll<io::Result<()>> {
        self.poll_end(context)
    }
}

impl Drop for Stream {
    fn drop(&mut self) {
        let mut state = self.shared.lock();
        if self.is_finished {
            state.streams.entry(self.id).or_default().is_dropped = true;
        } else {
            let _ = state.session.reset(self.id);
        }
        state.tidy(self.id, false);
        state.opening.wake();
        state.notify_if_due();
    }
}
