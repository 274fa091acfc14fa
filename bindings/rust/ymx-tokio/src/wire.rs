//! What a connection runs over. Its task writes, and so does who waits until bytes have gone, where there is room at once.
//!
//! Only the task is woken by it: who else writes does so with the task's waker, and leaves the rest to it.

use std::any::Any;
use std::fmt;
use std::io::{self, ErrorKind};
use std::pin::Pin;
use std::sync::Mutex;
use std::task::{Context, Poll, Waker};
use std::time::{Duration, Instant};
use tokio::io::{AsyncRead, AsyncWrite};
use tokio::net::{tcp::OwnedWriteHalf, TcpStream};

const BLOCK: usize = 65_536;
/// How often the system is asked what is unacknowledged.
const ASKED: Duration = Duration::from_millis(1);
/// The ends of tasks that follow one another so closely are those of one runtime.
const APART: Duration = Duration::from_secs(1);

pub(crate) type Reader = Box<dyn AsyncRead + Send + Unpin>;

/// What a connection writes to. Of a socket the system can be asked what has gone.
pub(crate) enum Writer {
    Tcp(OwnedWriteHalf),
    Other(Box<dyn AsyncWrite + Send + Unpin>),
}

impl Writer {
    fn pinned(&mut self) -> Pin<&mut (dyn AsyncWrite + Send + Unpin)> {
        match self {
            Writer::Tcp(half) => Pin::new(half),
            Writer::Other(half) => Pin::new(&mut **half),
        }
    }
}

pub(crate) fn split<T: AsyncRead + AsyncWrite + Send + 'static>(over: T) -> (Reader, Writer) {
    let mut over = Some(over);
    let socket: Option<&mut Option<TcpStream>> = (&mut over as &mut dyn Any).downcast_mut();
    if let Some(socket) = socket.and_then(Option::take) {
        let (reader, writer) = socket.into_split();
        return (Box::new(reader), Writer::Tcp(writer));
    }
    let (reader, writer) = tokio::io::split(over.expect("it is no socket"));
    (Box::new(reader), Writer::Other(Box::new(writer)))
}

pub(crate) struct Wire {
    writer: Option<Writer>, // until the task ends
    task: Option<Waker>,    // once it has run
    block: Vec<u8>,
    from: usize, // of the block's bytes, the first that has not gone
    to: usize,
    is_flushed: bool,
    failed: Option<ErrorKind>,
    pub(crate) is_awaited: bool, // somebody waits until the block has gone
    pub(crate) written: u64,
}

impl fmt::Debug for Wire {
    fn fmt(&self, formatter: &mut fmt::Formatter<'_>) -> fmt::Result {
        formatter.debug_struct("Wire").field("written", &self.written).finish()
    }
}

impl Wire {
    pub(crate) fn new(writer: Writer) -> Wire {
        Wire {
            writer: Some(writer),
            task: None,
            block: vec![0; BLOCK],
            from: 0,
            to: 0,
            is_flushed: true,
            failed: None,
            is_awaited: false,
            written: 0,
        }
    }

    /// The waker of the task, with which anybody writes.
    pub(crate) fn task(&self) -> Option<Waker> {
        self.task.clone()
    }

    pub(crate) fn polled_by_task(&mut self, waker: &Waker) {
        if !self.task.as_ref().map_or(false, |task| task.will_wake(waker)) {
            self.task = Some(waker.clone());
        }
    }

    pub(crate) fn is_flushed(&self) -> bool {
        self.is_flushed
    }

    /// Whether all of the block has gone, and was flushed.
    pub(crate) fn has_gone(&self) -> bool {
        self.from == self.to && self.is_flushed
    }

    /// Has `fill` fill the block, of which all has gone.
    pub(crate) fn fill(&mut self, fill: impl FnOnce(&mut [u8]) -> usize) -> usize {
        self.from = 0;
        self.to = fill(&mut self.block);
        self.is_flushed &= self.to == 0;
        self.to
    }

    fn writer(&mut self) -> io::Result<&mut Writer> {
        match (self.failed, &mut self.writer) {
            (None, Some(writer)) => Ok(writer),
            (failed, _) => Err(failed.unwrap_or(ErrorKind::NotConnected).into()),
        }
    }

    /// Writes the rest of the block. What fails once fails again: an error that came to somebody else is the task's too.
    pub(crate) fn poll_write(&mut self, context: &mut Context<'_>) -> Poll<io::Result<()>> {
        while self.from < self.to {
            let rest = self.from..self.to;
            let block = std::mem::take(&mut self.block);
            let writer = self.writer();
            let put = writer.map(|writer| writer.pinned().poll_write(context, &block[rest]));
            self.block = block;
            let count = match put? {
                Poll::Pending => return Poll::Pending,
                Poll::Ready(Ok(0)) => return Poll::Ready(self.fail(ErrorKind::WriteZero.into())),
                Poll::Ready(Err(error)) => return Poll::Ready(self.fail(error)),
                Poll::Ready(Ok(count)) => count,
            };
            self.from += count;
            self.written += count as u64;
        }
        Poll::Ready(Ok(()))
    }

    pub(crate) fn poll_flush(&mut self, context: &mut Context<'_>) -> Poll<io::Result<()>> {
        match self.writer()?.pinned().poll_flush(context) {
            Poll::Pending => Poll::Pending,
            Poll::Ready(Err(error)) => Poll::Ready(self.fail(error)),
            Poll::Ready(Ok(())) => {
                self.is_flushed = true;
                Poll::Ready(Ok(()))
            }
        }
    }

    pub(crate) fn poll_shutdown(&mut self, context: &mut Context<'_>) -> Poll<io::Result<()>> {
        self.writer()?.pinned().poll_shutdown(context)
    }

    fn fail(&mut self, error: io::Error) -> io::Result<()> {
        self.failed = Some(error.kind());
        Err(error)
    }

    /// The task ends: nobody reads or writes any more.
    pub(crate) fn close(&mut self) -> Option<Writer> {
        self.writer.take()
    }
}

/// Closes what a connection ran over as the runtime ends. A socket that is closed with bytes unread resets its peer, and the
/// system drops what the peer's has not acknowledged. So this waits, within `limit`, until that is at most the `unpromised`
/// bytes that went last.
pub(crate) fn see_off(writer: &Option<Writer>, unpromised: u64, limit: Duration) {
    let socket = match writer {
        Some(Writer::Tcp(half)) => half.as_ref(),
        _ => return,
    };
    let is_awaited = || unacknowledged(socket) > unpromised && matches!(socket.take_error(), Ok(None));
    if is_awaited() {
        let until = end_of_waiting(limit);
        while is_awaited() && Instant::now() < until {
            std::thread::sleep(ASKED);
        }
    }
}

/// Until when those wait that end now: all those of one runtime together for no longer than `limit`, as one may end after
/// another.
fn end_of_waiting(limit: Duration) -> Instant {
    static UNTIL: Mutex<Option<Instant>> = Mutex::new(None);
    let now = Instant::now();
    let mut until = UNTIL.lock().unwrap_or_else(|poisoned| poisoned.into_inner());
    let chosen = until.filter(|until| now < *until + APART).unwrap_or(now + limit);
    *until = Some(chosen);
    chosen
}

/// How many of the bytes that were written to a socket the peer's system has not acknowledged.
#[cfg(target_os = "linux")]
fn unacknowledged(socket: &TcpStream) -> u64 {
    use std::os::unix::io::AsRawFd;
    let mut count: libc::c_int = 0;
    // SAFETY: the descriptor is open, and the call writes one int
    let failed = unsafe { libc::ioctl(socket.as_raw_fd(), libc::TIOCOUTQ, &mut count) } != 0;
    if failed {
        return 0;
    }
    u64::try_from(count).unwrap_or(0)
}

/// Other systems aren't asked.
#[cfg(not(target_os = "linux"))]
fn unacknowledged(_socket: &TcpStream) -> u64 {
    0
}
