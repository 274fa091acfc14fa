//! yamux over libymx for tokio. A [`Connection`] opens and accepts streams, each [`AsyncRead`] and [`AsyncWrite`]. One task
//! owns what it runs over, and moves the bytes.

/// As `std::task::ready`, which Rust 1.63 does not have.
macro_rules! ready {
    ($polled:expr) => {
        match $polled {
            std::task::Poll::Ready(value) => value,
            std::task::Poll::Pending => return std::task::Poll::Pending,
        }
    };
}

mod stream;
mod waiting;
mod wire;

pub use stream::Stream;
pub use ymx::{Ended, Fault, Refused, Role, LEAST_WINDOW, MOST_STREAMS, WIDEST_WINDOW};

use std::collections::BTreeMap;
use std::future::poll_fn;
use std::io::{self, ErrorKind};
use std::pin::Pin;
use std::sync::atomic::{AtomicBool, Ordering};
use std::sync::{Arc, Mutex, MutexGuard};
use std::task::{Context, Poll, Waker};
use std::time::Duration;
use tokio::io::{AsyncRead, AsyncReadExt, AsyncWrite};
use tokio::sync::Notify;
use tokio::time::{sleep, timeout, Instant, Sleep};
use waiting::{Waiters, Waiting};
use wire::{Reader, Wire, Writer};
use ymx::{Session, Touched};

const BLOCK: usize = 65_536;
const LINGER: Duration = Duration::from_secs(10);
/// For how long a peer may not hear that its stream was accepted, if nothing else is said of it.
const SOON: Duration = Duration::from_millis(20);
/// After how many of these, a second, memory goes back if nothing was due and there is no stream.
const LOOKS: u32 = 50;
/// For how long is read what has come, once nothing can be written any more.
const READ_OUT: Duration = Duration::from_secs(1);

/// One side of a connection. A clone is the same one. As the last is dropped all streams end for their users here. What was
/// written is still sent, as long as the runtime lives: to wait for that, call [`close`](Connection::close).
#[derive(Clone, Debug)]
pub struct Connection(Arc<Closing>);

#[derive(Debug)]
struct Closing(Arc<Shared>);

impl Drop for Closing {
    fn drop(&mut self) {
        self.0.end(Ended::Here);
    }
}

#[derive(Debug)]
struct Shared {
    wire: Mutex<Wire>,     // taken before the state
    is_wanted: AtomicBool, // the task has found it taken
    state: Mutex<State>,
    emitted: Notify,
}

#[derive(Debug)]
struct State {
    session: Session,
    streams: BTreeMap<u32, Waits>,
    task: Option<Waker>, // which waits until something is due
    is_notified: bool,   // it is about to look
    is_soon: bool,       // it looks within SOON, though nobody wakes it
    accepting: Waiters,
    opening: Waiters,
    pinging: Waiters,
    ending: Waiters,    // for the end, or for the task
    flushing: Vec<u32>, // streams of which somebody waits until what was written has gone
    emitted: u64,       // the blocks that the session has given
    gone: u64,          // of these, how many have gone
    went: u64,          // how many bytes these were
    promised: u64,      // as many had gone when somebody last heard so
    given_up: Vec<u32>, // pings for whose answer nobody waits any more
    over: Option<Ended>,
    linger: Duration,
    moved: Instant, // when bytes last went since it ended
    farewell: Farewell,
    is_read_out: bool, // nothing more is read
    is_carrying: bool, // bytes of streams are in the block that is under way
    is_short: bool,    // bytes of streams were dropped
    gave_up: bool,     // nothing went on for too long
    is_done: bool,     // all has gone that could
}

/// Who waits for a stream.
#[derive(Debug, Default)]
struct Waits {
    reader: Option<Waker>,
    writer: Option<Waker>,
    is_finished: bool,
    is_dropped: bool,       // after its end
    goes_with: Option<u64>, // the block with which all that was written goes
}

/// The ping after the last byte of a connection that was closed here. Its answer says that all came.
#[derive(Clone, Copy, Debug, PartialEq, Eq)]
enum Farewell {
    Unsaid,
    Said(u32),
    Answered,
}

impl State {
    fn check(&self) -> io::Result<()> {
        let lost = |reason| Err(io::Error::new(ErrorKind::ConnectionAborted, reason));
        self.over.map_or(Ok(()), lost)
    }

    fn wake(&mut self, id: u32) {
        if let Some(waits) = self.streams.get_mut(&id) {
            let both = waits.reader.take().into_iter().chain(waits.writer.take());
            both.for_each(Waker::wake);
        }
    }

    /// Wakes the task, once for all that becomes due until it looks.
    fn notify(&mut self) {
        if !std::mem::replace(&mut self.is_notified, true) {
            self.task.iter().for_each(Waker::wake_by_ref);
        }
    }

    /// Wakes the task, if something is due.
    fn notify_if_due(&mut self) {
        if self.session.due() || self.over.is_some() {
            self.notify();
        }
    }

    /// Whether the task has something to do.
    fn is_due(&self) -> bool {
        self.session.due() || self.over.is_some() || !self.flushing.is_empty()
    }

    /// Bytes have gone. When that was matters once the connection is over.
    fn note_move(&mut self) {
        if self.over.is_some() {
            self.moved = Instant::now();
        }
    }

    /// Wakes those of whose stream all has gone, or was reset.
    fn wake_gone(&mut self) {
        for id in std::mem::take(&mut self.flushing) {
            if !self.has_gone(id) && self.streams.contains_key(&id) && !self.session.is_reset(id) {
                self.flushing.push(id);
            } else if let Some(writer) = self.streams.get_mut(&id).and_then(|waits| waits.writer.take()) {
                writer.wake();
            }
        }
    }

    /// Throws away what has come of a stream that was dropped, and forgets it once the peer has ended it. Bytes that are
    /// `new` reset it.
    fn tidy(&mut self, id: u32, new: bool) {
        let session = &mut self.session;
        let is_unwanted = new && session.unread_count(id) > 0 && session.unsent(id) == 0;
        if is_unwanted || session.has_ended(id) || session.is_reset(id) {
            let _ = session.forget(id);
            self.streams.remove(&id);
        } else {
            let _ = session.consume(id, session.unread_count(id));
        }
    }

    /// An answer to a ping came: collects those that nobody waits for, and wakes the others.
    fn collect_pongs(&mut self) {
        let session = &mut self.session;
        self.given_up.retain(|number| !session.ponged(*number).unwrap_or(false));
        if let Farewell::Said(number) = self.farewell {
            if session.ponged(number).unwrap_or(false) {
                self.farewell = Farewell::Answered;
            }
        }
        self.pinging.wake();
    }

    /// After the last byte of a connection that was closed here: says farewell, and whether its answer may still come.
    fn is_awaiting(&mut self) -> bool {
        if self.over != Some(Ended::Here) || self.is_read_out {
            return false;
        }
        if self.farewell == Farewell::Unsaid {
            match self.session.ping() {
                Ok(number) => self.farewell = Farewell::Said(number),
                Err(refused) => return refused.name() == "PINGS_PENDING",
            }
        }
        self.farewell != Farewell::Answered
    }
}

/// Ends with the task, also where the runtime drops it.
struct Running {
    shared: Arc<Shared>,
    is_cut: bool,
}

impl Drop for Running {
    fn drop(&mut self) {
        let shared = &self.shared;
        let (writer, unpromised) = shared.close_wire();
        shared.end(Ended::Failed(ErrorKind::Other));
        shared.done();
        if self.is_cut && !std::thread::panicking() {
            let linger = shared.lock().linger;
            wire::see_off(&writer, unpromised, linger);
        }
    }
}

impl Shared {
    fn lock(&self) -> MutexGuard<'_, State> {
        let locked = self.state.lock();
        locked.unwrap_or_else(|poisoned| poisoned.into_inner())
    }

    fn wire(&self) -> MutexGuard<'_, Wire> {
        let locked = self.wire.lock();
        locked.unwrap_or_else(|poisoned| poisoned.into_inner())
    }

    fn end(&self, reason: Ended) {
        let mut state = self.lock();
        if state.over.is_none() {
            state.over = Some(reason);
            state.moved = Instant::now();
        }
        let ids: Vec<u32> = state.streams.keys().copied().collect();
        ids.into_iter().for_each(|id| state.wake(id));
        state.accepting.wake();
        state.opening.wake();
        state.pinging.wake();
        state.ending.wake();
        state.notify();
    }

    fn done(&self) {
        let mut state = self.lock();
        state.is_short |= state.session.unsent_total() > 0;
        state.is_done = true;
        state.ending.wake();
    }

    /// What it wrote to, for its last owner, and how many bytes have gone there since somebody last heard that all had.
    fn close_wire(&self) -> (Option<Writer>, u64) {
        let mut wire = self.wire();
        let state = self.lock();
        let unpromised = match state.over {
            Some(Ended::Failed(_)) => u64::MAX, // they are lost
            _ => wire.written - state.promised,
        };
        (wire.close(), unpromised)
    }

    /// The task: it ends once both directions have, or the connection is over for long enough.
    async fn run(mut running: Running, reader: Reader, touched: Touched) {
        let shared = &running.shared;
        let both = async { tokio::join!(shared.receive(reader, touched), shared.send()) };
        tokio::select! { _ = both => (), () = shared.limit() => () }
        running.is_cut = false;
    }

    /// Returns once the connection is over, and why.
    async fn ended(&self) -> Option<Ended> {
        let over = |state: &mut State| Ok(state.over);
        Waiting::new(self, |state| &mut state.ending, over).await.ok()
    }

    /// Returns once the connection is over, and nothing has gone for as long as it lingers.
    async fn limit(&self) {
        if self.ended().await == Some(Ended::Silent) {
            return;
        }
        loop {
            let left = {
                let mut state = self.lock();
                let left = state.linger.saturating_sub(state.moved.elapsed());
                state.gave_up |= left.is_zero() && !state.is_done;
                left
            };
            if left.is_zero() {
                return;
            }
            sleep(left).await;
        }
    }

    /// Reads until the peer hangs up, or breaks a rule.
    async fn receive(&self, reader: Reader, touched: Touched) {
        let reason = self.read_out(reader, touched).await;
        self.lock().is_read_out = true;
        self.end(reason);
    }

    async fn read_out(&self, mut reader: Reader, mut touched: Touched) -> Ended {
        let mut block = vec![0; BLOCK];
        loop {
            let mut bytes = match reader.read(&mut block).await {
                Ok(0) => return Ended::Peer,
                Ok(count) => &block[..count],
                Err(error) => return Ended::Failed(error.kind()),
            };
            while !bytes.is_empty() {
                bytes = &bytes[self.feed(bytes, &mut touched)..];
                let fault = self.lock().session.fault();
                if let Some(fault) = fault {
                    return Ended::Broken(fault);
                }
                if !bytes.is_empty() {
                    self.emitted.notified().await; // as many answers are unsent as the session keeps
                }
            }
        }
    }

    /// Feeds bytes, and wakes those for whom they have changed something.
    fn feed(&self, bytes: &[u8], touched: &mut Touched) -> usize {
        let mut state = self.lock();
        let taken = state.session.feed_touching(bytes, touched).unwrap_or(0);
        let all = || state.streams.keys().copied().collect();
        for id in touched.ids().unwrap_or_else(all) {
            state.wake(id);
            if state.streams.get(&id).map_or(false, |waits| waits.is_dropped) {
                state.tidy(id, true);
            }
        }
        if touched.has_pong() {
            state.collect_pongs();
        }
        touched.clear();
        if state.session.offered() > 0 {
            state.accepting.wake();
        }
        state.opening.wake();
        state.notify_if_due();
        taken
    }

    /// Sends what is due, until the connection is over and all has gone.
    async fn send(&self) {
        if let Err(error) = self.send_out().await {
            // who has closed a socket that we write to resets it, and what came before that is still there
            let _ = timeout(READ_OUT, self.ended()).await;
            self.end(Ended::Failed(error.kind()));
            let mut state = self.lock();
            state.is_short |= state.is_carrying;
            return;
        }
        let _ = poll_fn(|context| self.wire().poll_shutdown(context)).await;
        self.done();
    }

    async fn send_out(&self) -> io::Result<()> {
        let alarm = sleep(SOON);
        tokio::pin!(alarm);
        while !poll_fn(|context| self.poll_send(context)).await? {
            self.idle(alarm.as_mut()).await;
        }
        Ok(())
    }

    /// Sends what is due. Whether the connection is over too, and nothing is left.
    fn poll_send(&self, context: &mut Context<'_>) -> Poll<io::Result<bool>> {
        let is_due = self.look(); // first, so that nothing stays that becomes due meanwhile
        loop {
            // anew for each block, as others may write too
            let mut wire = match self.try_wire() {
                Some(wire) => wire,
                None => return Poll::Ready(Ok(false)), // who has it makes sure that this comes again
            };
            wire.polled_by_task(context.waker());
            if !is_due && wire.has_gone() {
                return Poll::Ready(Ok(false)); // who has flushed has sent it
            }
            ready!(self.poll_rest(&mut wire, context))?;
            match self.emit(&mut wire) {
                None => return Poll::Ready(Ok(true)),
                Some(0) => {
                    ready!(self.poll_flushed(&mut wire, context))?;
                    return Poll::Ready(Ok(false));
                }
                Some(_) => {}
            }
        }
    }

    /// The task looks whether something is due.
    fn look(&self) -> bool {
        let mut state = self.lock();
        state.is_notified = false;
        state.is_soon = true;
        state.is_due()
    }

    fn try_wire(&self) -> Option<MutexGuard<'_, Wire>> {
        self.is_wanted.store(true, Ordering::SeqCst);
        let wire = self.wire.try_lock().ok()?;
        self.is_wanted.store(false, Ordering::SeqCst);
        Some(wire)
    }

    /// Writes what is due at once, as far as nobody else does, there is room, and the next block goes. The task does the
    /// rest, which hears of an error too.
    pub(crate) fn push(&self) {
        let mut wire = match self.wire.try_lock() {
            Ok(wire) => wire,
            Err(_) => return self.lock().notify(),
        };
        let task = wire.task();
        let pushed = task.map(|task| self.poll_push(&mut wire, &mut Context::from_waker(&task)));
        drop(wire);
        let is_done = matches!(pushed, Some(Poll::Ready(Ok(()))));
        if !is_done || self.is_wanted.swap(false, Ordering::SeqCst) {
            let mut state = self.lock();
            if !is_done || state.is_due() {
                state.notify();
            }
        }
    }

    fn poll_push(&self, wire: &mut Wire, context: &mut Context<'_>) -> Poll<io::Result<()>> {
        ready!(self.poll_rest(wire, context))?;
        self.emit(wire);
        ready!(self.poll_rest(wire, context))?;
        self.poll_flushed(wire, context)
    }

    /// Writes the rest of the block.
    fn poll_rest(&self, wire: &mut Wire, context: &mut Context<'_>) -> Poll<io::Result<()>> {
        let before = wire.written;
        let put = wire.poll_write(context);
        if put.is_pending() && wire.written > before {
            self.lock().note_move();
        }
        ready!(put)?;
        match wire.is_awaited {
            true => self.poll_flushed(wire, context),
            false => Poll::Ready(Ok(())),
        }
    }

    /// All that was emitted has been written. Once it is flushed, those who wait for that look for theirs.
    fn poll_flushed(&self, wire: &mut Wire, context: &mut Context<'_>) -> Poll<io::Result<()>> {
        if !wire.is_flushed() {
            ready!(wire.poll_flush(context))?;
        }
        wire.is_awaited = false;
        let mut state = self.lock();
        state.gone = state.emitted;
        state.went = wire.written;
        state.wake_gone();
        Poll::Ready(Ok(()))
    }

    /// Takes a block from the session, once the one before has been written, and says of how many bytes. `None` once the
    /// connection is over, and nothing is left.
    fn emit(&self, wire: &mut Wire) -> Option<usize> {
        let mut state = self.lock();
        let before = state.session.unsent_total();
        let mut count = wire.fill(|block| state.session.emit(block).unwrap_or(0));
        if count == 0 && state.over.is_some() {
            if !state.is_awaiting() {
                return None;
            }
            count = wire.fill(|block| state.session.emit(block).unwrap_or(0));
        }
        if count > 0 {
            state.emitted += 1;
            state.note_move();
        }
        state.is_carrying = state.session.unsent_total() < before;
        for at in 0..state.flushing.len() {
            let id = state.flushing[at];
            state.note_block(id);
        }
        wire.is_awaited = !state.flushing.is_empty();
        self.emitted.notify_one();
        Some(count)
    }

    /// Waits until something is due. Memory goes back where nothing was for long, and there is no stream.
    async fn idle(&self, mut alarm: Pin<&mut Sleep>) {
        for _ in 0..LOOKS {
            tokio::select! {
                biased;
                () = self.notified() => return,
                // which is set anew only here, as that costs as much as a small write
                () = alarm.as_mut() => alarm.as_mut().reset(Instant::now() + SOON),
            }
            if self.lock().session.due() {
                return;
            }
        }
        if self.rests() {
            self.notified().await;
        }
    }

    async fn notified(&self) {
        poll_fn(|context| {
            let mut state = self.lock();
            if state.is_notified {
                return Poll::Ready(());
            }
            if !state
                .task
                .as_ref()
                .map_or(false, |task| task.will_wake(context.waker()))
            {
                state.task = Some(context.waker().clone());
            }
            Poll::Pending
        })
        .await
    }

    /// Before it looks no more until it is woken, gives memory back. Nothing may be due then.
    fn rests(&self) -> bool {
        let mut state = self.lock();
        if state.session.due() {
            return false;
        }
        state.is_soon = false;
        if state.streams.is_empty() {
            state.session.shrink_spare();
        }
        true
    }

    async fn ping(&self) -> io::Result<Duration> {
        let began = Instant::now();
        let ask = |state: &mut State| {
            state.check()?;
            match state.session.ping() {
                Err(refused) if refused.name() == "PINGS_PENDING" => Ok(None),
                number => Ok(Some(number?)),
            }
        };
        let number = Waiting::new(self, |state| &mut state.pinging, ask).await?;
        let mut asked = Asked(self, Some(number));
        self.lock().notify();
        let answer = |state: &mut State| {
            if state.session.ponged(number).unwrap_or(false) {
                return Ok(Some(began.elapsed()));
            }
            state.check().map(|()| None)
        };
        let took = Waiting::new(self, |state| &mut state.pinging, answer).await?;
        asked.1 = None;
        self.lock().pinging.wake(); // one more ping may be asked
        Ok(took)
    }

    async fn keep_alive(&self, interval: Duration) {
        loop {
            sleep(interval).await;
            if self.lock().over.is_some() {
                return;
            }
            if !matches!(timeout(interval, self.ping()).await, Ok(Ok(_))) {
                return self.end(Ended::Silent);
            }
        }
    }
}

/// A ping whose answer is awaited. Given up before, it is still collected.
struct Asked<'a>(&'a Shared, Option<u32>);

impl Drop for Asked<'_> {
    fn drop(&mut self) {
        if let Some(number) = self.1 {
            self.0.lock().given_up.push(number);
        }
    }
}

impl Connection {
    /// Begins one side over anything, as a `TcpStream`. Its streams have at most `window` unread bytes each: 262,144 to
    /// 16,777,216. It spawns its task, so it is called in a runtime, whose time is enabled.
    pub fn begin<T>(role: Role, window: u32, over: T) -> io::Result<Connection>
    where
        T: AsyncRead + AsyncWrite + Send + 'static,
    {
        let state = State {
            session: Session::new(role, window, 0)?,
            streams: BTreeMap::new(),
            task: None,
            is_notified: false,
            is_soon: false,
            accepting: Waiters::default(),
            opening: Waiters::default(),
            pinging: Waiters::default(),
            ending: Waiters::default(),
            flushing: Vec::new(),
            emitted: 0,
            gone: 0,
            went: 0,
            promised: 0,
            given_up: Vec::new(),
            over: None,
            linger: LINGER,
            moved: Instant::now(),
            farewell: Farewell::Unsaid,
            is_read_out: false,
            is_carrying: false,
            is_short: false,
            gave_up: false,
            is_done: false,
        };
        let touched = Touched::new()?;
        let (reader, writer) = wire::split(over);
        let shared = Arc::new(Shared {
            wire: Mutex::new(Wire::new(writer)),
            is_wanted: AtomicBool::new(false),
            state: Mutex::new(state),
            emitted: Notify::new(),
        });
        let running = Running {
            shared: Arc::clone(&shared),
            is_cut: true,
        };
        tokio::spawn(Shared::run(running, reader, touched));
        Ok(Connection(Arc::new(Closing(shared))))
    }

    /// Opens a stream. It waits while 256 are not acknowledged.
    ///
    /// `Other` with the inner error [`Refused`] `PEER_AWAY` where the peer takes no more, `TOO_MANY` where 1,024 are
    /// there. `ConnectionAborted` once the connection has ended.
    pub async fn open(&self) -> io::Result<Stream> {
        let ask = |state: &mut State| {
            state.check()?;
            match state.session.open() {
                Err(refused) if refused.name() == "OPENS_PENDING" => Ok(None),
                opened => {
                    let id = opened?;
                    state.notify();
                    Ok(Some(self.stream(state, id)))
                }
            }
        };
        Waiting::new(&self.0 .0, |state| &mut state.opening, ask).await
    }

    /// Waits for a stream of the peer's. Once the peer has hung up, it still gives the streams that came before, and then
    /// `ConnectionAborted`. The peer hears that a stream was accepted with its first bytes, or within 20 ms.
    pub async fn accept(&self) -> io::Result<Stream> {
        let ask = |state: &mut State| {
            let is_due = state.session.due();
            match state.session.accept() {
                Ok(Some(id)) => {
                    // that it was accepted goes with its first bytes, or soon: the task woken beside one that is spawned for
                    // the stream would wake a second thread. Only one stream's waits so
                    if is_due || !state.is_soon {
                        state.notify();
                    }
                    Ok(Some(self.stream(state, id)))
                }
                _ => state.check().map(|()| None),
            }
        };
        Waiting::new(&self.0 .0, |state| &mut state.accepting, ask).await
    }

    fn stream(&self, state: &mut State, id: u32) -> Stream {
        state.streams.insert(id, Waits::default());
        Stream::new(&self.0 .0, id)
    }

    /// Pings the peer, and says how long its answer took. It waits while 16 answers are awaited.
    pub async fn ping(&self) -> io::Result<Duration> {
        self.0 .0.ping().await
    }

    /// From now on pings the peer each time so long has passed, in a task, and ends the connection as [`Ended::Silent`]
    /// where no answer comes within as long.
    pub fn keep_alive(&self, interval: Duration) {
        let shared = Arc::clone(&self.0 .0);
        tokio::spawn(async move { shared.keep_alive(interval).await });
    }

    /// Takes no more streams of the peer's, and tells it so. Streams that are there go on.
    pub fn go_away(&self) -> io::Result<()> {
        let mut state = self.0 .0.lock();
        state.check()?;
        state.session.go_away()?;
        state.notify();
        Ok(())
    }

    /// For how long nothing may go on after `close`: 10 seconds, if it isn't set. For as long at most the runtime waits as it
    /// ends, if the peer's system lacks bytes of which a `flush` or `shutdown` has returned.
    pub fn set_linger(&self, linger: Duration) {
        self.0 .0.lock().linger = linger;
    }

    /// Gives memory back that isn't needed now, as of a connection that is to be quiet for long. Whether some was kept for
    /// streams to come, which goes back by itself once there was no stream for a second.
    pub fn shrink(&self) -> bool {
        let mut state = self.0 .0.lock();
        for id in state.session.streams() {
            let _ = state.session.shrink(id);
        }
        state.session.shrink_spare()
    }

    /// Ends the connection and all its streams for their users here, and waits until the peer says that all came that was
    /// written. What has come can still be read.
    ///
    /// `TimedOut` where nothing went on for as long as `set_linger` says, `ConnectionAborted` where the connection was lost
    /// with bytes of a stream unsent.
    pub async fn close(&self) -> io::Result<()> {
        let shared = &self.0 .0;
        shared.end(Ended::Here);
        let ask = |state: &mut State| {
            if !state.is_done {
                return Ok(None);
            }
            if state.gave_up {
                return Err(io::Error::new(ErrorKind::TimedOut, "the peer did not take all in time"));
            }
            if state.is_short {
                state.check()?;
            }
            Ok(Some(()))
        };
        Waiting::new(shared, |state| &mut state.ending, ask).await
    }

    /// Why it has ended; `None` as long as it has not.
    pub fn ended(&self) -> Option<Ended> {
        self.0 .0.lock().over
    }

    /// How many streams there are that have not ended on both sides, or are not dropped here.
    pub fn stream_count(&self) -> usize {
        self.0 .0.lock().streams.len()
    }
}
