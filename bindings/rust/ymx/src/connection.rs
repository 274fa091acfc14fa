//! A session over a socket, with two threads: one reads and feeds, the other emits and writes. Calls that wait are woken
//! where bytes have touched their stream.

use crate::{Fault, Got, Refused, Role, Session, Touched};
use std::collections::HashMap;
use std::io::{self, ErrorKind, IoSlice, Read, Write};
use std::net::{Shutdown, TcpStream};
use std::ops::Deref;
use std::sync::{Arc, Condvar, Mutex, MutexGuard};
use std::time::{Duration, Instant};
use std::{fmt, thread};
use ymx_sys::*;

const BLOCK: usize = 65_536;
const LINGER: Duration = Duration::from_secs(10);
/// For how long there was no stream when memory goes back.
const IDLE: Duration = Duration::from_secs(1);

/// What a [`Connection`] runs over: bytes that come, bytes that go, and what ends both.
pub struct Side {
    /// Bytes of the peer's.
    pub reader: Box<dyn Read + Send>,
    /// Bytes for the peer.
    pub writer: Box<dyn Write + Send>,
    /// Ends the connection, so that a read or a write of it that waits ends too. It is called once.
    pub shut: Box<dyn Fn() + Send>,
}

impl fmt::Debug for Side {
    fn fmt(&self, f: &mut fmt::Formatter<'_>) -> fmt::Result {
        f.write_str("Side")
    }
}

impl TryFrom<TcpStream> for Side {
    type Error = io::Error;

    fn try_from(socket: TcpStream) -> io::Result<Side> {
        socket.set_nodelay(true)?;
        let (reader, end) = (socket.try_clone()?, socket.try_clone()?);
        Ok(Side {
            reader: Box::new(reader),
            writer: Box::new(socket),
            shut: Box::new(move || drop(end.shutdown(Shutdown::Both))),
        })
    }
}

/// Why a connection has ended. It is the inner error of `ConnectionAborted`.
#[derive(Clone, Copy, Debug, PartialEq, Eq)]
#[non_exhaustive]
pub enum Ended {
    /// It was closed here, or the `Connection` was dropped.
    Here,
    /// The peer has hung up.
    Peer,
    /// Reading or writing failed.
    Failed(ErrorKind),
    /// The peer broke a rule of yamux, or says that this side did.
    Broken(Fault),
    /// The peer gave no sign of life.
    Silent,
}

impl fmt::Display for Ended {
    fn fmt(&self, f: &mut fmt::Formatter<'_>) -> fmt::Result {
        match self {
            Ended::Here => f.write_str("the connection was closed here"),
            Ended::Peer => f.write_str("the connection has ended"),
            Ended::Failed(kind) => write!(f, "the connection failed: {kind}"),
            Ended::Broken(fault) => write!(f, "the connection broke: {fault}"),
            Ended::Silent => f.write_str("the peer gave no sign of life"),
        }
    }
}

impl std::error::Error for Ended {}

/// One side of a connection. A clone is the same one. It is closed as the last is dropped.
#[derive(Clone, Debug)]
pub struct Connection(Arc<Closing>);

struct Closing(Arc<Shared>);

impl Deref for Closing {
    type Target = Arc<Shared>;

    fn deref(&self) -> &Arc<Shared> {
        &self.0
    }
}

impl Drop for Closing {
    fn drop(&mut self) {
        self.close();
    }
}

impl fmt::Debug for Closing {
    fn fmt(&self, f: &mut fmt::Formatter<'_>) -> fmt::Result {
        let state = self.lock();
        write!(f, "{} streams, ended: {:?}", state.streams.len(), state.over)
    }
}

struct Shared {
    state: Mutex<State>,
    sender: Condvar,  // something is due, or it is over
    emitted: Condvar, // bytes were emitted
    changed: Condvar, // a stream waits to be accepted, one may be opened, or an answer to a ping came
    gone_on: Condvar, // the writing thread is done, or has written
    shut: Mutex<Option<Box<dyn Fn() + Send>>>,
}

struct State {
    session: Session,
    streams: HashMap<u32, Arc<Both>>,
    over: Option<Ended>,
    pings: HashMap<u32, Ping>,
    linger: Duration,
    is_spare: bool, // the session may keep memory for streams to come
    farewell: Farewell,
    is_read_out: bool,       // the reading thread is done
    is_done: bool,           // the writing thread is done
    is_watched: bool,        // a thread looks that the writing thread goes on
    mute: Option<ErrorKind>, // writing has failed: what is emitted is dropped
    is_short: bool,          // bytes of streams were dropped
    gave_up: bool,           // nothing went on for too long
    moved: Instant,          // when bytes were last written
}

/// A ping that the session awaits.
#[derive(Clone, Copy, PartialEq, Eq)]
enum Ping {
    Awaited,
    Back,
    GivenUp, // nobody waits for it any more
}

/// The ping after the last byte of a connection that was closed here. Its answer says that all came.
#[derive(Clone, Copy, PartialEq, Eq)]
enum Farewell {
    Unsaid,
    Said(u32),
    Answered,
}

/// What the two halves of a stream have in common.
struct Both {
    shared: Arc<Shared>,
    id: u32,
    readable: Condvar,
    writable: Condvar,
    halves: Mutex<Halves>, // locked after the state, or alone
}

impl fmt::Debug for Both {
    fn fmt(&self, f: &mut fmt::Formatter<'_>) -> fmt::Result {
        write!(f, "stream {}", self.id)
    }
}

#[derive(Default)]
struct Halves {
    unread: bool,    // the reading half is dropped: what comes is thrown away
    finished: bool,  // the writing half is finished, or dropped
    forgotten: bool, // the session has forgotten the stream
    reset: bool,     // by either side, where that is known
}

/// The reading half of a stream.
///
/// At the peer's end it reads 0 bytes. A reset is `ConnectionReset`, and a connection that ends before the stream
/// `ConnectionAborted`, whose inner error is an [`Ended`]. Dropped, it throws away what still comes; and once this side is
/// finished too, bytes that come reset the stream, so that the peer learns of it.
#[derive(Debug)]
pub struct ReadHalf {
    stream: Arc<Both>,
    timeout: Option<Duration>,
}

/// The writing half of a stream.
///
/// A write waits until the peer grants credit, and takes as many bytes. Dropped without [`finish`](WriteHalf::finish), it
/// resets the stream, both ways: nobody has said that what was written is whole.
#[derive(Debug)]
pub struct WriteHalf {
    stream: Arc<Both>,
    timeout: Option<Duration>,
}

/// Both halves of a stream in one: [`Connection::open`] gives the halves, and `into` joins them.
///
/// Dropped without [`finish`](Stream::finish), it resets the stream.
#[derive(Debug)]
pub struct Stream {
    reader: ReadHalf,
    writer: WriteHalf,
}

impl From<(ReadHalf, WriteHalf)> for Stream {
    fn from((reader, writer): (ReadHalf, WriteHalf)) -> Stream {
        Stream { reader, writer }
    }
}

impl Stream {
    /// The halves.
    pub fn split(self) -> (ReadHalf, WriteHalf) {
        (self.reader, self.writer)
    }

    /// Ends this side, as [`WriteHalf::finish`]. The stream is still read.
    pub fn finish(&self) -> io::Result<()> {
        self.writer.stream.finish()
    }
}

fn lost(reason: Ended) -> io::Error {
    io::Error::new(ErrorKind::ConnectionAborted, reason)
}

impl From<Refused> for io::Error {
    fn from(refused: Refused) -> io::Error {
        let kind = match refused.code {
            YMX_E_RESET => ErrorKind::ConnectionReset,
            YMX_E_LOST | YMX_E_CLOSED => ErrorKind::ConnectionAborted,
            YMX_E_FINISHED => ErrorKind::BrokenPipe,
            YMX_E_NO_MEMORY => ErrorKind::OutOfMemory,
            YMX_E_BAD_WINDOW | YMX_E_BAD_FIRST | YMX_E_NO_STREAM => ErrorKind::InvalidInput,
            _ => ErrorKind::Other,
        };
        io::Error::new(kind, refused)
    }
}

/// Until when to wait: for ever, if it is None.
#[derive(Clone, Copy)]
struct Until(Option<Instant>);

impl Until {
    fn ever() -> Until {
        Until(None)
    }

    fn within(timeout: Duration) -> Until {
        Until(Instant::now().checked_add(timeout))
    }

    fn of(timeout: Option<Duration>) -> Until {
        timeout.map_or(Until::ever(), Until::within)
    }

    /// Waits for the condition, or fails with `TimedOut`.
    fn wait<'a, T>(self, condition: &Condvar, guard: MutexGuard<'a, T>) -> io::Result<MutexGuard<'a, T>> {
        let end = match self.0 {
            None => return Ok(wait(condition, guard)),
            Some(end) => end,
        };
        let left = end.saturating_duration_since(Instant::now());
        if left.is_zero() {
            return Err(io::Error::new(ErrorKind::TimedOut, "it took longer than was allowed"));
        }
        Ok(wait_for(condition, guard, left))
    }
}

fn wait<'a, T>(condition: &Condvar, guard: MutexGuard<'a, T>) -> MutexGuard<'a, T> {
    condition.wait(guard).unwrap_or_else(|poisoned| poisoned.into_inner())
}

fn wait_for<'a, T>(condition: &Condvar, guard: MutexGuard<'a, T>, timeout: Duration) -> MutexGuard<'a, T> {
    match condition.wait_timeout(guard, timeout) {
        Ok((guard, _)) => guard,
        Err(poisoned) => poisoned.into_inner().0,
    }
}

impl Connection {
    /// Begins one side over a socket, with the usual window of 262,144 bytes.
    pub fn over(role: Role, socket: TcpStream) -> io::Result<Connection> {
        Connection::begin(role, YMX_LEAST_WINDOW, Side::try_from(socket)?)
    }

    /// Begins one side. Its streams have at most `window` unread bytes each: 262,144 to 16,777,216.
    pub fn begin(role: Role, window: u32, side: Side) -> io::Result<Connection> {
        let touched = Touched::new()?;
        let Side { reader, writer, shut } = side;
        let state = State {
            session: Session::new(role, window, 0)?,
            streams: HashMap::new(),
            over: None,
            pings: HashMap::new(),
            linger: LINGER,
            is_spare: false,
            farewell: Farewell::Unsaid,
            is_read_out: false,
            is_done: false,
            is_watched: false,
            mute: None,
            is_short: false,
            gave_up: false,
            moved: Instant::now(),
        };
        let shared = Arc::new(Shared {
            state: Mutex::new(state),
            sender: Condvar::new(),
            emitted: Condvar::new(),
            changed: Condvar::new(),
            gone_on: Condvar::new(),
            shut: Mutex::new(Some(shut)),
        });
        let sending = Arc::clone(&shared);
        thread::Builder::new()
            .name("ymx writer".into())
            .spawn(move || sending.send(writer))?;
        let receiving = Arc::clone(&shared);
        let receiver = thread::Builder::new()
            .name("ymx reader".into())
            .spawn(move || receiving.receive(reader, touched));
        if let Err(error) = receiver {
            shared.read_out(Ended::Failed(error.kind()));
            return Err(error);
        }
        Ok(Connection(Arc::new(Closing(shared))))
    }

    /// Opens a stream. It waits while 256 are not acknowledged.
    ///
    /// `Other` with the inner error [`Refused`] `PEER_AWAY` where the peer takes no more, `TOO_MANY` where 1,024 are
    /// there. `ConnectionAborted` once the connection has ended.
    pub fn open(&self) -> io::Result<(ReadHalf, WriteHalf)> {
        self.open_until(Until::ever())
    }

    /// The same, and `TimedOut` where it would wait longer than this.
    pub fn open_within(&self, timeout: Duration) -> io::Result<(ReadHalf, WriteHalf)> {
        self.open_until(Until::within(timeout))
    }

    fn open_until(&self, until: Until) -> io::Result<(ReadHalf, WriteHalf)> {
        let mut state = self.0.lock();
        loop {
            state.check()?;
            match state.session.open() {
                Ok(id) => return Ok(self.0.stream(&mut state, id)),
                Err(Refused {
                    code: YMX_E_OPENS_PENDING,
                }) => state = until.wait(&self.0.changed, state)?,
                Err(refused) => return Err(refused.into()),
            }
        }
    }

    /// Waits for a stream of the peer's.
    ///
    /// Once the peer has hung up, or has broken a rule, it still gives the streams that came before, and then
    /// `ConnectionAborted`. Behind a `close` it answers that at once.
    pub fn accept(&self) -> io::Result<(ReadHalf, WriteHalf)> {
        self.accept_until(Until::ever())
    }

    /// The same, and `TimedOut` where it would wait longer than this.
    pub fn accept_within(&self, timeout: Duration) -> io::Result<(ReadHalf, WriteHalf)> {
        self.accept_until(Until::within(timeout))
    }

    fn accept_until(&self, until: Until) -> io::Result<(ReadHalf, WriteHalf)> {
        let mut state = self.0.lock();
        loop {
            if state.over != Some(Ended::Here) && state.session.offered() > 0 {
                if let Some(id) = state.session.accept()? {
                    return Ok(self.0.stream(&mut state, id));
                }
            }
            state.check()?;
            state = until.wait(&self.0.changed, state)?;
        }
    }

    /// Pings the peer, and says how long its answer took. It waits while 16 answers are awaited.
    pub fn ping(&self) -> io::Result<Duration> {
        self.0.ping(Until::ever())
    }

    /// The same, and `TimedOut` where it would wait longer than this. An answer that still comes is dropped.
    pub fn ping_within(&self, timeout: Duration) -> io::Result<Duration> {
        self.0.ping(Until::within(timeout))
    }

    /// From now on pings the peer each time so long has passed, in a thread, and ends the connection as [`Ended::Silent`]
    /// where no answer comes within as long.
    pub fn keep_alive(&self, interval: Duration) -> io::Result<()> {
        let shared = Arc::clone(&self.0);
        let keeper = thread::Builder::new().name("ymx keepalive".into());
        keeper.spawn(move || shared.keep_alive(interval)).map(drop)
    }

    /// Gives memory back that isn't needed now, as of a connection that is to be quiet for long. Whether some was kept for
    /// streams to come, which goes back by itself once there was no stream for a second.
    pub fn shrink(&self) -> bool {
        let mut state = self.0.lock();
        for id in state.session.streams() {
            let _ = state.session.shrink(id);
        }
        state.session.shrink_spare()
    }

    /// Takes no more streams of the peer's, and tells it so. Streams that are there go on.
    pub fn go_away(&self) -> io::Result<()> {
        let mut state = self.0.lock();
        state.check()?;
        state.session.go_away()?;
        self.0.sender.notify_one();
        Ok(())
    }

    /// For how long nothing may go on after `close`: 10 seconds, if it isn't set.
    pub fn set_linger(&self, linger: Duration) {
        self.0.lock().linger = linger;
    }

    /// Ends the connection and all its streams for their users here. What has come can still be read. What was written is
    /// sent, and the connection ends once the peer says that it came, or nothing has gone on for as long as `set_linger`
    /// says. It doesn't wait for that: a program that ends at once may cut off what was written. `close_and_wait` does.
    pub fn close(&self) {
        self.0.close();
    }

    /// The same, and waits until it has ended. `TimedOut` where nothing went on for too long, and `ConnectionAborted`
    /// where the connection was lost with bytes of a stream unsent.
    pub fn close_and_wait(&self) -> io::Result<()> {
        self.0.close();
        let mut state = self.0.lock();
        while !state.is_done {
            state = wait(&self.0.gone_on, state);
        }
        if state.gave_up {
            return Err(io::Error::new(ErrorKind::TimedOut, "the peer did not take all in time"));
        }
        match state.over {
            Some(reason) if state.is_short => Err(lost(reason)),
            _ => Ok(()),
        }
    }

    /// Why it has ended; `None` as long as it has not.
    pub fn ended(&self) -> Option<Ended> {
        self.0.lock().over
    }

    /// How many streams there are that have not ended on both sides, or are not dropped here.
    pub fn stream_count(&self) -> usize {
        self.0.lock().streams.len()
    }
}

impl State {
    fn check(&self) -> io::Result<()> {
        self.over.map_or(Ok(()), |reason| Err(lost(reason)))
    }
}

impl Shared {
    fn lock(&self) -> MutexGuard<'_, State> {
        self.state.lock().unwrap_or_else(|poisoned| poisoned.into_inner())
    }

    fn stream(self: &Arc<Shared>, state: &mut State, id: u32) -> (ReadHalf, WriteHalf) {
        let stream = Arc::new(Both {
            shared: Arc::clone(self),
            id,
            readable: Condvar::new(),
            writable: Condvar::new(),
            halves: Mutex::default(),
        });
        if state.over.is_none() {
            state.streams.insert(id, Arc::clone(&stream));
            state.is_spare = true;
        }
        self.sender.notify_one();
        let reading = ReadHalf {
            stream: Arc::clone(&stream),
            timeout: None,
        };
        let writing = WriteHalf { stream, timeout: None };
        (reading, writing)
    }

    fn ping(&self, until: Until) -> io::Result<Duration> {
        let began = Instant::now();
        let mut state = self.lock();
        let number = loop {
            state.check()?;
            match state.session.ping() {
                Ok(number) => break number,
                Err(Refused {
                    code: YMX_E_PINGS_PENDING,
                }) => state = until.wait(&self.changed, state)?,
                Err(refused) => return Err(refused.into()),
            }
        };
        state.pings.insert(number, Ping::Awaited);
        self.sender.notify_one();
        loop {
            if state.pings.get(&number) == Some(&Ping::Back) {
                state.pings.remove(&number);
                return Ok(began.elapsed());
            }
            state.check()?;
            state = match until.wait(&self.changed, state) {
                Ok(state) => state,
                Err(error) => {
                    self.give_ping_up(number);
                    return Err(error);
                }
            };
        }
    }

    fn keep_alive(&self, interval: Duration) {
        let mut until = Until::within(interval);
        let mut state = self.lock();
        while state.over.is_none() {
            state = match until.wait(&self.changed, state) {
                Ok(state) => state,
                Err(_) => {
                    let answer = self.ping(Until::within(interval));
                    until = Until::within(interval);
                    let mut state = self.lock();
                    if answer.is_err() && state.over.is_none() {
                        self.end(&mut state, Ended::Silent);
                        drop(state);
                        return self.shut();
                    }
                    state
                }
            };
        }
    }

    fn give_ping_up(&self, number: u32) {
        let mut state = self.lock();
        if state.pings.remove(&number) == Some(Ping::Awaited) {
            state.pings.insert(number, Ping::GivenUp);
        }
    }

    // ---- the end

    fn end(&self, state: &mut State, reason: Ended) {
        if state.over.is_none() {
            state.over = Some(reason);
            for (_, stream) in state.streams.drain() {
                stream.readable.notify_all();
                stream.writable.notify_all();
            }
            self.changed.notify_all();
        }
        self.sender.notify_all();
        self.emitted.notify_all();
    }

    fn close(self: &Arc<Shared>) {
        let mut state = self.lock();
        self.end(&mut state, Ended::Here);
        if state.is_done || std::mem::replace(&mut state.is_watched, true) {
            return;
        }
        state.moved = Instant::now();
        let watching = Arc::clone(self);
        let watcher = thread::Builder::new()
            .name("ymx closer".into())
            .spawn(move || watching.watch());
        if watcher.is_err() {
            state.gave_up = true;
            drop(state);
            self.shut();
        }
    }

    /// Waits until the writing thread is done, and ends the connection where it doesn't go on.
    fn watch(&self) {
        let mut state = self.lock();
        while !state.is_done {
            let left = state.linger.saturating_sub(state.moved.elapsed());
            if left.is_zero() {
                state.gave_up = true;
                drop(state);
                return self.shut();
            }
            state = wait_for(&self.gone_on, state, left);
        }
    }

    fn shut(&self) {
        let shut = self.shut.lock().unwrap_or_else(|poisoned| poisoned.into_inner()).take();
        if let Some(shut) = shut {
            shut();
        }
    }

    // ---- the reading thread

    fn receive(&self, mut reader: Box<dyn Read + Send>, mut touched: Touched) {
        let mut block = vec![0; BLOCK];
        let reason = loop {
            match reader.read(&mut block) {
                Ok(0) => break Ended::Peer,
                Ok(count) => {
                    if let Err(reason) = self.feed(&block[..count], &mut touched) {
                        break reason;
                    }
                }
                Err(error) if error.kind() == ErrorKind::Interrupted => (),
                Err(error) => break Ended::Failed(error.kind()),
            }
        };
        self.read_out(reason);
    }

    /// Nothing more is read.
    fn read_out(&self, reason: Ended) {
        let mut state = self.lock();
        state.is_read_out = true;
        self.end(&mut state, reason);
    }

    /// Feeds all of it, or says why the session doesn't go on.
    fn feed(&self, mut bytes: &[u8], touched: &mut Touched) -> Result<(), Ended> {
        let mut state = self.lock();
        loop {
            let taken = state.session.feed_touching(bytes, touched).unwrap_or(0);
            bytes = &bytes[taken..];
            self.serve(&mut state, touched);
            touched.clear();
            if state.session.due() {
                self.sender.notify_one();
            }
            if let Some(fault) = state.session.fault() {
                return Err(Ended::Broken(fault));
            }
            if bytes.is_empty() {
                return Ok(());
            }
            if state.is_done {
                return Err(Ended::Here);
            }
            state = wait(&self.emitted, state); // as many answers are unsent as the session keeps
        }
    }

    /// Wakes those for whom the fed bytes have changed something.
    fn serve(&self, state: &mut State, touched: &Touched) {
        for id in touched.ids().unwrap_or_else(|| state.streams.keys().copied().collect()) {
            if let Some(stream) = state.streams.get(&id).cloned() {
                stream.readable.notify_all();
                stream.writable.notify_all();
                stream.tidy(state, true);
            }
        }
        if touched.has_pong() {
            let State { session, pings, .. } = state;
            pings.retain(|number, ping| {
                if *ping == Ping::Back || !session.ponged(*number).unwrap_or(false) {
                    return true;
                }
                let is_awaited = *ping == Ping::Awaited;
                *ping = Ping::Back;
                is_awaited
            });
            if let Farewell::Said(number) = state.farewell {
                if state.session.ponged(number).unwrap_or(false) {
                    state.farewell = Farewell::Answered;
                }
            }
            if state.over.is_some() {
                self.sender.notify_one();
            }
        }
        self.changed.notify_all();
    }

    // ---- the writing thread

    fn send(&self, mut writer: Box<dyn Write + Send>) {
        let mut block = vec![0; BLOCK];
        while let Some((count, carries)) = self.emit(&mut block) {
            let written = writer.write_all(&block[..count]).and_then(|()| writer.flush());
            let mut state = self.lock();
            state.moved = Instant::now();
            match written {
                Ok(()) => (),
                Err(error) => {
                    // what has come is still read: the reading thread finds the end
                    state.mute = Some(error.kind());
                    state.is_short |= carries || state.session.unsent_total() > 0;
                }
            }
            self.gone_on.notify_all();
        }
        self.shut();
        let mut state = self.lock();
        state.is_short |= state.session.unsent_total() > 0;
        state.is_done = true;
        self.gone_on.notify_all();
        self.emitted.notify_all();
    }

    /// Waits until something is due, and emits it: so many bytes, and whether some are a stream's. `None` once it is over
    /// and nothing is left.
    fn emit(&self, block: &mut [u8]) -> Option<(usize, bool)> {
        let mut state = self.lock();
        loop {
            let before = state.session.unsent_total();
            let count = state.session.emit(block).unwrap_or(0);
            if count > 0 {
                self.emitted.notify_all();
                if state.mute.is_none() {
                    return Some((count, state.session.unsent_total() < before));
                }
            } else if state.over.is_some() && !self.is_awaiting(&mut state) {
                return None;
            } else if let Some(kind) = state.mute.filter(|_| state.over.is_none()) {
                // a writer that failed, and a reader that finds no end
                let left = state.linger.saturating_sub(state.moved.elapsed());
                if left.is_zero() {
                    self.end(&mut state, Ended::Failed(kind));
                } else {
                    state = wait_for(&self.sender, state, left);
                }
            } else if !state.session.due() && state.is_spare && state.streams.is_empty() {
                let since = Instant::now();
                state = wait_for(&self.sender, state, IDLE);
                if state.streams.is_empty() && since.elapsed() >= IDLE {
                    state.is_spare = false;
                    state.session.shrink_spare();
                }
            } else if !state.session.due() {
                state = wait(&self.sender, state);
            }
        }
    }

    /// Behind the last byte of a connection that was closed here: says farewell, and whether its answer may still come.
    fn is_awaiting(&self, state: &mut State) -> bool {
        let is_vain = state.is_read_out || state.mute.is_some() || state.gave_up;
        if state.over != Some(Ended::Here) || is_vain {
            return false;
        }
        if state.farewell == Farewell::Unsaid {
            match state.session.ping() {
                Ok(number) => state.farewell = Farewell::Said(number),
                Err(refused) => return refused.code == YMX_E_PINGS_PENDING,
            }
        }
        state.farewell != Farewell::Answered
    }
}

impl Both {
    fn halves(&self) -> MutexGuard<'_, Halves> {
        self.halves.lock().unwrap_or_else(|poisoned| poisoned.into_inner())
    }

    /// Throws away what has come where the reading half is gone, and has the session forget the stream once both sides
    /// have ended it: sooner would reset it. Bytes that are `new` do reset one that nobody reads or writes any more.
    fn tidy(&self, state: &mut State, new: bool) {
        let mut halves = self.halves();
        if halves.forgotten || !halves.unread {
            return;
        }
        let session = &mut state.session;
        let broken = loop {
            let count = session.unread(self.id).len();
            if count == 0 {
                break session.consume(self.id, 1).is_err();
            }
            let is_unwanted = new && halves.finished && session.unsent(self.id) == 0 && !session.has_ended(self.id);
            if is_unwanted && session.reset(self.id).is_ok() || session.consume(self.id, count).is_err() {
                break true;
            }
        };
        if broken || (halves.finished && session.is_at_end(self.id)) {
            halves.forgotten = true;
            halves.reset |= broken;
            let _ = session.forget(self.id);
            state.streams.remove(&self.id);
            self.shared.changed.notify_all();
        }
        if state.session.due() || state.streams.is_empty() {
            self.shared.sender.notify_one();
        }
    }

    fn reset(&self) {
        let mut state = self.shared.lock();
        self.reset_in(&mut state);
    }

    fn reset_in(&self, state: &mut State) {
        if state.over.is_none() {
            let _ = state.session.reset(self.id);
            self.halves().reset = true;
            self.readable.notify_all();
            self.writable.notify_all();
            self.shared.changed.notify_all();
            self.shared.sender.notify_one();
        }
        self.tidy(state, false);
    }

    fn finish(&self) -> io::Result<()> {
        let mut state = self.shared.lock();
        self.halves().finished = true;
        state.check()?; // an end that still got out would be taken for a good one
        let finished = state.session.finish(self.id);
        self.shared.sender.notify_one();
        self.tidy(&mut state, false);
        if self.halves().reset {
            return Err(Refused { code: YMX_E_RESET }.into());
        }
        finished.map_err(Into::into)
    }
}

impl ReadHalf {
    /// The stream's number on the wire.
    pub fn id(&self) -> u32 {
        self.stream.id
    }

    /// For how long a read waits before it is `TimedOut`, with nothing lost: for ever, if it is None.
    pub fn set_read_timeout(&mut self, timeout: Option<Duration>) {
        self.timeout = timeout;
    }

    /// Breaks the stream off, both ways.
    pub fn reset(self) {
        self.stream.reset();
    }

    fn get(&self, buffer: &mut [u8]) -> io::Result<usize> {
        if buffer.is_empty() {
            return Ok(0);
        }
        let stream = &*self.stream;
        let until = Until::of(self.timeout);
        let mut state = stream.shared.lock();
        loop {
            match state.session.read(stream.id, buffer) {
                Ok(Got::Bytes(count)) => {
                    if state.session.due() {
                        stream.shared.sender.notify_one(); // there is credit to send
                    }
                    return Ok(count);
                }
                Ok(Got::End) => return Ok(0),
                Err(refused) if refused.code != YMX_E_LOST => return Err(refused.into()),
                Ok(Got::Wait) | Err(_) => (),
            }
            state.check()?;
            state = until.wait(&stream.readable, state)?;
        }
    }
}

impl Drop for ReadHalf {
    fn drop(&mut self) {
        let mut state = self.stream.shared.lock();
        self.stream.halves().unread = true;
        self.stream.tidy(&mut state, false);
    }
}

impl WriteHalf {
    /// The stream's number on the wire.
    pub fn id(&self) -> u32 {
        self.stream.id
    }

    /// For how long a write waits for credit before it is `TimedOut`, with no byte of it taken: for ever, if it is None.
    pub fn set_write_timeout(&mut self, timeout: Option<Duration>) {
        self.timeout = timeout;
    }

    /// Ends this side of the stream, after the last byte, and says whether it could. The peer reads an end then, and
    /// nowhere else.
    pub fn finish(self) -> io::Result<()> {
        self.stream.finish()
    }

    /// Breaks the stream off, both ways.
    pub fn reset(self) {
        self.stream.reset();
    }

    fn put(&self, all: &[IoSlice<'_>]) -> io::Result<usize> {
        if all.iter().all(|bytes| bytes.is_empty()) {
            return Ok(0);
        }
        let stream = &*self.stream;
        let until = Until::of(self.timeout);
        let mut state = stream.shared.lock();
        loop {
            state.check()?;
            if stream.halves().reset {
                return Err(Refused { code: YMX_E_RESET }.into());
            }
            let mut taken = 0;
            for bytes in all {
                let count = match state.session.write(stream.id, bytes) {
                    Err(_) if taken > 0 => break, // the next call tells it
                    count => count?.unwrap_or(0),
                };
                taken += count;
                if count < bytes.len() {
                    break;
                }
            }
            if taken > 0 {
                stream.shared.sender.notify_one();
                return Ok(taken);
            }
            state = until.wait(&stream.writable, state)?;
        }
    }
}

impl Drop for WriteHalf {
    fn drop(&mut self) {
        let mut state = self.stream.shared.lock();
        let is_finished = std::mem::replace(&mut self.stream.halves().finished, true);
        if !is_finished {
            self.stream.reset_in(&mut state);
        }
    }
}

// The halves and the stream, and references to them.
macro_rules! read_and_write {
    (Read: $($read:ty $(=> $reader:ident)?),*; Write: $($write:ty $(=> $writer:ident)?),*) => {
        $(impl Read for $read {
            fn read(&mut self, buffer: &mut [u8]) -> io::Result<usize> {
                self$(.$reader)?.get(buffer)
            }
        })*
        $(impl Write for $write {
            fn write(&mut self, bytes: &[u8]) -> io::Result<usize> {
                self$(.$writer)?.put(&[IoSlice::new(bytes)])
            }

            fn write_vectored(&mut self, all: &[IoSlice<'_>]) -> io::Result<usize> {
                self$(.$writer)?.put(all)
            }

            /// Does nothing: what was written goes out by itself.
            fn flush(&mut self) -> io::Result<()> {
                Ok(())
            }
        })*
    };
}

read_and_write! {
    Read: ReadHalf, &ReadHalf, Stream => reader, &Stream => reader;
    Write: WriteHalf, &WriteHalf, Stream => writer, &Stream => writer
}
