//! yamux over libymx. A [`Connection`] runs over a socket, with a half of a stream for reading and one for writing. A
//! [`Session`] does no input or output.

mod connection;

pub use connection::{Connection, Ended, ReadHalf, Side, Stream, WriteHalf};
use std::{ffi::CStr, fmt, ptr};
use ymx_sys::*;

/// The least window of a stream, in bytes, which is the usual one.
pub const LEAST_WINDOW: u32 = YMX_LEAST_WINDOW;
/// The widest window of a stream, in bytes.
pub const WIDEST_WINDOW: u32 = YMX_WIDEST_WINDOW;
/// How many streams a session has, at most.
pub const MOST_STREAMS: usize = YMX_MOST_STREAMS;
/// How many own streams are not acknowledged, at most.
pub const MOST_OPENS_PENDING: usize = YMX_MOST_OPENS_PENDING;
/// How many streams of the peer's wait to be accepted, at most.
pub const MOST_OFFERED: usize = YMX_MOST_OFFERED;
/// How many pings are awaited, at most.
pub const MOST_PINGS_PENDING: usize = YMX_MOST_PINGS_PENDING;
/// How many answers to the peer are unsent, at most: a feed takes nothing more then.
pub const MOST_ANSWERS: usize = YMX_MOST_ANSWERS;
/// How many streams a [`Touched`] names, at most.
pub const MOST_TOUCHED: usize = YMX_MOST_TOUCHED;

/// The library's version, as "0.2.0".
pub fn version() -> &'static str {
    text(unsafe { ymx_version() })
}

/// A static text of the library's.
fn text(at: *const c_char) -> &'static str {
    unsafe { CStr::from_ptr(at) }.to_str().unwrap_or("UNKNOWN")
}

/// Which side of the connection it is.
#[derive(Clone, Copy, Debug, PartialEq, Eq)]
pub enum Role {
    Client,
    Server,
}

/// Why a call was refused. `name` is its name in ymx.h without the prefix, as "RESET", and its text says what to do. As an
/// `io::Error` it has the kind that fits, such as `InvalidInput` where an argument is out of range.
#[derive(Clone, Copy, Debug, PartialEq, Eq)]
pub struct Refused {
    pub code: i64,
}

impl Refused {
    pub fn name(self) -> &'static str {
        text(unsafe { ymx_error_name(self.code) })
    }
}

impl fmt::Display for Refused {
    fn fmt(&self, f: &mut fmt::Formatter<'_>) -> fmt::Result {
        f.write_str(text(unsafe { ymx_refusal_text(self.code) }))
    }
}

impl std::error::Error for Refused {}

/// Why a session broke. This side has found the first seven, the peer says the last two.
#[derive(Clone, Copy, Debug, PartialEq, Eq)]
pub enum Fault {
    /// A frame's version is not 0.
    BadVersion,
    /// A frame's type is above 3.
    UnknownType,
    /// A SYN for stream 0, or for an id of this side's.
    BadSyn,
    /// A SYN for a stream that is there.
    StreamInUse,
    /// Data beyond the window.
    WindowExceeded,
    /// A credit above 4,294,967,295 bytes.
    CreditOverflow,
    /// A Go Away code above 2.
    BadGoAwayCode,
    /// The peer says that it found a protocol error.
    PeerSawProtocolError,
    /// The peer says that it has an internal error.
    PeerSawInternalError,
}

const FAULTS: [Fault; 9] = [
    Fault::BadVersion,
    Fault::UnknownType,
    Fault::BadSyn,
    Fault::StreamInUse,
    Fault::WindowExceeded,
    Fault::CreditOverflow,
    Fault::BadGoAwayCode,
    Fault::PeerSawProtocolError,
    Fault::PeerSawInternalError,
];

impl Fault {
    /// The fault of this number, 1 to 9.
    pub fn of_number(number: i64) -> Option<Fault> {
        FAULTS.into_iter().find(|fault| fault.number() == number)
    }

    /// Its number in ymx.h, 1 to 9.
    pub fn number(self) -> i64 {
        self as i64 + YMX_FAULT_BAD_VERSION
    }

    /// Its name in docs/PROTOCOL.md, "B1" to "B9".
    pub fn name(self) -> &'static str {
        text(unsafe { ymx_fault_name(self.number()) })
    }
}

impl fmt::Display for Fault {
    fn fmt(&self, f: &mut fmt::Formatter<'_>) -> fmt::Result {
        f.write_str(text(unsafe { ymx_fault_text(self.number()) }))
    }
}

impl std::error::Error for Fault {}

/// What a read gives.
#[derive(Clone, Copy, Debug, PartialEq, Eq)]
pub enum Got {
    /// So many bytes stand at the buffer's front.
    Bytes(usize),
    /// The peer has finished, and all was read.
    End,
    /// Nothing is there yet.
    Wait,
}

/// What of a stream goes next, in this order.
#[derive(Clone, Copy, Debug, PartialEq, Eq)]
pub enum Next {
    /// The frame that opens or accepts it.
    First = YMX_NEXT_FIRST as isize,
    /// Its reset.
    Reset = YMX_NEXT_RESET as isize,
    /// Credit for the peer.
    Credit = YMX_NEXT_CREDIT as isize,
    /// Bytes that were written.
    Data = YMX_NEXT_DATA as isize,
    /// Its end.
    End = YMX_NEXT_END as isize,
}

const NEXT: [Next; 5] = [Next::First, Next::Reset, Next::Credit, Next::Data, Next::End];

/// One side of a connection.
#[derive(Debug)]
pub struct Session(ptr::NonNull<ymx_session>);

// Each call takes the session by `&mut`, or only reads it, and the library has no variables of its own.
unsafe impl Send for Session {}

fn good(answer: i64) -> Result<usize, Refused> {
    usize::try_from(answer).map_err(|_| Refused { code: answer })
}

/// `None` where it would have to wait.
fn unless_wait(answer: i64) -> Result<Option<usize>, Refused> {
    if answer == YMX_WAIT {
        Ok(None)
    } else {
        good(answer).map(Some)
    }
}

impl Session {
    /// A session with this window, 262,144 to 16,777,216 bytes; `first` is the first own stream id, or 0.
    pub fn new(role: Role, window: u32, first: u32) -> Result<Session, Refused> {
        let mut at = ptr::null_mut();
        let role = if role == Role::Client { YMX_CLIENT } else { YMX_SERVER };
        let answer = unsafe { ymx_new(role, window, first, &mut at) };
        good(answer)?;
        ptr::NonNull::new(at).map(Session).ok_or(Refused { code: answer })
    }

    /// Feeds bytes of the peer's, and returns how many were taken.
    pub fn feed(&mut self, bytes: &[u8]) -> Result<usize, Refused> {
        good(unsafe { ymx_feed(self.0.as_ptr(), bytes.as_ptr().cast(), bytes.len()) })
    }

    /// Feeds bytes as `feed` does, and notes the streams that they touch. A stream that isn't noted is as it was.
    pub fn feed_touching(&mut self, bytes: &[u8], touched: &mut Touched) -> Result<usize, Refused> {
        good(unsafe { ymx_feed_touching(self.0.as_ptr(), bytes.as_ptr().cast(), bytes.len(), touched.0.as_ptr()) })
    }

    /// The peer's bytes have ended.
    pub fn feed_end(&mut self) -> Result<(), Refused> {
        good(unsafe { ymx_feed_end(self.0.as_ptr()) }).map(drop)
    }

    /// Fills the buffer with bytes for the peer, and returns how many.
    pub fn emit(&mut self, buffer: &mut [u8]) -> Result<usize, Refused> {
        good(unsafe { ymx_emit(self.0.as_ptr(), buffer.as_mut_ptr().cast(), buffer.len()) })
    }

    /// Whether an emission would give bytes. Reading, accepting, forgetting and releasing streams can make some due, too.
    pub fn due(&self) -> bool {
        unsafe { ymx_due(self.0.as_ptr()) == 1 }
    }

    /// Opens a stream, and returns its id.
    pub fn open(&mut self) -> Result<u32, Refused> {
        good(unsafe { ymx_open(self.0.as_ptr()) }).map(|id| id as u32)
    }

    /// How many streams may be opened now, one after another: at 0 `open` is refused.
    pub fn opens_left(&self) -> usize {
        good(unsafe { ymx_opens_left(self.0.as_ptr()) }).unwrap_or(0)
    }

    /// Whether the peer takes no more streams, and has said so.
    pub fn is_peer_away(&self) -> bool {
        unsafe { ymx_is_peer_away(self.0.as_ptr()) == 1 }
    }

    /// The id of a stream of the peer's.
    pub fn accept(&mut self) -> Result<Option<u32>, Refused> {
        good(unsafe { ymx_accept(self.0.as_ptr()) }).map(|id| (id > 0).then_some(id as u32))
    }

    /// How many streams `accept` would give.
    pub fn offered(&self) -> usize {
        good(unsafe { ymx_offered_count(self.0.as_ptr()) }).unwrap_or(0)
    }

    /// How many bytes a `write` would take.
    pub fn room(&self, id: u32) -> usize {
        good(unsafe { ymx_room(self.0.as_ptr(), id) }).unwrap_or(0)
    }

    /// Writes to a stream, and returns how many bytes were taken; `None` where there is no credit.
    pub fn write(&mut self, id: u32, bytes: &[u8]) -> Result<Option<usize>, Refused> {
        unless_wait(unsafe { ymx_write(self.0.as_ptr(), id, bytes.as_ptr().cast(), bytes.len()) })
    }

    /// Reads from a stream. Into an empty buffer it reads nothing, and says `End`.
    pub fn read(&mut self, id: u32, buffer: &mut [u8]) -> Result<Got, Refused> {
        let answer = unsafe { ymx_read(self.0.as_ptr(), id, buffer.as_mut_ptr().cast(), buffer.len()) };
        Ok(match unless_wait(answer)? {
            None => Got::Wait,
            Some(0) => Got::End,
            Some(count) => Got::Bytes(count),
        })
    }

    /// Whether the peer has finished the stream, and all was read.
    pub fn is_at_end(&self, id: u32) -> bool {
        unsafe { ymx_is_at_end(self.0.as_ptr(), id) == 1 }
    }

    /// The first bytes that wait on a stream, where they lie. More may come once these are consumed.
    pub fn unread(&self, id: u32) -> &[u8] {
        let mut at = ptr::null();
        let count = good(unsafe { ymx_unread(self.0.as_ptr(), id, &mut at) }).unwrap_or(0);
        if at.is_null() {
            &[]
        } else {
            unsafe { std::slice::from_raw_parts(at.cast(), count) }
        }
    }

    /// How many bytes wait on a stream: those that `unread` gives, and those after them.
    pub fn unread_count(&self, id: u32) -> usize {
        good(unsafe { ymx_unread_count(self.0.as_ptr(), id) }).unwrap_or(0)
    }

    /// Takes out the first `count` bytes that wait on a stream, or as many as are there.
    pub fn consume(&mut self, id: u32, count: usize) -> Result<(), Refused> {
        unless_wait(unsafe { ymx_consume(self.0.as_ptr(), id, count) }).map(drop)
    }

    /// Whether the peer's end of a stream has arrived, also while bytes wait to be read.
    pub fn has_ended(&self, id: u32) -> bool {
        unsafe { ymx_has_ended(self.0.as_ptr(), id) == 1 }
    }

    /// How many bytes were written to a stream and stand in no frame yet.
    pub fn unsent(&self, id: u32) -> usize {
        good(unsafe { ymx_unsent(self.0.as_ptr(), id) }).unwrap_or(0)
    }

    /// How many bytes of all streams were written and stand in no frame yet, also of those that were given up.
    pub fn unsent_total(&self) -> u64 {
        let answer = unsafe { ymx_unsent_total(self.0.as_ptr()) };
        u64::try_from(answer).unwrap_or(0)
    }

    /// What of a stream `emit` gives next, if something is due; and whether the rest of a frame goes before, of whichever
    /// stream.
    pub fn next_of(&self, id: u32) -> (Option<Next>, bool) {
        let next = unsafe { ymx_next_of(self.0.as_ptr(), id) };
        let (what, rest) = (next & !YMX_NEXT_REST, next & YMX_NEXT_REST);
        (NEXT.into_iter().find(|next| *next as i64 == what), rest != 0)
    }

    /// Whether the peer has acknowledged a stream that was opened here.
    pub fn is_acknowledged(&self, id: u32) -> bool {
        unsafe { ymx_is_acknowledged(self.0.as_ptr(), id) == 1 }
    }

    /// Whether either side has reset a stream.
    pub fn is_reset(&self, id: u32) -> bool {
        unsafe { ymx_is_reset(self.0.as_ptr(), id) == 1 }
    }

    /// The streams that were opened or accepted, and not forgotten or released, in the order in which they came.
    pub fn streams(&self) -> Vec<u32> {
        let count = good(unsafe { ymx_streams(self.0.as_ptr(), ptr::null_mut(), 0) }).unwrap_or(0);
        let mut ids = vec![0; count];
        unsafe { ymx_streams(self.0.as_ptr(), ids.as_mut_ptr(), ids.len()) };
        ids
    }

    /// Gives memory of a stream back that it doesn't need now, and says whether there was some.
    pub fn shrink(&mut self, id: u32) -> Result<bool, Refused> {
        good(unsafe { ymx_shrink(self.0.as_ptr(), id) }).map(|given| given == 1)
    }

    /// Gives memory back that is kept for streams to come, and says whether there was some.
    pub fn shrink_spare(&mut self) -> bool {
        unsafe { ymx_shrink_spare(self.0.as_ptr()) == 1 }
    }

    /// Half-closes a stream.
    pub fn finish(&mut self, id: u32) -> Result<(), Refused> {
        good(unsafe { ymx_finish(self.0.as_ptr(), id) }).map(drop)
    }

    /// Breaks a stream off.
    pub fn reset(&mut self, id: u32) -> Result<(), Refused> {
        good(unsafe { ymx_reset(self.0.as_ptr(), id) }).map(drop)
    }

    /// Gives a stream up.
    pub fn forget(&mut self, id: u32) -> Result<(), Refused> {
        good(unsafe { ymx_forget(self.0.as_ptr(), id) }).map(drop)
    }

    /// Lets a stream go so that what was written still arrives. What comes of it is dropped, and it is forgotten by itself
    /// once the peer's end is there.
    pub fn release(&mut self, id: u32) -> Result<(), Refused> {
        good(unsafe { ymx_release(self.0.as_ptr(), id) }).map(drop)
    }

    /// Writes these bytes to a stream and puts the frame that carries them into the buffer, and returns how many bytes that
    /// are; `None` where something else is due, or they don't fit, and then nothing has changed.
    pub fn write_through(&mut self, id: u32, bytes: &[u8], buffer: &mut [u8]) -> Result<Option<usize>, Refused> {
        let answer = unsafe {
            ymx_write_through(
                self.0.as_ptr(),
                id,
                bytes.as_ptr().cast(),
                bytes.len(),
                buffer.as_mut_ptr().cast(),
                buffer.len(),
            )
        };
        good(answer).map(|count| (count > 0).then_some(count))
    }

    /// Feeds bytes as `feed_touching` does, but no further than to the first payload that `pass` may take.
    pub fn feed_to_payload(&mut self, bytes: &[u8], touched: &mut Touched) -> Result<usize, Refused> {
        good(unsafe { ymx_feed_to_payload(self.0.as_ptr(), bytes.as_ptr().cast(), bytes.len(), touched.0.as_ptr()) })
    }

    /// The stream of the payload that comes next, and how many bytes of it are to come, where it may be passed on.
    pub fn passing(&self) -> Option<(u32, usize)> {
        let mut id = 0;
        let count = good(unsafe { ymx_passing(self.0.as_ptr(), &mut id) }).unwrap_or(0);
        (count > 0).then_some((id, count))
    }

    /// Passes bytes on that the caller has taken right from what came, and returns how many.
    pub fn pass(&mut self, bytes: &[u8]) -> Result<usize, Refused> {
        good(unsafe { ymx_pass(self.0.as_ptr(), bytes.as_ptr().cast(), bytes.len()) })
    }

    /// Pings the peer, and returns the ping's number.
    pub fn ping(&mut self) -> Result<u32, Refused> {
        good(unsafe { ymx_ping(self.0.as_ptr()) }).map(|number| number as u32)
    }

    /// Whether the answer to that ping is back, which is said once.
    pub fn ponged(&mut self, number: u32) -> Result<bool, Refused> {
        good(unsafe { ymx_ponged(self.0.as_ptr(), number) }).map(|back| back == 1)
    }

    /// Takes no more streams of the peer's.
    pub fn go_away(&mut self) -> Result<(), Refused> {
        good(unsafe { ymx_go_away(self.0.as_ptr()) }).map(drop)
    }

    /// Closes the session at once.
    pub fn close(&mut self) {
        unsafe { ymx_close(self.0.as_ptr()) };
    }

    /// 0 running, 1 lost, 2 closed, 101 to 109 broken.
    pub fn status(&self) -> i64 {
        unsafe { ymx_status(self.0.as_ptr()) }
    }

    /// Why it broke; `None` where it did not.
    pub fn fault(&self) -> Option<Fault> {
        Fault::of_number(self.status() - YMX_BROKEN)
    }
}

impl Drop for Session {
    fn drop(&mut self) {
        unsafe { ymx_free(self.0.as_ptr()) }
    }
}

/// The streams that bytes have touched.
#[derive(Debug)]
pub struct Touched(ptr::NonNull<ymx_touched>);

// As of a session.
unsafe impl Send for Touched {}

impl Touched {
    /// One that notes nothing.
    pub fn new() -> Result<Touched, Refused> {
        let mut at = ptr::null_mut();
        let answer = unsafe { ymx_touched_new(&mut at) };
        good(answer)?;
        ptr::NonNull::new(at).map(Touched).ok_or(Refused { code: answer })
    }

    /// The streams, the first touched first; `None` where there are more than can be named, so that any may have changed.
    pub fn ids(&self) -> Option<Vec<u32>> {
        if unsafe { ymx_touched_is_all(self.0.as_ptr()) == 1 } {
            return None;
        }
        let mut ids = vec![0; unsafe { ymx_touched_ids(self.0.as_ptr(), ptr::null_mut(), 0) } as usize];
        unsafe { ymx_touched_ids(self.0.as_ptr(), ids.as_mut_ptr(), ids.len()) };
        Some(ids)
    }

    /// Whether an answer to a ping came.
    pub fn has_pong(&self) -> bool {
        unsafe { ymx_touched_has_pong(self.0.as_ptr()) == 1 }
    }

    /// Notes nothing from here on.
    pub fn clear(&mut self) {
        unsafe { ymx_touched_clear(self.0.as_ptr()) };
    }
}

impl Drop for Touched {
    fn drop(&mut self) {
        unsafe { ymx_touched_free(self.0.as_ptr()) }
    }
}
