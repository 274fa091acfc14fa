"""A session, which does no input or output."""
import ctypes
from typing import List, Optional, Tuple

from . import _library
from ._library import LEAST_WINDOW, MOST_TOUCHED, WAIT, Bytes, good, lent

CLIENT, SERVER = 0, 1
RUNNING, LOST, CLOSED, BROKEN = 0, 1, 2, 100
_BLOCK = 65536


class Session:
    """One side of a connection. One thread at a time uses it."""

    def __init__(self, role: int, window: int = LEAST_WINDOW, first: int = 0) -> None:
        """A CLIENT or a SERVER whose streams have at most `window` unread bytes each. `first` is the first own id, or 0."""
        self._at = ctypes.c_void_p()
        self._touched = ctypes.c_void_p()
        good(_library.new(role, window, first, ctypes.byref(self._at)))
        good(_library.touched_new(ctypes.byref(self._touched)))
        self._ids = (ctypes.c_uint32 * MOST_TOUCHED)()
        self._buffer = ctypes.create_string_buffer(_BLOCK)
        self._lent = ctypes.c_void_p()

    def __del__(self) -> None:
        if getattr(self, "_at", None):
            _library.free(self._at)
        if getattr(self, "_touched", None):
            _library.touched_free(self._touched)

    def feed(self, data: Bytes, start: int = 0) -> int:
        """Feeds bytes of the peer's, from `start` on, and returns how many were taken. `touched` says which streams they
        touch."""
        place, size, _kept = lent(data, start)
        return good(_library.feed_touching(self._at, place, size, self._touched))

    def touched(self) -> Tuple[Optional[List[int]], bool]:
        """The streams that were touched since the last call, or None where they are too many to name; and whether an
        answer to a ping came."""
        count = _library.touched_ids(self._touched, self._ids, MOST_TOUCHED)
        ids = None if _library.touched_is_all(self._touched) else self._ids[:count]
        has_pong = _library.touched_has_pong(self._touched) == 1
        _library.touched_clear(self._touched)
        return ids, has_pong

    def feed_end(self) -> None:
        """The peer's bytes have ended."""
        good(_library.feed_end(self._at))

    def emit(self) -> bytes:
        """Bytes to be sent, at most 65,536; b"" where nothing is due."""
        return ctypes.string_at(self._buffer, good(_library.emit(self._at, self._buffer, _BLOCK)))

    def due(self) -> bool:
        """Whether emit gives bytes. Reading, accepting, forgetting and releasing streams can make some due, too."""
        return bool(_library.due(self._at) == 1)

    def open(self) -> int:
        """Opens a stream, and returns its id."""
        return good(_library.open_(self._at))

    def opens_left(self) -> int:
        """How many streams may be opened now, one after another: at 0 `open` is refused."""
        return good(_library.opens_left(self._at))

    def is_peer_away(self) -> bool:
        """Whether the peer takes no more streams, and has said so."""
        return bool(_library.is_peer_away(self._at) == 1)

    def accept(self) -> Optional[int]:
        """The id of a stream of the peer's, or None."""
        return good(_library.accept(self._at)) or None

    def offered(self) -> int:
        """How many streams of the peer's accept would give."""
        return good(_library.offered_count(self._at))

    def write(self, stream: int, data: Bytes, start: int = 0) -> int:
        """Writes bytes to a stream, from `start` on, and returns how many were taken: 0 where there is no credit."""
        place, size, _kept = lent(data, start)
        answer = _library.write(self._at, stream, place, size)
        return 0 if answer == WAIT else good(answer)

    def room(self, stream: int) -> int:
        """How many bytes a write would take now: 0 where there is no credit, or it would be refused."""
        return good(_library.room(self._at, stream))

    def read(self, stream: int) -> Optional[bytes]:
        """Bytes of a stream; b"" at its end; None where nothing is there yet."""
        count = _library.unread(self._at, stream, ctypes.byref(self._lent))
        if count > 0:
            data = ctypes.string_at(self._lent, count)
            good(_library.consume(self._at, stream, count))
            return data
        answer = _library.read(self._at, stream, self._buffer, _BLOCK)
        return None if answer == WAIT else ctypes.string_at(self._buffer, good(answer))

    def unread_count(self, stream: int) -> int:
        """How many bytes wait to be read on a stream."""
        return good(_library.unread_count(self._at, stream))

    def is_at_end(self, stream: int) -> bool:
        """Whether the peer has finished the stream, and all was read."""
        return bool(_library.is_at_end(self._at, stream) == 1)

    def has_ended(self, stream: int) -> bool:
        """Whether the peer's end has arrived, also while bytes wait to be read."""
        return bool(_library.has_ended(self._at, stream) == 1)

    def unsent(self, stream: int) -> int:
        """How many bytes were written and stand in no frame yet."""
        return good(_library.unsent(self._at, stream))

    def unsent_total(self) -> int:
        """How many bytes of all streams were written and stand in no frame yet, also of those that were given up."""
        return good(_library.unsent_total(self._at))

    def is_acknowledged(self, stream: int) -> bool:
        """Whether the peer has acknowledged a stream that was opened here."""
        return bool(_library.is_acknowledged(self._at, stream) == 1)

    def is_reset(self, stream: int) -> bool:
        """Whether either side has reset the stream."""
        return bool(_library.is_reset(self._at, stream) == 1)

    def streams(self) -> List[int]:
        """The streams that were opened or accepted, and not forgotten or released, in the order in which they came."""
        return self._ids[: good(_library.streams(self._at, self._ids, MOST_TOUCHED))]

    def finish(self, stream: int) -> None:
        """Half-closes a stream."""
        good(_library.finish(self._at, stream))

    def reset(self, stream: int) -> None:
        """Breaks a stream off."""
        good(_library.reset(self._at, stream))

    def forget(self, stream: int) -> None:
        """Gives a stream up. It is reset, unless both sides have finished it."""
        good(_library.forget(self._at, stream))

    def release(self, stream: int) -> None:
        """Lets a stream go so that what was written still arrives. What comes of it is dropped, and it is forgotten by
        itself once the peer's end is there."""
        good(_library.release(self._at, stream))

    def shrink(self, stream: int) -> bool:
        """Gives memory of a stream back that it doesn't need now, and says whether there was some."""
        return good(_library.shrink(self._at, stream)) == 1

    def shrink_spare(self) -> bool:
        """Gives memory back that is kept for streams to come, and says whether there was some."""
        return good(_library.shrink_spare(self._at)) == 1

    def ping(self) -> int:
        """Pings the peer, and returns the ping's number."""
        return good(_library.ping(self._at))

    def ponged(self, number: int) -> bool:
        """Whether the answer to that ping is back, which is said once."""
        return good(_library.ponged(self._at, number)) == 1

    def go_away(self) -> None:
        """Takes no more streams of the peer's."""
        good(_library.go_away(self._at))

    def close(self) -> None:
        """Closes the session at once."""
        good(_library.close(self._at))

    def status(self) -> int:
        """RUNNING, LOST, CLOSED, or BROKEN and the number of a fault."""
        return good(_library.status(self._at))
