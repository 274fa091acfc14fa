"""The declarations of ymx.h, which says what each call does. The library is the file that YMX_LIBRARY names, or the one that
a wheel for this platform has brought, or is looked for as the system does, by the name of the one major version that this
package knows."""
import ctypes
import os
from typing import Any, Dict, Tuple, Type, Union

LEAST_WINDOW, WIDEST_WINDOW = 262144, 16777216
MOST_TOUCHED = 1024
WAIT, OPENS_PENDING, PINGS_PENDING, LOST, RESET = -12, -7, -10, -4, -3

# libymx.so.0 keeps its calls in all versions 0.x, and 0.2 is the first that has those below.
_NAME, _MAJOR, _LEAST_MINOR = "libymx.so.0", 0, 2

Bytes = Union[bytes, bytearray, memoryview]


def _loaded() -> ctypes.CDLL:
    named = os.environ.get("YMX_LIBRARY")
    brought = os.path.join(os.path.dirname(__file__), _NAME)
    try:
        return ctypes.CDLL(named or (brought if os.path.exists(brought) else _NAME))
    except OSError as error:
        if named:
            raise ImportError(f"YMX_LIBRARY names {named}, which can't be loaded: {error}") from None
        raise ImportError(
            f"{_NAME} isn't found. Build and install it by `c/build.sh install` and `ldconfig`, or let the environment"
            f" variable YMX_LIBRARY name the file, as /usr/local/lib/{_NAME} ({error})"
        ) from None


_library = _loaded()
_pointer, _id, _bytes, _size = ctypes.c_void_p, ctypes.c_uint32, ctypes.c_void_p, ctypes.c_size_t
_place = ctypes.POINTER(ctypes.c_void_p)


def _declared(name: str, *arguments: Any, answers: Any = ctypes.c_int64) -> Any:
    try:
        call = getattr(_library, "ymx_" + name)
    except AttributeError:
        raise ImportError(f"{_library._name} has no ymx_{name}: YMX_LIBRARY is to name a {_NAME} of version 0.2") from None
    call.argtypes, call.restype = arguments, answers
    return call


_version = _declared("version", answers=ctypes.c_char_p)


def version() -> str:
    """The library's version, as "0.2.0"."""
    return str(_version().decode())


if not (version().split(".")[0] == str(_MAJOR) and int(version().split(".")[1]) >= _LEAST_MINOR):
    raise ImportError(f"{_library._name} is version {version()} of libymx: YMX_LIBRARY is to name a {_NAME} of version 0.2")

new = _declared("new", ctypes.c_int, ctypes.c_uint32, ctypes.c_uint32, _place)
free = _declared("free", _pointer, answers=None)
feed_touching = _declared("feed_touching", _pointer, _bytes, _size, _pointer)
feed_end = _declared("feed_end", _pointer)
emit = _declared("emit", _pointer, _pointer, _size)
due = _declared("due", _pointer)
open_ = _declared("open", _pointer)
accept = _declared("accept", _pointer)
opens_left = _declared("opens_left", _pointer)
is_peer_away = _declared("is_peer_away", _pointer)
offered_count = _declared("offered_count", _pointer)
write = _declared("write", _pointer, _id, _bytes, _size)
room = _declared("room", _pointer, _id)
read = _declared("read", _pointer, _id, _pointer, _size)
is_at_end = _declared("is_at_end", _pointer, _id)
has_ended = _declared("has_ended", _pointer, _id)
unsent = _declared("unsent", _pointer, _id)
unsent_total = _declared("unsent_total", _pointer)
is_acknowledged = _declared("is_acknowledged", _pointer, _id)
is_reset = _declared("is_reset", _pointer, _id)
streams = _declared("streams", _pointer, ctypes.POINTER(_id), _size)
unread = _declared("unread", _pointer, _id, _place)
unread_count = _declared("unread_count", _pointer, _id)
consume = _declared("consume", _pointer, _id, _size)
finish = _declared("finish", _pointer, _id)
reset = _declared("reset", _pointer, _id)
forget = _declared("forget", _pointer, _id)
release = _declared("release", _pointer, _id)
shrink = _declared("shrink", _pointer, _id)
shrink_spare = _declared("shrink_spare", _pointer)
ping = _declared("ping", _pointer)
ponged = _declared("ponged", _pointer, _id)
go_away = _declared("go_away", _pointer)
close = _declared("close", _pointer)
status = _declared("status", _pointer)
touched_new = _declared("touched_new", _place)
touched_free = _declared("touched_free", _pointer, answers=None)
touched_ids = _declared("touched_ids", _pointer, ctypes.POINTER(_id), _size)
touched_is_all = _declared("touched_is_all", _pointer)
touched_has_pong = _declared("touched_has_pong", _pointer)
touched_clear = _declared("touched_clear", _pointer)
_error_name = _declared("error_name", ctypes.c_int64, answers=ctypes.c_char_p)
_fault_name = _declared("fault_name", ctypes.c_int64, answers=ctypes.c_char_p)


def _texts(name: str, names: Any) -> Any:
    """The texts of version 0.4, or of an older library the names alone."""
    return _declared(name, ctypes.c_int64, answers=ctypes.c_char_p) if hasattr(_library, "ymx_" + name) else names


_refusal_text = _texts("refusal_text", _error_name)
_fault_text = _texts("fault_text", _fault_name)


class Refused(Exception):
    """A call was refused. `name` says why, as "RESET"; ymx.h lists the names. It is a ValueError too where an argument is out
    of range, a ConnectionError where the stream or the connection is over, and a MemoryError."""

    def __init__(self, code: int) -> None:
        self.code = code
        self.name: str = _error_name(code).decode()
        super().__init__(code)

    def __str__(self) -> str:
        return str(_refusal_text(self.code).decode())


class RefusedValue(Refused, ValueError):
    """An argument is out of range: a window, a first id, a role, a stream that isn't there."""


class RefusedConnection(Refused, ConnectionError):
    """The stream or the connection is over."""


class RefusedMemory(Refused, MemoryError):
    """There was no memory."""


_KINDS: Dict[int, Type[Refused]] = {
    # NO_STREAM, BAD_WINDOW, BAD_FIRST, NULL, BAD_ROLE
    **{code: RefusedValue for code in (-1, -13, -14, -15, -16)},
    # FINISHED, RESET, LOST, CLOSED
    **{code: RefusedConnection for code in (-2, RESET, LOST, -5)},
    # NO_MEMORY
    -11: RefusedMemory,
}


def good(answer: int) -> int:
    """The answer, if it is no refusal."""
    if answer < 0:
        raise _KINDS.get(answer, Refused)(answer)
    return answer


def lent(data: Bytes, start: int) -> Tuple[Any, int, bytes]:
    """Where these bytes lie from `start` on, how many they are, and what has to be kept for as long as they are used.
    No byte is copied if they are of the type bytes."""
    kept = data if isinstance(data, bytes) else bytes(data)
    if not 0 <= start <= len(kept):
        raise ValueError(f"there is no byte {start} of {len(kept)}")
    place = kept if start == 0 else (ctypes.cast(ctypes.c_char_p(kept), _pointer).value or 0) + start
    return place, len(kept) - start, kept


def fault_name(fault: int) -> str:
    """The name of a fault of the peer's, "B1" to "B9" as docs/PROTOCOL.md has it; "UNKNOWN" of any other number. Of a
    session that broke it is fault_name(status - BROKEN)."""
    return str(_fault_name(fault).decode())


def fault_text(fault: int) -> str:
    """What the peer did, after the fault's name: "B5: Data beyond the window"."""
    return str(_fault_text(fault).decode())
