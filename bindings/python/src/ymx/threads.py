"""For programs without asyncio: connections and streams whose calls block, over one event loop in a thread of its own."""
import asyncio
import concurrent.futures
import threading
from typing import Any, Coroutine, Optional, TypeVar

from . import connection as _asyncio
from .streams import StreamReader, StreamWriter

_T = TypeVar("_T")
_lock = threading.Lock()
_loop: Optional[asyncio.AbstractEventLoop] = None


def _running() -> asyncio.AbstractEventLoop:
    """The loop, which lives as long as the program."""
    global _loop
    with _lock:
        if _loop is None:
            _loop = asyncio.new_event_loop()
            threading.Thread(target=_loop.run_forever, name="ymx", daemon=True).start()
        return _loop


def _wait(work: "Coroutine[Any, Any, _T]", timeout: Optional[float] = None) -> _T:
    """Runs this in the loop. TimeoutError where it takes longer, and then it is given up, with nothing lost."""
    future = asyncio.run_coroutine_threadsafe(work, _running())
    try:
        return future.result(timeout)
    except concurrent.futures.TimeoutError:
        if future.done():
            raise  # of its own
        future.cancel()
        raise TimeoutError(f"it took longer than {timeout} seconds") from None
    except BaseException:
        future.cancel()
        raise


async def _called(call: Any, *words: Any) -> Any:
    return call(*words)


class Stream:
    """One stream. One thread may read it while another writes. Left by an exception, or dropped without `close`, it is reset.

    StreamReset, StreamClosed and ConnectionLost are raised as by `ymx.StreamReader` and `ymx.StreamWriter`."""

    def __init__(self, reader: StreamReader, writer: StreamWriter) -> None:
        self._reader, self._writer = reader, writer
        self.timeout: Optional[float] = None  # of each read and write, in seconds

    def read(self, size: int = -1) -> bytes:
        """At least one byte and at most `size`, or b"" at the peer's end. Without `size`, all to the peer's end."""
        return _wait(self._reader.read(size), self.timeout)

    def read_exactly(self, size: int) -> bytes:
        """Just `size` bytes. asyncio.IncompleteReadError where the peer's end comes before."""
        return _wait(self._reader.readexactly(size), self.timeout)

    def readline(self) -> bytes:
        """To the next line feed, or the peer's end."""
        return _wait(self._reader.readline(), self.timeout)

    def write(self, data: bytes) -> None:
        """Takes all of it, and waits while more than 64 KiB are unsent. After a TimeoutError the bytes are still sent."""
        _wait(self._write(data), self.timeout)

    async def _write(self, data: bytes) -> None:
        self._writer.write(data)
        await self._writer.drain()

    def finish(self) -> None:
        """Ends the writing side. The stream is still read."""
        _wait(_called(self._writer.write_eof))

    def close(self) -> None:
        """Ends the writing side after the last byte, and reads no more."""
        _wait(_called(self._writer.close))

    def abort(self) -> None:
        """Resets the stream."""
        _wait(_called(self._writer.abort))

    def __enter__(self) -> "Stream":
        return self

    def __exit__(self, kind: Any, *_: Any) -> None:
        if kind is None:
            self.close()
        else:
            self.abort()


class Session:
    """One side of a connection. Any thread may call it. `with` leaves it as `async with` leaves a `ymx.Connection`."""

    def __init__(self, connection: _asyncio.Connection) -> None:
        self._connection = connection

    def open(self, timeout: Optional[float] = None) -> Stream:
        """Opens a stream. It waits while 256 are not acknowledged."""
        return Stream(*_wait(self._connection.open_stream(), timeout))

    def accept(self, timeout: Optional[float] = None) -> Stream:
        """Waits for a stream of the peer's. ConnectionLost once there are no more."""
        return Stream(*_wait(self._connection.accept_stream(), timeout))

    def ping(self, timeout: Optional[float] = None) -> float:
        """Pings the peer, and returns how many seconds its answer took."""
        return _wait(self._connection.ping(), timeout)

    def go_away(self) -> None:
        """Takes no more streams of the peer's."""
        _wait(_called(self._connection.go_away))

    def close(self) -> None:
        """Sends all that was written to its streams, and waits until the peer says that it came."""
        _wait(self._connection.__aexit__(None))

    def abort(self) -> None:
        """Ends the connection and all its streams at once."""
        _wait(_called(self._connection.abort))

    def __enter__(self) -> "Session":
        return self

    def __exit__(self, kind: Any, *_: Any) -> None:
        _wait(self._connection.__aexit__(kind))


class Listener:
    """Accepts connections."""

    def __init__(self, host: Optional[str], port: int, **how: Any) -> None:
        """`how` is for `ymx.start_server`."""
        self._come: "asyncio.Queue[_asyncio.Connection]"
        self._server = _wait(self._start(host, port, how))
        self.address: Any = self._server.sockets[0].getsockname()

    async def _start(self, host: Optional[str], port: int, how: Any) -> asyncio.Server:
        self._come = asyncio.Queue()
        return await _asyncio.start_server(self._serve, host, port, **how)

    async def _serve(self, connection: _asyncio.Connection) -> None:
        await self._come.put(connection)
        await connection.wait_closed()

    def accept(self, timeout: Optional[float] = None) -> Session:
        return Session(_wait(self._come.get(), timeout))

    def close(self) -> None:
        """Listens no more. Sessions that were accepted go on."""
        _wait(_called(self._server.close))

    def __enter__(self) -> "Listener":
        return self

    def __exit__(self, *_: Any) -> None:
        self.close()


def connect(host: str, port: int, *, timeout: Optional[float] = None, **how: Any) -> Session:
    """Connects. `how` is for `ymx.open_connection`."""
    return Session(_wait(_asyncio.open_connection(host, port, **how), timeout))
