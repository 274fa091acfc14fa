"""A session over asyncio. Each stream is a transport of its own, so its two ends are asyncio's StreamReader and
StreamWriter."""
import asyncio
import os
import ssl
from typing import Any, Awaitable, Callable, Dict, List, Optional, Set, Tuple, Type, Union, cast

from . import _library
from ._library import LEAST_WINDOW, Refused
from .errors import ConnectionLost, NotTaken, StreamReset, again
from .session import BROKEN, CLIENT, RUNNING, SERVER, Session
from .streams import StreamReader, StreamTransport, StreamWriter

Stream = Tuple[StreamReader, StreamWriter]
Serve = Callable[["Connection"], Awaitable[None]]
Answer = Callable[[StreamReader, StreamWriter], Awaitable[None]]
LINGER = 10.0
LIMIT = 65536
IDLE = 1.0  # for how long there was no stream when memory goes back


async def open_connection(
    host: str,
    port: int,
    *,
    window: int = LEAST_WINDOW,
    linger: float = LINGER,
    tls: Union[bool, ssl.SSLContext, None] = None,
    **how: Any,
) -> "Connection":
    """Connects, and begins the side that called. `how` is for `loop.create_connection`."""
    loop = asyncio.get_running_loop()
    _, connection = await loop.create_connection(
        lambda: Connection(CLIENT, window, linger=linger), host, port, ssl=tls, **how
    )
    return connection


async def start_server(
    serve: Serve,
    host: Optional[str],
    port: int,
    *,
    window: int = LEAST_WINDOW,
    linger: float = LINGER,
    tls: Optional[ssl.SSLContext] = None,
    **how: Any,
) -> asyncio.Server:
    """Listens, and runs `serve(connection)` for each connection, as the side that was called. Where it returns, the
    connection is closed as after `async with`. `how` is for `loop.create_server`."""
    loop = asyncio.get_running_loop()
    return await loop.create_server(
        lambda: Connection(SERVER, window, serve, linger=linger), host, port, ssl=tls, **how
    )


async def start_stream_server(
    answer: Answer, host: Optional[str], port: int, *, limit: int = LIMIT, **how: Any
) -> asyncio.Server:
    """Listens, and runs `answer(reader, writer)` in a task of its own for each stream of each connection, as
    `asyncio.start_server` does for each connection. `how` is for `start_server`."""
    return await start_server(lambda connection: connection.serve_streams(answer, limit=limit), host, port, **how)


class _Waiters:
    """Those who wait for something, which each of them then looks for, in the order in which they came."""

    def __init__(self, loop: asyncio.AbstractEventLoop) -> None:
        self._loop = loop
        self._futures: Dict["asyncio.Future[None]", None] = {}

    async def wait(self) -> None:
        future = self._loop.create_future()
        self._futures[future] = None
        try:
            await future
        finally:
            del self._futures[future]

    def wake(self) -> None:
        for future in self._futures:
            if not future.done():
                future.set_result(None)

    def __len__(self) -> int:
        return len(self._futures)


class Connection(asyncio.Protocol):
    """One side of a connection. It belongs to one event loop.

    `async with` leaves it in good order: all that was written to its streams is sent, as the peer grants credit for it, and
    the peer has said that it came. Where nothing goes on for `linger` seconds, the connection is broken off, and
    ConnectionLost is raised. After an exception nothing waits for credit; after a cancellation nothing waits at all."""

    def __init__(
        self, role: int, window: int = LEAST_WINDOW, serve: Optional[Serve] = None, *, linger: float = LINGER
    ) -> None:
        self.session = Session(role, window)
        self.linger = linger
        self._loop = asyncio.get_running_loop()
        self._serve = serve
        self._tasks: Set["asyncio.Task[None]"] = set()  # held here: the loop holds them weakly
        self._transport: Optional[asyncio.Transport] = None  # until it is lost
        self._known: Optional[asyncio.BaseTransport] = None  # the same, and its addresses also after that
        self._streams: Dict[int, StreamTransport] = {}
        self._accepting, self._opening = _Waiters(self._loop), _Waiters(self._loop)
        self._moving = _Waiters(self._loop)  # for bytes that streams have unsent
        self._pings: Dict[int, "asyncio.Future[None]"] = {}
        self._unfed = b""
        self._paused = False  # the transport has taken enough
        self._pours = False  # it takes what is due all the same, as it ends
        self._planned = False  # a call of _send is planned
        self._over: Optional[Exception] = None  # why nothing goes on for the user
        self._is_closed_here = False
        self._farewell: Optional[int] = None  # the ping after the last byte
        self._is_short = False  # bytes that were to be sent were not when it ended
        self._gives_up = False  # nothing went on for too long
        self._watching: Optional[asyncio.TimerHandle] = None
        self._sparing: Optional[asyncio.TimerHandle] = None
        self._closed: "asyncio.Future[None]" = self._loop.create_future()

    # ---- for the user

    async def open_stream(self, *, limit: int = LIMIT) -> Stream:
        """Opens a stream. `limit` is as of `asyncio.open_connection`. It waits while 256 are not acknowledged. Refused
        `PEER_AWAY` where the peer takes no more, `TOO_MANY` where 1,024 are there. ConnectionLost once the connection has
        ended. RuntimeError in another event loop than the connection's."""
        self._check_loop()
        while True:
            self._check()
            try:
                return self._stream(self.session.open(), limit, is_accepted=False)
            except Refused as refused:
                if refused.code != _library.OPENS_PENDING:
                    raise
            await self._opening.wait()

    async def accept_stream(self, *, limit: int = LIMIT) -> Stream:
        """Waits for a stream of the peer's. Once the peer has hung up, or has broken a rule, it still gives the streams
        that came before, and then raises ConnectionLost. Closed here, it raises ConnectionLost at once."""
        self._check_loop()
        while True:
            if self._is_closed_here:
                self._check()
            stream = self.session.accept() if self.session.offered() > 0 else None
            if stream is not None:
                return self._stream(stream, limit, is_accepted=True)
            self._check()
            await self._accepting.wait()

    async def serve_streams(self, answer: Answer, *, limit: int = LIMIT) -> None:
        """Runs `answer(reader, writer)` in a task of its own for each stream of the peer's, until the connection has
        ended. The connection holds these tasks, and doesn't end them. Where one raises, or is cancelled, its stream is
        reset, so that the peer never takes it for whole."""
        try:
            while True:
                self._hold(self._answer(answer, *await self.accept_stream(limit=limit)))
        except ConnectionLost:
            pass

    async def ping(self) -> float:
        """Pings the peer, and returns how many seconds its answer took. Refused("PINGS_PENDING")
        where 16 answers are awaited, ConnectionLost where the connection ends before."""
        self._check_loop()
        self._check()
        number, began = self.session.ping(), self._loop.time()
        future = self._pings[number] = self._loop.create_future()
        self.plan()
        await asyncio.shield(future)
        return self._loop.time() - began

    def go_away(self) -> None:
        """Takes no more streams of the peer's, and tells it so. Streams that are there go on."""
        self._check()
        self.session.go_away()
        self.plan()

    def close(self) -> None:
        """Ends the connection and all its streams for their users here. What the peer has granted credit for is still sent,
        and the connection ends once the peer says that it came, or `linger` seconds have passed in which nothing went on.
        To have all sent, leave the connection by `async with`."""
        self._is_closed_here = True
        self._end(ConnectionLost("the connection was closed here"))

    def abort(self) -> None:
        """Ends the connection and all its streams at once. What is unsent is dropped."""
        self._is_closed_here = True
        self._end(ConnectionLost("the connection was broken off here"), is_at_once=True)
        if self._transport is not None:
            self._transport.abort()

    async def wait_closed(self) -> None:
        """Waits until the connection has ended."""
        await asyncio.shield(self._closed)

    async def __aenter__(self) -> "Connection":
        return self

    async def __aexit__(self, kind: Optional[Type[BaseException]], *_: Any) -> None:
        await self._leave(kind)

    @property
    def stream_count(self) -> int:
        """How many streams there are that have not ended on both sides, or are not closed here."""
        return len(self._streams)

    def get_extra_info(self, name: str, default: Any = None) -> Any:
        """What the transport says of itself, as "peername"; also once it is over."""
        return default if self._known is None else self._known.get_extra_info(name, default)

    # ---- tasks

    def _hold(self, work: Any) -> None:
        task = self._loop.create_task(work)
        self._tasks.add(task)
        task.add_done_callback(self._tasks.discard)

    async def _run(self, serve: Serve) -> None:
        kind: Optional[Type[BaseException]] = None
        try:
            await serve(self)
        except ConnectionLost:
            pass
        except asyncio.CancelledError:
            kind = asyncio.CancelledError
            raise
        except Exception as error:
            kind = type(error)
            self._say("serve has failed", error)
        finally:
            try:
                await self._leave(kind)
            except ConnectionLost:
                pass

    async def _answer(self, answer: Answer, reader: StreamReader, writer: StreamWriter) -> None:
        try:
            await answer(reader, writer)
            writer.has_answered = True
        except (StreamReset, ConnectionLost):
            writer.abort()
        except asyncio.CancelledError:
            writer.abort()
            raise
        except Exception as error:
            writer.abort()
            self._say("the handler of a stream has failed", error)

    def _say(self, what: str, error: Exception) -> None:
        self._loop.call_exception_handler({"message": f"ymx: {what}", "exception": error, "protocol": self})

    # ---- asyncio calls these

    def connection_made(self, transport: asyncio.BaseTransport) -> None:
        self._transport = cast(asyncio.Transport, transport)  # uvloop's is none by its type
        self._known = transport
        if self._over is not None:
            self._transport.abort()
        elif self._serve is not None:
            self._hold(self._run(self._serve))

    def data_received(self, data: bytes) -> None:
        self._unfed += data
        self._feed()

    def eof_received(self) -> Optional[bool]:
        """The peer reads on until this side has ended, too: what is due still goes to it."""
        self._pours = True
        self._feed()
        self._send()
        self._lose(ConnectionLost("the connection has ended"))
        return None

    def connection_lost(self, error: Optional[Exception]) -> None:
        transport, self._transport = self._transport, None
        self._pours = True
        if self._over is None:
            self._unfed += _left_in(transport)
            self._feed()
        self._is_short |= self.session.unsent_total() > 0
        self._lose(ConnectionLost("the connection has ended" if error is None else str(error)))
        for timer in self._watching, self._sparing:
            if timer is not None:
                timer.cancel()
        if not self._closed.done():
            self._closed.set_result(None)

    def pause_writing(self) -> None:
        self._paused = True

    def resume_writing(self) -> None:
        self._paused = False
        self._send()
        if self._unfed:
            self._feed()

    # ---- bytes come and go

    def _feed(self) -> None:
        """Feeds what came. What the session doesn't take waits until the transport takes some of its answers."""
        start, data = 0, self._unfed
        while start < len(data) and self.session.status() == RUNNING:
            start += self.session.feed(data, start)
            self._look()
            self._send()
            if self._paused and not self._pours:
                break
        status = self.session.status()
        self._unfed = data[start:] if status == RUNNING else b""
        if status > BROKEN:
            fault = status - BROKEN
            self._pours = True
            self._end(ConnectionLost(f"the peer broke a rule of yamux: {_library.fault_text(fault)}"))
            self._send()
            self._hang_up()
        if self._transport is not None and not self._transport.is_closing():
            if self._unfed:
                self._transport.pause_reading()
            else:
                self._transport.resume_reading()

    def _look(self) -> None:
        """Looks at the streams that the bytes have touched, and at no other."""
        ids, has_pong = self.session.touched()
        if has_pong:
            self._collect_pongs()
        if self._over is not None:
            return
        for stream in list(self._streams) if ids is None else ids:
            transport = self._streams.get(stream)
            if transport is not None:
                transport.touch()
        if self._accepting and self.session.offered() > 0:
            self._accepting.wake()
        self._opening.wake()
        self._moving.wake()

    def _collect_pongs(self) -> None:
        for number in list(self._pings):
            if self.session.ponged(number):
                future = self._pings.pop(number)
                if not future.done():
                    future.set_result(None)
        if self._farewell is not None and self.session.ponged(self._farewell):
            self._hang_up()

    def plan(self) -> None:
        """Plans to send what is due, once this turn of the loop is over."""
        if not self._planned:
            self._planned = True
            self._loop.call_soon(self._send)

    def _send(self) -> None:
        """Sends what is due, as far as the transport takes it. Without a transport it is dropped."""
        self._planned = False
        while not self._paused or self._pours:
            data = self.session.emit()
            if data:
                if self._transport is not None and not self._transport.is_closing():
                    self._transport.write(data)
            elif not self._is_leave_taken():
                return

    def _is_leave_taken(self) -> bool:
        """Asks the peer after the last byte whether it has come, once the connection was closed here. Whether something
        is due by this."""
        if not self._is_closed_here or self._farewell is not None or self._transport is None:
            return False
        try:
            self._farewell = self.session.ping()
            return True
        except Refused as refused:
            if refused.code != _library.PINGS_PENDING:
                self._hang_up()
            return False

    # ---- streams

    def _stream(self, stream: int, limit: int, is_accepted: bool) -> Stream:
        transport = StreamTransport(self, stream, self._loop, limit, is_accepted)
        if self._over is None:
            self._streams[stream] = transport
        ends = transport.begin()
        if self._over is None:
            self.plan()
        else:
            transport.lose(again(self._over))
        return ends

    def leave(self, stream: int) -> None:
        """The transport is done with this stream."""
        self._streams.pop(stream, None)
        try:
            self.session.forget(stream)
        except Refused:
            pass
        self._opening.wake()
        self._moving.wake()
        self.plan()
        if not self._streams and self._sparing is None:
            self._sparing = self._loop.call_later(IDLE, self._spare)

    def _spare(self) -> None:
        """Gives memory back where no stream has come since the last one went."""
        self._sparing = None
        if not self._streams:
            self.session.shrink_spare()

    def _check_loop(self) -> None:
        if asyncio.get_running_loop() is not self._loop:
            raise RuntimeError("the connection belongs to another event loop: call it there, or use ymx.threads")

    def _check(self) -> None:
        if self._over is not None:
            raise again(self._over)

    # ---- the end

    def _lose(self, reason: ConnectionLost) -> None:
        """The peer has hung up, or the connection failed."""
        if self.session.status() == RUNNING:
            self.session.feed_end()
        self._end(reason)

    def _end(self, reason: ConnectionLost, is_at_once: bool = False) -> None:
        if self._over is not None:
            return
        self._over = reason
        for transport in list(self._streams.values()):
            self._is_short |= transport.unsent_size > 0 and not self._is_closed_here
            transport.lose(again(reason))
        self._streams.clear()
        for future in self._pings.values():
            if not future.done():
                future.set_exception(again(reason))
                future.exception()  # nobody may wait for it any more
        self._accepting.wake()
        self._opening.wake()
        self._moving.wake()
        if self._transport is None or is_at_once:
            return
        self._send()
        if not self._is_closed_here:
            self._hang_up()
        self._watch(self._sent(), self._loop.time())

    def _hang_up(self) -> None:
        if self._transport is not None:
            self._transport.close()

    def _sent(self) -> Tuple[int, ...]:
        """What changes as bytes go out after the end."""
        if self._transport is None:
            return ()
        return (self.session.unsent_total(), self._transport.get_write_buffer_size())

    def _watch(self, before: Tuple[int, ...], since: float) -> None:
        """Breaks the connection off where nothing has gone out for too long."""
        if self._transport is None:
            return
        now, sent = self._loop.time(), self._sent()
        if sent != before:
            before, since = sent, now
        if now - since >= self.linger:
            self._gives_up = True
            self._transport.abort()
        else:
            self._watching = self._loop.call_later(self.linger / 8, self._watch, before, since)

    async def _leave(self, kind: Optional[Type[BaseException]]) -> None:
        """What `async with` does after its block, which has ended with an exception of this kind, or with none."""
        was_closed = self._is_closed_here
        try:
            if kind is None and not was_closed:
                await self._give_all()
        finally:
            self.close()
        if kind is None or issubclass(kind, Exception):
            await self.wait_closed()
        if kind is None and not was_closed:
            if self._gives_up:
                raise NotTaken(f"the peer did not take all within {self.linger} seconds")
            if self._is_short:
                raise ConnectionLost("the connection has ended before all was sent")

    async def _give_all(self) -> None:
        """Waits until the session has taken all that was written to streams so far."""
        goals = [(each, each.taken_size + each.unsent_size) for each in self._streams.values() if each.unsent_size > 0]
        before, since = -1, self._loop.time()
        while self._over is None:
            left = sum(max(0, goal - each.taken_size) for each, goal in goals if not each.is_gone)
            if left == 0:
                return
            now = self._loop.time()
            if left != before:
                before, since = left, now
            if now - since >= self.linger:
                self._gives_up = True
                self.abort()
                return
            try:
                await asyncio.wait_for(self._moving.wait(), since + self.linger - now)
            except asyncio.TimeoutError:
                pass


def _left_in(transport: Optional[asyncio.Transport]) -> bytes:
    """What has come and wasn't read when sending failed. asyncio's own transport closes its socket only after
    connection_lost; of any other nothing is known."""
    if transport is None or type(transport).__module__ != "asyncio.selector_events":
        return b""
    blocks: List[bytes] = []
    try:
        descriptor = transport.get_extra_info("socket").fileno()
        while block := os.read(descriptor, 262144):
            blocks.append(block)
    except OSError:
        pass
    return b"".join(blocks)
