"""A stream: asyncio's StreamReader and StreamWriter, and the transport below them."""
import asyncio
import ssl
import warnings
from asyncio.constants import _SendfileMode
from asyncio.protocols import _feed_data_to_buffered_proto  # type: ignore[attr-defined]
from asyncio.transports import _FlowControlMixin
from collections import deque
from typing import TYPE_CHECKING, Any, Callable, Deque, List, Optional, Tuple, cast

from . import _library
from ._library import Bytes, Refused
from .errors import ConnectionLost, StreamClosed, StreamReset, again

if TYPE_CHECKING:
    from .connection import Connection

_HIGH = 65536
_NOBODY = asyncio.Protocol()


class StreamReader(asyncio.StreamReader):
    """asyncio's, but that a stream which was cut off is never taken for one that has ended: what came before can be read,
    and after it each call raises why. A read that is cancelled loses nothing."""

    _buffer: bytearray

    def __init__(self, loop: asyncio.AbstractEventLoop, limit: int) -> None:
        super().__init__(limit=limit, loop=loop)
        self._ended = False  # the peer's end has come
        self._cut: Optional[Exception] = None  # why it won't come
        self._lost: Optional[Exception] = None  # why nothing can be written any more

    def feed_eof(self) -> None:
        if self._cut is None:
            self._ended = True
        super().feed_eof()

    def cut(self, reason: Exception) -> None:
        """Nothing more comes after what is there, for this reason; unless the peer's end has come before."""
        if not self._ended and self._cut is None:
            self._cut = reason
            super().feed_eof()

    def set_exception(self, exc: Exception) -> None:
        """The stream is over. asyncio's protocol calls it, for readers and for those who wait in `drain`."""
        self._lost = exc
        if isinstance(exc, StreamReset) and not self._ended:
            self._buffer.clear()
        self.cut(exc)

    def take_back(self) -> bytes:
        """All that was not read, for another protocol."""
        data = bytes(self._buffer)
        self._buffer.clear()
        self._maybe_resume_transport()  # type: ignore[attr-defined]
        return data

    def __repr__(self) -> str:
        text = super().__repr__()
        if self._lost is None:
            return text
        if not self._ended:
            text = text.replace(" eof", "", 1)
        return f"{text[:-1]} exception={self._lost!r}>"

    def exception(self) -> Any:
        """Why nothing can be written any more; None as long as that can be."""
        return None if self._lost is None else again(self._lost)

    def at_eof(self) -> bool:
        """Whether the peer's end has come, and all was read. False of a stream that was cut off."""
        return self._cut is None and super().at_eof()

    async def read(self, n: int = -1) -> bytes:
        if n < 0:
            return await self._read_all()
        data = await super().read(n)
        if not data and n > 0 and self._cut is not None:
            raise again(self._cut)
        return data

    async def _read_all(self) -> bytes:
        blocks: List[bytes] = []
        try:
            while True:
                block = await self.read(_HIGH)
                if not block:
                    return b"".join(blocks)
                blocks.append(block)
        except BaseException:
            self._buffer[:0] = b"".join(blocks)
            raise

    async def readexactly(self, n: int) -> bytes:
        try:
            return await super().readexactly(n)
        except asyncio.IncompleteReadError as short:
            raise self._of(short) from None

    async def readuntil(self, separator: Any = b"\n") -> bytes:
        try:
            return await super().readuntil(separator)
        except asyncio.IncompleteReadError as short:
            raise self._of(short) from None

    def _of(self, short: asyncio.IncompleteReadError) -> Exception:
        """What to raise where too few bytes came before the end."""
        if self._cut is None:
            return short
        self._buffer[:0] = short.partial
        return again(self._cut)


class StreamWriter(asyncio.StreamWriter):
    """asyncio's, but that one which is dropped without `write_eof` or `close` resets the stream: nobody has said that what
    was written is whole."""

    def __init__(self, stream: "StreamTransport", *others: Any) -> None:
        super().__init__(stream, *others)
        self._stream = stream  # also once there is TLS over it
        self.has_answered = False  # its handler has returned

    def abort(self) -> None:
        """Resets the stream: the peer gets no end, and what is unsent is dropped."""
        self._stream.abort()

    async def drain(self) -> None:
        """Waits while more than 64 KiB are unsent for lack of the peer's credit. StreamReset, ConnectionLost where the
        rest is never sent."""
        await super().drain()
        lost = self._stream.reader.exception()
        if lost is not None:
            raise lost

    async def start_tls(
        self,
        sslcontext: ssl.SSLContext,
        *,
        server_hostname: Optional[str] = None,
        ssl_handshake_timeout: Optional[float] = None,
    ) -> None:
        """Goes on in TLS. The side that accepted the stream is TLS's server, as of asyncio's connections."""
        stream = self._stream
        await self.drain()
        transport = await stream.loop.start_tls(
            stream,
            stream.streams,
            sslcontext,
            server_side=stream.is_accepted,
            server_hostname=server_hostname,
            ssl_handshake_timeout=ssl_handshake_timeout,
        )
        self._transport: Any = transport
        # as StreamReaderProtocol._replace_writer, which Python has from 3.11 on
        protocol: Any = stream.streams
        protocol._transport, protocol._over_ssl = transport, True

    def __del__(self) -> None:
        transport = self._stream
        if transport.is_closing() or transport.is_brought or transport.loop.is_closed():
            return
        warnings.warn(f"unclosed {self!r}", ResourceWarning, source=self)
        try:
            transport.loop.call_soon_threadsafe(transport.disown, self.has_answered)
        except RuntimeError:
            pass  # the loop was closed meanwhile


class StreamTransport(_FlowControlMixin):
    """One stream. It holds its reader, as asyncio's protocol does not. A program may bring a protocol of its own, which gets
    what was not read yet, and is treated as asyncio's transports treat one."""

    _start_tls_compatible = True
    _sendfile_compatible = _SendfileMode.FALLBACK

    def __init__(
        self, connection: "Connection", stream: int, loop: asyncio.AbstractEventLoop, limit: int, is_accepted: bool
    ) -> None:
        super().__init__(None, loop)
        self.is_accepted = is_accepted
        self.loop = loop
        self.reader = StreamReader(loop, limit)
        self.streams = asyncio.StreamReaderProtocol(self.reader, loop=loop)
        self._protocol: asyncio.BaseProtocol = self.streams
        self.is_brought = False  # the protocol is a program's
        self._connection, self._session, self._id = connection, connection.session, stream
        self._unsent: Deque[bytes] = deque()  # what the peer gave no credit for
        self._start = 0  # where in the first of them
        self.unsent_size = 0
        self.taken_size = 0  # what the session has taken, since the beginning
        self._reading = True
        self._back = b""  # what comes before all that the session has
        self._at_end = False  # the peer's end was read
        self._end_is_told = False  # to the protocol
        self._is_whole = False  # after write_eof
        self._ending = False  # the end goes out once nothing is unsent
        self._finished = False  # the session knows
        self._closing = False
        self._deaf = False  # after close, and what had come is thrown away
        self._disowned = False  # the writer is gone, after write_eof
        self._why: Optional[Exception] = None  # why the stream is over
        self._told = False  # the protocol knows that it is over
        self.is_gone = False  # the session has no such stream any more, or has ended

    def begin(self) -> "Tuple[StreamReader, StreamWriter]":
        self.streams.connection_made(self)
        self.touch()
        return self.reader, StreamWriter(self, self.streams, self.reader, self.loop)

    def get_protocol(self) -> asyncio.BaseProtocol:
        return self._protocol

    def set_protocol(self, protocol: asyncio.BaseProtocol) -> None:
        """Who brings a protocol calls its `connection_made` after this."""
        if not self.is_brought:
            self._back += self.reader.take_back()
        self._protocol, self.is_brought = protocol, protocol is not self.streams
        self._end_is_told = False
        self.loop.call_soon(self.touch)

    # ---- the connection calls these

    def touch(self) -> None:
        """Bytes have come for this stream: data, credit, the end, or a reset."""
        try:
            self._give()
            self._write()
            self._leave_if_over()
        except Refused as refused:
            self._leave()
            reset = refused.code == _library.RESET
            self._tell(StreamReset("the stream was reset") if reset else ConnectionLost(str(refused)))

    def lose(self, reason: Exception) -> None:
        """The connection is over. What has come is given before."""
        if self.is_gone:
            return
        try:
            self._give(is_last=True)
        except Refused as refused:
            if refused.code == _library.RESET:
                reason = StreamReset("the stream was reset")
        self.is_gone = True
        self._tell(None if self._at_end and self._finished else reason)

    def disown(self, has_answered: bool) -> None:
        """The writer was dropped, and not closed. Where it has said that its text is whole, the stream is still read."""
        if self._ending:
            self._disowned = True
            self.touch()
        elif not self.is_gone:
            if has_answered:
                text = "ymx: the handler of a stream has returned without write_eof or close: the stream is reset"
                self.loop.call_exception_handler({"message": text, "transport": self})
            self.abort()

    def _tell(self, reason: Optional[Exception]) -> None:
        if not self._told:
            self._told = True
            self._why = reason
            if not self.is_brought:
                self.streams.connection_lost(reason)
            else:
                self._guarded("connection_lost", self._protocol.connection_lost, reason)
                self._protocol = _NOBODY  # so that what it holds goes with it, and waits for no collection

    def _guarded(self, name: str, call: Callable[..., Any], *words: Any) -> Any:
        """Calls a program's protocol. What it raises goes to the loop's exception handler and breaks off this stream: it is
        no other stream's fault."""
        try:
            return call(*words)
        except (SystemExit, KeyboardInterrupt):
            raise
        except BaseException as error:
            self._fatal_error(error, f"Fatal error: protocol.{name}() call failed.")
            return None

    # ---- reading

    def _give(self, is_last: bool = False) -> None:
        """Gives what has come to the protocol, or throws it away after close. The last time also to a reader that has
        enough. Bytes that come once both sides are closed here reset the stream, so that the peer learns of it. A program's
        protocol learns of the end in a turn of the loop of its own, as over TCP."""
        has_passed = False
        while not self.is_gone and (self._reading or self._closing or is_last):
            data: Optional[bytes] = self._back
            self._back = b""
            if not data and not self._at_end:
                data = self._session.read(self._id)
                if data is None:
                    return
                self._connection.plan()  # there may be credit to send
                self._at_end = data == b""
            if not data:
                if has_passed and self.is_brought and not is_last:
                    self.loop.call_soon(self.touch)
                else:
                    self._tell_end()
                return
            if not self._closing:
                self._pass(data)
                has_passed = True
            elif self._is_unwanted():
                self._session.reset(self._id)
                self._leave()

    def _pass(self, data: bytes) -> None:
        if not self.is_brought:
            self.streams.data_received(data)
        elif isinstance(self._protocol, asyncio.BufferedProtocol):
            self._guarded("get_buffer", _feed_data_to_buffered_proto, self._protocol, data)
        else:
            self._guarded("data_received", cast(asyncio.Protocol, self._protocol).data_received, data)

    def _tell_end(self) -> None:
        if self._end_is_told or self._closing:
            return
        self._end_is_told = True
        if not self.is_brought:
            self.streams.eof_received()
        elif not self._guarded("eof_received", cast(asyncio.Protocol, self._protocol).eof_received):
            self.close()

    def _is_unwanted(self) -> bool:
        """Whether what comes tells of a peer that goes on to write though nobody reads, and who has all that was written."""
        session, stream = self._session, self._id
        return self._deaf and self._finished and session.unsent(stream) == 0 and not session.has_ended(stream)

    def pause_reading(self) -> None:
        self._reading = False

    def resume_reading(self) -> None:
        self._reading = True
        self.loop.call_soon(self.touch)

    def is_reading(self) -> bool:
        return self._reading

    # ---- writing

    def write(self, data: Bytes) -> None:
        """Takes bytes to be sent: all of them, however many. A bytearray or memoryview may be changed afterwards.

        RuntimeError after write_eof. StreamClosed after close; StreamReset, ConnectionLost once it is over."""
        if not isinstance(data, (bytes, bytearray, memoryview)):
            raise TypeError(f"data argument must be a bytes-like object, not {type(data).__name__!r}")
        if not self._takes():
            return
        kept = bytes(data)
        if not kept:
            return
        self._unsent.append(kept)
        self.unsent_size += len(kept)
        self._try_to_write()

    def _takes(self) -> bool:
        """Whether bytes are taken. From a program's protocol they are after close too, as long as something is unsent: TLS
        says its end so. Later ones are dropped, as connection_lost tells of that, while other callers get an error."""
        if self.is_brought and self.is_closing():
            return not (self._is_whole or self._finished or self.is_gone)
        if self._why is not None:
            raise again(self._why)
        if self._closing or self._told:
            raise StreamClosed("the stream is closed for writing")
        if self._ending:
            raise RuntimeError("Cannot call write() after write_eof()")
        return True

    def _try_to_write(self) -> None:
        try:
            self._write()
        except Refused:
            self.loop.call_soon(self.touch)  # which tells it

    def _write(self) -> None:
        while self._unsent and not self.is_gone:
            count = self._session.write(self._id, self._unsent[0], self._start)
            self._start += count
            self.unsent_size -= count
            self.taken_size += count
            if count > 0:
                self._connection.plan()
            if self._start < len(self._unsent[0]):
                break
            self._unsent.popleft()
            self._start = 0
        if not self._told:
            self._maybe_resume_protocol()  # type: ignore[attr-defined]  # which may write more
            self._maybe_pause_protocol()  # type: ignore[attr-defined]
        if self._ending and not self._unsent and not self._finished and not self.is_gone:
            self._finished = True
            self._session.finish(self._id)
            self._connection.plan()
            if self._closing:
                self.loop.call_soon(self._tell, None)

    def can_write_eof(self) -> bool:
        return True

    def write_eof(self) -> None:
        """Says that what was written is whole: the peer reads an end after it. The stream is still read."""
        if not self._ending:
            self._ending = self._is_whole = True
            self._try_to_write()

    def get_write_buffer_size(self) -> int:
        return self.unsent_size

    # ---- the end

    def close(self) -> None:
        """Ends the writing side after the last byte. Where the peer still sends something after that, the stream is reset."""
        if self._closing or self.is_gone:
            return
        self._closing = True
        self.reader.cut(StreamClosed("the stream was closed here, before the peer's end"))
        if self._finished:
            self.loop.call_soon(self._tell, None)
        self._ending = True
        try:
            self._give()
            self._write()  # at once, as the connection may be closed next
        except Refused:
            pass
        self._deaf = True
        self.loop.call_soon(self.touch)

    def is_closing(self) -> bool:
        return self._closing or self._told

    def abort(self) -> None:
        """Resets the stream: the peer gets no end, and what is unsent is dropped. The protocol learns of no error."""
        self._force_close(None)

    def _force_close(self, error: Optional[BaseException]) -> None:
        """The same, and the protocol learns of this error. asyncio's TLS calls it."""
        if not self.is_gone:
            try:
                self._session.reset(self._id)
            except Refused:
                pass
            self._leave()
        self._closing = True
        if self._why is None and not self._told:
            self._why = StreamReset("the stream was reset here")
            self.reader.set_exception(self._why)
        self.loop.call_soon(self._tell_of, error)

    def _tell_of(self, error: Optional[BaseException]) -> None:
        """For the caller of `write` the stream was reset here, whatever the protocol learns."""
        why = self._why
        self._tell(cast(Optional[Exception], error))
        self._why = why

    def _fatal_error(self, error: BaseException, message: str = "Fatal error on transport") -> None:
        """As of asyncio's transports: a failure of the connection is no news, and anything else is a fault of the program."""
        if not isinstance(error, OSError):
            context = {"message": message, "exception": error, "transport": self, "protocol": self._protocol}
            self.loop.call_exception_handler(context)
        self._force_close(error)

    def _leave_if_over(self) -> None:
        """Forgets the stream once both sides have ended it and it is closed here. Sooner would reset it."""
        if self._at_end and self._finished and (self._closing or self._disowned):
            self._leave()
            if self._disowned:
                self._tell(None)

    def _leave(self) -> None:
        if not self.is_gone:
            self.is_gone = True
            self._unsent.clear()
            self.unsent_size = 0
            self._connection.leave(self._id)

    def get_extra_info(self, name: str, default: Any = None) -> Any:
        """"stream_id", or what the connection says."""
        return self._id if name == "stream_id" else self._connection.get_extra_info(name, default)
