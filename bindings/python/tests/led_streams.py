"""Leads asyncio's own connections over streams: once `lead` was called, each socket of which a loop makes a transport is joined to
a stream of one session of that loop's, and the program has the transport of that stream. The far end of the session runs in
a thread of its own, which copies between each stream and its socket."""
import asyncio
import asyncio.selector_events
import asyncio.streams
import socket
import sys
import threading
import weakref
from asyncio.trsock import TransportSocket

import ymx
from ymx.connection import LIMIT
from ymx.streams import StreamTransport

own_transport = asyncio.selector_events._SelectorSocketTransport
own_reader, own_writer = asyncio.streams.StreamReader, asyncio.streams.StreamWriter
own_close = asyncio.selector_events.BaseSelectorEventLoop.close
far_loop = None
sessions = weakref.WeakKeyDictionary()  # of each loop
used = 0  # streams that were led, and readers that were made


class Half(asyncio.Protocol):
    """Copies what comes to the other transport: bytes, the end, and a cut."""

    def __init__(self):
        self.here = self.there = None
        self.has_ended = False

    def connection_made(self, transport):
        self.here = transport

    def data_received(self, data):
        if not self.there.is_closing():
            self.there.write(data)

    def eof_received(self):
        self.has_ended = True
        if not self.there.is_closing():
            self.there.write_eof()
            if self.there.get_protocol().has_ended:
                self.here.close()
                self.there.close()
        return True

    def connection_lost(self, error):
        if error is not None or not self.has_ended:
            self.there.abort()

    def pause_writing(self):
        self.there.pause_reading()

    def resume_writing(self):
        if not self.there.is_closing():
            self.there.resume_reading()


def join(stream, sock):
    """Copies between both from here on."""
    at_stream, at_socket = Half(), Half()
    at_socket.here = at_stream.there = own_transport(far_loop, sock, at_socket)
    at_stream.here = at_socket.there = stream
    stream.set_protocol(at_stream)


async def far_end(sock, waiting):
    async def serve(connection):
        while True:
            _, writer = await connection.accept_stream()
            join(writer.transport, waiting.pop(writer.get_extra_info("stream_id")))

    await far_loop.create_connection(lambda: ymx.Connection(ymx.SERVER, serve=serve), sock=sock)


def begin_far_loop():
    global far_loop
    far_loop = asyncio.SelectorEventLoop()
    threading.Thread(target=far_loop.run_forever, daemon=True).start()


class LedTransport(StreamTransport):
    """A stream that says of itself what its socket would say, and counts as one of its server's."""

    def __init__(self, connection, stream, loop, extra, server):
        super().__init__(connection, stream, loop, LIMIT, server is not None)
        self._extra, self._server = extra, server
        self._words = (self,) if sys.version_info >= (3, 13) else ()
        if server is not None:
            server._attach(*self._words)

    def get_extra_info(self, name, default=None):
        """Of the socket, in place of the session's; but nothing where a stream says nothing."""
        said = super().get_extra_info(name, default)
        return said if said is default else self._extra.get(name, said)

    def _tell(self, reason):
        super()._tell(reason)
        if self._server is not None:
            self._server._detach(*self._words)
            self._server = None


class NearEnd(ymx.Connection):
    def __init__(self, loop):
        super().__init__(ymx.CLIENT)
        self.socket, far_socket = socket.socketpair()
        self.socket.setblocking(False)
        self.waiting = {}
        asyncio.run_coroutine_threadsafe(far_end(far_socket, self.waiting), far_loop)
        own_transport(loop, self.socket, self)

    def lead(self, sock, extra, server):
        number = self.session.open()
        self.waiting[number] = sock
        transport = self._streams[number] = LedTransport(self, number, self._loop, extra, server)
        self.plan()
        return transport


def addresses(sock, extra):
    known = {"socket": TransportSocket(sock)}
    for name, ask in ("sockname", sock.getsockname), ("peername", sock.getpeername):
        try:
            known[name] = ask()
        except OSError:
            known[name] = None
    return {**known, **(extra or {})}


def led_transport(loop, sock, protocol, waiter=None, extra=None, server=None):
    """What a loop calls to make a transport of a socket."""
    global used
    if loop is far_loop:
        return own_transport(loop, sock, protocol, waiter, extra, server)
    used += 1
    if loop not in sessions:
        sessions[loop] = NearEnd(loop)
    transport = sessions[loop].lead(sock, addresses(sock, extra), server)
    loop.call_soon(protocol.connection_made, transport)
    transport.set_protocol(protocol)
    if waiter is not None:
        loop.call_soon(asyncio.futures._set_result_unless_cancelled, waiter, None)
    return transport


def close_loop(loop):
    """The session of a loop ends with it."""
    own_close(loop)
    near = sessions.pop(loop, None)
    if near is not None:
        near.socket.close()


class AnyReader(type):
    """asyncio's own are instances of it too."""

    def __instancecheck__(cls, reader):
        return isinstance(reader, own_reader)


class LedReader(ymx.StreamReader, metaclass=AnyReader):
    """Made as asyncio's."""

    def __init__(self, limit=LIMIT, loop=None):
        global used
        used += 1
        super().__init__(loop or asyncio.get_event_loop(), limit)


def led_writer(transport, protocol, reader, loop):
    """asyncio's streams make ours of a stream: what `open_stream` and `accept_stream` give."""
    if not isinstance(transport, LedTransport):
        return own_writer(transport, protocol, reader, loop)
    transport.reader, transport.streams, transport.is_brought = reader, protocol, False
    return ymx.StreamWriter(transport, protocol, reader, loop)


def lead():
    begin_far_loop()
    asyncio.selector_events._SelectorSocketTransport = led_transport
    asyncio.selector_events.BaseSelectorEventLoop.close = close_loop
    asyncio.streams.StreamWriter = led_writer
    asyncio.StreamReader = asyncio.streams.StreamReader = LedReader
