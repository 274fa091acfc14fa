"""What one stream's protocol raises is that stream's fault alone. Each scene is played over TCP too, with a connection for
each stream, and has to end alike."""
import asyncio
import os
import unittest

import ymx
from both_sides import BothSides, contexts

IS_UVLOOP = os.environ.get("YMX_LOOP") == "uvloop"


class Raises(asyncio.Protocol):
    """Raises where `at` says."""

    def __init__(self, at):
        self.at, self.over = at, asyncio.get_running_loop().create_future()

    def connection_made(self, transport):
        self.transport = transport

    def _raise_at(self, name):
        if name == self.at:
            raise ValueError("a program's own error")

    def data_received(self, data):
        self._raise_at("data_received")

    def eof_received(self):
        self._raise_at("eof_received")

    def connection_lost(self, error):
        self.over.set_result(error)
        self._raise_at("connection_lost")


class RaisesBuffered(Raises, asyncio.BufferedProtocol):
    def get_buffer(self, hint):
        self._raise_at("get_buffer")
        return bytearray(100)

    def buffer_updated(self, count):
        self._raise_at("buffer_updated")


class Faults(BothSides):
    async def asyncSetUp(self):
        await super().asyncSetUp()
        self.noted = []
        loop = asyncio.get_running_loop()
        loop.set_exception_handler(lambda _, context: self.noted.append(type(context.get("exception")).__name__))

    async def over_tcp(self):
        accepted = asyncio.get_running_loop().create_future()
        listener = await asyncio.start_server(lambda *ends: accepted.set_result(ends), "127.0.0.1", 0)
        near = await asyncio.open_connection(*listener.sockets[0].getsockname())
        listener.close()
        return near, await accepted

    async def scene(self, pair, protocol, act):
        """What the exception handler learns of, and what the protocol and the peer do, while two other streams go on."""
        self.noted.clear()
        others = [await pair() for _ in range(2)]
        (near_reader, near), (_, far) = await pair()
        far.transport.set_protocol(protocol)
        protocol.connection_made(far.transport)
        act(near, far)
        error = await asyncio.wait_for(protocol.over, 10)
        try:
            read = await asyncio.wait_for(near_reader.read(), 10)
        except ConnectionError:
            read = b""  # TCP has an end here, which is no word of the peer's
        for (other_reader, other), (far_reader, far_other) in others:
            for reader, writer in (far_reader, other), (other_reader, far_other):
                writer.write(b"goes on")
                self.assertEqual(await asyncio.wait_for(reader.readexactly(7), 10), b"goes on")
            other.close()
            far_other.close()
        near.close()
        return list(self.noted), type(error).__name__, read

    async def test_an_exception_in_a_protocol(self):
        def writes(near, far):
            near.write(b"bytes")

        def ends(near, far):
            near.write_eof()

        def aborts(near, far):
            far.transport.abort()

        scenes = [
            (Raises, "data_received", writes),
            (Raises, "eof_received", ends),
            (Raises, "connection_lost", aborts),
            (RaisesBuffered, "get_buffer", writes),
            (RaisesBuffered, "buffer_updated", writes),
        ]
        for kind, at, act in scenes:
            with self.subTest(at):
                ours = await self.scene(self.pair, kind(at), act)
                self.assertEqual(ours[0], ["ValueError"])
                if IS_UVLOOP and kind is RaisesBuffered:
                    continue  # uvloop's own transports never end then
                theirs = await self.scene(self.over_tcp, kind(at), act)
                self.assertEqual(ours, theirs)
        await self.gone()

    @unittest.skipIf(IS_UVLOOP, "uvloop takes no transport but its own")
    async def test_a_peer_that_speaks_no_tls(self):
        _, at_server = contexts(self)
        loop = asyncio.get_running_loop()
        said = []
        (_, other), other_far = await self.pair()
        for pair in self.pair, self.over_tcp:
            (_, near), (_, far) = await pair()
            near.write(b"this is no TLS\n" * 10)
            with self.assertRaises(OSError) as raised:
                await asyncio.wait_for(loop.start_tls(far.transport, asyncio.Protocol(), at_server, server_side=True), 10)
            said.append((type(raised.exception), raised.exception.args))
            near.close()
        self.assertEqual(*said)
        other.write(b"goes on")
        self.assertEqual(await asyncio.wait_for(other_far[0].readexactly(7), 5), b"goes on")

    @unittest.skipIf(IS_UVLOOP, "uvloop takes no transport but its own")
    async def test_start_tls_of_a_writer_at_both_sides(self):
        at_client, at_server = contexts(self)
        for pair in self.pair, self.over_tcp:
            if pair == self.over_tcp and not hasattr(asyncio.StreamWriter, "start_tls"):
                continue
            (near_reader, near), (far_reader, far) = await pair()
            if pair == self.over_tcp:
                far._protocol._client_connected_cb = lambda *_: None  # as asyncio's servers have it while a handler runs
            near.write(b"STARTTLS\n")
            self.assertEqual(await far_reader.readline(), b"STARTTLS\n")
            far.write(b"go\n")
            self.assertEqual(await near_reader.readline(), b"go\n")
            await asyncio.wait_for(
                asyncio.gather(near.start_tls(at_client, server_hostname="127.0.0.1"), far.start_tls(at_server)), 10
            )
            near.write(b"hidden")
            self.assertEqual(await asyncio.wait_for(far_reader.readexactly(6), 5), b"hidden")
            self.assertIsNotNone(far.get_extra_info("cipher"))
            near.close()
            far.close()

    async def test_nobody_waits_for_ever_though_a_protocol_raises_as_the_connection_ends(self):
        (_, first), _ = await self.pair()
        protocol = Raises("connection_lost")
        first.transport.set_protocol(protocol)
        protocol.connection_made(first.transport)
        ends = [await self.client.open_stream() for _ in range(10)]
        reading = [asyncio.ensure_future(reader.read(1)) for reader, _ in ends]
        await asyncio.sleep(0)
        self.server.abort()
        for task in reading:
            with self.assertRaises(ymx.ConnectionLost):
                await asyncio.wait_for(task, 5)
        await asyncio.wait_for(self.client.wait_closed(), 5)
        self.assertEqual(self.noted, ["ValueError"])

    async def test_another_loop_is_refused(self):
        async def elsewhere():
            for call in self.client.open_stream, self.client.accept_stream, self.client.ping:
                with self.assertRaisesRegex(RuntimeError, "another event loop"):
                    await call()

        await asyncio.get_running_loop().run_in_executor(None, asyncio.run, elsewhere())

    async def test_an_error_says_what_to_do_and_is_what_a_programmer_expects(self):
        with self.assertRaisesRegex(ValueError, "^BAD_WINDOW: give a window from 262,144 to 16,777,216 bytes$"):
            await ymx.open_connection(*self.address, window=1000)
        session = ymx.Session(ymx.CLIENT)
        with self.assertRaisesRegex(ValueError, "^NO_STREAM: "):
            session.write(1, b"x")
        session.reset(session.open())
        with self.assertRaisesRegex(ConnectionError, "^RESET: the stream was cut off") as raised:
            session.write(1, b"x")
        self.assertEqual((raised.exception.name, isinstance(raised.exception, ymx.Refused)), ("RESET", True))

    async def test_a_peer_that_takes_nothing_is_a_timeout(self):
        peer = await asyncio.start_server(lambda *_: asyncio.sleep(60), "127.0.0.1", 0)
        with self.assertRaises(TimeoutError) as raised:
            async with await ymx.open_connection(*peer.sockets[0].getsockname(), linger=0.2) as connection:
                _, writer = await connection.open_stream()
                writer.write(bytes(2 * ymx.LEAST_WINDOW))
        self.assertIsInstance(raised.exception, ymx.ConnectionLost)
        peer.close()


if __name__ == "__main__":
    unittest.main()
