"""No stream is lost, and none that was cut off reads as one that has ended."""
import asyncio
import fcntl
import gc
import os
import random
import socket
import struct
import termios
import time
import unittest

import ymx
from both_sides import BothSides, contexts, Collecting

TEXT = os.urandom(300000)


async def echo(reader, writer):
    while data := await reader.read(65536):
        writer.write(data)
        await writer.drain()
    writer.close()


class WhatNobodyHolds(BothSides):
    """asyncio holds tasks, and its protocols hold readers, only weakly."""

    async def echoed(self, text):
        reader, writer = await self.client.open_stream()
        writer.write(text)
        await writer.drain()
        writer.write_eof()
        came = await reader.read()
        writer.close()
        return came == text

    async def test_a_task_a_stream(self):
        async def serve():
            while True:
                reader, writer = await self.server.accept_stream()
                asyncio.ensure_future(echo(reader, writer))

        serving = asyncio.ensure_future(serve())
        async with Collecting():
            came = await asyncio.wait_for(asyncio.gather(*(self.echoed(TEXT) for _ in range(60))), 60)
        self.assertEqual(came, [True] * 60)
        serving.cancel()

    async def test_a_handler_a_stream(self):
        serving = asyncio.ensure_future(self.server.serve_streams(echo))
        async with Collecting():
            came = await asyncio.wait_for(asyncio.gather(*(self.echoed(TEXT) for _ in range(60))), 60)
        self.assertEqual(came, [True] * 60)
        await self.gone()
        self.client.close()
        await asyncio.wait_for(serving, 5)  # it ends with the connection

    async def test_a_reader_that_only_its_task_holds_reads_no_end_where_there_is_none(self):
        async def read(reader):
            return await reader.read()

        (_, near), far = await self.pair()
        far_writer = far[1]
        reading = asyncio.ensure_future(read(far[0]))
        del far
        async with Collecting():
            near.write(TEXT[:1000])
            await self.client.ping()
            await asyncio.sleep(0.05)
            self.client.abort()
            with self.assertRaises(ymx.ConnectionLost):
                await asyncio.wait_for(reading, 5)
        far_writer.close()


class Server(unittest.IsolatedAsyncioTestCase):
    """start_stream_server, with a client of its own each time."""

    async def serve(self, answer):
        self.server = await ymx.start_stream_server(answer, "127.0.0.1", 0)
        self.addCleanup(self.server.close)
        return await ymx.open_connection(*self.server.sockets[0].getsockname())

    async def test_60_streams_at_once(self):
        async with await self.serve(echo) as connection, Collecting():

            async def one():
                reader, writer = await connection.open_stream()
                writer.write(TEXT)
                writer.write_eof()
                return await reader.read() == TEXT

            self.assertTrue(all(await asyncio.wait_for(asyncio.gather(*(one() for _ in range(60))), 60)))

    async def test_a_handler_that_fails_ends_no_stream(self):
        said = []
        asyncio.get_running_loop().set_exception_handler(lambda _, context: said.append(context["message"]))

        async def answer(reader, writer):
            writer.write(b"half a text")
            await writer.drain()
            if await reader.read(4) == b"fail":
                raise ValueError("no")
            await asyncio.sleep(0)  # and it returns, and closes nothing

        async with await self.serve(answer) as connection:
            for word in b"fail", b"stop":
                reader, writer = await connection.open_stream()
                self.assertEqual(await reader.readexactly(11), b"half a text")
                writer.write(word)
                with self.assertRaises(ymx.StreamReset):
                    await asyncio.wait_for(reader.read(), 5)
        self.assertEqual(
            said,
            [
                "ymx: the handler of a stream has failed",
                "ymx: the handler of a stream has returned without write_eof or close: the stream is reset",
            ],
        )

    async def test_a_handler_that_is_cancelled_ends_no_stream(self):
        tasks = []

        async def answer(reader, writer):
            tasks.append(asyncio.current_task())
            writer.write(b"half a text")
            await reader.read()
            writer.close()

        async with await self.serve(answer) as connection:
            reader, writer = await connection.open_stream()
            self.assertEqual(await reader.readexactly(11), b"half a text")
            tasks[0].cancel()
            with self.assertRaises(ymx.StreamReset):
                await asyncio.wait_for(reader.read(), 5)
            writer.close()


class CutStreams(BothSides):
    async def test_a_writer_that_is_dropped_ends_no_stream(self):
        (near_reader, near), (_, far) = await self.pair()
        far.write(b"half a text")
        await far.drain()
        self.assertEqual(await near_reader.readexactly(11), b"half a text")
        del far, _
        gc.collect()
        with self.assertRaises(ymx.StreamReset):
            await asyncio.wait_for(near_reader.read(), 5)
        with self.assertRaises(ymx.StreamReset):
            await near.drain()
        await self.gone()

    async def test_a_writer_that_is_dropped_behind_its_end_still_ends_the_stream(self):
        near, (far_reader, far) = await self.pair()
        near[1].write(b"a whole text")
        near[1].write_eof()
        near_reader = near[0]
        del near
        gc.collect()
        self.assertEqual(await asyncio.wait_for(far_reader.read(), 5), b"a whole text")
        far.write(b"an answer")
        far.close()
        self.assertEqual(await asyncio.wait_for(near_reader.read(), 5), b"an answer")
        await self.gone()

    async def test_what_came_is_read_before_the_loss_is_told(self):
        for read in (
            lambda reader: reader.read(),
            lambda reader: reader.readexactly(1000),
            lambda reader: reader.readuntil(b"."),
            lambda reader: reader.readline(),
        ):
            (near_reader, near), (far_reader, far) = await self.pair()
            far.write(b"a beginning")
            await self.server.ping()
            await self.until(lambda: len(near_reader._buffer) == 11, "it doesn't come")
            self.server.abort()
            await self.client.wait_closed()
            for _ in range(2):
                with self.assertRaises(ymx.ConnectionLost):
                    await read(near_reader)
            self.assertFalse(near_reader.at_eof())
            self.assertEqual(await near_reader.read(5), b"a beg")
            with self.assertRaises(ymx.ConnectionLost):
                await near_reader.readexactly(7)
            self.assertEqual(await near_reader.readexactly(6), b"inning")
            with self.assertRaises(ymx.ConnectionLost):
                await near_reader.read(5)
            with self.assertRaises(ymx.ConnectionLost):
                near.write(b"x")
            with self.assertRaises(ymx.ConnectionLost):
                await near.drain()
            near.close()
            far.close()
            await self.asyncTearDown()
            await self.asyncSetUp()

    async def test_a_stream_that_was_closed_here_reads_no_end(self):
        (near_reader, near), (_, far) = await self.pair()
        far.write(b"a beginning")
        await self.until(lambda: len(near_reader._buffer) == 11, "it doesn't come")
        reading = asyncio.ensure_future(near_reader.read())
        await asyncio.sleep(0)
        near.close()
        with self.assertRaises(ymx.StreamClosed):
            await asyncio.wait_for(reading, 5)
        with self.assertRaises(ymx.StreamClosed):
            near.write(b"x")
        await near.wait_closed()
        self.assertEqual(await near_reader.read(100), b"a beginning")
        far.close()
        await self.gone()

    async def test_who_writes_to_a_stream_that_is_closed_there_is_reset(self):
        """Also of more downloads than a session has streams, that are given up early: none keeps its place."""
        writing = []

        async def write(writer):
            for _ in range(10):
                writer.write(bytes(100000))
                await writer.drain()

        for at in range(1100):
            await self.until(lambda: self.client.stream_count < 500, "no place comes free")
            (near_reader, near), (_, far) = await self.pair()
            writing.append((far, asyncio.ensure_future(write(far))))
            await near_reader.readexactly(10)
            if at % 2:
                near.transport.pause_reading()
                await asyncio.sleep(0.001)
            near.close()
            await near.wait_closed()
        for far, task in writing:
            with self.assertRaises(ymx.StreamReset):
                await asyncio.wait_for(task, 30)
            far.close()
        await self.gone()

    async def test_an_end_that_crosses_a_close_resets_nothing(self):
        for _ in range(200):
            (_, near), (far_reader, far) = await self.pair()
            near.write(b"all")
            far.write(b"x")
            far.write_eof()
            near.close()
            self.assertEqual(await asyncio.wait_for(far_reader.read(), 5), b"all")
            await near.wait_closed()
            far.close()
        await self.gone()

    async def test_a_stream_that_was_aborted_here_reads_no_end(self):
        (near_reader, near), (far_reader, far) = await self.pair()
        far.write(b"a beginning")
        near.write(bytes(2 * ymx.LEAST_WINDOW))
        await self.until(lambda: len(near_reader._buffer) == 11, "it doesn't come")
        waiting = [asyncio.ensure_future(each) for each in (near_reader.read(), near.drain())]
        await asyncio.sleep(0)
        near.abort()
        for task in waiting:
            with self.assertRaises(ymx.StreamReset):
                await asyncio.wait_for(task, 5)
        with self.assertRaises(ymx.StreamReset):
            near.write(b"x")
        await near.wait_closed()
        with self.assertRaises(ymx.StreamReset):
            await far_reader.read()
        self.assertTrue(far.is_closing())
        await self.gone()

    async def test_a_drain_that_is_cancelled_sends_each_byte_once(self):
        near, (far_reader, far) = await self.pair()
        text, at = random.Random(7).randbytes(2000000), 0
        reading = None
        timeouts = 0
        while at < len(text):
            near[1].write(text[at : at + 100000])
            at += 100000
            try:
                await asyncio.wait_for(near[1].drain(), 0.001)
            except asyncio.TimeoutError:
                timeouts += 1
                reading = reading or asyncio.ensure_future(far_reader.read())
        near[1].close()
        self.assertGreater(timeouts, 0)
        self.assertTrue(await reading == text)
        far.close()

    async def test_a_read_that_is_cancelled_loses_nothing(self):
        (near_reader, near), (_, far) = await self.pair()
        for at in range(0, len(TEXT), 50000):
            far.write(TEXT[at : at + 50000])
            with self.assertRaises(asyncio.TimeoutError):
                await asyncio.wait_for(near_reader.read(), 0.05)
        far.close()
        self.assertEqual(await near_reader.read(), TEXT)
        near.close()


class BehindTheEnd(unittest.IsolatedAsyncioTestCase):
    """The peer hangs up after three streams that came whole. It writes frames by the specification."""

    async def accepted(self, connection):
        """All streams that are still given: what they read, or the error that they raise."""
        came = []
        while True:
            try:
                reader, writer = await asyncio.wait_for(connection.accept_stream(), 5)
            except ymx.ConnectionLost:
                return came
            try:
                came.append(await asyncio.wait_for(reader.read(), 5))
            except ConnectionError as error:
                came.append(type(error))
            writer.close()

    async def come(self, send, before):
        """What a server reads of a peer that sends this: one that accepts only once the connection is over, or that accepts
        all the time. All has come to its socket before it looks."""
        done = asyncio.get_running_loop().create_future()

        async def serve(connection):
            if before:
                await connection.wait_closed()
            done.set_result(await self.accepted(connection))

        listener = socket.socket()
        listener.setsockopt(socket.SOL_SOCKET, socket.SO_RCVBUF, 400000)
        listener.bind(("127.0.0.1", 0))
        server = await ymx.start_server(serve, None, None, sock=listener)
        with socket.create_connection(listener.getsockname()) as peer:
            peer.setsockopt(socket.SOL_SOCKET, socket.SO_SNDBUF, 400000)
            peer.settimeout(5)
            await send(peer)
        try:
            return await asyncio.wait_for(done, 10)
        finally:
            server.close()

    def frames(self, size):
        """Streams 1, 3 and 5: Data with a SYN and the text, and one with a FIN."""
        head = struct.Struct(">BBHII")
        return b"".join(
            head.pack(0, 0, 1, stream, size) + bytes([stream]) * size + head.pack(0, 0, 4, stream, 0) for stream in (1, 3, 5)
        )

    def whole(self, size):
        return [(bytes([stream]), size) for stream in (1, 3, 5)]

    def said(self, came):
        """In few words, as a text that differs is long."""
        return [each if isinstance(each, type) else (each[:1], each.count(each[:1])) for each in came]

    async def test_all_streams_that_came_whole_are_given(self):
        async def close(peer):
            peer.sendall(self.frames(1000))

        async def reset(peer):
            """More than is read at once has come, and sending is refused from then on, also the answer to a ping."""
            peer.sendall(struct.pack(">BBHII", 0, 2, 1, 0, 7) + self.frames(100000))
            self.empty(peer)
            peer.setsockopt(socket.SOL_SOCKET, socket.SO_LINGER, struct.pack("ii", 1, 0))

        async def half_close(peer):
            def rest():
                peer.sendall(self.frames(250000))
                peer.shutdown(socket.SHUT_WR)
                while peer.recv(65536):
                    pass

            await asyncio.get_running_loop().run_in_executor(None, rest)

        for send, size in (close, 1000), (reset, 100000), (half_close, 250000):
            for before in True, False:
                for _ in range(5):
                    came = self.said(await self.come(send, before))
                    self.assertEqual(came, self.whole(size), (send.__name__, before))

    def empty(self, peer):
        """Waits until the other socket has all."""
        for _ in range(1000):
            if struct.unpack("i", fcntl.ioctl(peer, termios.TIOCOUTQ, bytes(4)))[0] == 0:
                return
            time.sleep(0.005)
        self.fail("the socket takes too little")

    async def test_a_stream_that_did_not_come_whole_is_told_so(self):
        async def send(peer):
            peer.sendall(self.frames(1000)[:1500])

        for before in True, False:
            came = self.said(await self.come(send, before))
            self.assertEqual(came, [(b"\x01", 1000), ymx.ConnectionLost])

    async def test_accept_behind_a_close_of_ones_own(self):
        async def serve(connection):
            await connection.wait_closed()

        server = await ymx.start_server(serve, "127.0.0.1", 0)
        connection = await ymx.open_connection(*server.sockets[0].getsockname())
        connection.close()
        with self.assertRaises(ymx.ConnectionLost):
            await connection.accept_stream()
        await connection.wait_closed()
        server.close()


class Leaving(unittest.IsolatedAsyncioTestCase):
    """`async with`."""

    async def begin(self, serve, **how):
        server = await ymx.start_server(serve, "127.0.0.1", 0, **how)
        self.addCleanup(server.close)
        return server.sockets[0].getsockname()

    async def test_all_is_sent_that_was_written(self):
        async def serve(connection):
            readers = [await connection.accept_stream() for _ in range(3)]
            await asyncio.sleep(0.1)
            came.set_result([await reader.read() for reader, _ in readers])

        for size in 0, 1, 1000, 1000000:
            came = asyncio.get_running_loop().create_future()
            texts = [os.urandom(size) for _ in range(3)]
            async with await ymx.open_connection(*await self.begin(serve)) as connection:
                for text in texts:
                    _, writer = await connection.open_stream()
                    writer.write(text)
                    writer.close()
            self.assertEqual([len(text) for text in await asyncio.wait_for(came, 10)], [size] * 3)
            self.assertEqual(came.result(), texts)

    async def test_over_tls_all_is_sent_and_given_behind_the_end(self):
        at_client, at_server = contexts(self)
        for before in True, False:
            for size in 1000, 200000, 1000000 if not before else 0:
                came = asyncio.get_running_loop().create_future()

                async def serve(connection):
                    if before:
                        await connection.wait_closed()
                    sizes = []
                    try:
                        while True:
                            reader, writer = await connection.accept_stream()
                            sizes.append(len(await reader.read()))
                            writer.close()
                    finally:
                        came.set_result(sizes)

                address = await self.begin(serve, tls=at_server)
                async with await ymx.open_connection(*address, tls=at_client) as connection:
                    for _ in range(3):
                        _, writer = await connection.open_stream()
                        writer.write(bytes(size))
                        writer.close()
                self.assertEqual(await asyncio.wait_for(came, 10), [size] * 3)

    async def test_a_slow_peer_gets_all_also_what_the_socket_does_not_take_at_once(self):
        """More than the sockets hold, at a peer that looks only now and then, and sends meanwhile."""
        done = asyncio.get_running_loop().create_future()

        async def serve(connection):
            pings = []
            for at in range(1000):  # it reads now and then
                if connection._over is not None:
                    break
                connection._transport.pause_reading()
                await asyncio.sleep(0.01)
                connection._transport.resume_reading()
                await asyncio.sleep(0.001)
                if at % 4 == 0 and at < 64:
                    pings.append(asyncio.ensure_future(connection.ping()))
            streams = [await connection.accept_stream() for _ in range(40)]
            done.set_result([len(await reader.read()) for reader, _ in streams])
            await asyncio.gather(*pings, return_exceptions=True)

        listener = socket.socket()
        listener.setsockopt(socket.SOL_SOCKET, socket.SO_RCVBUF, 100000)
        listener.bind(("127.0.0.1", 0))
        server = await ymx.start_server(serve, None, None, sock=listener)
        self.addCleanup(server.close)
        async with await ymx.open_connection(*listener.getsockname()) as connection:
            kept = [await connection.open_stream() for _ in range(40)]
            for _, writer in kept:
                writer.write(bytes(250000))
                writer.write_eof()
        self.assertEqual(await asyncio.wait_for(done, 10), [250000] * 40)

    async def test_a_server_that_returns_sends_all_that_was_written(self):
        text = os.urandom(1000000)

        async def serve(connection):
            _, writer = await connection.accept_stream()
            writer.write(text)
            writer.close()

        async with await ymx.open_connection(*await self.begin(serve)) as connection:
            reader, writer = await connection.open_stream()
            await asyncio.sleep(0.1)
            self.assertEqual(await asyncio.wait_for(reader.read(), 10), text)
            writer.close()

    async def test_a_peer_that_grants_no_credit_is_waited_for_only_so_long(self):
        async def serve(connection):
            await connection.wait_closed()

        began = asyncio.get_running_loop().time()
        with self.assertRaisesRegex(ymx.ConnectionLost, "within 0.5 seconds"):
            async with await ymx.open_connection(*await self.begin(serve), linger=0.5) as connection:
                _, writer = await connection.open_stream()
                writer.write(bytes(1000000))
                writer.close()
        self.assertLess(asyncio.get_running_loop().time() - began, 3)

    async def deaf(self):
        """A listener whose peers read nothing."""
        listener = socket.create_server(("127.0.0.1", 0))
        listener.setblocking(False)
        self.addCleanup(listener.close)
        return listener.getsockname()

    async def fill(self, connection):
        kept = []
        for _ in range(40):
            kept.append(await connection.open_stream())
            kept[-1][1].write(bytes(ymx.LEAST_WINDOW))
        await asyncio.sleep(0.1)
        return kept

    async def test_a_peer_that_reads_nothing_is_waited_for_only_so_long(self):
        began = asyncio.get_running_loop().time()
        with self.assertRaisesRegex(ymx.ConnectionLost, "within 0.5 seconds"):
            async with await ymx.open_connection(*await self.deaf(), linger=0.5) as connection:
                kept = await self.fill(connection)
        with self.assertRaises(ValueError):  # and after an exception, which stays what it was
            async with await ymx.open_connection(*await self.deaf(), linger=0.5) as connection:
                kept += await self.fill(connection)
                raise ValueError
        self.assertLess(asyncio.get_running_loop().time() - began, 6)

    async def test_cancelled_it_waits_for_nobody(self):
        address = await self.deaf()
        linger = 3
        there = asyncio.Event()

        async def stay():
            async with await ymx.open_connection(*address, linger=linger) as connection:
                self.connection = connection
                self.kept = await self.fill(connection)
                there.set()
                await asyncio.sleep(60)

        task = asyncio.ensure_future(stay())
        await there.wait()
        began = asyncio.get_running_loop().time()
        task.cancel()
        with self.assertRaises(asyncio.CancelledError):
            await task
        self.assertLess(asyncio.get_running_loop().time() - began, linger)
        await asyncio.wait_for(self.connection.wait_closed(), 60)

    async def test_a_loss_is_told(self):
        async def serve(connection):
            await connection.accept_stream()
            connection.abort()

        with self.assertRaises(ymx.ConnectionLost):
            async with await ymx.open_connection(*await self.begin(serve)) as connection:
                _, writer = await connection.open_stream()
                writer.write(bytes(1000000))
                await asyncio.sleep(0.2)  # and nobody has asked before the end of the block


if __name__ == "__main__":
    unittest.main()
