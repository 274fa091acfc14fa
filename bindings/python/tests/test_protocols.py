"""Streams below protocols that a program brings: TLS, asyncio's sendfile, those of others."""
import asyncio
import gc
import importlib.util
import os
import tempfile
import unittest
import weakref

import ymx
from both_sides import BothSides, contexts

IS_UVLOOP = os.environ.get("YMX_LOOP") == "uvloop"


class Noting(asyncio.Protocol):
    def __init__(self):
        self.came, self.over = b"", asyncio.get_running_loop().create_future()
        self.has_ended = False

    def connection_made(self, transport):
        self.transport = transport

    def data_received(self, data):
        self.came += data

    def eof_received(self):
        self.has_ended = True

    def connection_lost(self, error):
        self.over.set_result(error)


class Buffered(Noting, asyncio.BufferedProtocol):
    def get_buffer(self, hint):
        self.buffer = bytearray(7)
        return self.buffer

    def buffer_updated(self, count):
        self.came += bytes(self.buffer[:count])


def bring(writer, protocol):
    writer.transport.set_protocol(protocol)
    protocol.connection_made(writer.transport)
    return protocol


class LastWord(Noting):
    """Writes its last word once what it wrote before has gone, as TLS does."""

    def resume_writing(self):
        self.transport.write(b"last")

    def pause_writing(self):
        pass


class Protocols(BothSides):
    async def test_what_is_written_after_close_while_something_is_unsent_arrives(self):
        (_, near), (far_reader, far) = await self.pair()
        protocol = bring(near, LastWord())
        protocol.transport.write(bytes(1000000))
        protocol.transport.close()
        self.assertEqual(await far_reader.read(), bytes(1000000) + b"last")
        self.assertIsNone(await protocol.over)
        protocol.transport.write(b"too late")
        far.close()
        await self.gone()

    async def test_a_transport_drops_its_protocol_once_it_is_over(self):
        (_, near), (_, far) = await self.pair()
        protocol = bring(near, Noting())
        transport, over, held = protocol.transport, protocol.over, weakref.ref(protocol)
        del near
        transport.close()
        self.assertIsNone(await over)
        del protocol
        gc.disable()  # it waits for no collection
        self.addCleanup(gc.enable)
        await asyncio.sleep(0)
        self.assertIsNone(held())
        far.close()

    async def test_it_is_the_loop_that_is_meant(self):
        self.assertEqual(type(asyncio.get_running_loop()).__module__.split(".")[0], "uvloop" if IS_UVLOOP else "asyncio")

    async def test_a_protocol_gets_what_was_not_read_and_then_all(self):
        for kind in Noting, Buffered:
            (_, near), (far_reader, far) = await self.pair()
            near.write(b"first" + bytes(300000))  # more than its reader takes
            self.assertEqual(await far_reader.readexactly(5), b"first")
            protocol = bring(far, kind())
            self.assertIs(far.transport.get_protocol(), protocol)
            del far  # the stream is the protocol's now
            near.write(b"last")
            near.write_eof()
            self.assertIsNone(await asyncio.wait_for(protocol.over, 5))
            self.assertEqual(protocol.came, bytes(300000) + b"last")
            self.assertTrue(protocol.has_ended)
            protocol.transport.write(b"dropped")  # it has ended, as eof_received has answered nothing
            near.close()
            await self.gone()

    async def test_the_end_comes_in_a_turn_of_its_own_though_it_came_with_the_last_bytes(self):
        class Planning(Noting):
            planned = None

            def data_received(self, data):
                asyncio.get_running_loop().call_soon(setattr, self, "planned", data)

            def eof_received(self):
                self.before_end = self.planned

        (_, near), (_, far) = await self.pair()
        protocol = bring(far, Planning())
        near.write(b"all")
        near.write_eof()
        self.assertIsNone(await asyncio.wait_for(protocol.over, 5))
        self.assertEqual(protocol.before_end, b"all")
        near.close()
        await self.gone()

    async def test_a_protocol_is_told_of_an_end_that_came_before_it(self):
        (_, near), (far_reader, far) = await self.pair()
        near.write(b"all")
        near.write_eof()
        await self.until(lambda: far_reader._ended, "it doesn't come")
        protocol = bring(far, Noting())
        await asyncio.wait_for(protocol.over, 5)
        self.assertEqual((protocol.came, protocol.has_ended), (b"all", True))
        near.close()
        await self.gone()

    async def test_a_protocol_is_told_of_a_reset(self):
        (_, near), (_, far) = await self.pair()
        protocol = bring(far, Noting())
        near.transport.abort()
        self.assertIsInstance(await asyncio.wait_for(protocol.over, 5), ymx.StreamReset)
        protocol.transport.write(b"dropped")
        await self.gone()

    @unittest.skipIf(IS_UVLOOP, "uvloop takes no transport but its own")
    async def test_tls_over_a_stream(self):
        at_client, at_server = contexts(self)
        loop = asyncio.get_running_loop()
        (near_reader, near), (_, far) = await self.pair()
        protocol = Noting()
        text = os.urandom(500000)
        tls, server = await asyncio.wait_for(
            asyncio.gather(
                loop.start_tls(near.transport, near.transport.get_protocol(), at_client, server_hostname="127.0.0.1"),
                loop.start_tls(far.transport, protocol, at_server, server_side=True),
            ),
            10,
        )
        server.write(text)
        self.assertEqual(await asyncio.wait_for(near_reader.readexactly(len(text)), 10), text)
        tls.write(text)
        await self.until(lambda: len(protocol.came) == len(text), "it doesn't come")
        self.assertEqual(protocol.came, text)
        tls.close()
        await asyncio.wait_for(protocol.over, 10)
        await self.gone()

    @unittest.skipIf(IS_UVLOOP, "uvloop has no sendfile")
    async def test_sendfile_falls_back(self):
        (_, near), (far_reader, far) = await self.pair()
        text = os.urandom(700000)
        far.write(b"x" * 1000)  # what waits to be read meanwhile is kept
        with tempfile.TemporaryFile() as file:
            file.write(text)
            file.seek(0)
            reading = asyncio.ensure_future(far_reader.readexactly(len(text)))
            count = await asyncio.wait_for(asyncio.get_running_loop().sendfile(near.transport, file), 10)
        self.assertEqual(count, len(text))
        self.assertEqual(await asyncio.wait_for(reading, 10), text)
        near_reader = near.transport.reader
        self.assertEqual(await asyncio.wait_for(near_reader.readexactly(1000), 5), b"x" * 1000)
        near.close()
        far.close()
        await self.gone()

    async def test_limits(self):
        (near_reader, near), (_, far) = await self.pair()
        for wrong in ((5, 10), (-1,)):
            with self.assertRaises(ValueError):
                near.transport.set_write_buffer_limits(*wrong)
        near.transport.set_write_buffer_limits(high=10)
        self.assertEqual(near.transport.get_write_buffer_limits(), (2, 10))
        near.close()
        far.close()
        ends = [await self.client.open_stream(limit=100), await self.server.accept_stream(limit=100)]
        for (reader, _), (_, writer) in zip(ends, reversed(ends)):
            writer.write(b"x" * 1000)
            with self.assertRaises(asyncio.LimitOverrunError):
                await asyncio.wait_for(reader.readuntil(), 5)

    @unittest.skipUnless(importlib.util.find_spec("aiohttp"), "there is no aiohttp")
    async def test_aiohttp_at_both_ends(self):
        import aiohttp
        from aiohttp import web

        text = os.urandom(900000)
        with tempfile.NamedTemporaryFile() as file:
            file.write(text)
            file.flush()

            async def handle(request):
                if request.path == "/file":
                    return web.FileResponse(file.name)
                return web.Response(body=await request.read())

            make = web.Server(handle)

            async def serve():
                while True:
                    _, writer = await self.server.accept_stream()
                    bring(writer, make())

            class Streams(aiohttp.BaseConnector):
                async def _create_connection(_, request, traces, timeout):
                    _, writer = await self.client.open_stream()
                    return bring(writer, _factory())

            connector = Streams()
            _factory = connector._factory
            serving = asyncio.ensure_future(serve())
            async with aiohttp.ClientSession(connector=connector) as caller:
                for _ in range(3):
                    async with caller.get("http://x/file") as response:
                        self.assertTrue(await response.read() == text)
                    async with caller.post("http://x/", data=text) as response:
                        self.assertTrue(await response.read() == text)
            serving.cancel()
            await make.shutdown(5)
        await self.gone()
