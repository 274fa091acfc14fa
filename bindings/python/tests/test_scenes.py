"""Scenes of asyncio's streams, over TCP and over ymx: what each step says is the same, but in those that DIFFERS names."""
import array
import asyncio
import os
import ssl
import tempfile
import unittest

import ymx
from both_sides import BothSides

IS_CUT = "what was cut off raises"
IS_RESET = "a reset is told at once, as StreamReset"
DIFFERS = {
    "write_after_close": IS_CUT,
    "write_after_wait_closed": IS_CUT,
    "read_after_own_close": IS_CUT,
    "pending_read_at_close": IS_CUT,
    "pending_readexactly_at_close": IS_CUT,
    "abort_own": IS_CUT,
    "peer_aborts": IS_RESET,
    "peer_aborts_with_unread": IS_RESET,
    "peer_closes": IS_RESET,
    "peer_writes_after_my_close": IS_RESET,
    "cancelled_read_all": "nothing is lost",
    "sendfile_without_fallback": "bytes go into frames",
}


async def out(waits, seconds=1.0):
    """What a call that is waited for says."""
    try:
        return repr(await asyncio.wait_for(waits, seconds))[:90]
    except asyncio.TimeoutError:
        return "waits"
    except (Exception, asyncio.CancelledError) as error:
        return f"{type(error).__name__}{error.args!r} of {[kind.__name__ for kind in type(error).__mro__[1:4]]}"


def call(function, *words):
    """What a call says."""
    try:
        return repr(function(*words))[:90]
    except Exception as error:
        return f"{type(error).__name__}{error.args!r}"


async def soon():
    await asyncio.sleep(0.03)


async def cancelled(task):
    task.cancel()
    return type((await asyncio.gather(task, return_exceptions=True))[0]).__name__


class Scenes:
    """Each takes both ends of a stream: the near reader and writer, and the far ones."""

    async def readuntil(self, r, w, pr, pw):
        pw.write(b"ab\ncd")
        pw.write_eof()
        return [await out(r.readuntil()), await out(r.readuntil()), r.at_eof(), await out(r.readuntil())]

    async def readuntil_long(self, r, w, pr, pw):
        pw.write(b"x" * 70000 + b"\n")
        return [await out(r.readuntil()), await out(r.readuntil(b"\n\n"))]

    async def readline_long(self, r, w, pr, pw):
        pw.write(b"x" * 140000 + b"\nok\n")
        await asyncio.sleep(0.1)
        return [await out(r.readline()), await out(r.readline())]

    async def readuntil_empty_separator(self, r, w, pr, pw):
        return await out(r.readuntil(b""))

    async def readexactly(self, r, w, pr, pw):
        pw.write(b"abc")
        pw.write_eof()
        return [await out(r.readexactly(0)), await out(r.readexactly(2)), await out(r.readexactly(5)), r.at_eof(),
                await out(r.readexactly(1)), await out(r.readexactly(-1))]  # fmt: skip

    async def read_kinds(self, r, w, pr, pw):
        pw.write(b"abcdef")
        await soon()
        before = [await out(r.read(0)), await out(r.read(2)), r.at_eof()]
        pw.write_eof()
        await soon()
        return before + [r.at_eof(), await out(r.read()), r.at_eof(), await out(r.read()), await out(r.read(5)), await out(r.read(0)),
                         await out(r.readline())]  # fmt: skip

    async def iterate(self, r, w, pr, pw):
        pw.write(b"a\nb\nc")
        pw.write_eof()
        return [line async for line in r]

    async def two_reads(self, r, w, pr, pw):
        first = asyncio.ensure_future(r.read(1))
        await soon()
        others = [await out(r.read(1)), await out(r.readline())]
        pw.write(b"z")
        return others + [await first]

    async def write_after_close(self, r, w, pr, pw):
        w.close()
        return [w.is_closing(), call(w.write, b"x"), await out(w.drain()), call(w.write_eof), await out(w.wait_closed())]

    async def write_after_wait_closed(self, r, w, pr, pw):
        w.close()
        await out(w.wait_closed())
        return [call(w.write, b"x"), await out(w.drain()), w.is_closing()]

    async def write_after_eof(self, r, w, pr, pw):
        w.write_eof()
        return [w.can_write_eof(), call(w.write, b"x"), call(w.writelines, [b"a"]), call(w.write_eof), w.is_closing(), await out(w.drain())]

    async def write_kinds(self, r, w, pr, pw):
        kinds = b"", bytearray(b"a"), memoryview(b"b"), "str", None, array.array("I", [1, 2])
        said = [call(w.write, kind) for kind in kinds]
        return said + [call(w.writelines, [b"c", b"", bytearray(b"d")]), await out(pr.readexactly(4))]

    async def write_view_of_words(self, r, w, pr, pw):
        return [call(w.write, memoryview(array.array("I", [1, 2]))), await out(pr.read(100))]

    async def read_after_own_close(self, r, w, pr, pw):
        pw.write(b"abc")
        await soon()
        w.close()
        await out(w.wait_closed())
        return [await out(r.read(2)), r.at_eof(), await out(r.read(2)), await out(r.read(2)), r.at_eof(), await out(r.read())]

    async def pending_read_at_close(self, r, w, pr, pw):
        task = asyncio.ensure_future(out(r.read(5)))
        await soon()
        w.close()
        return await task

    async def pending_readexactly_at_close(self, r, w, pr, pw):
        pw.write(b"ab")
        task = asyncio.ensure_future(out(r.readexactly(5)))
        await soon()
        w.close()
        return await task

    async def peer_aborts(self, r, w, pr, pw):
        w.write(b"q")
        await soon()
        pw.transport.abort()
        await soon()
        said = [await out(r.read(5)), r.at_eof(), w.is_closing(), call(w.write, b"x"), await out(w.drain())]
        return said + [await out(w.wait_closed(), 0.3), type(r.exception()).__name__]

    async def peer_aborts_with_unread(self, r, w, pr, pw):
        pw.write(b"data")
        await soon()
        pw.transport.abort()
        await soon()
        return [await out(r.read(9)), await out(r.read(9))]

    async def peer_closes(self, r, w, pr, pw):
        pw.close()
        await soon()
        said = [await out(r.read(5)), r.at_eof(), w.is_closing(), call(w.write, b"x"), await out(w.drain())]
        await soon()
        return said + [call(w.write, b"y"), await out(w.drain()), w.is_closing()]

    async def wait_closed_without_close(self, r, w, pr, pw):
        return await out(w.wait_closed(), 0.2)

    async def wait_closed_twice(self, r, w, pr, pw):
        w.close()
        return [await out(w.wait_closed()), await out(w.wait_closed()), call(w.close)]

    async def abort_own(self, r, w, pr, pw):
        task = asyncio.ensure_future(out(r.read(5)))
        await soon()
        w.transport.abort()
        said = [w.is_closing(), await out(w.wait_closed()), await task]
        return said + [call(w.write, b"x"), await out(w.drain()), await out(r.read(3)), r.at_eof()]

    async def infos(self, r, w, pr, pw):
        kinds = [type(w.get_extra_info(name)).__name__ for name in ("peername", "sockname", "socket")]
        return kinds + [w.get_extra_info("nothing"), w.get_extra_info("nothing", 7), w.get_extra_info("sslcontext")]

    async def infos_after_close(self, r, w, pr, pw):
        w.close()
        await w.wait_closed()
        return [type(w.get_extra_info(name)).__name__ for name in ("peername", "socket")]

    async def limits(self, r, w, pr, pw):
        said = [w.transport.get_write_buffer_limits()]
        for words in (), (0,), (10,), (None, 10), (5, 10), (-1,):
            said += [call(w.transport.set_write_buffer_limits, *words), w.transport.get_write_buffer_limits()]
        return said

    async def transport_methods(self, r, w, pr, pw):
        t = w.transport
        said = [t.is_reading(), call(t.pause_reading), t.is_reading(), call(t.pause_reading), call(t.resume_reading), t.is_reading()]
        said += [type(t.get_protocol()).__name__, call(t.set_protocol, asyncio.Protocol()), call(t.get_write_buffer_size)]
        return said + [isinstance(t, asyncio.Transport), isinstance(w, asyncio.StreamWriter), isinstance(r, asyncio.StreamReader)]

    async def backpressure(self, r, w, pr, pw):
        count = 0

        async def go():
            nonlocal count
            while count < 100:
                w.write(b"x" * 100000)
                count += 1
                await w.drain()

        task = asyncio.ensure_future(go())
        await asyncio.sleep(0.3)
        is_held, size = count < 100, 0
        while size < 10000000:
            size += len(await pr.read(100000))
        await task
        return [is_held, count, size, w.transport.get_write_buffer_size()]

    async def cancelled_drain(self, r, w, pr, pw):
        async def go():
            while True:
                w.write(b"x" * 100000)
                await w.drain()

        task = asyncio.ensure_future(go())
        await asyncio.sleep(0.2)
        said = [await cancelled(task), w.transport.get_write_buffer_size() > 0]
        w.write_eof()
        return said + [len(await pr.read()) % 100000, await out(w.drain())]

    async def two_drains(self, r, w, pr, pw):
        w.write(b"x" * 9000000)
        tasks = [asyncio.ensure_future(out(w.drain(), 3)) for _ in range(3)]
        await soon()
        size = 0
        while size < 9000000:
            size += len(await pr.read(1000000))
        return [await task for task in tasks]

    async def cancelled_read(self, r, w, pr, pw):
        task = asyncio.ensure_future(r.readexactly(10))
        pw.write(b"abc")
        await soon()
        await cancelled(task)
        pw.write(b"defghij")
        return await out(r.readexactly(10))

    async def cancelled_read_all(self, r, w, pr, pw):
        task = asyncio.ensure_future(r.read())
        pw.write(b"abc")
        await soon()
        await cancelled(task)
        pw.write(b"def")
        pw.write_eof()
        return await out(r.read())

    async def cancelled_wait_closed(self, r, w, pr, pw):
        task = asyncio.ensure_future(w.wait_closed())
        await soon()
        said = await cancelled(task)
        w.close()
        return [said, await out(w.wait_closed())]

    async def timed_out_read(self, r, w, pr, pw):
        said = await out(r.read(1), 0.05)
        pw.write(b"k")
        return [said, await out(r.read(1))]

    async def set_exception(self, r, w, pr, pw):
        r.set_exception(ValueError("mine"))
        return [await out(r.read(1)), repr(r.exception()), await out(w.drain())]

    async def feed_by_hand(self, r, w, pr, pw):
        r.feed_data(b"hand")
        r.feed_eof()
        return [await out(r.read()), r.at_eof()]

    async def start_tls(self, r, w, pr, pw):
        loop, context = asyncio.get_running_loop(), ssl.create_default_context()
        return await out(loop.start_tls(w.transport, w.transport.get_protocol(), context, server_hostname="x"), 0.2)

    async def sendfile(self, r, w, pr, pw, **how):
        with tempfile.TemporaryFile() as file:
            file.write(os.urandom(100000))
            file.seek(0)
            said = await out(asyncio.get_running_loop().sendfile(w.transport, file, **how))
        w.write_eof()
        return [said, len(await pr.read())]

    async def sendfile_without_fallback(self, r, w, pr, pw):
        return await self.sendfile(r, w, pr, pw, fallback=False)

    async def names(self, r, w, pr, pw):
        return [repr(r).split(" ")[0], repr(w).split(" ")[0]]

    async def eof_then_write_back(self, r, w, pr, pw):
        w.write(b"req")
        w.write_eof()
        pw.write(await pr.read() * 2)
        pw.close()
        return [await out(r.read()), await out(w.drain()), w.is_closing()]

    async def close_flushes(self, r, w, pr, pw):
        w.write(b"x" * 5000000)
        w.close()
        reading = asyncio.ensure_future(pr.read())
        return [await out(w.wait_closed(), 5), len(await reading)]

    async def close_with_unread(self, r, w, pr, pw):
        pw.write(b"unread")
        await soon()
        w.write(b"last")
        w.close()
        return [await out(w.wait_closed()), await out(pr.read())]

    async def peer_writes_after_my_close(self, r, w, pr, pw):
        w.close()
        await out(w.wait_closed())

        async def go():
            for _ in range(100):
                pw.write(b"x" * 100000)
                await pw.drain()

        try:
            return await asyncio.wait_for(go(), 5)
        except OSError as error:
            return type(error).__name__


NAMES = [name for name in vars(Scenes) if not name.startswith("_")]


@unittest.skipIf(os.environ.get("YMX_LOOP") == "uvloop", "its TCP streams differ from asyncio's")
class BesideTCP(BothSides):
    async def over_tcp(self, scene):
        accepted = asyncio.get_running_loop().create_future()
        server = await asyncio.start_server(lambda *ends: accepted.set_result(ends), "127.0.0.1", 0)
        near = await asyncio.open_connection(*server.sockets[0].getsockname())
        return await self.played(scene, near, await accepted, server.close)

    async def over_ymx(self, scene):
        near, far = await self.pair()
        return await self.played(scene, near, far, lambda: None)

    async def played(self, scene, near, far, end):
        try:
            return repr(await asyncio.wait_for(getattr(Scenes(), scene)(*near, *far), 20))
        finally:
            for _, writer in near, far:
                if not writer.transport.is_closing():
                    writer.transport.abort()
            end()

    async def test_each_scene(self):
        self.assertEqual(set(DIFFERS) - set(NAMES), set())
        for scene in NAMES:
            over_tcp, over_ymx = await self.over_tcp(scene), await self.over_ymx(scene)
            with self.subTest(scene):
                if scene in DIFFERS:
                    self.assertNotEqual(over_ymx, over_tcp)
                else:
                    self.assertEqual(over_ymx, over_tcp)
