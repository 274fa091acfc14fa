"""What asyncio's own streams do, or promise."""
import asyncio
import gc
import time
import unittest
import weakref

import ymx
from both_sides import BothSides


class WaysOfAsyncio(BothSides):
    async def test_a_write_takes_time_in_proportion(self):
        """80 MB in one write take at most twice as long as 80 writes of 1 MB."""

        async def seconds(sizes):
            near, (far_reader, far) = await self.pair()
            began = time.process_time()
            for size in sizes:
                near[1].write(bytes(size))
            near[1].write_eof()
            size = 0
            while data := await far_reader.read(1000000):
                size += len(data)
            self.assertEqual(size, sum(sizes))
            near[1].close()
            far.close()
            return time.process_time() - began

        many, one = await seconds([1000000] * 80), await seconds([80000000])
        self.assertLess(one, 2 * many)

    async def test_behind_write_eof_a_write_is_an_error_of_the_program(self):
        near, (far_reader, far) = await self.pair()
        near[1].write(b"all")
        near[1].write_eof()
        near[1].write_eof()  # once more changes nothing
        for data in b"more", b"":
            with self.assertRaises(RuntimeError):
                near[1].write(data)
        with self.assertRaises(RuntimeError):
            near[1].writelines([b"more"])
        self.assertEqual(await far_reader.read(), b"all")
        far.write(b"answer")
        far.close()
        self.assertEqual(await near[0].read(), b"answer")
        near[1].close()
        await self.gone()

    async def test_addresses_are_known_also_once_the_connection_is_over(self):
        (reader, writer), _ = await self.pair()
        self.server.abort()
        with self.assertRaises(ymx.ConnectionLost):
            await reader.read()
        await self.client.wait_closed()
        for each in writer, self.client:
            self.assertEqual(each.get_extra_info("peername"), self.address)
            self.assertIsNotNone(each.get_extra_info("sockname"))

    async def test_all_kinds_of_bytes_are_taken_and_kept_as_they_are(self):
        near, (far_reader, far) = await self.pair()
        pieces = [bytearray(b"one "), memoryview(b"two "), memoryview(bytearray(b"three ")), memoryview(b"f-o-u-r- ")[::2], b""]
        near[1].write(bytes(ymx.LEAST_WINDOW))  # so that the rest waits for credit
        for piece in pieces:
            near[1].write(piece)
        near[1].writelines([bytearray(b"five "), memoryview(b"six")])
        pieces[0][:] = b"ONE "
        near[1].close()
        await far_reader.readexactly(ymx.LEAST_WINDOW)
        self.assertEqual(await far_reader.read(), b"one two three four five six")
        for wrong in "text", 7, None, [1]:
            with self.assertRaises(TypeError):
                far.write(wrong)
        far.close()
        await self.gone()

    async def test_what_is_waited_for_and_given_up_leaves_nothing(self):
        kept = [await self.client.open_stream() for _ in range(256)]
        refs = []

        class Noted(asyncio.Future):
            def __init__(self, *, loop):
                super().__init__(loop=loop)
                refs.append(weakref.ref(self))

        loop = asyncio.get_running_loop()
        loop.create_future = lambda: Noted(loop=loop)
        try:
            for _ in range(100):
                for wait in self.client.accept_stream, self.client.open_stream:
                    with self.assertRaises(asyncio.TimeoutError):
                        await asyncio.wait_for(wait(), 0.001)
        finally:
            del loop.create_future
        gc.collect()
        self.assertGreaterEqual(len(refs), 200)
        self.assertLessEqual(sum(ref() is not None for ref in refs), 2)  # asyncio itself may hold the last
        accepting = asyncio.ensure_future(self.client.accept_stream())
        await asyncio.sleep(0)
        _, writer = await self.server.open_stream()
        self.assertEqual(len(await asyncio.wait_for(accepting, 5)), 2)
        writer.close()
        self.assertEqual(len(kept), 256)

    async def test_each_of_many_that_accept_gets_a_stream_though_some_are_cancelled(self):
        accepting = [asyncio.ensure_future(self.server.accept_stream()) for _ in range(40)]
        await asyncio.sleep(0.01)
        opened = [await self.client.open_stream() for _ in range(20)]
        for at in range(0, 40, 2):
            accepting[at].cancel()
        came = await asyncio.wait_for(asyncio.gather(*accepting, return_exceptions=True), 5)
        given = [each for each in came if isinstance(each, tuple)]
        rest = [await asyncio.wait_for(self.server.accept_stream(), 5) for _ in range(20 - len(given))]
        self.assertEqual(len(given) + len(rest), len(opened))

    async def test_who_accepts_first_gets_the_first_stream(self):
        accepting = [asyncio.ensure_future(self.server.accept_stream()) for _ in range(10)]
        await asyncio.sleep(0.01)
        opened = [await self.client.open_stream() for _ in range(10)]
        ids = [writer.get_extra_info("stream_id") for _, writer in opened]
        came = await asyncio.wait_for(asyncio.gather(*accepting), 5)
        self.assertEqual([writer.get_extra_info("stream_id") for _, writer in came], ids)

    async def test_an_abort_ends_all_at_once(self):
        (near_reader, near), (far_reader, far) = await self.pair()
        near.write(bytes(1000000))
        accepting = asyncio.ensure_future(self.client.accept_stream())
        waiting = [asyncio.ensure_future(each) for each in (near_reader.read(), near.drain(), near.wait_closed(), self.client.ping())]
        await asyncio.sleep(0)
        self.client.abort()
        self.client.abort()
        for task in waiting + [accepting]:
            with self.assertRaises(ymx.ConnectionLost):
                await asyncio.wait_for(task, 5)
        for call in self.client.open_stream, self.client.accept_stream, self.client.ping:
            with self.assertRaises(ymx.ConnectionLost):
                await call()
        await asyncio.wait_for(self.client.wait_closed(), 5)
        with self.assertRaises(ymx.ConnectionLost):
            await asyncio.wait_for(far_reader.read(), 5)
        far.close()

    async def test_a_close_sends_what_the_peer_has_credit_for(self):
        for _ in range(20):
            near, (far_reader, far) = await self.pair()
            near[1].write(bytes(ymx.LEAST_WINDOW))
            near[1].write_eof()
            self.client.close()
            self.assertEqual(len(await asyncio.wait_for(far_reader.read(), 5)), ymx.LEAST_WINDOW)
            far.close()
            began = time.monotonic()
            await self.client.wait_closed()
            self.assertLess(time.monotonic() - began, 5)  # and not as long as it waits for a peer that says nothing
            await self.asyncTearDown()
            await self.asyncSetUp()

    async def test_a_stream_closed_here_takes_no_memory_for_what_still_comes(self):
        (near_reader, near), (_, far) = await self.pair()
        near.write(bytes(2 * ymx.LEAST_WINDOW))  # which waits for credit, so that the end isn't sent
        near.close()
        for _ in range(20):
            far.write(bytes(1000000))
            await asyncio.wait_for(far.drain(), 5)
        self.assertLess(len(near_reader._buffer), 300000)
        far.transport.abort()

    async def test_memory_goes_back_where_the_last_stream_has_gone(self):
        def resident():
            with open("/proc/self/statm") as file:
                return int(file.read().split()[1]) * 4096 / 1e6

        before = resident()
        ends = [await self.pair() for _ in range(600)]
        for _, (_, far) in ends:
            far.write(bytes(200000))
        for (reader, near), (_, far) in ends:
            await reader.readexactly(200000)
            near.close()
            far.close()
        used = resident()
        del ends, reader, near, far, _
        await self.until(lambda: resident() < before + (used - before) / 4, f"{before} before, {used} with streams")

    async def test_connections_that_are_over_are_collected(self):
        alive = weakref.WeakSet()
        for _ in range(5):
            connection = await ymx.open_connection(*self.address)
            alive.add(connection)
            reader, writer = await connection.open_stream()
            writer.write(b"x")
            connection.close()
            await connection.wait_closed()
            del connection, reader, writer
            await asyncio.sleep(0)
        for _ in range(100):
            gc.collect()
            if not alive:
                return
            await asyncio.sleep(0.05)
        self.fail(f"{len(alive)} are left")


if __name__ == "__main__":
    unittest.main()
