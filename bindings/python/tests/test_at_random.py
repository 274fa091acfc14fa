"""Streams whose tasks are cancelled, fail, forget to close, or reset, over connections that end at any moment in any way,
while garbage is collected: what reads as ended is a whole text, and nobody waits for ever."""
import asyncio
import gc
import os
import random
import struct
import unittest

import ymx
from both_sides import Collecting

SECONDS, MOST_SECONDS = 4, 90  # and on until enough were whole and enough were cut
ENOUGH = 10
HEAD = struct.Struct(">IB")


def pattern(size, seed):
    """A text that tells by its head how long it is."""
    return HEAD.pack(size, seed) + bytes((seed + at * 7) % 256 for at in range(251)) * (size // 251 + 1)


class AtRandom(unittest.IsolatedAsyncioTestCase):
    async def write(self, writer):
        size = self.random.choice((0, 1, 100, 5000, 70000, 300000, 1000000))
        text = pattern(size, self.random.randrange(256))[: HEAD.size + size]
        stops = self.random.randrange(len(text)) if self.random.random() < 0.3 else len(text)
        at = 0
        while at < stops:
            piece = text[at : min(stops, at + self.random.choice((10, 5000, 65536, 400000)))]
            writer.write(self.random.choice((bytes, bytearray, memoryview))(piece))
            at += len(piece)
            if self.random.random() < 0.5:
                await writer.drain()
        if stops < len(text):
            raise ValueError("half of a text was written")
        writer.write_eof()

    async def read(self, reader):
        came = b""
        try:
            while not came:
                try:
                    came = await asyncio.wait_for(reader.read(), self.random.random())
                except asyncio.TimeoutError:
                    continue
                size, seed = HEAD.unpack(came[: HEAD.size])
                if came != pattern(size, seed)[: HEAD.size + size]:
                    self.wrong.append(f"{len(came)} bytes in place of {size}")
                self.whole += 1
        except ConnectionError:
            self.cut += 1

    async def exchange(self, reader, writer):
        """What both ends of a stream do."""
        if self.random.random() < 0.1:
            return self.random.choice((writer.abort, lambda: None))()
        tasks = [asyncio.ensure_future(self.write(writer)), asyncio.ensure_future(self.read(reader))]
        try:
            if self.random.random() < 0.1:
                await asyncio.sleep(self.random.random() / 50)
                self.random.choice(tasks).cancel()
        finally:
            wrote, _ = await asyncio.gather(*tasks, return_exceptions=True)
        if isinstance(wrote, BaseException):
            if self.random.random() < 0.5:
                raise ValueError("which nobody catches")
            return None  # and the writer is dropped
        writer.close()
        return None

    async def use(self, connection):
        while True:
            try:
                await self.exchange(*await connection.open_stream())
            except ValueError:
                pass
            except ymx.ConnectionLost:
                return

    async def serve(self, connection):
        users = [asyncio.ensure_future(self.use(connection)) for _ in range(3)]
        await connection.serve_streams(self.exchange)
        await asyncio.gather(*users)

    def goes_on(self):
        passed = asyncio.get_running_loop().time() - self.began
        return passed < SECONDS or (passed < MOST_SECONDS and min(self.whole, self.cut) <= ENOUGH)

    async def call(self, address):
        while self.goes_on():
            users = []
            try:
                async with await ymx.open_connection(*address, linger=2) as connection:
                    users = [asyncio.ensure_future(self.use(connection)) for _ in range(5)]
                    users.append(asyncio.ensure_future(connection.serve_streams(self.exchange)))
                    await asyncio.sleep(self.random.random() / 3)
                    transport = connection._transport
                    ways = connection.abort, connection.close, transport.abort, transport.close, lambda: None
                    self.random.choice(ways)()
                    if self.random.random() < 0.2:
                        raise KeyError
            except (KeyError, ymx.ConnectionLost):
                pass
            await asyncio.wait_for(asyncio.gather(*users), 60)

    async def test_what_reads_as_ended_is_whole(self):
        seed = int(os.environ.get("YMX_TEST_SEED") or random.randrange(1 << 30))
        self.random, self.wrong, self.whole, self.cut = random.Random(seed), [], 0, 0
        loop = asyncio.get_running_loop()
        loop.slow_callback_duration = 10
        loop.set_exception_handler(
            lambda _, context: isinstance(context.get("exception", ValueError()), ValueError) or self.wrong.append(repr(context))
        )
        server = await ymx.start_server(self.serve, "127.0.0.1", 0, linger=2)
        address = server.sockets[0].getsockname()
        self.began = loop.time()
        async with Collecting(pause=0.02):
            await asyncio.gather(*(self.call(address) for _ in range(4)))
        server.close()
        for _ in range(100):
            gc.collect()
            others = asyncio.all_tasks() - {asyncio.current_task()}
            if not others:
                break
            await asyncio.sleep(0.1)
        self.assertEqual((self.wrong, len(others)), ([], 0), f"YMX_TEST_SEED={seed}")
        self.assertGreater(min(self.whole, self.cut), ENOUGH)


if __name__ == "__main__":
    unittest.main()
