"""python3 -m unittest discover -s tests, with src on PYTHONPATH, and YMX_LIBRARY where the system doesn't find libymx."""
import asyncio
import os
import unittest

import ymx
from both_sides import BothSides


def exchange(one, other):
    """All that is due goes from one session to the other."""
    while data := one.emit():
        other.feed(data)


class SessionAlone(unittest.TestCase):
    def setUp(self):
        self.client, self.server = ymx.Session(ymx.CLIENT), ymx.Session(ymx.SERVER)

    def test_a_word_goes_across(self):
        stream = self.client.open()
        self.assertEqual(self.client.write(stream, b"hello"), 5)
        self.client.finish(stream)
        exchange(self.client, self.server)
        self.assertFalse(self.client.due())
        self.assertEqual((self.server.offered(), self.server.accept(), self.server.accept()), (1, stream, None))
        self.assertEqual((self.server.read(stream), self.server.read(stream)), (b"hello", b""))
        self.assertTrue(self.server.is_at_end(stream))

    def test_touched_streams_are_named(self):
        busy, idle = self.client.open(), self.client.open()
        exchange(self.client, self.server)
        self.assertEqual(self.server.touched(), ([busy, idle], False))
        self.client.write(busy, b"x")
        number = self.client.ping()
        exchange(self.client, self.server)
        self.assertEqual(self.server.touched(), ([busy], False))
        self.assertEqual(self.server.touched(), ([], False))
        exchange(self.server, self.client)
        self.assertTrue(self.client.touched()[1])
        self.assertEqual((self.client.ponged(number), self.client.ponged(number)), (True, False))

    def test_memory_goes_back_and_no_byte_of_it(self):
        stream, text = self.client.open(), os.urandom(ymx.LEAST_WINDOW)
        self.assertEqual(self.client.opens_left(), 255)
        self.client.write(stream, text)
        exchange(self.client, self.server)
        self.server.accept()
        self.assertEqual(self.server.unread_count(stream), ymx.LEAST_WINDOW)
        self.assertTrue(self.client.shrink(stream) or self.client.shrink_spare())
        self.assertTrue(self.server.shrink(stream) or self.server.shrink_spare())
        read = b""
        while data := self.server.read(stream):
            read += data
        self.assertEqual((read, self.server.unread_count(stream)), (text, 0))
        self.server.go_away()
        exchange(self.server, self.client)
        self.assertEqual((self.client.is_peer_away(), self.client.opens_left(), self.server.is_peer_away()), (True, 0, False))

    def test_refusals_have_names(self):
        for name, call in (
            ("BAD_WINDOW", lambda: ymx.Session(ymx.CLIENT, 1)),
            ("BAD_FIRST", lambda: ymx.Session(ymx.CLIENT, first=2)),
            ("BAD_ROLE", lambda: ymx.Session(7)),
            ("NO_STREAM", lambda: self.client.read(7)),
        ):
            with self.assertRaises(ymx.Refused) as refused:
                call()
            self.assertEqual(refused.exception.name, name)

    def test_a_fault_breaks_the_session(self):
        self.server.feed(b"\x01" * 12)
        self.assertEqual(self.server.status(), ymx.BROKEN + 1)
        self.assertEqual((ymx.fault_name(1), ymx.fault_name(9), ymx.fault_name(10)), ("B1", "B9", "UNKNOWN"))

    def test_any_bytes_are_taken_from_anywhere_in_them(self):
        for kind in bytes, bytearray, memoryview, lambda data: memoryview(bytearray(data)):
            stream = self.client.open()
            self.assertEqual(self.client.room(stream), ymx.LEAST_WINDOW)
            self.assertEqual(self.client.write(stream, kind(b"-hello"), 1), 5)
            self.assertEqual(self.client.write(stream, kind(b"x"), 1), 0)
            with self.assertRaises(ValueError):
                self.client.write(stream, kind(b"x"), 2)
            self.assertEqual(self.client.room(stream), ymx.LEAST_WINDOW - 5)
            data = self.client.emit()
            self.assertEqual(self.server.feed(kind(b"---" + data), 3), len(data))
            self.assertEqual((self.server.accept(), self.server.read(stream)), (stream, b"hello"))


class OverTCP(BothSides):
    async def test_both_ways_at_once(self):
        (near_reader, near), (far_reader, far) = await self.pair()
        texts = os.urandom(1500000), os.urandom(1500000)

        async def send(writer, text):
            writer.write(text)
            await writer.drain()
            writer.write_eof()

        came = await asyncio.gather(near_reader.read(), far_reader.read(), send(near, texts[0]), send(far, texts[1]))
        self.assertEqual(came[:2], [texts[1], texts[0]])
        near.close()
        far.close()
        await self.gone()

    async def test_drain_waits_for_credit(self):
        (_, near), (far_reader, _) = await self.pair()
        near.write(bytes(2 * ymx.LEAST_WINDOW))
        with self.assertRaises(asyncio.TimeoutError):
            await asyncio.wait_for(near.drain(), 0.1)
        await far_reader.readexactly(2 * ymx.LEAST_WINDOW)
        await near.drain()

    async def test_lines(self):
        (_, near), (far_reader, _) = await self.pair()
        near.write(b"one\ntwo\n")
        near.write_eof()
        self.assertEqual([line async for line in far_reader], [b"one\n", b"two\n"])

    async def test_close_with_unread_bytes_lets_the_stream_go(self):
        (_, near), (_, far) = await self.pair()
        far.write(os.urandom(3 * ymx.LEAST_WINDOW))
        far.close()
        near.close()
        await near.wait_closed()
        await self.gone()

    async def test_a_reset_reaches_the_other_side(self):
        (near_reader, near), (_, far) = await self.pair()
        far.transport.abort()
        with self.assertRaises(ymx.StreamReset):
            await near_reader.read()
        await self.gone()

    async def test_a_lost_connection_is_no_end(self):
        (near_reader, near), (_, far) = await self.pair()
        far.write(b"a beginning")
        self.assertEqual(await near_reader.readexactly(11), b"a beginning")
        self.server.close()
        with self.assertRaises(ymx.ConnectionLost):
            await near_reader.read()
        with self.assertRaises(ymx.ConnectionLost):
            await self.client.open_stream()

    async def test_open_waits_where_256_are_not_acknowledged(self):
        kept = [await self.client.open_stream() for _ in range(256)]
        opening = asyncio.ensure_future(self.client.open_stream())
        await asyncio.sleep(0.05)
        self.assertFalse(opening.done())
        accepted = await self.server.accept_stream()
        await opening
        self.assertEqual((len(kept), len(accepted)), (256, 2))

    async def test_go_away(self):
        self.server.go_away()
        await self.client.ping()
        with self.assertRaises(ymx.Refused) as refused:
            await self.client.open_stream()
        self.assertEqual(refused.exception.name, "PEER_AWAY")

    async def test_idle_streams_are_not_looked_at(self):
        idle = [await self.pair() for _ in range(50)]
        (_, near), (far_reader, _) = await self.pair()
        asked = []
        read = self.server.session.read
        self.server.session.read = lambda stream: asked.append(stream) or read(stream)
        near.write(b"x")
        await far_reader.readexactly(1)
        self.assertEqual(set(asked), {near.get_extra_info("stream_id")})
        self.assertEqual(len(idle), 50)

    async def test_a_fault_of_the_peers_ends_the_connection(self):
        self.client._transport.write(b"\x09" * 12)
        with self.assertRaisesRegex(ymx.ConnectionLost, r"a rule of yamux: B1: a frame"):
            await self.server.accept_stream()


if __name__ == "__main__":
    unittest.main()
