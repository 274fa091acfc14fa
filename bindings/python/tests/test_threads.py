"""Sessions and streams whose calls block."""
import os
import threading
import unittest

import ymx
from ymx import threads


class Threads(unittest.TestCase):
    def setUp(self):
        self.listener = threads.Listener("127.0.0.1", 0)
        self.client = threads.connect(*self.listener.address)
        self.server = self.listener.accept(10)
        self.addCleanup(self.listener.close)
        self.addCleanup(self.server.abort)
        self.addCleanup(self.client.abort)

    def echo(self, count):
        for _ in range(count):
            with self.server.accept(10) as stream:
                while data := stream.read(65536):
                    stream.write(data)

    def test_streams_from_several_threads(self):
        serving = [threading.Thread(target=self.echo, args=(5,)) for _ in range(4)]
        wrong = []

        def use():
            for _ in range(5):
                sent = os.urandom(700000)
                with self.client.open(10) as stream:
                    writing = threading.Thread(target=lambda: (stream.write(sent), stream.finish()))
                    writing.start()
                    if stream.read() != sent:
                        wrong.append("other bytes came back")
                    writing.join()

        using = [threading.Thread(target=use) for _ in range(4)]
        for thread in serving + using:
            thread.start()
        for thread in serving + using:
            thread.join(60)
            self.assertFalse(thread.is_alive())
        self.assertEqual(wrong, [])

    def test_what_takes_too_long_is_given_up_and_nothing_is_lost(self):
        with self.assertRaises(TimeoutError):
            self.server.accept(0.01)
        near = self.client.open()
        near.write(b"one\n")
        far = self.server.accept(10)
        self.assertEqual(far.readline(), b"one\n")
        far.timeout = 0.01
        with self.assertRaises(TimeoutError):
            far.read_exactly(3)
        far.timeout = 10
        near.write(b"two")
        self.assertEqual(far.read_exactly(3), b"two")

    def test_an_exception_resets_the_stream(self):
        with self.assertRaises(KeyError):
            with self.client.open() as near:
                near.write(b"a beginning")
                far = self.server.accept(10)
                raise KeyError
        with self.assertRaises(ymx.StreamReset):
            far.read()

    def test_close_waits_until_the_peer_has_all(self):
        near = self.client.open()
        near.write(bytes(100000))
        near.close()
        far = self.server.accept(10)
        self.client.close()
        self.assertEqual(len(far.read()), 100000)
        with self.assertRaises(ymx.ConnectionLost):
            self.client.open()
        self.assertGreaterEqual(self.listener.address[1], 1)


if __name__ == "__main__":
    unittest.main()
