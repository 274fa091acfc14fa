"""What the tests share: both sides of a connection over the loopback, in one event loop."""
import asyncio
import gc
import os
import ssl
import subprocess
import tempfile
import unittest
import warnings

import ymx

if os.environ.get("YMX_LOOP") == "uvloop":
    import uvloop

    uvloop.install()
warnings.simplefilter("ignore", ResourceWarning)  # streams that a test leaves open
gc.freeze()  # a collection then looks at what the tests make, and not at all that the modules have made


def contexts(test):
    """TLS for the side that calls, and for the one that is called."""
    with tempfile.TemporaryDirectory() as folder:
        key, certificate = os.path.join(folder, "key"), os.path.join(folder, "certificate")
        words = "openssl req -x509 -newkey rsa:2048 -nodes -days 2 -subj /CN=localhost -addext subjectAltName=IP:127.0.0.1"
        try:
            subprocess.run([*words.split(), "-keyout", key, "-out", certificate], capture_output=True, check=True)
        except FileNotFoundError:
            test.skipTest("there is no openssl")
        at_server = ssl.SSLContext(ssl.PROTOCOL_TLS_SERVER)
        at_server.load_cert_chain(certificate, key)
        return ssl.create_default_context(cafile=certificate), at_server


class BothSides(unittest.IsolatedAsyncioTestCase):
    """`self.client` and `self.server` are the two sides of one connection."""

    how = {}  # for each side

    async def asyncSetUp(self):
        accepted = asyncio.get_running_loop().create_future()

        async def serve(connection):
            if not accepted.done():
                accepted.set_result(connection)
            await connection.wait_closed()

        self.listener = await ymx.start_server(serve, "127.0.0.1", 0, **self.how)
        self.address = self.listener.sockets[0].getsockname()
        self.client = await ymx.open_connection(*self.address, **self.how)
        self.server = await accepted

    async def asyncTearDown(self):
        self.client.close()
        self.server.close()
        self.listener.close()
        await asyncio.wait_for(self.client.wait_closed(), 30)
        await asyncio.wait_for(self.server.wait_closed(), 30)

    async def pair(self):
        """Both ends of a new stream."""
        near = await self.client.open_stream()
        return near, await self.server.accept_stream()

    async def until(self, holds, what):
        """Waits until this comes to hold."""
        for _ in range(1000):
            if holds():
                return
            await asyncio.sleep(0.01)
        self.fail(what)

    async def gone(self):
        await self.until(lambda: self.client.stream_count == self.server.stream_count == 0, "a stream is still there")


class Collecting:
    """Collects garbage all the time, or with pauses of so many seconds."""

    def __init__(self, pause=0):
        self._pause = pause

    async def __aenter__(self):
        self._task = asyncio.ensure_future(self._collect())

    async def __aexit__(self, *_):
        self._task.cancel()

    async def _collect(self):
        while True:
            gc.collect()
            await asyncio.sleep(self._pause)
