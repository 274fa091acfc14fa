#!/usr/bin/env python3
"""Python's software over TLS over streams of one connection, or with `tcp` over TCP: a loop whose create_connection and
create_server are led over streams. Of each of aiohttp, uvicorn and hypercorn 30 downloads of 300,000 bytes come whole beside 30
that are given up in the middle; of websockets 30 messages beside 30 connections that are dropped. Then all is still served."""
import asyncio
import asyncio.sslproto
import logging
import os
import socket
import ssl
import subprocess
import sys
import tempfile

sys.path.insert(0, os.path.join(os.path.dirname(os.path.abspath(__file__)), "../../bindings/python/src"))
import aiohttp
import hypercorn.asyncio
import hypercorn.config
import uvicorn
import websockets
import ymx
from aiohttp import web

BODY = os.urandom(300000)
COUNT = 30


class Server(asyncio.AbstractServer):
    """A server that listens for streams which name its port."""

    def __init__(self, led, port):
        self._led, self._port, self._closed = led, port, asyncio.Event()

    @property
    def sockets(self):
        return [self]

    family, type = socket.AF_INET, socket.SOCK_STREAM

    def getsockname(self):
        return ("127.0.0.1", self._port)

    def fileno(self):
        return -1

    def close(self):
        self._led.pop(self._port, None)
        self._closed.set()

    async def wait_closed(self):
        pass

    def get_loop(self):
        return asyncio.get_running_loop()

    def is_serving(self):
        return not self._closed.is_set()

    async def start_serving(self):
        pass

    async def serve_forever(self):
        await self._closed.wait()


class Led(asyncio.SelectorEventLoop):
    led = {}  # what serves at a port
    connection = None
    kept = []  # writers, which would reset their streams
    opened = 0

    async def begin(self):
        listener = await ymx.start_stream_server(self._come, "127.0.0.1", 0)
        self.connection = await ymx.open_connection(*listener.sockets[0].getsockname())

    async def _come(self, reader, writer):
        self.kept.append(writer)
        port = int.from_bytes(await reader.readexactly(2), "big")
        if port not in self.led:
            return writer.abort()
        make, context = self.led[port]
        await self._tls(writer.transport, make(), context, True, None)

    async def _tls(self, transport, protocol, context, is_server, name):
        """As asyncio's create_connection and create_server make it: the protocol's connection_made comes before its bytes."""
        waiter = self.create_future()
        tls = asyncio.sslproto.SSLProtocol(self, protocol, context, waiter, is_server, name)
        transport.set_protocol(tls)
        tls.connection_made(transport)
        await waiter
        return tls._app_transport

    async def create_connection(self, make, host=None, port=None, *, ssl=None, server_hostname=None, **how):
        if self.connection is None or port not in self.led:
            return await super().create_connection(make, host, port, ssl=ssl, server_hostname=server_hostname, **how)
        _, writer = await self.connection.open_stream()
        self.kept.append(writer)
        self.opened += 1
        writer.write(port.to_bytes(2, "big"))
        protocol = make()
        return await self._tls(writer.transport, protocol, ssl, False, server_hostname or host), protocol

    async def create_server(self, make, host=None, port=None, *, ssl=None, sock=None, **how):
        if self.connection is None:
            return await super().create_server(make, host, port, ssl=ssl, sock=sock, **how)
        if sock is not None:
            port = sock.getsockname()[1]
        self.led[port] = make, ssl
        return Server(self.led, port)


def free_port():
    with socket.socket() as one:
        one.bind(("127.0.0.1", 0))
        return one.getsockname()[1]


async def application(scope, receive, send):
    """Of uvicorn and hypercorn."""
    if scope["type"] == "lifespan":
        while (await receive())["type"] != "lifespan.shutdown":
            await send({"type": "lifespan.startup.complete"})
        return await send({"type": "lifespan.shutdown.complete"})
    await send({"type": "http.response.start", "status": 200, "headers": [(b"content-length", b"%d" % len(BODY))]})
    for at in range(0, len(BODY), 30000):
        await send({"type": "http.response.body", "body": BODY[at : at + 30000], "more_body": at + 30000 < len(BODY)})


async def downloads(port, context):
    """Half of them are given up; then one is whole once more."""

    async def one(caller, is_given_up):
        async with caller.get(f"https://localhost:{port}/") as response:
            if is_given_up:
                await response.content.readexactly(1000)
                response.close()
            else:
                assert await response.read() == BODY

    async with aiohttp.ClientSession(connector=aiohttp.TCPConnector(limit=10, ssl=context)) as caller:
        await asyncio.gather(*(one(caller, number % 2) for number in range(2 * COUNT)))
        await one(caller, False)


async def by_aiohttp(port, at_server, context, files):
    async def handle(request):
        response = web.StreamResponse(headers={"Content-Length": str(len(BODY))})
        await response.prepare(request)
        for at in range(0, len(BODY), 30000):
            await response.write(BODY[at : at + 30000])
        return response

    server = await asyncio.get_running_loop().create_server(web.Server(handle), "127.0.0.1", port, ssl=at_server)
    await downloads(port, context)
    server.close()


async def by_uvicorn(port, at_server, context, files):
    config = uvicorn.Config(application, port=port, ssl_certfile=files[0], ssl_keyfile=files[1], log_level="error", lifespan="off")
    server = uvicorn.Server(config)
    server.install_signal_handlers = lambda: None
    serving = asyncio.ensure_future(server.serve())
    while not server.started:
        await asyncio.sleep(0.01)
    await downloads(port, context)
    server.should_exit = server.force_exit = True
    await serving


async def by_hypercorn(port, at_server, context, files):
    config = hypercorn.config.Config()
    config.bind, config.certfile, config.keyfile = [f"127.0.0.1:{port}"], *files
    config.errorlog, config.graceful_timeout = None, 0.1
    config.alpn_protocols = ["http/1.1"]
    stop = asyncio.Event()
    serving = asyncio.ensure_future(hypercorn.asyncio.serve(application, config, shutdown_trigger=stop.wait))
    loop = asyncio.get_running_loop()
    while loop.connection is not None and port not in loop.led or loop.connection is None and not await is_open(port):
        await asyncio.sleep(0.01)
    await downloads(port, context)
    stop.set()
    await serving


async def is_open(port):
    try:
        _, writer = await asyncio.open_connection("127.0.0.1", port)
    except OSError:
        return False
    writer.close()
    return True


async def by_websockets(port, at_server, context, files):
    async def echo(socket):
        async for message in socket:
            await socket.send(message)

    async def one(is_given_up):
        socket = await websockets.connect(f"wss://localhost:{port}/", ssl=context)
        await socket.send(BODY)
        if is_given_up:
            socket.transport.abort()
        else:
            assert await socket.recv() == BODY
            await socket.close()

    server = await websockets.serve(echo, "localhost", port, ssl=at_server)
    await asyncio.gather(*(one(number % 2) for number in range(2 * COUNT)))
    await one(False)
    server.close()


async def main(loop, is_tcp):
    with tempfile.TemporaryDirectory() as folder:
        files = [os.path.join(folder, name) for name in ("certificate", "key")]
        words = "openssl req -x509 -newkey rsa:2048 -nodes -days 2 -subj /CN=localhost -addext subjectAltName=DNS:localhost"
        subprocess.run([*words.split(), "-out", files[0], "-keyout", files[1]], capture_output=True, check=True)
        at_server = ssl.SSLContext(ssl.PROTOCOL_TLS_SERVER)
        at_server.load_cert_chain(*files)
        context = ssl.create_default_context(cafile=files[0])
        if not is_tcp:
            await loop.begin()
        for use in by_aiohttp, by_uvicorn, by_hypercorn, by_websockets:
            before = loop.opened
            await asyncio.wait_for(use(free_port(), at_server, context, files), 100)
            assert is_tcp or loop.opened > before, "it went over no stream"
            print(f"{use.__name__[3:]} is done", flush=True)
    print(f"aiohttp, uvicorn, hypercorn and websockets over TLS, over {'TCP' if is_tcp else f'{loop.opened} streams'}")


logging.disable()  # websockets logs the connections that are dropped
loop = Led()
loop.set_exception_handler(lambda *_: None)  # what is given up is a fault of its connection
asyncio.set_event_loop(loop)
loop.run_until_complete(main(loop, "tcp" in sys.argv[1:]))
