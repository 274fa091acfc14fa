#!/usr/bin/env python3
"""Hypercorn serves an application over streams of one connection: 200 requests at once, whose bodies come back."""
import asyncio
import os
import sys

sys.path.insert(0, os.path.join(os.path.dirname(os.path.abspath(__file__)), "../../bindings/python/src"))
import ymx
from hypercorn.asyncio.tcp_server import TCPServer
from hypercorn.asyncio.worker_context import WorkerContext
from hypercorn.config import Config


async def echo(scope, receive, send):
    if scope["type"] != "http":
        return
    body, more = b"", True
    while more:
        event = await receive()
        body, more = body + event.get("body", b""), event.get("more_body", False)
    await send({"type": "http.response.start", "status": 200, "headers": [(b"content-length", b"%d" % len(body))]})
    await send({"type": "http.response.body", "body": body})


async def ask(connection, number):
    text = bytes([number]) * (number * 3000)
    reader, writer = await connection.open_stream()
    head = f"POST / HTTP/1.1\r\nHost: x\r\nConnection: close\r\nContent-Length: {len(text)}\r\n\r\n"
    writer.write(head.encode() + text)
    await writer.drain()
    status = await reader.readline()
    while await reader.readline() != b"\r\n":
        pass
    assert status.startswith(b"HTTP/1.1 200") and await reader.readexactly(len(text)) == text
    writer.close()


async def main():
    loop, context, config = asyncio.get_running_loop(), WorkerContext(), Config()

    async def answer(reader, writer):
        await TCPServer(echo, loop, config, context, reader, writer).run()

    server = await ymx.start_stream_server(answer, "127.0.0.1", 0)
    async with await ymx.open_connection(*server.sockets[0].getsockname()) as connection:
        await asyncio.gather(*(ask(connection, number) for number in range(200)))
    server.close()
    print("200 requests, whose bodies came back")


asyncio.run(asyncio.wait_for(main(), 120))
