"""An echo server and its client, over TCP.

    echo.py serve                        echoes each stream, and says where it listens
    echo.py call ADDRESS STREAMS BYTES   has so many streams echoed, 100 at once, and compares what comes back
    echo.py reset ADDRESS                has the server reset a stream
    echo.py count ADDRESS                resets a stream, and asks the server how many it saw reset
    echo.py lost ADDRESS                 has the server break the connection off in the middle of a stream

A stream that begins with `reset`, `count` or `break` asks the server for that; any other is echoed. YMX_LIBRARY names
libymx.so.0, where the system doesn't find it.
"""
import asyncio
import os
import sys

import ymx

resets = 0


async def answer(connection, reader, writer):
    global resets
    try:
        try:
            word = await reader.readexactly(5)
        except asyncio.IncompleteReadError as incomplete:
            word = incomplete.partial
        if word == b"reset":
            writer.abort()
            return
        if word == b"break":
            writer.write(bytes(1000))
            await writer.drain()
            connection.close()
            return
        if word == b"count":
            writer.write(str(resets).encode())
        else:
            writer.write(word)
            while data := await reader.read(65536):
                writer.write(data)
                await writer.drain()
        writer.close()
        await writer.wait_closed()
    except ymx.StreamReset:
        resets += 1
    except ConnectionError:
        pass


async def serve_one(connection):
    await connection.serve_streams(lambda reader, writer: answer(connection, reader, writer))


async def serve():
    server = await ymx.start_server(serve_one, "127.0.0.1", 0)
    print("listening at 127.0.0.1:%d" % server.sockets[0].getsockname()[1], flush=True)
    await server.serve_forever()


async def echoed(connection, size):
    """Sends bytes on a stream of their own while they come back. The end comes last, as an old peer of HashiCorp's reads
    no more once it has closed."""
    reader, writer = await connection.open_stream()
    sent = bytes(min(size, 1)) + os.urandom(max(size - 1, 0))  # it begins with no word

    async def send():
        for at in range(0, size, 65536):
            writer.write(sent[at : at + 65536])
            await writer.drain()

    sending = asyncio.ensure_future(send())
    back = await reader.readexactly(size)
    await sending
    writer.write_eof()
    rest = await reader.read()
    writer.close()
    await writer.wait_closed()
    if back != sent or rest:
        raise SystemExit("other bytes came back")


async def call(connection, streams, size):
    seats = asyncio.Semaphore(100)

    async def one():
        async with seats:
            await echoed(connection, int(size))

    await asyncio.gather(*(one() for _ in range(int(streams))))
    await connection.ping()
    return f"{streams} streams of {size} bytes echoed and compared, a ping answered"


async def ask(connection, word):
    reader, writer = await connection.open_stream()
    writer.write(word)
    await writer.drain()
    return reader, writer


async def reset(connection):
    reader, _ = await ask(connection, b"reset")
    try:
        await reader.read()
    except ymx.StreamReset:
        await echoed(connection, 100000)
        return "the stream was reset, and another one goes on"
    raise SystemExit("a reset reads as an end")


async def count(connection):
    reader, writer = await ask(connection, b"some bytes")
    await reader.readexactly(10)
    writer.abort()
    for _ in range(100):
        reader, writer = await ask(connection, b"count")
        seen = await reader.read()
        writer.close()
        if seen.strip() != b"0":
            return "the server saw the reset"
        await asyncio.sleep(0.01)
    raise SystemExit("the server saw no reset")


async def lost(connection):
    reader, _ = await ask(connection, b"break")
    try:
        await reader.read()
    except ymx.ConnectionLost as reason:
        return f"lost: {reason}"
    raise SystemExit("a lost connection reads as an end")


async def main(how, address, *words):
    host, _, port = address.rpartition(":")
    async with await ymx.open_connection(host, int(port)) as connection:
        print(await {"call": call, "reset": reset, "count": count, "lost": lost}[how](connection, *words))


if __name__ == "__main__":
    if sys.argv[1:] == ["serve"]:
        asyncio.run(serve())
    elif len(sys.argv) < 3:
        raise SystemExit(__doc__)
    else:
        asyncio.run(main(*sys.argv[1:]))
