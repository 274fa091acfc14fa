"""Times the binding for Python: both sides in this process, over TCP on the loopback. Each line has a name, an amount a
second, and milliseconds of processor time. bindings.sh takes the medians."""
import asyncio
import time

import ymx

WORDS, MEGABYTES, STREAMS = 5000, 100, 2000


async def echo(reader, writer):
    while data := await reader.read(65536):
        writer.write(data)
        await writer.drain()
    writer.close()


async def words(connection):
    """Words of 64 bytes there and back, one after another."""
    reader, writer = await connection.open_stream()
    for _ in range(WORDS):
        writer.write(bytes(64))
        await reader.readexactly(64)
    writer.close()
    return WORDS


async def bulk(connection):
    """So many megabytes there and back over one stream."""
    reader, writer = await connection.open_stream()

    async def send():
        for _ in range(MEGABYTES):
            writer.write(bytes(1_000_000))
            await writer.drain()
        writer.write_eof()

    sending = asyncio.ensure_future(send())
    while await reader.read(65536):
        pass
    await sending
    writer.close()
    return MEGABYTES


async def streams(connection):
    """Streams that are opened, echoed and closed one after another."""
    for _ in range(STREAMS):
        reader, writer = await connection.open_stream()
        writer.write(b"hello")
        writer.write_eof()
        assert await reader.read() == b"hello"
        writer.close()
    return STREAMS


async def main():
    server = await ymx.start_stream_server(echo, "127.0.0.1", 0)
    port = server.sockets[0].getsockname()[1]
    for name, measured in (("words", words), ("bulk_MB", bulk), ("streams", streams)):
        async with await ymx.open_connection("127.0.0.1", port) as connection:
            before, began = time.process_time(), time.perf_counter()
            count = await measured(connection)
            took, spent = time.perf_counter() - began, time.process_time() - before
            print(name, round(count / took), round(spent * 1000))
    server.close()


asyncio.run(main())
