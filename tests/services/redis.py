#!/usr/bin/env python3
"""Pipelines and subscriptions of a redis server.

`redis.py HOST:PORT pipeline COUNT` sends so many commands without a wait, and compares each answer, first of SET and
then of GET.

`redis.py HOST:PORT subscribe COUNT` has eight subscribers. While four others send pipelines without end, one publishes
so many messages: each subscriber has to get each, in order. Exits with 1 where something is wrong.
"""

import socket
import sys
import threading

PATIENCE = 60
SUBSCRIBERS = 8
OTHERS = 4


class Wrong(Exception):
    """An answer that isn't the one that redis has to give."""


class Server:
    """A connection to the server."""

    def __init__(self, place):
        self.connection = socket.create_connection(place, timeout=PATIENCE)
        self.connection.setsockopt(socket.IPPROTO_TCP, socket.TCP_NODELAY, 1)
        self.answers = self.connection.makefile("rb")

    def send(self, *commands):
        self.connection.sendall(b"".join(map(written, commands)))

    def answer(self):
        """The next answer, whatever it is."""
        line = self.answers.readline()
        if not line.endswith(b"\r\n"):
            raise Wrong(f"the connection ended after {line!r}")
        kind, text = line[:1], line[1:-2]
        if kind == b"$":
            length = int(text)
            return None if length < 0 else self.answers.read(length + 2)[:-2]
        if kind == b"*":
            return [self.answer() for _ in range(int(text))]
        return int(text) if kind == b":" else text

    def expect(self, wanted):
        found = self.answer()
        if found != wanted:
            raise Wrong(f"{found!r} came, and not {wanted!r}")

    def close(self):
        self.connection.close()


def written(words):
    """A command as the protocol of redis writes it."""
    words = [word if isinstance(word, bytes) else str(word).encode() for word in words]
    return b"*%d\r\n" % len(words) + b"".join(b"$%d\r\n%s\r\n" % (len(word), word) for word in words)


def value(number):
    """What is kept under this number: up to a few thousand bytes."""
    return b"%d;" % number * (1 + number * number % 97)


def send_all(place, commands, answers):
    """Sends commands from a thread of their own, while the answers are compared."""
    server = Server(place)
    sender = threading.Thread(target=server.send, args=commands, daemon=True)
    sender.start()
    for wanted in answers:
        server.expect(wanted)
    sender.join()
    server.close()


def pipeline(place, count):
    numbers = range(count)
    send_all(place, [("SET", f"number:{n}", value(n)) for n in numbers], (b"OK" for _ in numbers))
    send_all(place, [("GET", f"number:{n}") for n in numbers], (value(n) for n in numbers))
    return f"{2 * count:,} answers, {sum(len(value(n)) for n in numbers) / 1e6:.0f} MB each way"


def work(place, name, over, counts, faults):
    """Sends pipelines until the publisher has ended."""
    try:
        server, done = Server(place), 0
        while not over.is_set():
            server.send(*[("INCR", name)] * 500)
            for _ in range(500):
                done += 1
                server.expect(done)
        counts.append(done)
        server.close()
    except (OSError, Wrong, ValueError) as fault:
        faults.append(f"{name}: {fault!r}")


def listen(server, count, faults):
    """Takes all messages, in order."""
    try:
        for number in range(count):
            server.expect([b"message", b"news", value(number)])
        server.close()
    except (OSError, Wrong, ValueError) as fault:
        faults.append(f"a subscriber: {fault!r}")


def subscribe(place, count):
    faults, counts, over = [], [], threading.Event()
    subscribers = [Server(place) for _ in range(SUBSCRIBERS)]
    for server in subscribers:
        server.send(("SUBSCRIBE", "news"))
        server.expect([b"subscribe", b"news", 1])
    listeners = [threading.Thread(target=listen, args=(server, count, faults)) for server in subscribers]
    workers = [
        threading.Thread(target=work, args=(place, f"worker:{number}", over, counts, faults)) for number in range(OTHERS)
    ]
    publisher = Server(place)
    publisher.send(("DEL", *(f"worker:{number}" for number in range(OTHERS))))
    publisher.answer()
    for thread in listeners + workers:
        thread.start()
    try:
        for number in range(count):
            publisher.send(("PUBLISH", "news", value(number)))
            publisher.expect(SUBSCRIBERS)
    finally:
        over.set()
        for thread in listeners + workers:
            thread.join()
    publisher.close()
    if faults:
        raise Wrong("; ".join(faults))
    return f"{count * SUBSCRIBERS:,} messages beside {sum(counts):,} commands"


def main():
    host, port = sys.argv[1].rsplit(":", 1)
    what = {"pipeline": pipeline, "subscribe": subscribe}[sys.argv[2]]
    try:
        print(what((host, int(port)), int(sys.argv[3])))
    except (OSError, Wrong, ValueError) as fault:
        print(f"{fault!r}")
        return 1
    return 0


if __name__ == "__main__":
    sys.exit(main())
