#!/usr/bin/env python3
"""A slow line: `line.py LISTEN TARGET MEGABITS MILLISECONDS`.

A relay that takes so many million bits a second at most each way, of all its connections together, and gives each byte
away so many milliseconds after it came. Its connections take turns, a piece each. What it doesn't take yet waits with
who sends, but for some 64 KiB of each connection. A connection that ends is gone with all that is under way.
"""

import collections
import select
import socket
import sys
import time

# The line may lag so many seconds behind its rate, and make up for it.
LAG = 0.002
# No more is taken of a connection whose taker leaves so many bytes.
MOST_LEFT = 1 << 20
BUFFER = 32_768


class Half:
    """One direction of a connection: who gives and who takes, what he left, and whether bytes wait to be taken."""

    def __init__(self, giver, taker):
        self.giver, self.taker = giver, taker
        self.left = bytearray()
        self.is_ready = False


class Way:
    """One direction of the line: whose turn it is, what is under way, and when it is free."""

    def __init__(self, rate, delay):
        self.rate, self.delay = rate, delay
        self.piece = max(1448, int(rate * 0.001))
        self.ready = collections.deque()
        self.under_way = collections.deque()
        self.free_at = 0.0

    def times(self):
        """When it has something to do."""
        return [at for at, _, _ in list(self.under_way)[:1]] + ([self.free_at] if self.ready else [])


class Relay:
    def __init__(self, place, target, rate, delay):
        self.target = target
        self.listener = buffered_socket()
        self.listener.setsockopt(socket.SOL_SOCKET, socket.SO_REUSEADDR, 1)
        self.listener.bind(place)
        self.listener.listen(1024)
        self.ways = Way(rate, delay), Way(rate, delay)
        self.poll = select.epoll()
        self.poll.register(self.listener, select.EPOLLIN)
        # by a socket's number: what it gives, into which way, and what it takes
        self.halves = {}

    def join(self, near):
        far = buffered_socket()
        far.connect(self.target)
        there, back = Half(near, far), Half(far, near)
        self.halves[near.fileno()] = there, self.ways[0], back
        self.halves[far.fileno()] = back, self.ways[1], there
        for one in near, far:
            one.setsockopt(socket.IPPROTO_TCP, socket.TCP_NODELAY, 1)
            one.setblocking(False)
            self.poll.register(one, select.EPOLLIN)

    def ask(self, one):
        """Asks for the events of a socket that are of use."""
        if one.fileno() in self.halves:
            gives, _, takes = self.halves[one.fileno()]
            wanted = 0 if gives.is_ready or len(gives.left) > MOST_LEFT else select.EPOLLIN
            self.poll.modify(one, wanted | (select.EPOLLOUT if takes.left else 0))

    def drop(self, half):
        for one in half.giver, half.taker:
            if self.halves.pop(one.fileno(), None):
                self.poll.unregister(one)
                one.close()

    def carry(self, way):
        """Takes what the line has room for, of each connection in turn."""
        now = time.monotonic()
        way.free_at = max(way.free_at, now - LAG)
        while way.ready and way.free_at <= now:
            half = way.ready.popleft()
            try:
                piece = half.giver.recv(way.piece)
            except BlockingIOError:
                half.is_ready = False
                self.ask(half.giver)
                continue
            except OSError:
                piece = b""
            if not piece:
                self.drop(half)
                continue
            way.under_way.append((now + way.delay, half, piece))
            way.free_at += len(piece) / way.rate
            half.is_ready = len(half.left) <= MOST_LEFT
            if half.is_ready:
                way.ready.append(half)

    def deliver(self, way):
        """Gives away what is due."""
        while way.under_way and way.under_way[0][0] <= time.monotonic():
            _, half, piece = way.under_way.popleft()
            half.left += piece
            self.give(half)

    def give(self, half):
        try:
            while half.left:
                del half.left[: half.taker.send(half.left)]
        except BlockingIOError:
            pass
        except OSError:
            self.drop(half)
        self.ask(half.taker)
        self.ask(half.giver)

    def hear(self, number, event):
        if number == self.listener.fileno():
            self.join(self.listener.accept()[0])
        elif number in self.halves:
            gives, way, takes = self.halves[number]
            if event & select.EPOLLOUT:
                self.give(takes)
            if event & ~select.EPOLLOUT and not gives.is_ready:
                gives.is_ready = True
                way.ready.append(gives)
                self.ask(gives.giver)

    def run(self):
        while True:
            for way in self.ways:
                self.deliver(way)
                self.carry(way)
            times = [at for way in self.ways for at in way.times()]
            for number, event in self.poll.poll(max(0.0, min(times) - time.monotonic()) if times else None):
                self.hear(number, event)


def buffered_socket():
    one = socket.socket()
    one.setsockopt(socket.SOL_SOCKET, socket.SO_RCVBUF, BUFFER)
    return one


def address(text):
    host, port = text.rsplit(":", 1)
    return host, int(port)


def main():
    place, target, megabits, delay = sys.argv[1:]
    Relay(address(place), address(target), float(megabits) * 125_000, float(delay) / 1000).run()


if __name__ == "__main__":
    main()
