#!/usr/bin/env python3
"""A relay that delays bytes, and doesn't limit how many: `delay.py LISTEN TARGET MILLISECONDS`.

Each byte of a connection leaves so many milliseconds after it came, each way. So a round trip takes twice as long. What
is under way is kept in memory; only where that is more than 512 MiB one way, no more is taken.
"""

import collections
import socket
import sys
import threading
import time

PIECE = 1 << 20
MOST_KEPT = 512 << 20


class Line:
    """One direction of a connection: a thread takes bytes, and another gives them away when they are due."""

    def __init__(self, giver, taker, delay):
        self.giver, self.taker, self.delay = giver, taker, delay
        self.kept = collections.deque()
        self.size = 0
        self.changed = threading.Condition()
        for work in self.take, self.give:
            threading.Thread(target=work, daemon=True).start()

    def take(self):
        """Takes what comes. The empty piece is the end."""
        while True:
            try:
                piece = self.giver.recv(PIECE)
            except OSError:
                piece = b""
            with self.changed:
                self.kept.append((time.monotonic() + self.delay, piece))
                self.size += len(piece)
                self.changed.notify_all()
                if not piece:
                    return
                self.changed.wait_for(lambda: self.size < MOST_KEPT)

    def give(self):
        """Gives each piece away when it is due."""
        while True:
            with self.changed:
                self.changed.wait_for(lambda: self.kept)
                due, piece = self.kept.popleft()
            time.sleep(max(0, due - time.monotonic()))
            try:
                if piece:
                    self.taker.sendall(piece)
                else:
                    self.taker.shutdown(socket.SHUT_WR)
            except OSError:
                # the other direction goes on; this one is over for its giver too
                shut(self.giver, socket.SHUT_RD)
                return
            if not piece:
                return
            with self.changed:
                self.size -= len(piece)
                self.changed.notify_all()


def shut(connection, how):
    """Shuts one direction, where it isn't gone already."""
    try:
        connection.shutdown(how)
    except OSError:
        pass


def address(text):
    host, port = text.rsplit(":", 1)
    return host, int(port)


def main():
    place, target, delay = address(sys.argv[1]), address(sys.argv[2]), float(sys.argv[3]) / 1000
    # Threads change hands sooner, so that a piece leaves when it is due.
    sys.setswitchinterval(0.0005)
    with socket.create_server(place) as listener:
        while True:
            near = listener.accept()[0]
            far = socket.create_connection(target)
            for one in near, far:
                one.setsockopt(socket.IPPROTO_TCP, socket.TCP_NODELAY, 1)
            Line(near, far, delay)
            Line(far, near, delay)


if __name__ == "__main__":
    main()
