"""Sends much through both ends of a tunnel, and looks how much of a processor each used for that, as a share of what a plain copy of the
same bytes takes in the same run; and that over a long line each round trip carries a window.

It prints which tests failed, and nothing where none did.

usage: cost.py YMX
"""

import os
import subprocess
import sys
import threading
import time

import raw
from beside import processor
from raw import ANY, FIRST_WINDOW, Program, accept, call, free_place, listen
from standard import await_listener

MANY = 300_000_000
PIECE = 1 << 20
# How many times the processor time of a plain copy each end may use: it uses 0.8 to 2 times that, and some 8 times where no payload goes
# straight from the link to its connection.
SHARE = 4
# How often what a loaded machine may hold up is tried.
ATTEMPTS = 5
# How long a round trip is, in seconds, how many windows are sent, and how many round trips each may take on a loaded machine.
ROUND_TRIP, WINDOWS, MOST = 0.05, 20, 1.6
DELAY = os.path.join(os.path.dirname(os.path.realpath(__file__)), "../../bench/delay.py")
COPY = """
import socket, sys
listener = socket.create_server(("127.0.0.1", 0))
print(listener.getsockname()[1], flush=True)
giver, _ = listener.accept()
taker = socket.create_connection(("127.0.0.1", int(sys.argv[1])))
room = bytearray(65536)
while count := giver.recv_into(room):
    taker.sendall(memoryview(room)[:count])
taker.shutdown(socket.SHUT_WR)
giver.recv(1)
"""


class Copy:
    """A process that copies what comes of one connection to another."""

    def __init__(self, target):
        port = target.rsplit(":", 1)[1]
        self.process = subprocess.Popen([sys.executable, "-c", COPY, port], stdout=subprocess.PIPE, bufsize=0)
        Program.running.append(self.process)
        self.place = f"127.0.0.1:{self.process.stdout.readline().decode().strip()}"


def send(connection, count):
    piece = bytes(PIECE)
    while count:
        count -= connection.send(piece[:count])


def passes(giver, taker, count):
    """So many bytes go there, and arrive."""
    sender = threading.Thread(target=send, args=(giver, count))
    sender.start()
    room, left = bytearray(PIECE), count
    while left:
        came = taker.recv_into(room)
        assert came, "it has ended"
        left -= came
    sender.join()


def spent(programs, way):
    """How many seconds of the processor each of them uses for all bytes, which go this way."""
    before = [processor(program) for program in programs]
    passes(*way, MANY)
    return [processor(program) - was for program, was in zip(programs, before)]


def much(has_answer):
    """What is sent, or answered, costs each end only so many times what a copy of it costs: the least of some times counts."""
    target, address = listen()
    copy = Copy(address)
    far = Program("remote", "-v", "--bind", ANY, "--target", address)
    near = Program("local", "-v", "--listen", ANY, "--peer", far.place())
    user = call(near.place())
    service = accept(target)
    plain = call(copy.place)
    copied = accept(target)
    way = (service, user) if has_answer else (user, service)
    ends, copies = [[], []], []
    for _ in range(ATTEMPTS):
        copies += spent([copy], (plain, copied))
        for found, used in zip(ends, spent([near, far], way)):
            found.append(used)
        shares = [min(used) / min(copies) for used in ends]
        if max(shares) < SHARE:
            return
    raise AssertionError(f"local and remote use {shares[0]:.1f} and {shares[1]:.1f} times what a copy does")


def a_long_line():
    """Each of its round trips carries a window."""
    target, address = listen()
    far = Program("remote", "-v", "--bind", ANY, "--target", address)
    meeting = free_place()
    delay = subprocess.Popen([sys.executable, DELAY, meeting, far.place(), str(ROUND_TRIP * 500)])
    Program.running.append(delay)
    await_listener(meeting)
    near = Program("local", "-v", "--listen", ANY, "--peer", meeting)
    user = call(near.place())
    took = []
    service = accept(target)
    for _ in range(ATTEMPTS):
        began = time.monotonic()
        passes(user, service, WINDOWS * FIRST_WINDOW)
        took.append((time.monotonic() - began) / WINDOWS / ROUND_TRIP)
        if took[-1] < MOST:
            return
    raise AssertionError(f"a window takes {took} round trips")


TESTS = (
    # (under qemu each takes what qemu does)
    *((("much that is sent", much, (False,)), ("much that is answered", much, (True,))) if raw.COUNTS else ()),
    ("a long line", a_long_line, ()),
)

if __name__ == "__main__":
    sys.exit(raw.main(TESTS))
