"""Starts the program with standard input, output and error closed, in each of the eight ways, and looks whether what is meant
for one of them ever goes into a connection or a file.

It says which tests failed, and nothing where none did. No test follows one that hangs.

usage: standard.py YMX
"""

import itertools
import os
import random
import socket
import subprocess
import sys
import threading
import time

import raw
from raw import Program, accept, call, free_places, listen, take

EXAMPLE = os.path.join(os.path.dirname(__file__), "..", "..", "examples", "hello.yamux")
NAMES = "input", "output", "error"
# Each set of them that may be closed.
SETS = [closed for count in range(4) for closed in itertools.combinations(range(3), count)]
BYTES = random.Random(3).randbytes(300_000)
USERS = 5


def start(closed, *words, **pipes):
    """The program with these descriptors closed."""

    def close():
        for number in closed:
            os.close(number)

    given = {"stdin": subprocess.DEVNULL, "stdout": subprocess.DEVNULL, "stderr": subprocess.DEVNULL, **pipes}
    process = subprocess.Popen([sys.argv[1], *words], preexec_fn=close, **given)
    Program.running.append(process)
    return process


def listens(place):
    """Whether somebody listens there: to call would be a connection."""
    wanted = f"0100007F:{int(place.rsplit(':', 1)[1]):04X}"
    with open("/proc/net/tcp", encoding="ascii") as table:
        return any(line.split()[1] == wanted and line.split()[3] == "0A" for line in list(table)[1:])


def await_listener(place):
    while not listens(place):
        time.sleep(0.01)


def stands_in(process, number):
    """What is open there."""
    return os.readlink(f"/proc/{process.pid}/fd/{number}")


def swap(giver, taker):
    """Sends all bytes, and compares what comes."""
    sending = threading.Thread(target=giver.sendall, args=(BYTES,))
    sending.start()
    came = take(taker, len(BYTES))
    sending.join()
    return came == BYTES


def both_ends(closed):
    """Users of a tunnel get what was sent and no line of the log, which `-v` has written."""
    target, address = listen()
    place, peer = free_places(2)
    far = start(closed, "remote", "-v", "--keep", "--bind", peer, "--target", address)
    await_listener(peer)
    near = start(closed, "local", "-v", "--keep", "--listen", place, "--peer", peer)
    await_listener(place)
    for process in far, near:
        for number in closed:
            assert stands_in(process, number) == "/dev/null", f"{number} is {stands_in(process, number)}"
    connections = []
    for _ in range(USERS):
        user = call(place)
        user.sendall(b"?")
        other = accept(target)
        assert take(other, 1) == b"?"
        connections.append((user, other))
    for user, other in connections:
        assert swap(user, other) and swap(other, user), "other bytes"
    for user, other in connections:
        for one, another in (user, other), (other, user):
            one.shutdown(socket.SHUT_WR)
            assert raw.has_ended(another), "bytes that nobody sent"


def frames(closed):
    """A closed input can't be read, and a closed output can't be written."""
    with open(EXAMPLE, "rb") as example:
        process = start(closed, "frames", stdin=example, stdout=subprocess.PIPE, stderr=subprocess.PIPE)
        out, said = process.communicate()
    if 0 in closed:
        wanted = 1, b"", b"ymx: reading failed\n"
    elif 1 in closed:
        wanted = 1, b"", b"ymx: writing failed\n"
    else:
        wanted = 0, b"window flags=0001 id=1 len=0\ndata flags=0000 id=1 len=5 68656c6c6f\n", b""
    if 2 in closed:
        wanted = *wanted[:2], b""
    got = process.returncode, out, said
    assert got == wanted, f"{got}, and not {wanted}"


TESTS = [
    (f"{name}, closed are standard {', '.join(NAMES[number] for number in closed) or 'none'}", test, (closed,))
    for name, test in (("both ends", both_ends), ("frames", frames))
    for closed in SETS
]


if __name__ == "__main__":
    sys.exit(raw.main(TESTS))
