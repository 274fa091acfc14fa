"""Starts the program with a pipe at standard error that nobody reads, and looks whether its bytes go on all the same, how many
lines it says were dropped once somebody reads, and whether its last words wait for a reader.

It says which tests failed, and nothing where none did. No test follows one that hangs.

usage: unread.py YMX
"""

import fcntl
import os
import random
import re
import select
import socket
import subprocess
import sys
import time

import raw
from beside import Peer, swap
from raw import BAD, FIN, Program, accept, call, free_place, free_places, has_ended, listen, refused, take
from standard import await_listener

# What fcntl calls F_SETPIPE_SZ, which Python has from 3.10 on.
PIPE_SIZE = 1031
USERS = 20
STRANGERS = 400
BYTES = random.Random(11).randbytes(20_000)
DROPPED = re.compile(r"ymx: (\d+) lines? w(?:as|ere) dropped\n")
LEFT_OUT = re.compile(r"ymx: (\d+) lines? like those before w(?:as|ere) left out\n")
# How many seconds it is waited for lines that may come, before a further stranger makes one: more than the second within
# which it isn't told again how many were left out.
PAUSE = 1.2
# How often a pipe is read late, where this process may have been held up for longer than last words wait.
ATTEMPTS = 5


class Unread:
    """The program, and a pipe of so many pages at its standard error, which is full or empty at first."""

    def __init__(self, *words, full, pages=1, **pipes):
        self.reads, writes = os.pipe()
        fcntl.fcntl(writes, PIPE_SIZE, pages * 4096)
        self.filled = fill(writes) if full else 0
        given = {"stdin": subprocess.DEVNULL, "stdout": subprocess.DEVNULL, **pipes}
        self.process = subprocess.Popen([sys.argv[1], *words], stderr=writes, **given)
        Program.running.append(self.process)
        os.close(writes)

    def empty(self):
        """What lies in the pipe, without that which filled it."""
        os.set_blocking(self.reads, False)
        try:
            came = os.read(self.reads, 65_536)
        except BlockingIOError:
            return ""
        finally:
            os.set_blocking(self.reads, True)
        filled = min(self.filled, len(came))
        self.filled -= filled
        return came[filled:].decode()

    def lines(self, count):
        """The next lines, so many."""
        came = ""
        while came.count("\n") < count:
            came += os.read(self.reads, 65_536).decode()
        return came.splitlines(keepends=True)

    def rest(self):
        """All up to the end, and the status."""
        came = b""
        while piece := os.read(self.reads, 65_536):
            came += piece
        return self.process.wait(), came[self.filled:].decode()


def fill(pipe):
    """Fills a pipe, and answers how many bytes it took. The flag is cleared again: the program is given the same."""
    os.set_blocking(pipe, False)
    taken = 0
    try:
        while True:
            taken += os.write(pipe, bytes(4096))
    except BlockingIOError:
        os.set_blocking(pipe, True)
        return taken


def serve(place, peer, number):
    """A user, whose bytes go both ways."""
    user = call(place)
    peer.accept(number)
    swap(peer, number, user, BYTES)
    return user


def finish(peer, number, user):
    peer.finish(number)
    assert has_ended(user)
    user.close()
    peer.await_flag(number, FIN)


def a_full_pipe():
    """Users are served, each of whom is a line. What is dropped is counted."""
    listener, address = listen()
    place = free_place()
    program = Unread("local", "-v", "--keep", "--listen", place, "--peer", address, full=True)
    await_listener(place)
    user = call(place)
    peer = Peer(accept(listener))
    peer.accept(1)
    swap(peer, 1, user, BYTES)
    for number in range(3, 2 * USERS + 1, 2):
        following = serve(place, peer, number)
        finish(peer, number - 2, user)
        user = following
    last = serve(place, peer, 2 * USERS + 1)
    assert program.empty() == "", "a line was said"
    finish(peer, 2 * USERS - 1, user)
    # where it listens, that the peer has come, as it took a stream, and each user but the last two
    dropped, line = program.lines(2)
    assert dropped == f"ymx: {2 + USERS - 1} lines were dropped\n", dropped
    assert line.startswith(f"ymx: connection {USERS} from "), line
    finish(peer, 2 * USERS + 1, last)
    line, = program.lines(1)
    assert line.startswith(f"ymx: connection {USERS + 1} from "), line


def stranger(place, number):
    """One who doesn't speak yamux, from an address of its own: what is logged of another isn't logged of him."""
    host, port = place.rsplit(":", 1)
    connection = socket.create_connection((host, int(port)), source_address=(f"127.1.{number // 250}.{number % 250 + 1}", 0))
    connection.sendall(BAD)
    take(connection, 100)
    connection.close()


def strangers():
    """Their faults are logged without `-v` too. Beside them a peer is served, and each line is logged or counted."""
    target, address = listen()
    place = free_place()
    program = Unread("remote", "--keep", "--bind", place, "--target", address, full=False, pages=2)
    await_listener(place)
    for number in range(STRANGERS):
        stranger(place, number)
    peer = Peer(call(place))
    peer.open(1)
    other = accept(target)
    swap(peer, 1, other, BYTES)
    said, dropped, left_out, count = 0, 0, 0, STRANGERS
    while not dropped or said + dropped + left_out < 2 * count:
        if not select.select([program.reads], [], [], PAUSE)[0]:
            # what was dropped or left out last is told with the next line
            stranger(place, count)
            count += 1
            continue
        for line in program.lines(1):
            if found := DROPPED.fullmatch(line):
                dropped += int(found[1])
            elif found := LEFT_OUT.fullmatch(line):
                left_out += int(found[1])
            else:
                assert re.match("ymx: (B1 from|session broken: B1$)", line), line
                said += 1
    assert said + dropped + left_out == 2 * count, f"{said} lines, {dropped} dropped and {left_out} left out of {count}"
    swap(peer, 1, other, BYTES)


def last_words():
    """Without `--keep` they wait for a reader."""
    for _ in range(ATTEMPTS):
        nobody, place = free_places(2)
        program = Unread("local", "--listen", place, "--peer", nobody, full=True)
        time.sleep(0.2)
        if (got := program.rest()) == (1, f"{refused(nobody)}ymx: cannot reach {nobody}\n"):
            return
    raise AssertionError(f"it says {got}")


def other_commands():
    """They wait for as long as nobody reads."""
    program = Unread("frames", full=True, preexec_fn=lambda: os.close(0))
    try:
        raise AssertionError(f"it ends with {program.process.wait(2.5)}")
    except subprocess.TimeoutExpired:
        pass
    assert program.rest() == (1, "ymx: reading failed\n")


TESTS = (
    ("a full pipe", a_full_pipe, ()),
    ("strangers", strangers, ()),
    ("last words", last_words, ()),
    ("other commands", other_commands, ()),
)


if __name__ == "__main__":
    sys.exit(raw.main(TESTS))
