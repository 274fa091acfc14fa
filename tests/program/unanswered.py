"""Has users leave while the target of a tunnel answers nobody, as its backlog is full: `remote` holds no attempt to reach it for
one who was reset, or whose session is over, though such an attempt goes on for two minutes by itself.

It says which tests failed, and nothing where none did. No test follows one that hangs.

usage: unanswered.py YMX
"""

import os
import socket
import sys
import time

import raw
from raw import ANY, Program, break_off, call

USERS = 100
# So long it may take until they are gone, in seconds: also on a loaded machine, and less than an attempt goes on by itself.
SOON = 60
# A few connections fill a backlog of none.
FILLERS = 8
# So many sessions there are at most.
LINKS = 4


class Silent:
    """A target that answers nobody."""

    def __init__(self):
        self.listener = socket.socket()
        self.listener.bind(("127.0.0.1", 0))
        self.listener.listen(0)
        self.fillers = []
        for _ in range(FILLERS):
            filler = socket.socket()
            filler.setblocking(False)
            filler.connect_ex(self.listener.getsockname())
            self.fillers.append(filler)
        self.address = "{}:{}".format(*self.listener.getsockname())


def connecting(address):
    """How many connections to this address are being made on this machine."""
    host, port = address.split(":")
    place = f"{int.from_bytes(socket.inet_aton(host), sys.byteorder):08X}:{int(port):04X}"
    with open("/proc/net/tcp", encoding="ascii") as lines:
        return sum(fields[2] == place and fields[3] == "02" for fields in map(str.split, lines))


def descriptors(program):
    return len(os.listdir(f"/proc/{program.process.pid}/fd"))


def falls_to(count, most):
    """Whether what is counted so comes to be this, or less, soon."""
    end = time.monotonic() + SOON
    while count() > most:
        if time.monotonic() > end:
            return False
        time.sleep(0.05)
    return True


def left(leave, words=()):
    """Users are there, for each of whom the target is called, and they leave so."""
    target = Silent()
    before = connecting(target.address)
    assert before, "the target answers all"
    remote = Program("remote", "-v", "--keep", "--bind", ANY, "--target", target.address)
    peer = remote.place()
    idle = descriptors(remote)
    local = Program("local", "-v", "--keep", "--listen", ANY, "--peer", peer, *words)
    place = local.place()
    users = [call(place) for _ in range(USERS)]
    for user in users:
        user.sendall(b"?")
    while connecting(target.address) < before + USERS:
        time.sleep(0.05)
    assert descriptors(remote) >= idle + USERS
    leave(users, local)
    assert falls_to(lambda: connecting(target.address), before), f"{connecting(target.address) - before} attempts go on"
    # Each session that goes on has two: its connection, and the set of what it waits for.
    assert falls_to(lambda: descriptors(remote), idle + 2 * LINKS), f"{descriptors(remote) - idle} descriptors more than at the start"


def by_resets(users, _local):
    for user in users:
        break_off(user)


def by_the_session(_users, local):
    local.process.kill()


TESTS = (
    ("users who reset", left, (by_resets,)),
    ("users who reset, over several links", left, (by_resets, ("--links", str(LINKS)))),
    ("users whose session is over", left, (by_the_session,)),
)


if __name__ == "__main__":
    sys.exit(raw.main(TESTS))
