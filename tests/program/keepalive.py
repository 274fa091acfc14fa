"""Looks at the sockets of both ends of a tunnel: whether the system asks the other sides for signs of life.

It says which tests failed, and nothing where none did. No test follows one that hangs.

usage: keepalive.py YMX
"""

import ctypes
import os
import socket
import sys
import time

import raw
from raw import ANY, Program, accept, call, free_place, listen, take

# the call of the system that makes a descriptor of another process one of this one
PIDFD_GETFD = 438
LIBC = ctypes.CDLL(None, use_errno=True)
DEFAULT = (60, 15, 4)


def duplicate(process, number):
    """A descriptor of this process that is the one of that number in another."""
    pidfd = os.pidfd_open(process.pid)
    try:
        made = LIBC.syscall(PIDFD_GETFD, pidfd, number, 0)
        if made < 0:
            raise OSError(ctypes.get_errno(), f"the descriptor {number} of another process can't be had")
        return made
    finally:
        os.close(pidfd)


def connections(process):
    """Its connections, by where their other sides are."""
    found = {}
    folder = f"/proc/{process.pid}/fd"
    for number in os.listdir(folder):
        if not os.readlink(f"{folder}/{number}").startswith("socket:"):
            continue
        one = socket.socket(fileno=duplicate(process, int(number)))
        try:
            found[one.getpeername()] = one
        except OSError:
            one.close()
    return found


def settings(connection):
    """What it is told of signs: None where it asks for none, or after how long, how often and how many, in seconds; and how many
    milliseconds may go by without an acknowledgement, 0 where any."""
    given = [connection.getsockopt(socket.IPPROTO_TCP, option)
             for option in (socket.TCP_KEEPIDLE, socket.TCP_KEEPINTVL, socket.TCP_KEEPCNT)]
    asks = connection.getsockopt(socket.SOL_SOCKET, socket.SO_KEEPALIVE)
    limit = connection.getsockopt(socket.IPPROTO_TCP, socket.TCP_USER_TIMEOUT)
    return tuple(given) if asks else None, limit


def sends_at_once(connection):
    """Whether what is written to it waits for no more (TCP_NODELAY)."""
    return connection.getsockopt(socket.IPPROTO_TCP, socket.TCP_NODELAY) != 0


def tunnel(near, far):
    """Both ends with these words, a user, and the target's side of his connection."""
    target, address = listen()
    remote = Program("remote", "-v", "--bind", ANY, "--target", address, *far)
    local = Program("local", "-v", "--listen", ANY, "--peer", remote.place(), *near)
    user = call(local.place())
    user.sendall(b"?")
    other = accept(target)
    assert take(other, 1) == b"?"
    return local, remote, user, other


def told(near, far, wanted, wires=1):
    """Each of the sockets is told so, where there are so many wires at most; and of none the system breaks what is slow."""
    local, remote, user, other = tunnel(near, far)
    for program, outside in (local, user), (remote, other):
        found = connections(program.process)
        assert 2 <= len(found) <= wires + 1, f"{len(found)} connections, and not {wires + 1}"
        for place, connection in found.items():
            is_wire = place != outside.getsockname()
            expected = wanted, 0
            # another link may be there before it has its options
            end = time.monotonic() + 60
            while (settings(connection) != expected or not sends_at_once(connection)) and time.monotonic() < end:
                time.sleep(0.01)
            got = settings(connection)
            assert got == expected, f"{got} of {'the wire' if is_wire else 'a connection'}"
            assert sends_at_once(connection), f"{'the wire' if is_wire else 'a connection'} waits to send"


def told_of_caller(wanted, *words):
    """The same, where `remote` calls and `local` goes on with the next that calls."""
    target, address = listen()
    peers = free_place()
    local = Program("local", "-v", "--keep", "--listen", ANY, "--bind", peers, *words)
    places = {local.place(), local.place()} - {peers}
    remote = Program("remote", "-v", "--peer", peers, "--target", address, *words)
    # a user who comes before the peer is closed
    while not connections(local.process):
        time.sleep(0.01)
    user = call(places.pop())
    user.sendall(b"?")
    other = accept(target)
    assert take(other, 1) == b"?"
    for program in local, remote:
        found = connections(program.process)
        assert [settings(one) for one in found.values()] == [(wanted, 0)] * 2, found


def both(*words):
    """The same words for both ends."""
    return words, words


TESTS = (
    ("by default", told, (*both(), DEFAULT)),
    ("--ping 7", told, (*both("--ping", "7"), DEFAULT)),
    ("--keep and --links", told, (("--keep", "--links", "2"), ("--keep",), DEFAULT, 2)),
    # It asks again after a quarter of the time, but not before a second.
    ("--keepalive 60", told, (*both("--keepalive", "60"), DEFAULT)),
    ("--keepalive 8", told, (*both("--keepalive", "8"), (8, 2, 4))),
    ("--keepalive 11", told, (*both("--keepalive", "11"), (11, 2, 4))),
    ("--keepalive 1", told, (*both("--keepalive", "1"), (1, 1, 4))),
    ("--keepalive 3600", told, (*both("--keepalive", "3600"), (3600, 900, 4))),
    ("--keepalive 0", told, (*both("--keepalive", "0"), None)),
    ("--keepalive of links", told, (("--keepalive", "20", "--keep", "--links", "2"), ("--keepalive", "20", "--keep"), (20, 5, 4), 2)),
    ("--keepalive with --keep", told, (("--keepalive", "20", "--keep"), ("--keepalive", "20", "--keep"), (20, 5, 4))),
    ("--keepalive of remote that calls", told_of_caller, ((20, 5, 4), "--keepalive", "20")),
)


if __name__ == "__main__":
    sys.exit(raw.main(TESTS))
