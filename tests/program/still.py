"""Has connections on which no byte moves through `ymx local --idle` and `ymx remote --idle`, beside others on which some do,
and looks whether just those are aborted, at both sides, and when.

It says which tests failed, and nothing where none did. No test follows one that hangs.

usage: still.py YMX
"""

import sys
import time

import raw
from raw import ANY, Program, accept, call, is_cut, listen, take

# How many seconds no byte may move: so many that also a slow machine moves one sooner where it is to; and how much less may have gone by, as the
# clocks of two processes count it.
IDLE, EARLY = 4, 0.1
# How long it may take where the machine is slow.
LATE = 100


class Tunnel:
    """Both ends, with these words, and a service."""

    def __init__(self, far, near):
        self.service, address = listen()
        self.remote = Program("remote", "-v", "--bind", ANY, "--target", address, *far)
        self.local = Program("local", "-v", "--listen", ANY, "--peer", self.remote.place(), *near)
        self.users = self.local.place()

    def join(self):
        """A user and its service, between which a byte has gone each way."""
        user = call(self.users)
        user.sendall(b"?")
        service = accept(self.service)
        assert take(service, 1) == b"?"
        service.sendall(b"!")
        assert take(user, 1) == b"!"
        return user, service


def line(number, ending):
    return f"ymx: connection {number}: 1 bytes to the peer ({ending}), 1 bytes from the peer ({ending})\n"


def aborts(far, near):
    """One that is still is aborted at both sides, and its line says why. One on which bytes move now and then stays."""
    tunnel = Tunnel(far, near)
    still, lively = tunnel.join(), tunnel.join()
    began, passed = time.monotonic(), 0
    while passed < 2 * IDLE:
        time.sleep(IDLE / 4)
        lively[0].sendall(b"?")
        assert take(lively[1], 1) == b"?"
        passed = time.monotonic() - began
    assert all(is_cut(connection) for connection in still)
    for program, words in (tunnel.local, near), (tunnel.remote, far):
        assert program.line() == line(1, "idle" if words else "reset")


def not_early():
    """It isn't aborted before."""
    tunnel = Tunnel((), ("--idle", str(IDLE)))
    began = time.monotonic()
    user, service = tunnel.join()
    assert is_cut(user) and is_cut(service)
    passed = time.monotonic() - began
    assert IDLE - EARLY <= passed < LATE, f"after {passed} seconds"


def a_service_that_reads_nothing():
    """A user who has sent something to it, and left, keeps no place."""
    tunnel = Tunnel(("--idle", str(IDLE), "--workers", "1"), ())
    user = call(tunnel.users)
    user.sendall(bytes(3_000))
    user.close()
    service = accept(tunnel.service)
    other = call(tunnel.users)
    other.sendall(b"?")
    assert take(accept(tunnel.service), 1) == b"?", "the place is free"
    service.close()


def never():
    """Without the option none is aborted."""
    tunnel = Tunnel((), ())
    user, service = tunnel.join()
    time.sleep(2 * IDLE)
    user.sendall(b"?")
    assert take(service, 1) == b"?"


TESTS = (
    ("local aborts", aborts, ((), ("--idle", str(IDLE)))),
    ("remote aborts", aborts, (("--idle", str(IDLE)), ())),
    ("not early", not_early, ()),
    ("a service that reads nothing", a_service_that_reads_nothing, ()),
    ("never", never, ()),
)


if __name__ == "__main__":
    sys.exit(raw.main(TESTS))
