"""Kills the peer of an end that serves users, or asks an end to take no more, and looks what its users get: a reset where
something was cut off, the next session in time, and at a drain all that was under way.

It prints which tests failed, and nothing where none did. No test follows one that hangs.

usage: lost.py YMX
"""

import fcntl
import random
import signal
import socket
import struct
import sys
import termios
import threading
import time

import raw
from beside import Peer
from raw import ACK, ANY, AWAY, BAD, DATA, FIN, NOBODY, PING, SYN, WINDOW, Program, accept, call, frame, free_place, free_places
from raw import has_ended, is_cut, leave, listen, next_frame, take, until
from timeouts import Silent

# More than all that a tunnel and the system hold for one who reads nothing.
MANY = random.Random(17).randbytes(30_000_000)
# So many bytes can be sent though nobody reads them: the systems of both sides hold them together.
FITS = 1_000_000
# For how many seconds one who reads nothing delays the next session at most, and how much more may go by on a loaded machine.
DELAY, SLACK = 10, 2
# How many seconds an end may take that has nothing to finish: for its peer it waits only so long.
ENDING = 15
# How many seconds it may take to connect to the peer, and how many users wait for that.
TIMEOUT, WAITING = 2, 8


class Tunnel:
    """Both ends, with these words of each, and a service. One that was killed begins anew at its address."""

    def __init__(self, near=(), far=()):
        self.service, self.target = listen()
        self.meeting, self.place = free_places(2)
        self.near, self.far = near, far
        self.begin("remote")
        self.begin("local")

    def begin(self, name):
        if name == "remote":
            self.remote = Program("remote", "-v", "--bind", self.meeting, "--target", self.target, *self.far)
            self.remote.place()
        else:
            self.local = Program("local", "-v", "--listen", self.place, "--peer", self.meeting, *self.near)
            self.local.place()

    def join(self):
        """A user and its service, between which a byte has gone."""
        user = call(self.place)
        user.sendall(b"?")
        service = accept(self.service)
        assert take(service, 1) == b"?"
        return user, service


def send_all(connection):
    try:
        connection.sendall(MANY)
        connection.shutdown(socket.SHUT_WR)
    except OSError:
        pass


def unsent(connection):
    """How many bytes the system holds of what was sent there."""
    return struct.unpack("i", fcntl.ioctl(connection, termios.TIOCOUTQ, bytes(4)))[0]


def fill(giver):
    """Sends more than is taken, until for a second no more is."""
    threading.Thread(target=send_all, args=(giver,), daemon=True).start()
    seen = [0, time.monotonic()]

    def is_stuck():
        now = unsent(giver)
        if now != seen[0]:
            seen[:] = now, time.monotonic()
        return now > 0 and time.monotonic() - seen[1] > 1

    until(is_stuck)


def comes(connection):
    """What comes of it, and whether a reset ends it."""
    came = bytearray()
    try:
        while piece := connection.recv(65_536):
            came += piece
    except ConnectionResetError:
        return came, True
    return came, False


# ---- a session that is lost


def a_late_reader(reader, words, waits):
    """A user or service that has ended its side, and reads only once the link is lost, gets a beginning and a reset, and never an
    end: also where it reads so late that nobody waits for it any longer."""
    tunnel = Tunnel(near=words) if reader == "local" else Tunnel(far=words)
    user, service = tunnel.join()
    taker, giver = (user, service) if reader == "local" else (service, user)
    taker.shutdown(socket.SHUT_WR)
    assert has_ended(giver)
    fill(giver)
    killed, left = (tunnel.remote, tunnel.local) if reader == "local" else (tunnel.local, tunnel.remote)
    killed.process.kill()
    killed.process.wait()
    if waits:
        while "(lost)" not in (line := left.line()):
            assert line, "it has ended"
    came, is_reset = comes(taker)
    assert is_reset, f"an end comes after {len(came)} bytes of {len(MANY)}"
    assert MANY.startswith(came), "other bytes come"


def a_late_reader_of_an_end(reader):
    """What came whole is whole, though it is read only once the tunnel has done with it."""
    tunnel = Tunnel()
    user, service = tunnel.join()
    taker, giver = (user, service) if reader == "local" else (service, user)
    taker.shutdown(socket.SHUT_WR)
    assert has_ended(giver)
    giver.sendall(MANY[:FITS])
    giver.close()
    program = tunnel.local if reader == "local" else tunnel.remote
    while "connection 1: " not in (line := program.line()):
        assert line, "it has ended"
    came, is_reset = comes(taker)
    assert came == MANY[:FITS] and not is_reset, f"{len(came)} bytes of {FITS}, and {'a reset' if is_reset else 'an end'}"


def a_peer_that_broke_a_rule():
    """It isn't waited for, though it never closes its connection."""
    program, peer = raw.remote(NOBODY)
    peer.sendall(BAD)
    until(lambda: program.process.poll() is not None, ENDING)
    assert program.process.returncode == 1, f"it ends with {program.process.returncode}"
    peer.close()


def the_next_session():
    """A user who reads nothing delays it for ten seconds at most."""
    tunnel = Tunnel(near=("--keep",))
    old, service = tunnel.join()
    old.shutdown(socket.SHUT_WR)
    assert has_ended(service)
    fill(service)
    tunnel.remote.process.kill()
    tunnel.remote.process.wait()
    # A user that comes before the loss is known still gets a stream of the session that is lost.
    until(lambda: raw.is_at_rest(tunnel.local))
    tunnel.begin("remote")
    began = time.monotonic()
    user, service = tunnel.join()
    service.sendall(b"!")
    assert take(user, 1) == b"!"
    took = time.monotonic() - began
    assert took < DELAY + SLACK, f"a new user is served after {took:.1f} seconds"


def the_next_session_at_once():
    """Where nobody reads late it begins at once."""
    tunnel = Tunnel(near=("--keep",))
    old, _ = tunnel.join()
    tunnel.remote.process.kill()
    tunnel.remote.process.wait()
    assert is_cut(old)
    tunnel.begin("remote")
    began = time.monotonic()
    tunnel.join()
    took = time.monotonic() - began
    assert took < SLACK, f"a new user is served after {took:.1f} seconds"


def users_of_an_unreachable_peer():
    """All who wait while it connects in vain are closed together: it doesn't try again for each."""
    silent = Silent()
    program = Program("local", "-v", "--keep", "--listen", ANY, "--peer", silent.place, "--timeout", str(TIMEOUT))
    place = program.place()
    users = [call(place) for _ in range(WAITING)]
    assert is_cut(users[0])
    began = time.monotonic()
    assert all(is_cut(user) for user in users[1:])
    took = time.monotonic() - began
    assert took < TIMEOUT, f"the last one is closed {took:.1f} seconds after the first"


# ---- drains


def a_stream_that_waits(words):
    """One that has come before the drain, and for which no slot is free, is served once one is."""
    target, address = listen()
    program = Program("remote", "-v", "--workers", "1", "--bind", ANY, "--target", address, *words)
    peer = Peer(call(program.place()))
    peer.open(1)
    first = accept(target)
    peer.connection.sendall(frame(DATA, SYN, 3, 5) + b"hello" + frame(PING, SYN, 0, 7))
    while next_frame(peer.connection) != (PING, ACK, 0):
        pass
    program.process.send_signal(signal.SIGUSR1)
    while next_frame(peer.connection)[0] != AWAY:
        pass
    peer.finish(1)
    first.close()
    second = accept(target)
    assert take(second, 5) == b"hello"
    second.sendall(b"again")
    second.close()
    peer.finish(3)
    assert peer.receive(3, 5) == b"again"
    peer.await_flag(3, FIN)
    leave(peer.connection)
    status, _ = program.end()
    assert status == 0, status


def ended(program, seconds=ENDING):
    """It ends well, and in time."""
    until(lambda: program.process.poll() is not None, seconds)
    assert program.process.returncode == 0, f"it ends with {program.process.returncode}"


def is_shut(place):
    """Whether a connection to it is refused, or cut off."""
    try:
        return is_cut(call(place))
    except (ConnectionRefusedError, ConnectionResetError):
        return True


def an_idle_local(peers, *words):
    """Asked by a signal it ends, though nobody has come, and refuses users from then on. So many peers are there."""
    listener, address = listen()
    is_called = "--bind" in words
    program = Program("local", "-v", "--listen", free_place(), *(() if is_called else ("--peer", address)), *words)
    places = [program.place() for _ in range(1 + is_called)]
    for _ in range(peers):
        peer = call(places[0]) if is_called else accept(listener)
        peer.sendall(frame(PING, ACK, 0, 1 << 31))
        threading.Thread(target=leave_quietly, args=(peer,), daemon=True).start()
    program.process.send_signal(signal.SIGUSR1)
    ended(program)
    assert all(is_shut(place) for place in places), "somebody still listens"


def a_pause():
    """One that reaches nobody, and pauses for four seconds, hears it meanwhile."""
    program = Program("remote", "-v", "--keep", "--peer", free_place(), "--target", NOBODY)
    for _ in range(3):
        while "cannot reach" not in program.line():
            pass
    program.process.send_signal(signal.SIGUSR1)
    ended(program, 3)


def leave_quietly(connection):
    """Reads up to the end, and closes."""
    try:
        while connection.recv(4096):
            pass
    except OSError:
        pass
    connection.close()


def a_peer_that_never_closes(name, *words):
    """With `--ping` or `--keep` an end that drains waits for that only so long."""
    if name == "local":
        listener, address = listen()
        program = Program("local", "-v", "--listen", ANY, "--peer", address, *words)
        place = program.place()
        user = call(place) if "--keep" in words else None
        peer = accept(listener)
    else:
        user = None
        program = Program("remote", "-v", "--bind", ANY, "--target", NOBODY, *words)
        peer = call(program.place())
    peer.sendall(frame(PING, ACK, 0, 1 << 31) + frame(PING, ACK, 0, 0) + frame(PING, SYN, 0, 7))
    while next_frame(peer) != (PING, ACK, 0):
        pass
    if user:
        while next_frame(peer) != (WINDOW, SYN, 1):
            pass
        peer.sendall(frame(WINDOW, ACK | FIN, 1, 0))
        user.close()
    program.process.send_signal(signal.SIGUSR1)
    ended(program)
    peer.close()


TESTS = (
    *((f"a late reader at {name} {' '.join(words)}", a_late_reader, (name, words, waits)) for name, words, waits in (
        ("local", (), False), ("local", ("--keep",), False), ("local", ("--keep",), True), ("remote", (), False),
        ("remote", ("--keep",), True))),
    *((f"a late reader of an end at {name}", a_late_reader_of_an_end, (name,)) for name in ("local", "remote")),
    ("a peer that broke a rule", a_peer_that_broke_a_rule, ()),
    ("the next session", the_next_session, ()),
    ("the next session, at once", the_next_session_at_once, ()),
    ("users of an unreachable peer", users_of_an_unreachable_peer, ()),
    ("a stream that waits at a drain", a_stream_that_waits, ((),)),
    ("a stream that waits at a drain with --keep", a_stream_that_waits, (("--keep",),)),
    *((f"an idle local {' '.join(words)}, and {peers} peers", an_idle_local, (peers, *words)) for peers, *words in (
        (1,), (0, "--keep"), (2, "--links", "2"), (0, "--links", "2", "--keep"), (1, "--bind", ANY), (0, "--bind", ANY),
        (0, "--bind", ANY, "--keep"), (1, "--bind", ANY, "--keep"))),
    ("a pause before it connects again", a_pause, ()),
    ("a peer of local that never closes", a_peer_that_never_closes, ("local", "--ping", "1")),
    ("a peer of local --keep that never closes", a_peer_that_never_closes, ("local", "--keep")),
    ("a peer of local --keep --ping that never closes", a_peer_that_never_closes, ("local", "--keep", "--ping", "1")),
    ("a peer of remote that never closes", a_peer_that_never_closes, ("remote", "--ping", "1")),
    ("a peer of remote that never closes and is not asked", a_peer_that_never_closes, ("remote",)),
    ("a peer of remote --keep that never closes", a_peer_that_never_closes, ("remote", "--keep")),
)


if __name__ == "__main__":
    sys.exit(raw.main(TESTS))
