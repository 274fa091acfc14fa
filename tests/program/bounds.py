"""Looks that what takes a documented time takes no longer than that, where a user waits for it: silent peers, idle connections, the
next session, users beside a dead link, and lines of the log.

It prints which tests failed, and nothing where none did. No test follows one that hangs.

usage: bounds.py YMX
"""

import fcntl
import os
import select
import socket
import statistics
import sys
import time

import raw
from beside import Peer
from kept import finish, local_kept, show
from links import sound, which
from raw import ACK, ANY, FIN, NOBODY, PING, SYN, WINDOW, Program, accept, break_off, call, frame, free_place, has_ended, is_cut
from raw import listen, take
from silence import question
from status import is_closed

# After how many seconds of silence a peer is asked, and how many a connection may be idle: so long that half of it is more than a
# loaded machine takes.
PATIENCE, IDLE = 2, 4
# How much less may have gone by, as the clocks of two processes count it.
EARLY = 0.1
# How long a session lasts that counts as long, how soon it connects again then, and the pause after a shorter one.
LONG, AT_ONCE, PAUSE = 1.3, 0.7, 1
# How many users come beside a dead link, and how many seconds half of them take at most.
USERS, MEDIAN = 41, 0.1
# How many users come whom one of two links alone can take, beside one that it has, and how many seconds one of them takes at most.
TURNS, TURN = 10, 0.3
# How many users come where there are descriptors for two, and how many seconds half of the others wait for one at most.
WAITING, SHORT = 13, 0.2
# How many strangers come, one after another, and how many users, of each of whom a line is logged that a short pipe can't hold.
STRANGERS, MANY = 40, 120
# From so many addresses others come together.
ADDRESSES = [f"127.0.0.{number}" for number in range(2, 10)]
# What sets the size of a pipe, of linux/fcntl.h.
F_SETPIPE_SZ = 1_031
# How often what a loaded machine may hold up is tried.
ATTEMPTS = 5
# How many seconds a line may take that nothing holds up.
LINE = 2


def begun(name, *words):
    """`ymx`, and the connection of its peer."""
    rest = ("--listen", ANY) if name == "local" else ("--target", NOBODY)
    program = Program(name, "-v", "--bind", ANY, *rest, *words)
    peer = call(program.place())
    return program, peer


def a_silent_peer(name, speaks):
    """It is given up after twice the seconds of `--ping`, and before they have gone by four times; from its last frame on, if it
    gives one."""
    program, peer = begun(name, "--ping", str(PATIENCE))
    number = question(peer)
    if speaks:
        peer.sendall(frame(PING, ACK, 0, number))
    began = time.monotonic()
    if speaks:
        question(peer)
    assert has_ended(peer)
    took = time.monotonic() - began
    assert 2 * PATIENCE - 2 * EARLY <= took < 4 * PATIENCE, f"given up after {took:.1f} seconds"


def an_idle_connection(name):
    """It is aborted once no byte moved for as long as `--idle` says, and before twice that."""
    target, address = listen()
    far = Program("remote", "-v", "--bind", ANY, "--target", address, *(("--idle", str(IDLE)) if name == "remote" else ()))
    near = Program("local", "-v", "--listen", ANY, "--peer", far.place(), *(("--idle", str(IDLE)) if name == "local" else ()))
    user = call(near.place())
    user.sendall(b"?")
    service = accept(target)
    assert take(service, 1) == b"?"
    began = time.monotonic()
    assert is_cut(user)
    took = time.monotonic() - began
    assert IDLE - EARLY <= took < 2 * IDLE, f"aborted after {took:.1f} seconds"


# ---- sessions


def next_connection(listener, lasts):
    """The time from the end of a session that lasts so long until it connects again."""
    peer = accept(listener)
    show(peer)
    time.sleep(lasts)
    break_off(peer)
    began = time.monotonic()
    following = accept(listener)
    break_off(following)
    return time.monotonic() - began


def connects_again(lasts, least, most):
    """It follows at once where the session was a long one, and else after a pause."""
    took = []
    for _ in range(ATTEMPTS):
        listener, address = listen()
        program = Program("remote", "-v", "--keep", "--peer", address, "--target", NOBODY)
        took.append(next_connection(listener, lasts))
        program.process.kill()
        program.end()
        if least <= took[-1] < most:
            return
    raise AssertionError(f"it connects again after {took} seconds")


def a_local_connects_again():
    """After a session it connects again as soon as the next user comes."""
    listener, address = listen()
    program = Program("local", "-v", "--keep", "--listen", ANY, "--peer", address)
    place = program.place()
    for _ in range(3):
        user = call(place)
        began = time.monotonic()
        peer = accept(listener)
        took = time.monotonic() - began
        assert took < LINE, f"it connects after {took:.1f} seconds"
        show(peer)
        while take(peer, 12) != frame(WINDOW, SYN, 1, 0):
            pass
        break_off(peer)
        assert is_cut(user)


# ---- users


def beside_a_dead_link(*words):
    """Half of the users who come have a stream within a tenth of a second."""
    listener, address = listen()
    program = Program("local", "-v", "--links", "2", "--listen", ANY, "--peer", address, *words)
    place = program.place()
    first = call(place) if "--keep" in words else None
    links = [Peer(accept(listener)) for _ in range(2)]
    for link in links:
        # (it is asked for its first frame, before which it has no user)
        link.turn()
    if first:
        finish(which(links, 1), 1, first)
    listener.close()
    break_off(links[0].connection)
    logs_of(program, "gone")
    # One stays, so that the link has more than its share, and others would have their turn.
    stays = call(place)
    await_stream(links[1])
    took = [served(place, links[1]) for _ in range(USERS)]
    assert statistics.median(took) < MEDIAN, f"half of the users wait for {statistics.median(took):.3f} seconds"
    stays.close()


def beside_a_silent_link():
    """Where the peer of the other link hasn't spoken yet, the one that has a user takes the next one too, and soon."""
    listener, address = listen()
    program = Program("local", "-v", "--links", "2", "--listen", ANY, "--peer", address)
    links = [Peer(accept(listener)) for _ in range(2)]
    sound(links[0])
    place, took = program.place(), []
    for _ in range(TURNS):
        stays = call(place)
        number = await_stream(links[0])
        took.append(served(place, links[0]))
        finish(links[0], number, stays)
    # (each of them, where the link's turn is forgotten)
    assert min(took) < TURN, f"users wait for {took} seconds"


def logs_of(program, text):
    """Waits for a line with this text."""
    while text not in (line := program.line()):
        assert line, "it has ended"


def a_descriptor_that_comes_free():
    """A user that waits for it has it at once, and not only when the end looks for one again, a second later."""
    program, place, user, peer, _ = local_kept("--count", str(WAITING), files=8)
    users = [user, *(call(place) for _ in range(WAITING - 1))]
    for number in 0, 1:
        peer.accept(2 * number + 1)
    took = []
    for number in range(2, WAITING):
        began = time.monotonic()
        finish(peer, 2 * number - 3, users[number - 2])
        peer.accept(2 * number + 1)
        took.append(time.monotonic() - began)
    assert statistics.median(took) < SHORT, f"a user waits for {took} seconds"
    program.process.kill()


def served(place, link):
    """How long a user waits for a byte of the peer's."""
    began = time.monotonic()
    user = call(place)
    number = await_stream(link)
    link.connection.sendall(frame(WINDOW, ACK, number, 0) + frame(0, 0, number, 1) + b"!")
    assert take(user, 1) == b"!"
    took = time.monotonic() - began
    link.connection.sendall(frame(WINDOW, FIN, number, 0))
    user.close()
    link.await_flag(number, FIN)
    return took


def await_stream(link):
    """The number of the stream that is opened next."""
    known = set(link.streams)
    while not (opened := [number for number, stream in link.streams.items() if number not in known and stream.flags & SYN]):
        link.turn()
    return opened[0]


# ---- the log


def comes_soon(program, text):
    """The next line has this text, and is there while the program waits for what comes next."""
    ready, _, _ = select.select([program.process.stderr], [], [], LINE)
    assert ready, f"no line with {text!r} within {LINE} seconds"
    line = program.process.stderr.readline().decode()
    assert text in line, f"it logs {line!r}, and not {text!r}"


def lines_that_come():
    """Each line is there as soon as its event has happened, though nothing follows."""
    target, address = listen()
    place = free_place()
    far = Program("remote", "-v", "--keep", "--workers", "1", "--bind", place, "--target", address)
    comes_soon(far, "listening at ")
    peer = Peer(call(place))
    peer.open(1)
    service = accept(target)
    comes_soon(far, "the peer has come from ")
    peer.connection.sendall(frame(WINDOW, SYN, 3, 0))
    comes_soon(far, ": users wait")
    peer.finish(1)
    service.close()
    comes_soon(far, "connection 1 from ")
    second = accept(target)
    peer.await_flag(3, ACK)
    break_off(peer.connection)
    assert is_cut(second)
    comes_soon(far, "connection 2 from ")
    comes_soon(far, "the peer has gone from ")


def lines_that_nobody_read():
    """How many were dropped is logged at the end too, though no further line comes."""
    listener, address = listen()
    program = Program("local", "-v", "--listen", ANY, "--peer", address, "--count", str(MANY))
    fcntl.fcntl(program.process.stderr, F_SETPIPE_SZ, 4_096)
    peer = Peer(accept(listener))
    place = program.place()
    for number in range(MANY):
        user = call(place)
        peer.accept(2 * number + 1)
        finish(peer, 2 * number + 1, user)
    raw.until(lambda: raw.is_at_rest(program))
    os.set_blocking(program.process.stderr.fileno(), False)
    lines = program.process.stderr.read().decode().count("\n")
    os.set_blocking(program.process.stderr.fileno(), True)
    peer.connection.close()
    last = program.process.stderr.read().decode().splitlines()
    assert lines < MANY and last == [f"ymx: {MANY - lines} lines were dropped"], (lines, last)


def lines_of_strangers():
    """Of all that one address causes a line is logged once a second at most."""
    program = Program("remote", "-v", "--keep", "--bind", ANY, "--target", NOBODY, "--from", "127.0.0.1")
    host, port = program.place().split(":")
    began = time.monotonic()
    for _ in range(STRANGERS):
        stranger = socket.create_connection((host, int(port)), source_address=("127.0.0.2", 0))
        assert is_closed(stranger), "it is let in"
    seconds = time.monotonic() - began
    peer = call(f"{host}:{port}")
    show(peer)
    lines = []
    while " has come " not in (line := program.process.stderr.readline().decode()):
        assert line, "it has ended"
        lines.append(line)
    count = sum("127.0.0.2:" in line for line in lines)
    assert 1 <= count <= 2 + seconds, f"{count} lines in {seconds:.1f} seconds"


def lines_of_several_strangers():
    """What one address causes leaves out no line of another's."""
    program = Program("remote", "-v", "--keep", "--bind", ANY, "--target", NOBODY, "--from", "127.0.0.1")
    host, port = program.place().split(":")
    for address in ADDRESSES:
        assert is_closed(socket.create_connection((host, int(port)), source_address=(address, 0))), "it is let in"
    show(call(f"{host}:{port}"))
    lines = ""
    while " has come " not in (line := program.process.stderr.readline().decode()):
        assert line, "it has ended"
        lines += line
    lacking = [address for address in ADDRESSES if f"ymx: rejected a peer from {address}:" not in lines]
    assert not lacking, f"no line of {lacking}: {lines!r}"


TESTS = (
    *((f"a silent peer of {name}{' that spoke' * speaks}", a_silent_peer, (name, speaks))
      for name in ("local", "remote") for speaks in (False, True)),
    *((f"an idle connection of {name}", an_idle_connection, (name,)) for name in ("local", "remote")),
    ("the next connection after a long session", connects_again, (LONG, 0, AT_ONCE)),
    ("the next connection after a short session", connects_again, (0, PAUSE - EARLY, 2 * PAUSE)),
    ("a local that connects again", a_local_connects_again, ()),
    ("users beside a dead link", beside_a_dead_link, ()),
    ("users beside a dead link, with --keep", beside_a_dead_link, ("--keep",)),
    ("users beside a silent link", beside_a_silent_link, ()),
    *((("a descriptor that comes free", a_descriptor_that_comes_free, ()),) if raw.COUNTS else ()),
    ("lines that come", lines_that_come, ()),
    ("lines of strangers", lines_of_strangers, ()),
    ("lines of several strangers", lines_of_several_strangers, ()),
    ("lines that nobody read", lines_that_nobody_read, ()),
)


if __name__ == "__main__":
    sys.exit(raw.main(TESTS))
