"""Has hundreds of peers come to an end and go, in each mode in which others follow, with the page beside it, and looks what they leave
there: no descriptor, hardly any memory, and counts that are those of what has happened.

It prints which tests failed, and nothing where none did. No test follows one that hangs.

usage: residue.py YMX
"""

import struct
import sys
import time

import raw
from beside import Peer
from kept import show, used
from raw import FIN, RST, SYN, WINDOW, Program, accept, break_off, call, frame, free_place, leave, listen, until
from standard import await_listener
from status import await_counts, counts, wait_for

# So many peers come, one after another. What is used is compared from here on, when every part has run; and so many kilobytes more may be
# in memory then.
PEERS, SETTLED, KILOBYTES = 300, 20, 1_000
# Streams to a target to which no connection can begin: an address of many hosts.
NOWHERE, STREAMS = "224.0.0.1:9", 40


def compared(program, page, count, serve):
    """Serves so many peers one after another, and looks what they have left."""
    settled = min(SETTLED, count // 2)
    for number in range(1, count + 1):
        serve(number)
        await_counts(page, peers=0, connections_open=0, peers_gone_total=number)
        if number == settled:
            before = used(program)
    until(lambda: used(program)[0] <= before[0])
    memory = used(program)[1]
    assert memory <= before[1] + KILOBYTES, f"{memory} kilobytes, and {before[1]} before"
    samples = counts(page)
    wanted = {"peers_come_total": count, "peers_gone_total": count, "places": 0, "connections_begun_total": count, "users_waiting": 0}
    assert all(samples[f"ymx_{name}"] == wants for name, wants in wanted.items()), samples
    assert program.process.poll() is None, "it has ended"


def watched(*words):
    """An end with a page, of whose log nobody reads more than where it listens."""
    page = free_place()
    program = Program(*words, "--status", page)
    wait_for(page)
    return program, page


def let_in(bound):
    """A peer that has opened a stream. It is closed as long as the one before still counts."""
    while True:
        peer = Peer(call(bound))
        try:
            peer.open(1)
            return peer
        except (ConnectionResetError, struct.error):
            peer.connection.close()
            time.sleep(0.01)


def at_remote(*words):
    """Each peer has a stream, and goes: by its end, or by a reset."""
    target, address = listen()
    bound = free_place()
    program, page = watched("remote", "--bind", bound, "--target", address, *words)
    await_listener(bound)

    def serve(number):
        peer = let_in(bound)
        service = accept(target)
        if number % 2:
            break_off(peer.connection)
        else:
            peer.finish(1)
            service.close()
            peer.await_flag(1, FIN)
            leave(peer.connection)
        service.close()

    compared(program, page, PEERS, serve)


def goes(user, peer, number):
    """A user has his stream, and goes before his peer or with it."""
    peer.accept(1)
    if number % 2:
        break_off(peer.connection)
    else:
        peer.finish(1)
        user.close()
        peer.await_flag(1, FIN)
        peer.connection.close()
    user.close()


def at_local(*words):
    """A `local` connects to each peer when a user comes."""
    peers, address = listen()
    place = free_place()
    program, page = watched("local", "--keep", "--listen", place, "--peer", address, *words)
    await_listener(place)

    def serve(number):
        user = call(place)
        peer = Peer(accept(peers))
        show(peer.connection)
        goes(user, peer, number)

    compared(program, page, PEERS, serve)


def at_local_that_awaits():
    """Each peer connects to a `local`, and then has a user."""
    bound, place = free_place(), free_place()
    program, page = watched("local", "--keep", "--listen", place, "--bind", bound)
    await_listener(place)

    def serve(number):
        peer = Peer(call(bound))
        show(peer.connection)
        await_counts(page, peers=1)
        goes(call(place), peer, number)

    compared(program, page, PEERS, serve)


def connections_that_cannot_begin():
    """Streams to a target that can't be connected to end at once, and none of them is open on the page."""
    page, bound = free_place(), free_place()
    program = Program("remote", "--bind", bound, "--target", NOWHERE, "--status", page)
    await_listener(bound)
    peer = call(bound)
    for number in range(STREAMS):
        peer.sendall(frame(WINDOW, SYN, 2 * number + 1, 0))
    reset = set()
    while len(reset) < STREAMS:
        kind, flags, stream = raw.next_frame(peer)
        if kind == WINDOW and flags & RST:
            reset.add(stream)
    await_counts(page, connections_open=0, connections_begun_total=STREAMS, connection_oldest_seconds=0, peers=1)
    samples = counts(page)
    assert samples["ymx_connections_ended_total", "connection_failed"] == STREAMS, samples
    assert samples["ymx_targets_unreached_total", "unreachable"] == STREAMS, samples
    leave(peer)
    assert program.end()[0] == 0


TESTS = (
    (f"{PEERS} peers of remote --keep", at_remote, ("--keep",)),
    (f"{PEERS} peers of remote --keep --peers 1", at_remote, ("--keep", "--peers", "1")),
    (f"{PEERS} peers of local --keep", at_local, ()),
    (f"{PEERS} peers of local --keep --bind", at_local_that_awaits, ()),
    ("connections that can't begin", connections_that_cannot_begin, ()),
)


if __name__ == "__main__":
    sys.exit(raw.main(TESTS))
