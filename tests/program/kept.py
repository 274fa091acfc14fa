"""Plays the peers of `ymx remote --keep` and `ymx remote --peers`, one after another and many at once, and those of `ymx
local --keep`, one after another, and looks whether each session serves as the first did: also after a peer that was
killed, while none is there, where many have come and gone, and where the system refuses a thread or a descriptor.

It says which tests failed, and nothing where none did. No test follows one that hangs.

usage: kept.py YMX [DYNAMIC REFUSING], where DYNAMIC is the same program, of which REFUSING, the library of
tests/no_memory/failing_malloc.c, can refuse a thread. Tests of that are left out where there is none.
"""

import os
import random
import re
import socket
import sys
import tempfile
import time

import raw
from beside import Peer, swap
from raw import ACK, ANY, BAD, FIN, FULL, GONE, NOBODY, PING, RST, SYN, WINDOW, Program, broke, refused
from raw import accept, break_off, call, frame, free_place, has_ended, is_cut, is_cut_at, leave, listen, local, next_frame
from raw import preloaded, preloads, take
from status import get, parse

SESSIONS = 200
# So many peers `remote --keep` serves at once.
AT_ONCE = 16
# What is used is compared from here on, when every part has run.
SETTLED = 20
# How long a thread may take to end, in seconds: also on a loaded machine.
ENDING = 60
BYTES = random.Random(7).randbytes(300_000)
COME = "ymx: the peer has come\n"
NO_THREAD = "ymx: --peers: no thread\n"
# A line that says what the system is short of is logged once in a second: others are left out, and counted.
LEFT_OUT = re.compile(r"ymx: (\d+) lines? like those before w(?:as|ere) left out\n")
WHOLE = f"{len(BYTES)} bytes to the peer (ended), {len(BYTES)} bytes from the peer (ended)"
LOST = f"{len(BYTES)} bytes to the peer (lost), {len(BYTES)} bytes from the peer (lost)"


def says(program, *lines):
    """These are its next lines."""
    for line in lines:
        said = program.line()
        assert said == line, f"it says {said!r}, and not {line!r}"


def says_of(program, what, peer):
    """Its next line says this of the peer at this address."""
    said = program.process.stderr.readline().decode()
    assert said == f"ymx: the peer has {what} from {peer}\n", f"it says {said!r}, and not that {peer} has {what}"


def says_beside(program, often, *lines):
    """These are its next lines, beside one that it may say again; how often it said or left out that one."""
    count = 0
    for line in lines:
        said = program.line()
        while said == often or LEFT_OUT.fullmatch(said):
            count += 1 if said == often else int(LEFT_OUT.fullmatch(said)[1])
            said = program.line()
        assert said == line, f"it says {said!r}, and not {line!r}"
    return count


def is_refused(place):
    """Nobody listens there."""
    try:
        call(place).close()
        return False
    except ConnectionRefusedError:
        return True


def listen_again(address):
    host, port = address.split(":")
    return socket.create_server((host, int(port)))


def show(connection):
    """Gives a sign of life, which needs no answer: it is the answer to no question."""
    connection.sendall(frame(PING, ACK, 0, 1 << 31))


def connection(number, how):
    return f"ymx: connection {number}: {how}\n"


def finish(peer, stream, other):
    """Both ways of a connection end."""
    peer.finish(stream)
    other.close()
    peer.await_flag(stream, FIN)


def remote_kept(*words):
    """`ymx remote --keep`, where it listens, and its target."""
    target, address = listen()
    program = Program("remote", "-v", "--keep", "--bind", free_place(), "--target", address, *words)
    return program, program.place(), target


def local_kept(*words, files=None):
    """`ymx local --keep`, where it listens, its first user, its first peer, and where its peers listen."""
    listener, address = listen()
    program = Program("local", "-v", "--keep", "--listen", ANY, "--peer", address, *words, files=files)
    place = program.place()
    user = call(place)
    peer = accept(listener)
    show(peer)
    says(program, COME)
    return program, place, user, Peer(peer), listener


# ---- remote


def three_peers():
    """One after another, each has its bytes, and refuses no later one."""
    program, place, target = remote_kept()
    for turn in 1, 2, 3:
        peer = Peer(call(place))
        peer.open(1)
        says(program, COME)
        other = accept(target)
        swap(peer, 1, other, BYTES)
        if turn == 2:
            break_off(peer.connection)
            assert is_cut(other)
            says(program, connection(turn, LOST), GONE)
        else:
            finish(peer, 1, other)
            leave(peer.connection)
            says(program, connection(turn, WHOLE), GONE)
    assert program.process.poll() is None, "it has ended"


def is_served(peer):
    """It gets an answer, perhaps after a question of the program's own."""
    peer.sendall(frame(PING, SYN, 0, 7))
    first = take(peer, 12)
    if first.startswith(frame(PING, SYN, 0, 0)[:4]):
        first = take(peer, 12)
    return first == frame(PING, ACK, 0, 7)


def peers_at_once():
    """Each of 16 has its bytes beside all others, and beside one that is broken off. Connections are numbered through all."""
    program, place, target = remote_kept()
    peers = [Peer(call(place)) for _ in range(AT_ONCE)]
    for peer in peers:
        peer.open(1)
        peer.other = accept(target)
        says(program, *[COME] * (peer is peers[0]))
    says(program, *[COME] * (AT_ONCE - 1))
    halves = BYTES[:150_000], BYTES[150_000:]
    for half in halves:
        for peer in peers:
            swap(peer, 1, peer.other, half)
        if half is halves[0]:
            broken = peers.pop(7)
            break_off(broken.connection)
            assert is_cut(broken.other)
            half_lost = f"{len(half)} bytes to the peer (lost), {len(half)} bytes from the peer (lost)"
            says(program, connection(8, half_lost), GONE)
    numbers = [*range(1, 8), *range(9, AT_ONCE + 1)]
    for number, peer in zip(numbers, peers):
        finish(peer, 1, peer.other)
        leave(peer.connection)
        says(program, connection(number, WHOLE), GONE)
    assert program.process.poll() is None, "it has ended"


def a_place_for_each():
    """A further peer is closed, and served once one has gone. One that says nothing hinders nobody else, and isn't told to
    have come."""
    program, place, _ = remote_kept("--peers", "3")
    silent = call(place)
    peers = [call(place) for _ in range(2)]
    assert is_served(peers[0]) and is_served(peers[1])
    says(program, COME, COME)
    further = call(place)
    assert has_ended(further), "there are four"
    says(program, "ymx: rejected a peer from {}:{}: --peers reached\n".format(*further.getsockname()))
    leave(peers[0])
    says(program, GONE)
    peers[0] = call(place)
    assert is_served(peers[0]) and is_served(peers[1])
    says(program, COME)
    silent.close()
    says(program, GONE)


def at(peer):
    """Where this end of a connection is."""
    return "{}:{}".format(*peer.getsockname())


def from_where_peers_call():
    """A `remote` tells of each of its peers from where it has come, and has gone."""
    program, place, _ = remote_kept()
    peers = [call(place) for _ in range(3)]
    for peer in peers:
        assert is_served(peer)
        says_of(program, "come", at(peer))
    for peer in reversed(peers):
        where = at(peer)
        leave(peer)
        says_of(program, "gone", where)


def from_where_one_calls_after_another():
    """A `local` that awaits its peers tells of each once it listens for the next."""
    program = Program("local", "-v", "--keep", "--bind", ANY, "--listen", ANY)
    place, _ = program.place(), program.place()
    for _ in range(3):
        peer = call(place)
        where = at(peer)
        assert is_served(peer)
        says_of(program, "come", where)
        leave(peer)
        says_of(program, "gone", where)


def where_a_called_one_is():
    """Who calls tells where the peer is that it called."""
    listener, address = listen()
    program = Program("local", "-v", "--keep", "--listen", ANY, "--peer", address)
    user = call(program.place())
    peer = accept(listener)
    show(peer)
    says_of(program, "come", address)
    leave(peer)
    says(program, connection(1, "0 bytes to the peer (lost), 0 bytes from the peer (lost)"))
    says_of(program, "gone", address)
    user.close()
    program = Program("remote", "-v", "--keep", "--peer", address, "--target", NOBODY)
    peer = accept(listener)
    show(peer)
    says_of(program, "come", address)
    leave(peer)
    says_of(program, "gone", address)


@preloads
def streams_without_memory():
    """Each is rejected while the session goes on. That is logged as it comes, and each is counted."""
    _, address = listen()
    page, window = free_place(), str(1 << 20)
    words = ["--bind", ANY, "--target", address, "--window", window, "--status", page]
    program = preloaded("remote", "-v", "--keep", *words, variables={"FAIL_FROM_BYTES": window})
    peer = call(program.place())
    rejected = f"ymx: rejected streams from {at(peer)}: no memory\n"
    for stream in 1, 3, 5:
        peer.sendall(frame(WINDOW, SYN, stream, 0))
        assert next_frame(peer) == (WINDOW, RST, stream), "it isn't rejected"
    says(program, COME, rejected)
    assert is_served(peer), "the session doesn't go on"
    count = parse(get(page, "/metrics")[2])["ymx_streams_rejected_total"]
    assert count == 3, f"{count} are counted"
    leave(peer)
    lines = []
    while not lines or lines[-1] != GONE:
        lines.append(program.line())
    assert "ymx: out of memory\n" in lines, lines


@preloads
def a_connection_without_memory():
    """Of the allocations that a stream and its connection take each is refused in turn. Where the log says that a connection ended
    for lack of memory, which is so of some, it is counted under that word, and elsewhere under no other."""
    target, address = listen()
    seen, number = 0, 0
    with tempfile.TemporaryDirectory() as folder:
        now, refused_one = f"{folder}/now", f"{folder}/refused"
        while number == 0 or os.path.exists(refused_one):
            number += 1
            remove(refused_one)
            page = free_place()
            variables = {"FAIL_AT": str(number), "COUNT_WHILE": now, "FAILED": refused_one}
            program = preloaded("remote", "-v", "--bind", ANY, "--target", address, "--status", page, variables=variables)
            peer = call(program.place())
            assert is_served(peer)
            open(now, "w").close()
            peer.sendall(frame(WINDOW, SYN, 1, 0))
            next_frame(peer)
            remove(now)
            has_ended = "ymx_connections_ended_total"
            counts = {label: count for (family, label), count in labelled(page) if family == has_ended and count}
            leave(peer)
            lacks = "0 bytes to the peer (no memory)" in program.end()[1]
            assert counts == ({"no_memory": 1} if lacks else {}), (number, counts)
            seen += lacks
    assert seen, f"none of {number} allocations was a connection's"


def labelled(page):
    """The samples of the page that have a label."""
    return [(name, count) for name, count in parse(get(page, "/metrics")[2]).items() if isinstance(name, tuple)]


def remove(file):
    if os.path.exists(file):
        os.remove(file)


def peers_without_keep():
    """It ends once it has had a peer and none is left."""
    target, address = listen()
    program = Program("remote", "-v", "--peers", "2", "--bind", ANY, "--target", address)
    place = program.place()
    peers = [call(place), call(place)]
    assert is_served(peers[0]) and is_served(peers[1])
    says(program, COME, COME)
    leave(peers[1])
    says(program, GONE)
    peers[1] = call(place)
    assert is_served(peers[1])
    says(program, COME)
    for peer in peers:
        leave(peer)
        says(program, GONE)
    assert program.end() == (0, "")
    assert is_refused(place)
    target.close()


def a_fault_among_peers():
    """It is logged at once, and the others are served. Who breaks a rule at first isn't told to have come."""
    program = Program("remote", "-v", "--peers", "2", "--bind", ANY, "--target", NOBODY)
    place = program.place()
    peers = [call(place), call(place)]
    assert is_served(peers[0])
    peers[1].sendall(BAD)
    while peers[1].recv(4096):
        pass
    why = broke(peers[1])
    peers[1].close()
    says(program, COME, why, "ymx: session broken: B1\n", GONE)
    assert is_served(peers[0])
    leave(peers[0])
    assert program.end() == (1, GONE)


@preloads
def no_thread(number, *words):
    """Where the thread of this number can't be made it listens for nobody, says so, and ends."""
    words = ("remote", "-v", "--bind", ANY, "--target", NOBODY, *words)
    program = preloaded(*words, variables={"FAIL_THREAD_AT": str(number)})
    assert program.end() == (1, f"{NO_THREAD}ymx: cannot listen at {ANY}\n")


def no_descriptor_for_a_peer():
    """It waits, which is logged, and is served once another has gone."""
    if not raw.COUNTS:
        # of the descriptors some are qemu's now and then
        return
    # Open are standard input, output and error, where it listens, the set of what it waits for and what ends its wait;
    # and for a peer its connection, and a set.
    program = Program("remote", "-v", "--keep", "--bind", ANY, "--target", NOBODY, files=8)
    place = program.place()
    peer = call(place)
    assert is_served(peer)
    following = call(place)
    lack, said = f"ymx: --bind {place}: no descriptor left\n", []
    while lack not in said:
        said.append(program.line())
    leave(peer)
    assert is_served(following)
    # it is logged once more where only one of the two descriptors is free yet
    while said.count(COME) < 2:
        said.append(program.line())
    assert [line for line in said if line != lack and not LEFT_OUT.fullmatch(line)] == [COME, GONE, COME], said


def a_peer_that_never_closes():
    """One that ends its side, and neither reads nor closes, holds its place for some seconds, and no longer."""
    program, place, target = remote_kept("--peers", "1")
    peer = Peer(call(place))
    peer.open(1)
    says(program, COME)
    other = accept(target)
    other.setblocking(False)
    try:
        while True:
            other.send(bytes(65_536))
    except BlockingIOError:
        pass
    peer.connection.sendall(frame(WINDOW, 0, 1, 1 << 24))
    peer.connection.shutdown(socket.SHUT_WR)
    said = program.line()
    assert said.startswith("ymx: connection 1: ") and "(lost)" in said, said
    says(program, GONE)
    following = call(place)
    assert is_served(following)
    says(program, COME)


def a_peer_that_breaks_the_rules():
    """The fault is logged, and the next peer is served."""
    program, place, _ = remote_kept()
    peer = call(place)
    show(peer)
    says(program, COME)
    peer.sendall(BAD)
    while peer.recv(4096):
        pass
    says(program, broke(peer), "ymx: session broken: B1\n", GONE)
    peer = call(place)
    peer.sendall(frame(PING, SYN, 0, 7))
    assert take(peer, 12) == frame(PING, ACK, 0, 7)
    says(program, COME)


def rests(program, own=1):
    """So many threads of its own are left: that of its peer has ended, so that the next one takes the same memory."""
    late = time.monotonic() + ENDING
    while raw.COUNTS and len(os.listdir(f"/proc/{program.process.pid}/task")) > own:
        assert time.monotonic() < late, "threads are left"
        time.sleep(0.001)


def used(program):
    """How many files it has open, and how many kilobytes it has in memory."""
    if not raw.COUNTS:
        return 0, 0
    number = program.process.pid
    with open(f"/proc/{number}/status") as status:
        lines = dict(line.split(":", 1) for line in status)
    return len(os.listdir(f"/proc/{number}/fd")), int(lines["VmRSS"].split()[0])


def many_peers():
    """What one leaves behind is dropped."""
    program, place, target = remote_kept("--peers", "1")  # so that one thread serves all
    for number in range(1, SESSIONS + 1):
        peer = Peer(call(place))
        peer.open(1)
        other = accept(target)
        swap(peer, 1, other, b"!")
        finish(peer, 1, other)
        leave(peer.connection)
        how = "1 bytes to the peer (ended), 1 bytes from the peer (ended)"
        says(program, COME, connection(number, how), GONE)
        rests(program, 2)  # the first, which lets peers in, and the one that serves them
        if number == SETTLED:
            before = used(program)
    files, memory = used(program)
    assert files <= before[0], f"{files} open files, and {before[0]} before"
    assert memory <= before[1] + 1000, f"{memory} kilobytes, and {before[1]} before"


# ---- local


def a_peer_that_comes_again():
    """It is called again at the next connection. Connections are closed while it isn't there."""
    program, place, user, peer, listener = local_kept("--count", "4")
    peer.accept(1)
    swap(peer, 1, user, BYTES)
    peer.connection.close()
    assert is_cut(user)
    says(program, connection(1, LOST), GONE)
    address = "{}:{}".format(*listener.getsockname())
    listener.close()
    assert is_cut_at(place)
    says(program, refused(address), connection(2, "no stream: Lost"))
    with listen_again(address) as listener:
        users = [call(place)]
        peer = Peer(accept(listener))
        show(peer.connection)
        says(program, COME)
        users.append(call(place))
    for user, stream in zip(users, (1, 3)):
        peer.accept(stream)
        swap(peer, stream, user, BYTES)
        finish(peer, stream, user)
    leave(peer.connection)
    status, said = program.end()
    assert status == 0, status
    lines = said.splitlines(keepends=True)
    assert sorted(lines) == [connection(3, WHOLE), connection(4, WHOLE), GONE], said


def the_last_of_a_count():
    """The connection that has the peer called is the last one, and is served."""
    program, place, user, peer, listener = local_kept("--count", "2")
    peer.accept(1)
    peer.connection.close()
    assert is_cut(user)
    says(program, connection(1, "0 bytes to the peer (lost), 0 bytes from the peer (lost)"), GONE)
    user = call(place)
    peer = Peer(accept(listener))
    peer.accept(1)
    swap(peer, 1, user, BYTES)
    finish(peer, 1, user)
    leave(peer.connection)
    assert program.end() == (0, COME + connection(2, WHOLE) + GONE)


def no_descriptor_left():
    """At the limit, which is logged, no more connections are accepted until one has ended. Nothing ends by that."""
    # Open are standard input, output and error, the session's connection, where it listens, the set of what it waits for,
    # and two connections.
    program, place, user, peer, _ = local_kept("--count", "4", files=8)
    users = [user] + [call(place) for _ in range(3)]
    lacks = 0
    for turn, stream in enumerate((1, 3), 1):
        peer.accept(stream)
        swap(peer, stream, users[turn - 1], BYTES)
    for turn, stream in enumerate((5, 7), 1):
        finish(peer, stream - 4, users[turn - 1])
        lacks += says_beside(program, FULL, connection(turn, WHOLE))
        peer.accept(stream)
        swap(peer, stream, users[turn + 1], BYTES)
    for turn, stream in enumerate((5, 7), 3):
        finish(peer, stream, users[turn - 1])
        lacks += says_beside(program, FULL, connection(turn, WHOLE))
    assert lacks == 2, f"it says {lacks} times that no descriptor is left"
    leave(peer.connection)
    assert program.end() == (0, GONE)


def no_descriptor_left_again_and_again():
    """Where users come as others end it is logged once in a second, and likewise how often it was left out; and that at the end."""
    count = 24
    program, place, user, peer, _ = local_kept("--count", str(count), files=8)
    began = time.monotonic()
    users = [user] + [call(place) for _ in range(count - 1)]
    for turn in range(count + 2):
        if turn >= 2:
            finish(peer, 2 * turn - 3, users[turn - 2])
        if turn < count:
            peer.accept(2 * turn + 1)
            swap(peer, 2 * turn + 1, users[turn], BYTES)
    leave(peer.connection)
    status, said = program.end()
    lines = said.splitlines(keepends=True)
    left_out = sum(int(it[1]) for it in map(LEFT_OUT.fullmatch, lines) if it)
    assert status == 0 and lines.count(GONE) == 1, (status, said)
    assert lines.count(FULL) + left_out == count - 2, said
    seconds = time.monotonic() - began
    assert lines.count(FULL) <= 1 + seconds, said
    notes = sum(1 for it in lines if LEFT_OUT.fullmatch(it))
    assert notes <= 2 + seconds, f"{notes} lines say how many were left out, in {seconds} seconds"


def no_peer_at_first():
    """Connections are closed, and served once it is there."""
    address = free_place()
    program = Program("local", "-v", "--keep", "--listen", ANY, "--peer", address)
    place = program.place()
    assert is_cut_at(place)
    says(program, refused(address), connection(1, "no stream: Lost"))
    with listen_again(address) as listener:
        user = call(place)
        peer = Peer(accept(listener))
        show(peer.connection)
        says(program, COME)
        peer.accept(1)
        swap(peer, 1, user, BYTES)


def a_port_that_is_taken():
    """Its peer isn't called."""
    listener, address = listen()
    with socket.create_server(("127.0.0.1", 0)) as taken:
        place = "{}:{}".format(*taken.getsockname())
        program = Program("local", "--keep", "--listen", place, "--peer", address)
        assert program.end() == (1, f"ymx: --listen {place}: address in use\nymx: cannot listen at {place}\n")
    listener.setblocking(False)
    try:
        listener.accept()
        raise AssertionError("it called its peer")
    except BlockingIOError:
        pass


def a_killed_peer():
    """Between two programs: `remote` is killed, and comes again at the same port."""
    target, address = listen()
    meeting = free_place()
    far = Program("remote", "-v", "--bind", meeting, "--target", address)
    assert far.place() == meeting
    near = Program("local", "-v", "--keep", "--listen", ANY, "--peer", meeting)
    place = near.place()
    for turn in 1, 2:
        user = call(place)
        other = accept(target)
        says(near, COME)
        for sender, receiver in (user, other), (other, user):
            sender.sendall(b"question")
            assert take(receiver, 8) == b"question"
        if turn == 1:
            far.process.kill()
            far.process.wait()
            assert is_cut(user)
            says(near, connection(1, "8 bytes to the peer (lost), 8 bytes from the peer (lost)"), GONE)
            far = Program("remote", "-v", "--bind", meeting, "--target", address)
            assert far.place() == meeting


def without_keep():
    """No line says that a peer has come."""
    program, peer = local("--count", "0")
    place = program.line()
    assert place.startswith("ymx: listening at "), place
    show(peer)
    peer.close()
    assert program.end() == (0, "")


TESTS = (
    ("three peers of remote", three_peers, ()),
    ("a peer that breaks the rules", a_peer_that_breaks_the_rules, ()),
    (f"{AT_ONCE} peers at once", peers_at_once, ()),
    ("a place for each", a_place_for_each, ()),
    ("from where peers call", from_where_peers_call, ()),
    ("from where one calls after another", from_where_one_calls_after_another, ()),
    ("where a called one is", where_a_called_one_is, ()),
    ("streams without memory", streams_without_memory, ()),
    ("a connection without memory", a_connection_without_memory, ()),
    ("--peers without --keep", peers_without_keep, ()),
    ("a fault among peers", a_fault_among_peers, ()),
    ("no thread", no_thread, (1, "--peers", "2")),
    ("no second thread", no_thread, (2, "--peers", "2")),
    ("no thread, with --keep", no_thread, (1, "--keep")),
    ("no last thread, with --keep", no_thread, (AT_ONCE, "--keep")),
    ("no descriptor for a peer", no_descriptor_for_a_peer, ()),
    ("a peer that never closes", a_peer_that_never_closes, ()),
    (f"{SESSIONS} peers of remote", many_peers, ()),
    ("a peer that comes again", a_peer_that_comes_again, ()),
    ("the last of a count", the_last_of_a_count, ()),
    ("no descriptor left", no_descriptor_left, ()),
    ("no descriptor left, again and again", no_descriptor_left_again_and_again, ()),
    ("no peer at first", no_peer_at_first, ()),
    ("a port that is taken", a_port_that_is_taken, ()),
    ("a killed peer", a_killed_peer, ()),
    ("without --keep", without_keep, ()),
)


if __name__ == "__main__":
    sys.exit(raw.main(TESTS))
