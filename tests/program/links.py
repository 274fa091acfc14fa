"""Plays the peers of `ymx local --links`, and looks where its users go: to the link that has the fewest, and never to one
that is lost; also that a link which breaks takes no other with it, and what is left behind many connections.

It says which tests failed, and nothing where none did. No test follows one that hangs.

usage: links.py YMX
"""

import hashlib
import os
import random
import re
import select
import socket
import sys
import threading
import time

import raw
from beside import Peer, swap
from kept import COME, LOST, WHOLE, connection, finish, is_refused, says, show
from raw import ACK, ANY, BAD, GONE, NOT_HERE, PING, SYN, WINDOW, Program, broke, refused
from raw import accept, break_off, call, free_place, frame, has_ended, is_cut, is_cut_at, leave, listen
from raw import take

BYTES = random.Random(11).randbytes(300_000)
# How long a connection lasts, in seconds, and how much less than that its line may say, as two processes count it.
LASTING, EARLY = 0.25, 0.01
# What goes through both ends: so many connections, so many at once, over so many links.
CONNECTIONS, AT_ONCE, LINKS = 1_000, 20, 4
FIRST = frame(WINDOW, SYN, 1, 0)
SILENT = "ymx: the peer has gone before its first frame\n"


def local_links(count, *words, listen_at=ANY):
    """`ymx local --links`, where it listens, its links in the order in which it made them, and where its peer listens."""
    listener, address = listen()
    words = ("--links", str(count), "--listen", listen_at, "--peer", address, *words)
    program = Program("local", "-v", *words)
    links = [Peer(accept(listener)) for _ in range(count)]
    for link in links:
        sound(link)
    return program, program.place(), links, listener


def sound(link):
    """Gives the link's first sign of life, for which it asks, and before which it gets no user. After two questions of the
    peer's own it has heard that."""
    link.turn()
    for number in 1, 2:
        link.connection.sendall(frame(PING, SYN, 0, number))
        assert take(link.connection, 12) == frame(PING, ACK, 0, number)


def local_kept(count, *words):
    """The same with `--keep`: where its peer listens, which it has not called yet."""
    listener, address = listen()
    words = ("--links", str(count), "--keep", "--listen", ANY, "--peer", address, *words)
    program = Program("local", "-v", *words)
    return program, program.place(), listener


def which(links, stream):
    """The link on which this stream comes next, which takes it. Others may have ended, as all users have come."""
    left = list(links)
    while True:
        ready, _, _ = select.select([link.connection for link in left], [], [])
        link = next(link for link in left if link.connection is ready[0])
        if link.connection.recv(1, socket.MSG_PEEK):
            link.accept(stream)
            return link
        left.remove(link)


def is_threads(program, count):
    """How many threads it has, once it has so many."""
    while raw.COUNTS and len(os.listdir(f"/proc/{program.process.pid}/task")) != count:
        time.sleep(0.01)
    return True


def files(program):
    return raw.COUNTS and len(os.listdir(f"/proc/{program.process.pid}/fd"))


def fewest_first():
    """Four users go to two links in turn; once both of one have ended, the next two go there."""
    program, place, links, _ = local_links(2, "--count", "6")
    users, homes = [], []
    for stream in 1, 1, 3, 3:
        users.append(call(place))
        homes.append(which(links, stream))
    assert homes[0] is not homes[1] and homes[2] is not homes[3], "two in a row go to one link"
    left = homes[0]
    for number, home in enumerate(homes):
        if home is left:
            finish(left, 1 if number < 2 else 3, users[number])
    says(program, *(connection(number + 1, "0 bytes to the peer (ended), 0 bytes from the peer (ended)")
                    for number, home in enumerate(homes) if home is left))
    users += [call(place)]
    left.accept(5)
    users += [call(place)]
    left.accept(7)
    assert is_refused(place), "a seventh is connected"
    for link in links:
        leave(link.connection)
    status, said = program.end()
    assert status == 0 and said.count("ymx: connection ") == 4, (status, said)


def a_lost_link():
    """It takes its own connection with it. The others go on, and get all that come."""
    program, place, links, _ = local_links(3)
    users, homes = [], []
    for _ in range(3):
        users.append(call(place))
        homes.append(which(links, 1))
    assert len(set(map(id, homes))) == 3, "not each link has one"
    for home, user in zip(homes, users):
        swap(home, 1, user, BYTES)
    break_off(homes[1].connection)
    assert is_cut(users[1])
    says(program, GONE, connection(2, LOST))
    served = []
    for stream in 3, 3, 5, 5:
        user = call(place)
        home = which([homes[0], homes[2]], stream)
        swap(home, stream, user, BYTES)
        served.append((home, stream, user))
    for home, user in (homes[0], users[0]), (homes[2], users[2]):
        swap(home, 1, user, BYTES)
        served.append((home, 1, user))
    for home, stream, user in served:
        finish(home, stream, user)
    for home in homes[0], homes[2]:
        leave(home.connection)
    status, said = program.end()
    assert status == 0, (status, said)
    double = WHOLE.replace("300000", "600000")
    assert sorted(said.replace(GONE, "").splitlines()) == sorted(
        [f"ymx: connection {number}: {double}" for number in (1, 3)] + [f"ymx: connection {number}: {WHOLE}" for number in range(4, 8)]), said


def a_broken_link():
    """A fault of one is logged at once, and the others serve."""
    program, place, links, _ = local_links(2)
    links[0].connection.sendall(BAD)
    take(links[0].connection, 12)
    assert has_ended(links[0].connection)
    why = broke(links[0].connection)
    links[0].connection.close()
    says(program, why, GONE, "ymx: session broken: B1\n")
    user = call(place)
    links[1].accept(1)
    swap(links[1], 1, user, BYTES)
    finish(links[1], 1, user)
    leave(links[1].connection)
    assert program.end() == (1, connection(1, WHOLE) + GONE)


def lost_before_the_count():
    """Where no link is left it ends, and says so if connections were still to come."""
    program, place, links, listener = local_links(2, "--count", "2")
    user = call(place)
    home = which(links, 1)
    finish(home, 1, user)
    for link in links:
        leave(link.connection)
    address = "{}:{}".format(*listener.getsockname())
    ended = connection(1, "0 bytes to the peer (ended), 0 bytes from the peer (ended)")
    assert program.end() == (1, f"{ended}{GONE}{GONE}ymx: cannot reach {address}\n")


def lost_behind_the_last():
    """Where all have come it ends well, also if the links go then."""
    program, place, links, _ = local_links(2, "--count", "1")
    user = call(place)
    finish(which(links, 1), 1, user)
    for link in links:
        leave(link.connection)
    status, said = program.end()
    ended = connection(1, "0 bytes to the peer (ended), 0 bytes from the peer (ended)")
    assert (status, said.replace(GONE, "")) == (0, ended), (status, said)


def which_link_and_how_long():
    """The line of each connection names its link, those of two at once another one, and how long it lasted."""
    program, place, links, _ = local_links(2, "--count", "2")
    began = time.monotonic()
    users, homes = [], []
    for _ in links:
        users.append(call(place))
        homes.append(which(links, 1))
    time.sleep(LASTING)
    # One after another, so that the lines come in this order.
    lines = []
    for home, user in zip(homes, users):
        finish(home, 1, user)
        lines.append(program.process.stderr.readline().decode())
    ended = time.monotonic()
    numbers = set()
    for number, line in enumerate(lines, 1):
        shape = rf"ymx: connection {number} from 127\.0\.0\.1:\d+ by link ([12]): 0 bytes to the peer \(ended\), 0 bytes from the peer \(ended\), (\d+\.\d{{3}}) s\n"
        said = re.fullmatch(shape, line)
        assert said, line
        numbers.add(said[1])
        assert LASTING <= float(said[2]) + EARLY and float(said[2]) <= ended - began + EARLY, (line, ended - began)
    assert numbers == {"1", "2"}, lines
    for link in links:
        leave(link.connection)
    assert program.end()[0] == 0


def no_links_at_first():
    """Each tells that the peer can't be reached, before anybody listens. With `--keep` the first tells that nobody can listen."""
    place, peer = free_place(), free_place()
    words = ("--links", "2", "--listen", place, "--peer", peer)
    status, said = Program("local", *words).end()
    assert status == 1, status
    assert sorted(said.splitlines(keepends=True)) == sorted([refused(peer), f"ymx: cannot reach {peer}\n"] * 2), said
    assert Program("local", "--keep", "--links", "2", "--listen", raw.NOWHERE, "--peer", peer).end() == (
        1, f"ymx: --listen {raw.NOWHERE}: {NOT_HERE}\nymx: cannot listen at {raw.NOWHERE}\n")


def links_are_called_again():
    """With `--keep` all are called at the first connection, and one that is lost again at the next. Faults are logged as they
    come."""
    program, place, listener = local_kept(2)
    first = call(place)
    one, other = Peer(accept(listener)), Peer(accept(listener))
    show(one.connection)
    says(program, COME)
    one.accept(1)
    show(other.connection)
    says(program, COME)
    second = call(place)
    other.accept(1)
    swap(one, 1, first, BYTES)
    other.connection.sendall(BAD)
    take(other.connection, 12)
    why = broke(other.connection)
    other.connection.close()
    assert is_cut(second)
    says(program, why, connection(2, "0 bytes to the peer (lost), 0 bytes from the peer (lost)"), GONE, "ymx: session broken: B1\n")
    third = call(place)
    again = accept(listener)
    show(again)
    says(program, COME)
    third.close()
    swap(one, 1, first, BYTES)


def a_peer_that_is_away():
    """With `--keep` connections go to the link that is left, where another can't be made."""
    program, place, listener = local_kept(2)
    first = call(place)
    one, other = accept(listener), accept(listener)
    one = Peer(one)
    show(one.connection)
    says(program, COME)
    one.accept(1)
    listener.close()
    # (a reset may come before the call is seen to have been answered)
    other.close()
    says(program, SILENT)
    for stream in 3, 5:
        user = call(place)
        one.accept(stream)
        swap(one, stream, user, BYTES)
        finish(one, stream, user)
    says(program, connection(2, WHOLE), connection(3, WHOLE))
    swap(one, 1, first, BYTES)


def echo(listener):
    """Sends back what each connection sends."""
    while True:
        try:
            other, _ = listener.accept()
        except OSError:
            return
        threading.Thread(target=echo_one, args=(other,), daemon=True).start()


def echo_one(other):
    with other:
        while piece := other.recv(65_536):
            other.sendall(piece)


def ask(place, seed, bad):
    """Bytes of a connection come back, and the end after them."""
    sent = BYTES[seed * 97 :][: seed * 613 % 40_000]
    with call(place) as user:
        threading.Thread(target=lambda: (user.sendall(sent), user.shutdown(socket.SHUT_WR)), daemon=True).start()
        came = hashlib.sha256()
        while piece := user.recv(65_536):
            came.update(piece)
    if came.digest() != hashlib.sha256(sent).digest():
        bad.append(seed)


def many_through(*words):
    """Connections through both ends keep their content. After them are as many threads and descriptors as before."""
    target, address = listen()
    threading.Thread(target=echo, args=(target,), daemon=True).start()
    far = Program("remote", "-v", "--keep", "--peers", str(LINKS), "--bind", ANY, "--target", address)
    peer = far.place()
    near = Program("local", "-v", "--links", str(LINKS), "--listen", ANY, "--peer", peer, *words)
    place = near.place()
    # Each link has had a connection, so that with --keep all are there.
    bad = []
    ready = [call(place) for _ in range(LINKS)]
    for user in ready:
        user.sendall(b"!")
        assert take(user, 1) == b"!"
    for user in ready:
        leave(user)
    # A link that isn't there yet would have its descriptors later.
    come = 0
    while come < LINKS:
        come += far.line() == COME
    for program in near, far:
        threading.Thread(target=program.process.stderr.read, daemon=True).start()
    # One for each link, of which the first has the first; and one for each peer, beside the first, which lets them in.
    assert is_threads(near, LINKS) and is_threads(far, LINKS + 1)
    used = files(near), files(far)
    for start in range(0, CONNECTIONS, AT_ONCE):
        users = [threading.Thread(target=ask, args=(place, seed, bad)) for seed in range(start, start + AT_ONCE)]
        for user in users:
            user.start()
        for user in users:
            user.join()
    assert not bad, f"{len(bad)} came back otherwise"
    # The first users' descriptors may still have been open when they were counted.
    while files(near) > used[0] or files(far) > used[1]:
        time.sleep(0.01)
    assert is_threads(near, LINKS) and is_threads(far, LINKS + 1)


def bad_words():
    """A number out of its range, or links to a peer that is awaited."""
    for words, said in (
        (("--links", "0", "--peer", ANY), "error: invalid value '0' for '--links <N>': a number is decimal digits alone, from 1 to 64"),
        (("--links", "65", "--peer", ANY), "error: invalid value '65' for '--links <N>': a number is decimal digits alone, from 1 to 64"),
        (("--links", "+2", "--peer", ANY), "error: invalid value '+2' for '--links <N>': a number is decimal digits alone, from 1 to 64"),
        (("--links", "2", "--bind", ANY), "error: the argument '--links <N>' cannot be used with '--bind <ADDRESS>'"),
    ):
        status, text = Program("local", "--listen", ANY, *words).end()
        assert status == 2 and text.startswith(said), (words, status, text)


TESTS = (
    ("the fewest first", fewest_first, ()),
    ("a link that is lost", a_lost_link, ()),
    ("a link that breaks", a_broken_link, ()),
    ("links that are lost before the count", lost_before_the_count, ()),
    ("links that are lost after the last", lost_behind_the_last, ()),
    ("which link, and how long", which_link_and_how_long, ()),
    ("no links at first", no_links_at_first, ()),
    ("links that are called again", links_are_called_again, ()),
    ("a peer that is away", a_peer_that_is_away, ()),
    ("many connections", many_through, ()),
    ("many connections with --keep", many_through, ("--keep",)),
    ("bad words", bad_words, ()),
)

if __name__ == "__main__":
    sys.exit(raw.main(TESTS))
