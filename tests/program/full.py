"""A link whose places are all taken: a user beyond them waits, and gets the next place that comes free, however the one who
leaves it ends. That one resets, or ends last, after the service's end. First one waits while one leaves, again and again;
then many wait, and many leave at once. Last the peer of `remote` is played frame by frame.

It says which tests failed, with how many users were not served, and nothing where none did. No test follows one that hangs.

usage: full.py YMX
"""

import collections
import contextlib
import itertools
import resource
import selectors
import socket
import sys
import threading
import time

import raw
from raw import ANY, DATA, FIN, SYN, WINDOW, Program, break_off, call, frame, next_frame, take
from standard import await_listener

FILES = 16_384
RST = 8
# How many users one link serves at once, how often one leaves it, and how many come in a burst.
PLACES, ROUNDS, BURST = 1_024, 50, 3_000
# How many streams the peer that is played opens at once: no more may wait to be accepted.
AT_ONCE = 256
# What it sends at once: `x` ends a stream, `s` opens one, `d` has a byte of one that was opened so, and `o` of another.
# It never opens more than it has ended.
ORDERS = ("xsd", "xsdxsdxsd", "xxxsdsdsd", "xxxxssssdddd", "xsxdsd", "xsxosdd", "xsxxxdsdsdsd")
# At how many places such a piece is cut, and how long the rest of it then waits, in seconds.
CUTS, PAUSE = 12, 0.002
# What a user says to the service, which sends it back. After END it ends its side, and after CLOSE it closes.
ECHO, END, CLOSE = b"?", b"e", b"c"


def backlog():
    """How many connections the system holds for a listener, beside those that it has taken."""
    with open("/proc/sys/net/core/somaxconn") as text:
        return int(text.read())


# ---- the service, and the tunnel to it


def goes_on(connection):
    """The service answers what has come. Whether the connection stays open."""
    try:
        said = connection.recv(16)
        connection.sendall(said)
        if said == END:
            connection.shutdown(socket.SHUT_WR)
    except OSError:
        return False
    return said not in (b"", CLOSE)


def serve(listener):
    chosen = selectors.DefaultSelector()
    chosen.register(listener, selectors.EVENT_READ)
    while True:
        for key, _ in chosen.select():
            if key.fileobj is listener:
                connection, _ = listener.accept()
                chosen.register(connection, selectors.EVENT_READ)
            elif not goes_on(key.fileobj):
                chosen.unregister(key.fileobj)
                key.fileobj.close()


def service():
    """Where it listens."""
    listener = socket.create_server(("127.0.0.1", 0), backlog=BURST)
    threading.Thread(target=serve, args=(listener,), daemon=True).start()
    return "{}:{}".format(*listener.getsockname())


def hear(pipe):
    """Reads all that a program says, so that it never waits. Its pipe may be closed meanwhile."""
    with contextlib.suppress(OSError, ValueError):
        pipe.read()


def tunnel():
    """Where the users of a tunnel with one link connect to."""
    remote = Program("remote", "-v", "--bind", ANY, "--target", service())
    local = Program("local", "-v", "--listen", ANY, "--peer", remote.place())
    place = local.place()
    for program in remote, local:
        threading.Thread(target=hear, args=(program.process.stderr,), daemon=True).start()
    return place


# ---- one who waits, and one who leaves


def ends_last(word):
    """A user who ends after the service's end, for which it asks by this word."""

    def leave(user):
        user.sendall(word)
        assert take(user, 2) == word, "the end comes after the answer"
        user.close()

    return leave


def asks(user):
    """What becomes of a user who says something."""
    try:
        user.sendall(ECHO)
        return "served" if take(user, 1) == ECHO else "closed"
    except ConnectionError:
        return "reset"


def join(place):
    """A user who has a place, however many are reset before."""
    while True:
        try:
            user = call(place)
        except ConnectionError:
            continue
        if asks(user) == "served":
            return user


def in_turn(leave):
    """One user waits for a place, and gets that of another, who leaves it in this way. The others keep theirs."""
    place = tunnel()
    there = collections.deque(call(place) for _ in range(PLACES))
    assert all(asks(user) == "served" for user in there), "there is a place for each"
    became = collections.Counter()
    for _ in range(ROUNDS):
        waiting = call(place)
        leave(there.popleft())
        outcome = asks(waiting)
        became[outcome] += 1
        # Where the wait was in vain, somebody else takes the place, so that all are taken again.
        there.append(waiting if outcome == "served" else join(place))
    assert became["served"] == ROUNDS, f"of {ROUNDS} users who waited {became['reset']} were reset, and {became['closed']} closed"
    assert all(asks(user) == "served" for user in there), "the others keep their places"


def says_that_it_is_full():
    """With -v it does, once somebody waits."""
    remote = Program("remote", "--bind", bound := raw.free_place(), "--target", service())
    await_listener(bound)
    local = Program("local", "-v", "--listen", ANY, "--peer", bound)
    place = local.place()
    there = [call(place) for _ in range(PLACES)]
    assert all(asks(user) == "served" for user in there)
    waiting = call(place)
    assert local.line() == "ymx: all 1024 stream slots are used: users wait\n"
    break_off(there[0])
    assert asks(waiting) == "served"
    assert remote.process.poll() is None


# ---- many at once


class Guest:
    """One of many, who says this word. After CLOSE it ends last, and after ECHO it resets once it is answered."""

    def __init__(self, place, word):
        self.socket = call(place)
        self.word = word
        self.was_sent = False
        self.came = b""

    def go_on(self):
        """What becomes of it, once that is known."""
        try:
            return self.step()
        except ConnectionError:
            return "reset"

    def step(self):
        if not self.was_sent:
            self.socket.sendall(self.word)
            self.was_sent = True
            return None
        piece = self.socket.recv(16)
        self.came += piece
        if piece and self.word == CLOSE:
            return None
        if piece:
            break_off(self.socket)
        return "served" if self.came == self.word else "closed"


def burst(*words):
    """Many users at once, who say these words in turn: each is served."""
    place, waiting, became = tunnel(), selectors.DefaultSelector(), collections.Counter()
    # Whom the system can't hold might be lost before the tunnel knows of him.
    count = min(BURST, PLACES + backlog())
    for number in range(count):
        guest = Guest(place, words[number % len(words)])
        waiting.register(guest.socket, selectors.EVENT_WRITE, guest)
    while waiting.get_map():
        for key, _ in waiting.select():
            guest = key.data
            outcome = guest.go_on()
            if outcome is None:
                waiting.modify(guest.socket, selectors.EVENT_READ, guest)
                continue
            waiting.unregister(key.fd)
            guest.socket.close()
            became[outcome] += 1
    assert became["served"] == count, f"of {count} users {became['reset']} were reset, and {became['closed']} closed"


# ---- a peer that is played


class Peer:
    """A peer of `remote`, all of whose streams are there."""

    def __init__(self):
        _, self.wire = raw.remote(service())
        self.wire.setsockopt(socket.IPPROTO_TCP, socket.TCP_NODELAY, 1)
        self.last = -1
        self.there = collections.deque()
        while len(self.there) < PLACES:
            begun = [self.number() for _ in range(AT_ONCE)]
            self.wire.sendall(b"".join(frame(WINDOW, SYN, stream, 0) + say(stream, ECHO) for stream in begun))
            self.await_all(begun, DATA, 0, "s")
            self.there.extend(begun)

    def number(self):
        """That of the next stream."""
        self.last += 2
        return self.last

    def await_all(self, streams, kind, flags, order):
        """Until each of these has had a frame of this kind with these flags. None is reset meanwhile."""
        left = set(streams)
        while left:
            came, marks, stream = next_frame(self.wire)
            assert not marks & RST, f"{order}: stream {stream} of {streams} was reset"
            if came == kind and marks & flags == flags:
                left.discard(stream)


def say(stream, word):
    return frame(DATA, 0, stream, len(word)) + word


def at_once(ends_last):
    """Streams end, and as many others come, in one piece of the wire, or in two: each of these is served."""
    peer = Peer()
    for order, cut in itertools.product(ORDERS, range(CUTS)):
        leave = [peer.there.popleft() for _ in range(order.count("x"))]
        come = [peer.number() for _ in range(order.count("s"))]
        if ends_last:
            peer.wire.sendall(b"".join(say(stream, END) for stream in leave))
            peer.await_all(leave, WINDOW, FIN, order)
        frames = {
            "x": iter([frame(WINDOW, FIN if ends_last else RST, stream, 0) for stream in leave]),
            "s": iter([frame(WINDOW, SYN, stream, 0) for stream in come]),
            "d": iter([say(stream, ECHO) for stream in come]),
            "o": iter([say(peer.there[0], ECHO)]),
        }
        sent = b"".join(next(frames[what]) for what in order)
        place = len(sent) * cut // CUTS
        peer.wire.sendall(sent[:place])
        time.sleep(PAUSE)
        peer.wire.sendall(sent[place:])
        peer.await_all(come, DATA, 0, f"{order}, cut at {place}")
        peer.there.extend(come)


TESTS = (
    ("says that it is full", says_that_it_is_full, ()),
    ("one waits, and one resets", in_turn, (break_off,)),
    ("one waits, and one ends after the service's end", in_turn, (ends_last(END),)),
    ("one waits, and one ends after a service that closes", in_turn, (ends_last(CLOSE),)),
    ("many at once, who end last", burst, (CLOSE,)),
    ("many at once, who reset", burst, (ECHO,)),
    ("many at once, of both kinds", burst, (CLOSE, ECHO)),
    ("streams that are reset, and others at once", at_once, (False,)),
    ("streams that end last, and others at once", at_once, (True,)),
)

if __name__ == "__main__":
    _, most = resource.getrlimit(resource.RLIMIT_NOFILE)
    resource.setrlimit(resource.RLIMIT_NOFILE, (most if most != resource.RLIM_INFINITY and most < FILES else FILES, most))
    sys.exit(raw.main(TESTS))
