"""Has both ends of a tunnel call peers that never answer, or answer late, and looks how long that takes, and what becomes of
the users who wait meanwhile.

It says which tests failed, and nothing where none did. No test follows one that hangs.

usage: timeouts.py YMX
"""

import socket
import sys
import time

import raw
from beside import Peer
from kept import COME, connection, says
from raw import ANY, NOBODY, Program, accept, break_off, call, is_cut, is_cut_at, listen

# How much less may have gone by, as the clocks of two processes count it, and how much more: also on a loaded machine, but
# less than connecting takes where no limit is given.
EARLY, LATE = 0.1, 8
# How long connecting may take where no limit is given, in seconds.
DEFAULT = 10
# How long it is waited for an answer to one call of this test.
ANSWER = 0.5


class Silent:
    """Where a call has no answer: so many connections wait to be accepted that the system drops what asks for one more. It
    asks again, after one second, and then after two and four."""

    def __init__(self):
        self.listener = socket.create_server(("127.0.0.1", 0), backlog=0)
        self.address = self.listener.getsockname()
        self.place = "{}:{}".format(*self.address)
        self.waiting = []
        while self.is_answered():
            pass

    def is_answered(self):
        """Calls it, and says whether an answer came."""
        one = socket.socket()
        one.settimeout(ANSWER)
        try:
            one.connect(self.address)
        except TimeoutError:
            one.close()
            return False
        self.waiting.append(one)
        return True

    def answer(self):
        """From now on it answers, and the next connection is that of who called last."""
        for _ in self.waiting:
            accept(self.listener).close()


def passed(began, wanted, late=LATE):
    """So many seconds have passed since then."""
    took = time.monotonic() - began
    assert wanted - EARLY <= took < wanted + late, f"after {took} seconds, and not {wanted}"


def timed_out(place):
    return f"ymx: --peer {place}: timed out\n"


def unreached(place):
    return f"ymx: cannot reach {place}\n"


def kept(silent, *words):
    """`ymx local --keep`, and where it listens."""
    program = Program("local", "-v", "--keep", "--listen", ANY, "--peer", silent.place, *words)
    return program, program.place()


def a_user(limit, *words):
    """He is closed after the limit of the call, and so is the next, who has a call of his own."""
    silent = Silent()
    program, place = kept(silent, *words)
    for number in 1, 2:
        began = time.monotonic()
        assert is_cut_at(place)
        passed(began, limit)
        says(program, timed_out(silent.place), connection(number, "no stream: Lost"))
        # Who comes while users are closed is closed with them.
        time.sleep(ANSWER)


def many_users():
    """Five who come together are answered by one call, and closed together."""
    silent = Silent()
    program, place = kept(silent, "--timeout", "5")
    began = time.monotonic()
    users = [call(place) for _ in range(5)]
    for user in users:
        assert is_cut(user)
    passed(began, 5)
    says(program, timed_out(silent.place), *(connection(number, "no stream: Lost") for number in range(1, 6)))
    # One who comes later has a call of his own.
    time.sleep(ANSWER)
    began = time.monotonic()
    assert is_cut_at(place)
    passed(began, 5)
    says(program, timed_out(silent.place), connection(6, "no stream: Lost"))


def the_last_of_a_count():
    """Users that are closed so are counted too, and none beyond the count."""
    silent = Silent()
    program, place = kept(silent, "--timeout", "5", "--count", "2")
    users = [call(place) for _ in range(2)]
    for user in users:
        assert is_cut(user)
    assert program.end() == (0, timed_out(silent.place) + connection(1, "no stream: Lost") + connection(2, "no stream: Lost"))


def a_late_answer():
    """A peer that answers within the limit is met."""
    silent = Silent()
    program, place = kept(silent, "--timeout", "20")
    user = call(place)
    time.sleep(ANSWER)
    silent.answer()
    peer = Peer(accept(silent.listener))
    peer.accept(1)
    says(program, COME)
    peer.send(1, b"hello")
    assert user.recv(5) == b"hello"


def behind_a_lost_session():
    """The session of the first user is lost while the second waits for a stream. The next call serves him."""
    listener, address = listen()
    program = Program("local", "-v", "--keep", "--listen", ANY, "--peer", address)
    place = program.place()
    first = call(place)
    peer = Peer(accept(listener))
    peer.accept(1)
    says(program, COME)
    break_off(peer.connection)
    assert is_cut(first)
    second = call(place)
    peer = Peer(accept(listener))
    peer.accept(1)
    peer.send(1, b"hello")
    assert second.recv(5) == b"hello"


def links(limit, *words):
    """Each link with `--keep` calls for its own users, and all at once: two calls one after another would take too long."""
    assert limit > LATE
    silent = Silent()
    words = ("--links", "2", "--listen", ANY, "--peer", silent.place, *words)
    program = Program("local", "-v", "--keep", *words)
    place = program.place()
    began = time.monotonic()
    users = [call(place) for _ in range(4)]
    for user in users:
        assert is_cut(user)
    passed(began, limit)


def ends(limit, *words, links=1):
    """One that calls first ends with the call. Each link says so."""
    silent = Silent()
    began = time.monotonic()
    program = Program(*words, "--peer", silent.place)
    status, said = program.end()
    assert status == 1, status
    assert sorted(said.splitlines(keepends=True)) == sorted([timed_out(silent.place), unreached(silent.place)] * links), said
    passed(began, limit)


def ends_of_links(limit, *words):
    """The same with two links, which call at once."""
    ends(limit, *LOCAL, "--links", "2", *words, links=2)


def a_remote(limit, *words):
    """One that calls with `--keep` calls again, a second later."""
    silent = Silent()
    began = time.monotonic()
    program = Program("remote", "-v", "--keep", "--peer", silent.place, "--target", NOBODY, *words)
    says(program, timed_out(silent.place), unreached(silent.place))
    passed(began, limit)
    says(program, timed_out(silent.place))
    passed(began, 2 * limit + 1)


LOCAL = ("local", "--listen", ANY)
REMOTE = ("remote", "--target", NOBODY)
TESTS = (
    ("--keep", a_user, (DEFAULT,)),
    ("--keep --timeout 1", a_user, (1, "--timeout", "1")),
    ("five users", many_users, ()),
    ("--count 2", the_last_of_a_count, ()),
    ("a late answer", a_late_answer, ()),
    ("a lost session", behind_a_lost_session, ()),
    ("--links 2 --keep", links, (9, "--timeout", "9")),
    ("local --timeout 1", ends, (1, *LOCAL, "--timeout", "1")),
    ("local --links 2", ends_of_links, (DEFAULT,)),
    ("local --links 2 --timeout 1", ends_of_links, (1, "--timeout", "1")),
    ("remote --timeout 1", ends, (1, *REMOTE, "--timeout", "1")),
    ("remote --keep", a_remote, (DEFAULT,)),
    ("remote --keep --timeout 1", a_remote, (1, "--timeout", "1")),
)


if __name__ == "__main__":
    sys.exit(raw.main(TESTS))
