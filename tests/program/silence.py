"""Plays peers that are silent, and peers that are not, of `ymx remote --ping` and `ymx local --ping`, and looks whether
just those that are silent are given up, and when.

It says which tests failed, and nothing where none did. No test follows one that hangs.

usage: silence.py YMX
"""

import sys
import time

import raw
from beside import Peer
from kept import BYTES, COME, GONE, says
from links import SILENT
from raw import ACK, ANY, DATA, FIRST_WINDOW, PING, SYN, WINDOW, HEADER, Program
from raw import accept, call, frame, has_ended, is_cut, listen, take

# How many seconds a peer may be silent before it is asked, and then as long again.
PATIENCE = 1
# How much less may have gone by, as the clocks of two processes count it.
EARLY = 0.1
# How long it may take where the machine is slow.
LATE = 100
# How many seconds lie between two parts of what a slow line sends.
SLICE = 0.05
# How often a peer speaks at most, where this process may have been held up for so long that it was silent.
ATTEMPTS = 5


class Sides:
    """One `ymx` with `--ping`, and the connection of its peer, with what comes to it."""

    def __init__(self, name, *words):
        self.began = time.monotonic()
        words = (name, "-v", "--ping", str(PATIENCE), *words)
        if name == "remote":
            self.target, address = listen()
            self.program = Program(*words, "--bind", ANY, "--target", address)
        else:
            self.program = Program(*words, "--bind", ANY, "--listen", ANY)
        self.bound = self.program.place()
        self.peer = call(self.bound)
        if name == "local":
            self.place = self.program.place()


def question(peer):
    """The number of the ping that comes next."""
    _, kind, flags, _, number = HEADER.unpack(take(peer, HEADER.size))
    assert (kind, flags) == (PING, SYN), (kind, flags)
    return number


def a_silent_peer(name):
    """It is asked at once, not again, and given up once it was silent twice as long as it may be. No user is given to it."""
    sides = Sides(name)
    user = call(sides.place) if name == "local" else None
    question(sides.peer)
    asked = time.monotonic() - sides.began
    assert asked < LATE, f"asked after {asked} seconds"
    assert has_ended(sides.peer), "it is asked again, or given a user"
    given_up = time.monotonic() - sides.began
    assert 2 * PATIENCE - EARLY <= given_up < LATE, f"given up after {given_up} seconds"
    sides.peer.close()
    if name == "remote":
        assert sides.program.end() == (0, SILENT)
    else:
        # there is no session for this user
        assert is_cut(user)


def a_peer_that_answers(name):
    """It is asked each time that it was silent, and never given up."""
    sides = Sides(name)
    # the first question comes at once, and the others where it was silent
    for _ in range(4):
        sides.peer.sendall(frame(PING, ACK, 0, question(sides.peer)))
    sides.peer.sendall(frame(PING, SYN, 0, 7))
    assert take(sides.peer, 12) == frame(PING, ACK, 0, 7)


def a_peer_that_speaks(name):
    """Each frame is a sign, so it isn't asked again. Where this process or the program is held up, the peer may have
    been silent for the program; so it is tried again."""
    for _ in range(ATTEMPTS):
        answer, silent = speak(Sides(name))
        if answer is None:
            return
        assert silent >= PATIENCE - EARLY, f"{answer.hex()} comes after {silent} seconds"
    raise AssertionError(f"it was held up {ATTEMPTS} times")


def speak(sides):
    """Speaks in half of the time that may pass in silence, eight times. What comes that is no answer, and how long after
    the sign of life before; None where all are answers."""
    question(sides.peer)
    before = sides.began
    for number in range(8):
        time.sleep(PATIENCE / 2)
        now = time.monotonic()
        sides.peer.sendall(frame(PING, SYN, 0, number))
        answer = take(sides.peer, 12)
        if answer != frame(PING, ACK, 0, number):
            return answer, time.monotonic() - before
        before = now
    return None, 0


def bytes_that_are_no_frames(name):
    """One who sends a byte now and then, but no frame, isn't told to have come, and is given up as one who is silent. His
    place is another's then."""
    words = ("--keep", "--peers", "1") if name == "remote" else ("--keep",)
    sides = Sides(name, *words)
    user = call(sides.place) if name == "local" else None
    question(sides.peer)
    try:
        for _ in range(11):
            sides.peer.sendall(b"\0")
            time.sleep(PATIENCE / 2)
        raise AssertionError("it is not given up")
    except (BrokenPipeError, ConnectionResetError):
        passed = time.monotonic() - sides.began
    assert passed >= 2 * PATIENCE - EARLY, f"given up after {passed} seconds"
    if name == "local":
        assert is_cut(user), "he was given a user"
    if name == "remote":
        says(sides.program, GONE)
    following = call(sides.bound)
    sides.peer = following
    following.sendall(frame(PING, ACK, 0, question(following)))
    following.sendall(frame(PING, SYN, 0, 7))
    assert take(following, 12) == frame(PING, ACK, 0, 7), "his place is not free"


def a_user_waits_for_a_sign():
    """He is given to the peer once it has shown that it speaks yamux, and not before."""
    sides = Sides("local")
    user = call(sides.place)
    user.sendall(b"hello")
    number = question(sides.peer)
    sides.peer.sendall(frame(PING, ACK, 0, number)[:-1])
    sides.peer.settimeout(PATIENCE / 2)
    try:
        raise AssertionError(f"{sides.peer.recv(100)!r} comes before a sign")
    except TimeoutError:
        sides.peer.settimeout(None)
    sides.peer.sendall(frame(PING, ACK, 0, number)[-1:])
    assert take(sides.peer, 12) == frame(WINDOW, SYN, 1, 0)
    assert take(sides.peer, 17) == frame(DATA, 0, 1, 5) + b"hello"


def a_slow_line():
    """One frame takes longer than a peer may be silent, and 5,000 bytes of it come in a second. Where this process is held
    up, the peer may have been silent for the program; so it is tried again."""
    for _ in range(ATTEMPTS):
        slowest = send_slowly(Sides("remote"))
        if slowest is None:
            return
        assert slowest > 2 * SLICE, "it is given up"
    raise AssertionError(f"it was held up {ATTEMPTS} times")


def send_slowly(sides):
    """Sends a frame of as many bytes as a stream has at first. None where they come; else how long it took at most to send a
    slice of it."""
    sides.peer.sendall(frame(PING, ACK, 0, question(sides.peer)))
    sides.peer.sendall(frame(WINDOW, SYN, 1, 0))
    other = accept(sides.target)
    data = BYTES[:FIRST_WINDOW]
    sides.peer.sendall(frame(DATA, 0, 1, len(data)))
    slowest, sent, began = 0, 0, time.monotonic()
    try:
        while time.monotonic() < began + 4 * PATIENCE:
            before = time.monotonic()
            count = int(5_000 * SLICE)
            sides.peer.sendall(data[sent : sent + count])
            sent += count
            time.sleep(SLICE)
            slowest = max(slowest, time.monotonic() - before)
        sides.peer.sendall(data[sent:])
        came = take(other, len(data))
    except (BrokenPipeError, ConnectionResetError):
        return slowest
    return None if came == data else slowest


def a_wire_that_is_stuck():
    """The peer neither reads nor says anything, while bytes for it wait. `remote` goes on with others."""
    sides = Sides("remote", "--keep")
    question(sides.peer)
    sides.peer.sendall(frame(0x1, SYN, 1, 1 << 24))
    says(sides.program, COME)
    other = accept(sides.target)
    other.setblocking(False)
    began = time.monotonic()
    try:
        while time.monotonic() < began + LATE:
            other.send(BYTES)
    except BlockingIOError:
        pass
    says_lost = sides.program.line()
    assert says_lost.startswith("ymx: connection 1: ") and "(lost)" in says_lost, says_lost
    says(sides.program, GONE)
    passed = time.monotonic() - began
    assert passed < LATE, f"given up after {passed} seconds"


TESTS = (
    ("a silent peer of remote", a_silent_peer, ("remote",)),
    ("a silent peer of local", a_silent_peer, ("local",)),
    ("a peer of remote that answers", a_peer_that_answers, ("remote",)),
    ("a peer of local that answers", a_peer_that_answers, ("local",)),
    ("a peer of remote that speaks", a_peer_that_speaks, ("remote",)),
    ("a peer of local that speaks", a_peer_that_speaks, ("local",)),
    ("bytes to remote that are no frames", bytes_that_are_no_frames, ("remote",)),
    ("bytes to local that are no frames", bytes_that_are_no_frames, ("local",)),
    ("a user waits for a sign", a_user_waits_for_a_sign, ()),
    ("a slow line", a_slow_line, ()),
    ("a wire that is stuck", a_wire_that_is_stuck, ()),
)


if __name__ == "__main__":
    sys.exit(raw.main(TESTS))
