"""Calls `ymx remote --bind` and `ymx local --bind` from where peers may call, and from elsewhere; with more peers, or more
links, than there are places; and with garbage. Looks who is let in, who is closed, at once and with nothing read, and how much
is said of it.

It says which tests failed, and nothing where none did. No test follows one that hangs.

usage: strangers.py YMX
"""

import re
import socket
import sys
import threading
import time

import raw
from kept import COME, is_served, says
from links import SILENT, ask, echo
from raw import ACK, ANY, BAD, GONE, NOBODY, PING, SYN, WINDOW, Program
from raw import accept, call, frame, free_places, has_ended, leave, listen, take
from standard import await_listener
from status import drain

# Who may call, and who may not.
FRIEND, STRANGER = "127.0.0.1", "127.0.0.2"
# So many peers `remote --keep` serves at once.
PLACES = 16
USERS, LINKS = 64, 32
# So many don't speak yamux.
BAD_CALLS = 2_000
# So often a silent one may be the peer before one that speaks is, where this process is held up.
SILENT_TURNS = 10
LEFT_OUT = re.compile(r"ymx: (\d+) lines? like those before w(?:as|ere) left out\n")


def call_from(host, place):
    """A connection to this place from this address."""
    address, port = place.rsplit(":", 1)
    return socket.create_connection((address, int(port)), source_address=(host, 0))


def is_closed(connection):
    """It is closed, whether by an end or by a reset, and no byte comes."""
    try:
        return connection.recv(1) == b""
    except ConnectionResetError:
        return True


def rejected(connection, why="--from denies it"):
    return "ymx: rejected a peer from {}:{}: {}\n".format(*connection.getsockname(), why)


def only_from_there(networks, *words):
    """Who calls from elsewhere is closed, with -v is logged, and the next one is served."""
    target, address = listen()
    options = [word for network in networks for word in ("--from", network)]
    program = Program("remote", "-v", "--bind", ANY, "--target", address, *options, *words)
    place = program.place()
    stranger = call_from(STRANGER, place)
    assert is_closed(stranger), "a stranger is admitted"
    says(program, rejected(stranger))
    # Another one is closed, and within a second left out of the log, and counted.
    other = call_from(STRANGER, place)
    assert is_closed(other), "a stranger is admitted"
    peer = call_from(FRIEND, place)
    assert is_served(peer)
    if words:
        line = program.line()
        if line == rejected(other) or LEFT_OUT.fullmatch(line):
            line = program.line()
        assert line == COME, line
    peer.sendall(frame(WINDOW, SYN, 1, 0))
    accept(target)
    leave(peer)


def of_local(*words):
    """The peer of `local` is one of them, and no user is given to another."""
    program = Program("local", "-v", "--bind", ANY, "--listen", ANY, "--from", FRIEND, *words)
    bound, place = program.place(), program.place()
    stranger = call_from(STRANGER, bound)
    assert is_closed(stranger), "a stranger is admitted"
    says(program, rejected(stranger))
    peer = call_from(FRIEND, bound)
    if words:
        # With --keep it is asked for a sign of life.
        assert take(peer, 12) == frame(PING, SYN, 0, 0)
    assert is_served(peer)
    if words:
        says(program, COME)
    call(place)
    assert take(peer, 12) == frame(WINDOW, SYN, 1, 0)


def silent_ones():
    """As many as there are places hold them for twice the seconds of --ping, and no longer. One more is closed at once. None
    is told to have come."""
    program = Program("remote", "-v", "--keep", "--ping", "3", "--bind", ANY, "--target", NOBODY)
    place = program.place()
    silent = [call(place) for _ in range(PLACES)]
    further = call(place)
    assert is_closed(further), "it is let in"
    says(program, rejected(further, "--peers reached"), *[GONE] * PLACES)
    for connection in silent:
        assert take(connection, 13) == frame(PING, SYN, 0, 0), "it was handed more"
    peer = call(place)
    question = take(peer, 12)
    peer.sendall(question[:3] + bytes([ACK]) + question[4:])
    assert is_served(peer)


def call_again_and_again(place, is_over):
    """Calls there, says nothing, and calls again as soon as that is closed, until it is over."""
    while not is_over.is_set():
        try:
            connection = call(place)
            while connection.recv(4096):
                pass
        except OSError:
            pass


def see_the_peer_come(near):
    """After some silent ones that have gone it is logged that the peer has come."""
    turns = 1
    while (said := near.line()) != COME:
        turns += 1
        assert said == GONE and turns < SILENT_TURNS, f"the peer has not come, but {said!r}, {turns} times"


def a_silent_one_that_calls_again():
    """It keeps nobody out: who calls meanwhile is the next peer, and its users are served."""
    target, address = listen()
    threading.Thread(target=echo, args=(target,), daemon=True).start()
    near = Program("local", "-v", "--keep", "--ping", "1", "--bind", ANY, "--listen", ANY)
    place, users = near.place(), near.place()
    is_over = threading.Event()
    threading.Thread(target=call_again_and_again, args=(place, is_over), daemon=True).start()
    try:
        says(near, GONE)
        Program("remote", "--keep", "--peer", place, "--target", address)
        see_the_peer_come(near)
        bad = []
        ask(users, 1, bad)
        assert not bad, "a user was not served"
    finally:
        is_over.set()


def garbage():
    """Of many calls with garbage a line of each kind is logged in a second. The others are counted, the last ones at the end."""
    place, page = free_places(2)
    program = Program("remote", "--keep", "--bind", place, "--target", NOBODY, "--status", page)
    await_listener(page)
    await_listener(place)
    since = time.monotonic()
    for _ in range(BAD_CALLS):
        connection = call(place)
        connection.sendall(BAD)
        is_closed(connection)
        connection.close()
    drain(page)
    _, text = program.end()
    seconds = time.monotonic() - since
    said, left_out = [], 0
    for line in text.splitlines(keepends=True):
        if found := LEFT_OUT.fullmatch(line):
            left_out += int(found[1])
        else:
            assert re.match("ymx: (B1 from|session broken: B1$)", line), line
            said.append(line)
    assert len(said) + left_out == 2 * BAD_CALLS, f"{len(said)} lines, and {left_out} left out, of {BAD_CALLS} calls"
    assert len(said) <= 2 * (int(seconds) + 1), f"{len(said)} lines in {seconds} seconds"
    assert said[0].startswith("ymx: B1 from 127.0.0.1:") and said[1] == "ymx: session broken: B1\n", said[:2]


def more_links_than_places(*words):
    """A `remote`, its `local`, which has more links than that has places, and where users connect to."""
    target, address = listen()
    threading.Thread(target=echo, args=(target,), daemon=True).start()
    far = Program("remote", "--keep", "--bind", ANY, "--target", address, "-v")
    peer = far.place()
    threading.Thread(target=far.process.stderr.read, daemon=True).start()
    near = Program("local", "-v", "--links", str(LINKS), "--listen", ANY, "--peer", peer, *words)
    return far, near, near.place()


def ask_all(place):
    """Each user has its bytes."""
    bad = []
    for _ in range(2):
        users = [threading.Thread(target=ask, args=(place, seed, bad)) for seed in range(USERS)]
        for user in users:
            user.start()
        for user in users:
            user.join()
    assert not bad, f"{len(bad)} came back otherwise"


def links_without_a_place():
    """Users are served by the links that have a place."""
    _, near, place = more_links_than_places()
    threading.Thread(target=near.process.stderr.read, daemon=True).start()
    ask_all(place)


def what_is_told_of_them():
    """With `--keep` too. It is told that a peer has gone once for each that was told to have come, and that one has without a
    sign of life once in a second at most."""
    since = time.monotonic()
    far, near, place = more_links_than_places("--keep")
    lines = []
    reader = threading.Thread(target=lambda: lines.extend(raw.without_origins(line.decode()) for line in near.process.stderr), daemon=True)
    reader.start()
    # One for each link, so that all are called, and as many as have a place serve.
    users = [call(place) for _ in range(LINKS)]
    for user in users:
        user.sendall(b"!")
        assert take(user, 1) == b"!"
    ask_all(place)
    seconds = time.monotonic() - since
    assert GONE not in lines, "a peer is told to have gone that was never told to have come"
    far.process.kill()
    far.process.wait()
    while lines.count(GONE) < PLACES:
        time.sleep(0.01)
    near.process.kill()
    reader.join()
    come, gone, silent = lines.count(COME), lines.count(GONE), lines.count(SILENT)
    assert come == gone == PLACES, f"{come} have come, and {gone} have gone"
    assert 1 <= silent <= int(seconds) + 1, f"{silent} times in {seconds} seconds"


TESTS = (
    ("remote --from", only_from_there, ((f"{FRIEND}/32",),)),
    ("remote --keep --from", only_from_there, ((f"{FRIEND}/32",), "--keep")),
    ("several --from", only_from_there, (("10.0.0.0/8", FRIEND), "--keep")),
    ("local --from", of_local, ()),
    ("local --keep --from", of_local, ("--keep",)),
    ("silent ones", silent_ones, ()),
    ("a silent one that calls again and again", a_silent_one_that_calls_again, ()),
    ("garbage", garbage, ()),
    ("links without a place", links_without_a_place, ()),
    ("what is told of links without a place", what_is_told_of_them, ()),
)

if __name__ == "__main__":
    sys.exit(raw.main(TESTS))
