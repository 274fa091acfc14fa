"""Has an end do nothing in each mode that it has, and asks the system how often it woke, and how much it ran: never, but where a
documented option or a peer that is away has it look now and then.

It prints which tests failed, and nothing where none did.

usage: asleep.py YMX
"""

import os
import sys
import time

import raw
from beside import Peer
from kept import local_kept
from raw import ACK, ANY, NOBODY, PING, SYN, Program, accept, break_off, call, frame, free_place, free_places, listen, take
from timeouts import Silent

# For how many seconds it is looked at, and how often that is tried: what was still to be done may be done meanwhile.
WINDOW, ATTEMPTS = 3, 5
# How often a second it may wake: never, for `--idle` and what follows a loss once a second, for `--ping` with the answer
# of its peer, and some ten times a second while it connects, or pauses before it connects again.
NEVER, EACH_SECOND, ASKED, CONNECTING = 0, 3, 12, 15
# Which share of a processor it may use, where it wakes at all.
SHARE = 0.02


def wakes(process):
    """How often its threads gave up the processor to wait, and how many seconds they have used."""
    count, used = 0, 0
    folder = f"/proc/{process.pid}/task"
    for task in os.listdir(folder):
        with open(f"{folder}/{task}/status") as status:
            count += next(int(line.split()[1]) for line in status if line.startswith("voluntary"))
        with open(f"{folder}/{task}/stat") as stat:
            fields = stat.read().rsplit(") ", 1)[1].split()
        used += (int(fields[11]) + int(fields[12])) / os.sysconf("SC_CLK_TCK")
    return count, used


# ---- the modes: each begins a program, and gives it with what has to stay open


def local_alone(*words):
    """It waits for users, and has its peer, or connects to it only when the first one comes."""
    listener, address = listen()
    program = Program("local", "-v", "--listen", ANY, "--peer", address, *words)
    program.place()
    return program, [listener, *(accept(listener) for _ in range(0 if "--keep" in words else 1))]


def local_awaits(*words):
    """It waits for its peer."""
    program = Program("local", "-v", "--listen", ANY, "--bind", ANY, *words)
    return program, [program.place(), program.place()]


def remote_awaits(*words):
    """The same at the other side."""
    program = Program("remote", "-v", "--bind", ANY, "--target", NOBODY, *words)
    return program, [program.place()]


def remote_has_peers(count, *words):
    """So many peers are there, each of which was answered."""
    program = Program("remote", "-v", "--bind", ANY, "--target", NOBODY, *words)
    place = program.place()
    peers = [call(place) for _ in range(count)]
    for peer in peers:
        peer.sendall(frame(PING, SYN, 0, 7))
        until_answered(peer)
    return program, peers


def until_answered(peer):
    """Takes frames until its question is answered, and answers those of the program once."""
    while (came := take(peer, 12)) != frame(PING, ACK, 0, 7):
        peer.sendall(came[:3] + b"\2" + came[4:])


def between_users(*words):
    """Both ends, after a user has come and gone."""
    target, address = listen()
    far = Program("remote", "-v", "--bind", ANY, "--target", address)
    near = Program("local", "-v", "--listen", ANY, "--peer", far.place(), *words)
    user, service = pair(near.place(), target)
    return near, far, user, service, target


def pair(place, target):
    """A user and its service, between which a byte has gone each way."""
    user = call(place)
    user.sendall(b"?")
    service = accept(target)
    assert take(service, 1) == b"?"
    service.sendall(b"!")
    assert take(user, 1) == b"!"
    return user, service


def after_users(*words):
    near, far, user, service, target = between_users(*words)
    user.close()
    assert take(service, 1) == b""
    service.close()
    return near, [far, target]


def beside_users(*words):
    near, *others = between_users(*words)
    return near, others


def a_dead_link(*words):
    """One of two is lost, the other has a user."""
    listener, address = listen()
    near = Program("local", "-v", "--links", "2", "--listen", ANY, "--peer", address, *words)
    place = near.place()
    user = call(place) if "--keep" in words else None
    links = [Peer(accept(listener)) for _ in range(2)]
    for link in links:
        link.connection.sendall(frame(PING, ACK, 0, 1 << 31) + frame(PING, SYN, 0, 7))
        until_answered(link.connection)
    break_off(links[1].connection)
    while "gone" not in (line := near.line()):
        assert line, "it has ended"
    return near, [listener, links[0], user or call(place)]


def connects(name, *words):
    """It connects to a peer that doesn't answer."""
    silent = Silent()
    if name == "local":
        program = Program("local", "-v", "--keep", "--timeout", "600", "--listen", ANY, "--peer", silent.place, *words)
        return program, [silent, call(program.place())]
    return Program("remote", "-v", "--keep", "--timeout", "600", "--peer", silent.place, "--target", NOBODY, *words), [silent]


def without_descriptors():
    """A user has none, and waits until one is free: that is looked at once a second."""
    program, place, user, peer, listener = local_kept("--count", "9", files=8)
    users = [user, *(call(place) for _ in range(4))]
    while "no descriptor left" not in program.line():
        pass
    return program, [users, peer, listener]


def between_tries():
    """Nobody listens where it connects to: it pauses, for four seconds in the end."""
    program = Program("remote", "-v", "--keep", "--peer", free_place(), "--target", NOBODY)
    for _ in range(3):
        while "cannot reach" not in program.line():
            pass
    return program, []


PAGES = free_places(3)
MODES = (
    ("local, for users", NEVER, local_alone, ()),
    ("local --keep, for its first user", NEVER, local_alone, ("--keep",)),
    ("local --links 3 --keep, for its first user", NEVER, local_alone, ("--keep", "--links", "3")),
    ("local --status", NEVER, local_alone, ("--keep", "--status", PAGES[0])),
    ("local --keep --idle, for its first user", NEVER, local_alone, ("--keep", "--idle", "100")),
    ("local --bind, for its peer", NEVER, local_awaits, ()),
    ("local --bind --keep, for its peer", NEVER, local_awaits, ("--keep",)),
    ("remote, for its peer", NEVER, remote_awaits, ()),
    ("remote --keep, for a peer", NEVER, remote_awaits, ("--keep",)),
    ("remote --peers 4, for a peer", NEVER, remote_awaits, ("--peers", "4")),
    ("remote --status, for its peer", NEVER, remote_awaits, ("--status", PAGES[1])),
    ("remote, with its peer", NEVER, remote_has_peers, (1,)),
    ("remote --keep, with three peers", NEVER, remote_has_peers, (3, "--keep")),
    ("remote --peers 2, all of which are there", NEVER, remote_has_peers, (2, "--peers", "2")),
    ("remote --keep --status --idle, with a peer", NEVER, remote_has_peers, (1, "--keep", "--idle", "100", "--status", PAGES[2])),
    ("local, after a user", NEVER, after_users, ()),
    ("local --keep, after a user", NEVER, after_users, ("--keep",)),
    ("local --idle, after a user", NEVER, after_users, ("--keep", "--idle", "100")),
    ("local --idle, beside a user", EACH_SECOND, beside_users, ("--idle", "100")),
    ("local --keep, beside a user", NEVER, beside_users, ("--keep",)),
    ("local --ping, beside a user", ASKED, beside_users, ("--ping", "1")),
    ("local --links, beside a dead one", NEVER, a_dead_link, ()),
    ("local --links --keep, beside a dead one", NEVER, a_dead_link, ("--keep",)),
    ("local --keep, without descriptors", EACH_SECOND, without_descriptors, ()),
    ("local --keep, while it connects", CONNECTING, connects, ("local",)),
    ("remote --keep, while it connects", CONNECTING, connects, ("remote",)),
    ("remote --keep, between two tries", CONNECTING, between_tries, ()),
)


def looked_at(programs):
    """What each has done while nothing was to be done: how often it woke, and how many seconds it ran."""
    before = [wakes(program.process) for program in programs]
    time.sleep(WINDOW)
    after = [wakes(program.process) for program in programs]
    return [(woke - had_woken, ran - had_run) for (woke, ran), (had_woken, had_run) in zip(after, before)]


def all_modes():
    """Each sleeps in one of some windows at least."""
    left = []
    for name, most, begin, words in MODES:
        program, kept = begin(*words)
        left.append((name, most, program, kept))
    for _ in range(ATTEMPTS):
        done = looked_at([program for _, _, program, _ in left])
        awake = [(mode, woke, ran) for mode, (woke, ran) in zip(left, done)
                 if woke > mode[1] * WINDOW or ran > SHARE * WINDOW]
        left = [mode for mode, _, _ in awake]
        if not left:
            return
    raise AssertionError("; ".join(f"{mode[0]}: it wakes {woke} times in {WINDOW} seconds, and runs for {ran:.2f}" for mode, woke, ran in awake))


TESTS = (("each mode", all_modes, ()),) if raw.COUNTS else ()


if __name__ == "__main__":
    sys.exit(raw.main(TESTS))
