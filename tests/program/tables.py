"""Looks at each row of the tables of docs/TUNNEL.md and docs/PROTOCOL.md that say what is logged and counted: the words of each rule
of yamux, of each reason of the system, and each label of the page.

The system is made to refuse by `strace`: where that isn't there, or may not look at another process, it prints one line that begins with
`--`, and leaves those rows out. It prints which tests failed, and nothing where none did.

usage: tables.py YMX
"""

import signal
import socket
import sys

import raw
from idle import why_not
from raw import ACK, ANY, AWAY, DATA, FIN, FIRST_WINDOW, NOBODY, PING, RST, SYN, WINDOW, Program, accept, break_off, call, frame
from raw import free_place, free_places, listen, take
from standard import listens
from status import await_counts, counts, wait_for

# ---- the rules

# What a peer of `remote` sends, and what the log says of it: each row of the faults of docs/PROTOCOL.md.
TYPE, FRAME = 4, 16_777_217
WINDOW_OF_BYTES = frame(DATA, SYN, 1, FIRST_WINDOW) + bytes(FIRST_WINDOW)
RULES = (
    (1, b"\x01" + bytes(11), "the version of a frame is not 0"),
    (2, frame(TYPE, 0, 0, 0), "the type of a frame is above 3"),
    (3, frame(WINDOW, SYN, 2, 0), "a stream was opened by an id that is not the opener's: both sides may be of one kind"),
    (3, frame(WINDOW, SYN, 0, 0), "a stream was opened by an id that is not the opener's: both sides may be of one kind"),
    (4, frame(WINDOW, SYN, 1, 0) * 2, "a stream was opened that is there already"),
    (5, frame(DATA, SYN, 1, FRAME), "more bytes came than a frame or a window may have"),
    (5, WINDOW_OF_BYTES + frame(DATA, 0, 1, FIRST_WINDOW), "more bytes came than a frame or a window may have"),
    (6, frame(WINDOW, SYN, 1, 0xFFFF_FFFF), "a window was lifted above 4294967295 bytes"),
    (7, frame(AWAY, 0, 0, 3), "the code of a Go Away is above 2"),
    (8, frame(AWAY, 0, 0, 1), "the peer said that a rule was broken here"),
    (9, frame(AWAY, 0, 0, 2), "the peer said that it has failed"),
)


def rules():
    """Each is logged by its number and its words, and is a fault; all but those that the peer itself names have a Go Away."""
    target, address = listen()
    for number, bad, words in RULES:
        program, peer = raw.remote(address)
        where = "{}:{}".format(*peer.getsockname())
        came = exchanged(peer, bad)
        assert (frame(AWAY, 0, 0, 1) in came) == (number < 8), f"B{number} is answered by {came.hex()}"
        status, said = program.end()
        assert status == 1, f"B{number}: status {status}"
        for line in f"ymx: B{number} from {where}: {words}\n", f"ymx: session broken: B{number}\n":
            assert line in said, f"it logs {said!r}, and not {line!r}"


def exchanged(peer, bad):
    """All that comes where this is sent."""
    came = b""
    try:
        peer.sendall(bad)
        while piece := peer.recv(65_536):
            came += piece
    except OSError:
        pass
    peer.close()
    return came


# ---- the reasons of the system

# Each error of the system's that a call of these names may have, and what the log says of it. EAFNOSUPPORT is 97, and has no words.
CONNECTING = (
    ("ECONNREFUSED", "refused"), ("EHOSTUNREACH", "unreachable"), ("ENETUNREACH", "unreachable"), ("ENETDOWN", "unreachable"),
    ("ETIMEDOUT", "timed out"), ("EADDRNOTAVAIL", "no port left"), ("EACCES", "permission denied"), ("EPERM", "permission denied"),
    ("EMFILE", "no descriptor left"), ("ENFILE", "no descriptor left"), ("ENOBUFS", "no memory"), ("ENOMEM", "no memory"),
    ("ECONNRESET", "reset"), ("EAFNOSUPPORT", "error 97"),
)
LISTENING = (
    ("EADDRINUSE", "address in use"), ("EACCES", "permission denied"), ("EADDRNOTAVAIL", "no address of this machine"),
    ("EMFILE", "no descriptor left"), ("ENOBUFS", "no memory"), ("ENOMEM", "no memory"), ("EAFNOSUPPORT", "error 97"),
)
# How a target may not have been reached: the label of each.
TARGETS = (
    ("ECONNREFUSED", "refused"), ("EHOSTUNREACH", "unreachable"), ("ETIMEDOUT", "timed_out"), ("EADDRNOTAVAIL", "no_port"),
    ("EMFILE", "no_descriptor"), ("EACCES", "other"),
)


def refusing(name, error, *words):
    """The program, each of whose calls of this name the system refuses so."""
    return Program("-f", "-q", "-o", "/dev/null", "-e", f"inject={name}:error={error}", sys.argv[1], *words, build="strace")


def reasons():
    """Each has its words after the option that was refused, and before the fault."""
    for error, words in CONNECTING:
        end = refusing("connect", error, "local", "--listen", ANY, "--peer", NOBODY).end()
        assert end == (1, f"ymx: --peer {NOBODY}: {words}\nymx: cannot reach {NOBODY}\n"), (error, end)
    for error, words in LISTENING:
        for option in "listen", "bind":
            place, name = ("--listen", "local") if option == "listen" else ("--bind", "remote")
            rest = ("--peer", NOBODY, "--keep") if name == "local" else ("--target", NOBODY)
            end = refusing("bind", error, name, place, ANY, *rest).end()
            assert end == (1, f"ymx: {place} {ANY}: {words}\nymx: cannot listen at {ANY}\n"), (error, end)


def a_user_who_went_away():
    """An accept whose connection has gone meanwhile, or that a signal ends, is made again: the user after it is served."""
    for error in "ECONNABORTED", "EINTR":
        peers, address = listen()
        program = refusing("accept4", f"{error}:when=1", "local", "-v", "--listen", ANY, "--peer", address, "--count", "1")
        peer = accept(peers)
        user = call(program.place())
        assert take(peer, 12) == frame(WINDOW, SYN, 1, 0), error
        peer.sendall(frame(WINDOW, ACK | FIN, 1, 0))
        user.close()
        raw.leave(peer)
        status, said = program.end()
        assert status == 0, (error, status, said)


# ---- the page

# Each family of docs/TUNNEL.md, with its label and the values of it.
FAMILIES = {
    "ymx_bytes_total": ("to_peer", "from_peer"),
    "ymx_connections_begun_total": None,
    "ymx_connections_ended_total": ("ended", "connection_failed", "idle", "reset", "lost", "no_memory", "refused"),
    "ymx_connections_refused_total": ("lost", "peer_away", "no_memory", "unwatched", "other"),
    "ymx_connections_open": None,
    "ymx_connection_oldest_seconds": None,
    "ymx_peers_come_total": None,
    "ymx_peers_gone_total": None,
    "ymx_peers": None,
    "ymx_places": None,
    "ymx_users_waiting": None,
    "ymx_targets_unreached_total": ("refused", "unreachable", "timed_out", "no_port", "no_descriptor", "other"),
    "ymx_streams_rejected_total": None,
    "ymx_system_refusals_total": None,
    "ymx_draining": None,
}


def families():
    """The page has these, each of which is 0 where nothing has happened."""
    wanted = {(family, value) if values else family for family, values in FAMILIES.items() for value in values or ("",)}
    for name, words in ("local", ("--keep", "--listen", ANY, "--peer", NOBODY)), ("remote", ("--bind", ANY, "--target", NOBODY)):
        page = free_place()
        Program(name, "--status", page, *words)
        wait_for(page)
        samples = counts(page)
        assert set(samples) == wanted, f"the page lacks {wanted - set(samples)}, and has {set(samples) - wanted}"
        assert not any(samples[it] for it in wanted), {it: samples[it] for it in wanted if samples[it]}


def counted(page, family, value, count=1):
    """Waits until it is so often counted there, and nowhere else in its family."""
    def is_so():
        samples = counts(page)
        return all(samples[family, it] == (count if it == value else 0) for it in FAMILIES[family])
    raw.until(is_so)


def endings():
    """How a connection of `local` ends is counted by its name."""
    peers, address = listen()
    for ending in "ended", "connection_failed", "idle", "reset", "lost":
        page = free_place()
        words = ("--idle", "1") if ending == "idle" else ()
        program = Program("local", "-v", "--listen", ANY, "--peer", address, "--status", page, *words)
        peer = accept(peers)
        user = call(program.place())
        assert take(peer, 12) == frame(WINDOW, SYN, 1, 0)
        peer.sendall(frame(WINDOW, ACK, 1, 0))
        if ending == "ended":
            peer.sendall(frame(WINDOW, FIN, 1, 0))
            user.shutdown(socket.SHUT_WR)
        elif ending == "connection_failed":
            break_off(user)
        elif ending == "reset":
            peer.sendall(frame(WINDOW, RST, 1, 0))
        elif ending == "lost":
            break_off(peer)
        counted(page, "ymx_connections_ended_total", ending)
        await_counts(page, connections_begun_total=1, connections_open=0, connection_oldest_seconds=0)
        program.process.kill()


def a_user_who_has_gone():
    """He is named, also where he had gone before he was accepted."""
    program, peer = raw.local()
    place = program.place()
    program.process.send_signal(signal.SIGSTOP)
    user = call(place)
    where = "{}:{}".format(*user.getsockname())
    break_off(user)
    program.process.send_signal(signal.SIGCONT)
    line = program.process.stderr.readline().decode()
    assert line.startswith(f"ymx: connection 1 from {where}: "), line
    peer.close()


def causes():
    """Why a user has no stream is counted by its name."""
    page, peers = free_place(), listen()
    program = Program("local", "-v", "--listen", ANY, "--peer", peers[1], "--status", page)
    peer = accept(peers[0])
    place = program.place()
    peer.sendall(frame(AWAY, 0, 0, 0) + frame(PING, SYN, 0, 7))
    assert take(peer, 12) == frame(PING, ACK, 0, 7)
    assert raw.is_cut_at(place)
    counted(page, "ymx_connections_refused_total", "peer_away")
    page = free_place()
    program = Program("local", "-v", "--keep", "--listen", ANY, "--peer", NOBODY, "--status", page)
    assert raw.is_cut_at(program.place())
    counted(page, "ymx_connections_refused_total", "lost")


def targets():
    """A target that can't be reached is counted by the reason, and what was begun for it has ended: whether the system refuses at once, or
    later."""
    for error, label in TARGETS:
        bound, page = free_places(2)
        program = refusing("connect", error, "remote", "--bind", bound, "--target", NOBODY, "--status", page)
        wait_for(page)
        raw.until(lambda: listens(bound))
        streams = (1, 3, 5)
        peer = call(bound)
        for stream in streams:
            peer.sendall(frame(WINDOW, SYN, stream, 0))
        reset = set()
        while reset < set(streams):
            kind, flags, stream = raw.next_frame(peer)
            reset |= {stream} if kind == WINDOW and flags & RST else set()
        counted(page, "ymx_targets_unreached_total", label, len(streams))
        counted(page, "ymx_connections_ended_total", "connection_failed", len(streams))
        is_short = label in ("no_port", "no_descriptor")
        await_counts(page, connections_open=0, connections_begun_total=len(streams), system_refusals_total=len(streams) * is_short)
        # (what is traced would outlive a tracer that is killed)
        raw.leave(peer)
        assert program.end()[0] == 0


REFUSED = (
    ("each reason of the system", reasons, ()),
    ("each reason of a target", targets, ()),
    ("a user who went away", a_user_who_went_away, ()),
)
TESTS = (
    ("each rule", rules, ()),
    ("each family of the page", families, ()),
    ("each ending", endings, ()),
    ("each cause", causes, ()),
    ("a user who has gone", a_user_who_has_gone, ()),
)


def main():
    why = why_not() if raw.COUNTS else "qemu makes calls of its own"
    if why:
        what = "left out" if raw.COUNTS else "can't be tried here"
        print(f"--    refusals of the system: {what}: {why}")
    return raw.main(TESTS + (() if why else REFUSED))


if __name__ == "__main__":
    sys.exit(main())
