"""Plays the peer of `ymx local` and of `ymx remote` frame by frame, with users and a target of its own, and looks at
what each does, says and answers: at its limits, where something fails, and where its words are bad.

The system chooses all ports but those that are used again. Nothing is proved by waiting: each test waits for what must come, for at most five
minutes.
It says which tests failed, and nothing where none did. No test follows one that hangs.

usage: raw.py YMX
"""

import functools
import os
import re
import signal
import socket
import struct
import subprocess
import sys
import time

sys.path.append(os.path.join(os.path.dirname(__file__), ".."))
from ports import free_ports

# How long a test may take, in seconds: also on a loaded machine.
SECONDS = int(os.environ.get("YMX_SECONDS", "300"))
DATA, WINDOW, PING, AWAY = 0, 1, 2, 3
SYN, ACK, FIN, RST = 1, 2, 4, 8
HEADER = struct.Struct(">BBHII")
# A header of version 1.
BAD = b"\x01" + bytes(11)
ANY = "127.0.0.1:0"
# At port 1 nobody listens.
NOBODY = "127.0.0.1:1"
# 192.0.2.7 is no address of this machine.
NOWHERE = "192.0.2.7:1"
GONE = "ymx: the peer has gone\n"
NOT_HERE = "no address of this machine"
FULL = f"ymx: --listen {ANY}: no descriptor left\n"
# How many bytes each side may send on a stream before any is granted.
FIRST_WINDOW = 262_144


# ---- what is logged


def refused(place):
    """Why the peer at this place can't be reached."""
    return f"ymx: --peer {place}: refused\n"


def broke(connection):
    """What rule was broken by the bytes of `BAD` that came from this end of a connection."""
    return "ymx: B1 from {}:{}: the version of a frame is not 0\n".format(*connection.getsockname())


# Whether the threads and the memory of the program's process are the program's: qemu has some of its own.
COUNTS = os.environ.get("YMX_UNDER_QEMU") != "yes"


# ---- the ends of connections


def frame(kind, flags, stream, length):
    return HEADER.pack(0, kind, flags, stream, length)


def listen():
    listener = socket.create_server(("127.0.0.1", 0))
    return listener, f"127.0.0.1:{listener.getsockname()[1]}"


def free_places(count):
    """So many places at which nobody listens, and which the system gives to no one: for those that are used again."""
    return [f"127.0.0.1:{port}" for port in free_ports(count)]


def free_place():
    return free_places(1)[0]


def call(address):
    host, port = address.rsplit(":", 1)
    return socket.create_connection((host, int(port)))


def accept(listener):
    connection, _ = listener.accept()
    return connection


def take(connection, count):
    """So many bytes, or fewer before the end."""
    came = b""
    while len(came) < count and (piece := connection.recv(count - len(came))):
        came += piece
    return came


def has_ended(connection):
    """Whether the end comes, and no byte before it."""
    return connection.recv(1) == b""


def is_cut(connection):
    """Whether it is reset, and no byte comes before, nor an end."""
    try:
        return connection.recv(1) is None
    except ConnectionResetError:
        return True


def is_cut_at(address):
    """Whether who calls there is reset, and sees no byte before, nor an end. The reset may come before the call has
    returned, which then tells of it."""
    try:
        return is_cut(call(address))
    except ConnectionResetError:
        return True


def next_frame(connection):
    """The type, the flags and the stream of the next frame, whose payload is dropped."""
    _, kind, flags, stream, length = HEADER.unpack(take(connection, HEADER.size))
    if kind == DATA:
        take(connection, length)
    return kind, flags, stream


def until(holds, seconds=60):
    """Waits until this holds, for so long at most."""
    late = time.monotonic() + seconds
    while not holds():
        assert time.monotonic() < late, f"it doesn't hold after {seconds} seconds"
        time.sleep(0.01)


def is_at_rest(*programs):
    """Whether all their threads wait, and went on waiting for half a second: so nothing is left of what came before."""
    before = [woken(program) for program in programs]
    time.sleep(0.5)
    return None not in before and before == [woken(program) for program in programs]


def woken(program):
    """How often its threads gave up the processor to wait. None where one doesn't wait now."""
    folder, counts = f"/proc/{program.process.pid}/task", {}
    for task in os.listdir(folder):
        try:
            with open(f"{folder}/{task}/status", encoding="utf-8") as status:
                lines = dict(line.split(":", 1) for line in status)
        except FileNotFoundError:
            return None
        if lines["State"].split()[0] != "S":
            return None
        counts[task] = int(lines["voluntary_ctxt_switches"])
    return counts


def leave(connection):
    """Ends this side of a connection, and reads up to the end of the other."""
    connection.shutdown(socket.SHUT_WR)
    while connection.recv(4096):
        pass
    connection.close()


def break_off(connection):
    """Ends a connection by a reset."""
    connection.setsockopt(socket.SOL_SOCKET, socket.SO_LINGER, struct.pack("ii", 1, 0))
    connection.close()


# ---- the program


def without_origins(said):
    """What it says, where each line of a connection has said who it is from, somebody of this machine, and where it had a
    stream how long it lasted, and each line of a peer where that is. A link may be named."""
    plain, count = re.subn(r"^(ymx: connection \d+) from 127\.0\.0\.1:\d+(?: by link \d+)?: ", r"\1: ", said, flags=re.MULTILINE)
    assert count == len(re.findall("^ymx: connection ", said, re.MULTILINE)), f"somebody of no address: {said!r}"
    plain, count = re.subn(r"^(ymx: connection \d+: .* from the peer \(.*\)), \d+\.\d{3} s$", r"\1", plain, flags=re.MULTILINE)
    assert count == len(re.findall(" from the peer ", said)), f"of no duration: {said!r}"
    plain, count = re.subn(r"^(ymx: the peer has (?:come|gone|gone before its first frame)) from 127\.0\.0\.\d+:\d+$", r"\1", plain, flags=re.MULTILINE)
    assert count == len(re.findall("^ymx: the peer has ", said, re.MULTILINE)), f"a peer of no address: {said!r}"
    return plain


class Program:
    """`ymx`, or another build of it, with these words, at most so many open files beside the one by which it hears a signal, and
    these variables beside its own."""

    running = []

    def __init__(self, *words, files=None, variables=None, build=None):
        limit = [] if files is None else ["sh", "-c", f'ulimit -n {files + hears_a_signal()} && exec "$@"', "sh"]
        # Without a buffer, as `readline` and `communicate` read the same pipe.
        self.process = subprocess.Popen([*limit, build or sys.argv[1], *words], stdin=subprocess.DEVNULL,
                                        stdout=subprocess.PIPE, stderr=subprocess.PIPE, bufsize=0,
                                        env={**os.environ, **(variables or {})})
        self.running.append(self.process)

    def line(self):
        """The next line that it says."""
        return without_origins(self.process.stderr.readline().decode())

    def place(self):
        """Where it says that it listens."""
        line = self.line()
        assert line.startswith("ymx: listening at "), line
        return line.split()[-1]

    def end(self):
        """Its status, and what else it says; it prints nothing."""
        out, said = self.process.communicate()
        assert out == b"", f"on standard output {out!r}"
        return self.process.returncode, without_origins(said.decode())


@functools.cache
def hears_a_signal():
    """Whether the program hears SIGUSR1, which takes a descriptor: one that is built without its parts in C doesn't."""
    program = Program("remote", "-v", "--bind", ANY, "--target", NOBODY)
    program.place()
    folder = f"/proc/{program.process.pid}/fd"
    files = [os.readlink(f"{folder}/{file}") for file in os.listdir(folder)]
    program.process.kill()
    program.end()
    return "anon_inode:[eventfd]" in files


def preloads(test):
    """A test that is left out where the command line names no such build."""
    test.preloads = True
    return test


def preloaded(*words, variables=None):
    """The build of `ymx` into which a library is loaded, both of which the command line names after `ymx`."""
    return Program(*words, build=sys.argv[2], variables={"LD_PRELOAD": sys.argv[3], **(variables or {})})


def local(*words, listen_at=ANY, files=None):
    """`ymx local -v`, and its connection to this peer."""
    listener, address = listen()
    program = Program("local", "-v", "--listen", listen_at, "--peer", address, *words, files=files)
    return program, accept(listener)


def remote(target, *words):
    """`ymx remote -v`, and a connection to it."""
    program = Program("remote", "-v", "--bind", ANY, "--target", target, *words)
    return program, call(program.place())


# ---- what is asked


def no_connections():
    program, peer = local("--count", "0")
    program.place()
    assert has_ended(peer), "something was sent"
    peer.close()
    assert program.end() == (0, "")


def the_third_of_two():
    """It ends once both streams have, and serves no third connection: it listens no more."""
    program, peer = local("--count", "2")
    place = program.place()
    users = [call(place), call(place)]
    opened = take(peer, 24)
    assert opened == frame(WINDOW, SYN, 1, 0) + frame(WINDOW, SYN, 3, 0), opened.hex()
    try:
        call(place).close()
        raise AssertionError("a third is connected")
    except ConnectionRefusedError:
        pass
    for stream in 1, 3:
        peer.sendall(frame(WINDOW, ACK | FIN, stream, 0))
    for user in users:
        user.shutdown(socket.SHUT_WR)
        assert has_ended(user)
    rest = take(peer, 1000)
    assert sorted([rest[:12], rest[12:]]) == [frame(WINDOW, FIN, stream, 0) for stream in (1, 3)], rest.hex()
    peer.close()
    status, said = program.end()
    assert status == 0 and len(said.splitlines()) == 2, said


def window_of_local():
    """Its SYN announces what is above the first window."""
    program, peer = local("--count", "1", "--window", "1048576")
    user = call(program.place())
    opened = take(peer, 12)
    assert opened == frame(WINDOW, SYN, 1, 1048576 - FIRST_WINDOW), opened.hex()
    peer.close()
    assert is_cut(user)
    assert program.end() == (0, GONE + "ymx: connection 1: 0 bytes to the peer (lost), 0 bytes from the peer (lost)\n")


def window_of_remote():
    """Its ACK does."""
    target, address = listen()
    program, peer = remote(address, "--window", "1048576")
    peer.sendall(frame(WINDOW, SYN, 1, 0))
    accepted = take(peer, 12)
    assert accepted == frame(WINDOW, ACK, 1, 1048576 - FIRST_WINDOW), accepted.hex()
    accept(target).close()
    leave(peer)
    assert program.end()[0] == 0


def a_second_peer():
    """`remote` serves one peer, and refuses others."""
    target, address = listen()
    program = Program("remote", "-v", "--bind", ANY, "--target", address)
    place = program.place()
    peer = call(place)
    peer.sendall(frame(PING, SYN, 0, 7))
    assert take(peer, 12) == frame(PING, ACK, 0, 7), "it serves the first"
    try:
        call(place).close()
        raise AssertionError("a second peer is connected")
    except ConnectionRefusedError:
        pass
    leave(peer)
    assert program.end() == (0, GONE)
    target.close()


def workers(words, count):
    """So many streams are served at once, and the next one as soon as one of them has ended."""
    target, address = listen()
    program, peer = remote(address, *words)
    streams = range(1, 2 * count + 3, 2)
    for stream in streams:
        peer.sendall(frame(WINDOW, SYN, stream, 0))
    served = [accept(target) for _ in range(count)]
    # A byte goes through each: all places are taken, and none is left for the last stream.
    for connection in served:
        connection.sendall(b"!")
    accepted, answers = set(), 0
    while answers < count:
        kind, flags, stream = next_frame(peer)
        if flags & ACK:
            accepted.add(stream)
        answers += kind == DATA
    assert len(accepted) == count, accepted
    target.setblocking(False)
    try:
        target.accept()
        raise AssertionError("one more is served")
    except BlockingIOError:
        target.setblocking(True)
    # The peer ends all, so that it doesn't matter which stream is the last.
    for stream in streams:
        peer.sendall(frame(WINDOW, FIN, stream, 0))
    for connection in served:
        connection.close()
    accept(target).close()
    leave(peer)
    status, said = program.end()
    assert status == 0 and said.count("ymx: connection ") == count + 1, said


def a_broken_session_of_local():
    """It answers with a Go Away, and ends at the next connection."""
    program, peer = local()
    place = program.place()
    peer.sendall(BAD)
    answer = take(peer, 1000)
    assert answer == frame(AWAY, 0, 0, 1), answer.hex()
    why = broke(peer)
    peer.close()
    assert is_cut_at(place)
    assert program.end() == (1, f"{why}{GONE}ymx: connection 1: no stream: Lost\nymx: session broken: B1\n")


def the_peer_says_that_it_broke():
    program, peer = remote("127.0.0.1:1")
    peer.sendall(frame(AWAY, 0, 0, 1))
    assert has_ended(peer)
    address = "{}:{}".format(*peer.getsockname())
    peer.close()
    assert program.end() == (1, f"ymx: B8 from {address}: the peer said that a rule was broken here\n{GONE}ymx: session broken: B8\n")


def the_connection_of_remote_breaks():
    """That is no fault of the session."""
    program, peer = remote("127.0.0.1:1")
    break_off(peer)
    assert program.end() == (0, GONE)


def the_connection_of_local_breaks():
    """The first connection loses its stream, and tells by a reset that the session is lost; the second gets none."""
    program, peer = local()
    place = program.place()
    user = call(place)
    opened = take(peer, 12)
    assert opened == frame(WINDOW, SYN, 1, 0), opened.hex()
    break_off(peer)
    assert is_cut(user)
    assert is_cut_at(place)
    status, said = program.end()
    assert status == 0 and sorted(said.splitlines()) == [
        "ymx: connection 1: 0 bytes to the peer (lost), 0 bytes from the peer (lost)",
        "ymx: connection 2: no stream: Lost",
        GONE.rstrip(),
    ], said


def local_cannot_listen():
    """It has called its peer by then, and leaves it."""
    program, peer = local(listen_at=NOWHERE)
    assert has_ended(peer)
    assert program.end() == (1, f"ymx: --listen {NOWHERE}: {NOT_HERE}\nymx: cannot listen at {NOWHERE}\n")


def an_accept_fails():
    # Open are standard input, output and error, and where it listens; of `local` the session's connection too, and the
    # set of what it waits for.
    program, peer = local(files=6)
    program.place()
    assert has_ended(peer)
    peer.close()
    assert program.end() == (1, f"{FULL}ymx: cannot listen at {ANY}\n")
    # A fault where peers come in names the port that the system chose. Of `remote` the set of what it waits for is open too.
    status, said = Program("remote", "--bind", ANY, "--target", NOBODY, files=5).end()
    place = r"(127\.0\.0\.1:[1-9][0-9]*)"
    assert status == 1 and re.fullmatch(rf"ymx: --bind {place}: no descriptor left\nymx: cannot listen at \1\n", said), (status, said)


def no_set_to_wait_for():
    """Without a descriptor for it nothing is done, and nothing is logged of listening."""
    program, peer = local(files=5)
    assert has_ended(peer)
    peer.close()
    assert program.end() == (1, f"{FULL}ymx: cannot listen at {ANY}\n")


def a_failed_accept_and_a_broken_session():
    """Both log the failed accept."""
    program, peer = local(files=7)
    user = call(program.place())
    assert take(peer, 12) == frame(WINDOW, SYN, 1, 0)
    peer.sendall(BAD)
    assert is_cut(user)
    peer.close()
    status, said = program.end()
    assert status == 1 and said.endswith(f"ymx: cannot listen at {ANY}\n") and said.count(FULL) == 1, said
    assert "broken" not in said, said


def one_more_than_may_wait():
    """256 streams may wait for their ACK. One more user waits until one has it; one who comes once the peer takes no more
    streams is closed."""
    program, peer = local("--count", "258")
    place = program.place()
    users = [call(place) for _ in range(257)]
    assert len(take(peer, 256 * 12)) == 256 * 12
    peer.sendall(frame(PING, SYN, 0, 7))
    assert take(peer, 12) == frame(PING, ACK, 0, 7), "a stream is opened"
    peer.sendall(frame(WINDOW, ACK, 1, 0))
    assert take(peer, 12) == frame(WINDOW, SYN, 513, 0)
    peer.sendall(frame(AWAY, 0, 0, 0) + frame(PING, SYN, 0, 8))
    assert take(peer, 12) == frame(PING, ACK, 0, 8)
    assert is_cut_at(place)
    assert program.line() == "ymx: connection 258: no stream: PeerAway\n"
    peer.close()
    for user in users:
        assert is_cut(user)
    assert program.end()[0] == 0


def who_it_is_from():
    """The line of a connection names the user at `local`, and the peer at `remote`."""
    program, peer = local("--count", "1")
    user = call(program.place())
    target, address = listen()
    far, caller = remote(address)
    for connection, stream in (peer, 12), (caller, 0):
        assert len(take(connection, stream)) == stream
    caller.sendall(frame(WINDOW, SYN, 1, 0))
    other = accept(target)
    peer.sendall(frame(WINDOW, ACK | FIN, 1, 0))
    caller.sendall(frame(WINDOW, FIN, 1, 0))
    user.shutdown(socket.SHUT_WR)
    other.close()
    for end, who in (program, user), (far, caller):
        place = "{}:{}".format(*who.getsockname())
        line = end.process.stderr.readline().decode()
        shape = f"ymx: connection 1 from {place}: 0 bytes to the peer (ended), 0 bytes from the peer (ended), "
        assert re.fullmatch(re.escape(shape) + r"\d+\.\d{3} s\n", line), line


def bad_words():
    """Nobody is called before all words are read."""
    peer, address = listen()
    for words, option, text in (
        (("local", "--listen", "x", "--peer", address), "listen", "x"),
        (("local", "--peer", "y", "--listen", "x"), "listen", "x"),
        (("remote", "--bind", address, "--target", "x"), "target", "x"),
        (("remote", "--bind", address, "--target", ""), "target", ""),
    ):
        end = Program(*words).end()
        wants = f"ymx: --{option}: it wants an IPv4 address and a port, as 127.0.0.1:8080\n"
        assert end == (2, f"{wants}ymx: bad address {text}\n"), (words, end)
    for words in ("--count", "x"), ("--window", "5"), ("--workers", "1"):
        status, said = Program("local", "--listen", ANY, "--peer", address, *words).end()
        assert status == 2 and re.match("(ymx: --workers is an option of `ymx remote`\n)?error: ", said), (words, status, said)
    peer.setblocking(False)
    try:
        peer.accept()
        raise AssertionError("it called its peer")
    except BlockingIOError:
        pass


TESTS = (
    ("--count 0", no_connections, ()),
    ("--count 2", the_third_of_two, ()),
    ("--window of local", window_of_local, ()),
    ("--window of remote", window_of_remote, ()),
    ("--workers 1", workers, (("--workers", "1"), 1)),
    ("--workers 16", workers, (("--workers", "16"), 16)),
    ("a second peer", a_second_peer, ()),
    ("a broken session of local", a_broken_session_of_local, ()),
    ("a peer that says that it broke", the_peer_says_that_it_broke, ()),
    ("a connection to remote that breaks", the_connection_of_remote_breaks, ()),
    ("a connection of local that breaks", the_connection_of_local_breaks, ()),
    ("local can't listen", local_cannot_listen, ()),
    ("an accept that fails", an_accept_fails, ()),
    ("no set to wait for", no_set_to_wait_for, ()),
    ("a failed accept and a broken session", a_failed_accept_and_a_broken_session, ()),
    ("257 opens", one_more_than_may_wait, ()),
    ("who a connection is from", who_it_is_from, ()),
    ("bad words", bad_words, ()),
)


def hangs(_signal, _frame):
    raise TimeoutError(f"it still waits after {SECONDS} seconds")


def main(tests):
    """Runs these tests, each with words of its own, and answers whether one failed."""
    signal.signal(signal.SIGALRM, hangs)
    failed = 0
    for name, test, words in tests:
        if hasattr(test, "preloads") and len(sys.argv) < 4:
            continue
        signal.alarm(SECONDS)
        try:
            test(*words)
        except (AssertionError, OSError, ValueError, struct.error) as fault:
            failed += 1
            print(f"FAIL  {name}: {fault!r}", flush=True)
            if isinstance(fault, TimeoutError):
                break
        finally:
            signal.alarm(0)
            for process in Program.running:
                process.kill()
                process.communicate()
            Program.running.clear()
    return failed != 0


if __name__ == "__main__":
    sys.exit(main(TESTS))
