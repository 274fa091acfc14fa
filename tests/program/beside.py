"""Plays the peer of `ymx local` and of `ymx remote` with many connections at once, and looks whether one that stands
still holds up the others, and whether each way of a connection ends by itself.

The peer keeps to yamux: it grants what it has read, and sends no more than it was granted. It says which tests failed,
and nothing where none did. No test follows one that hangs.

usage: beside.py YMX
"""

import os
import random
import signal
import socket
import struct
import sys
import threading
import time

import raw
from raw import ACK, ANY, DATA, FIN, FIRST_WINDOW, HEADER, PING, SYN, WINDOW
from raw import GONE, accept, call, frame, has_ended, leave, listen, local, remote, take

RST = 8
IDLE = 300
MEGABYTE = random.Random(5).randbytes(1_000_000)
AT_ONCE = 65_536
# So many users come, and send, at once: that comes in a few pieces of data, which a field of `struct tcp_info` of linux/tcp.h counts.
AT_ONCE_USERS, FEW = 60, 6
PIECES, PIECES_AT = struct.Struct("=I"), 152
# How much of a wire the system may hold unsent, and how much a frame carries at most.
UNSENT, FRAME = 65_536, 16_384
FAILED = "0 bytes to the peer (connection failed: refused), 0 bytes from the peer (connection failed: refused)"


class Stream:
    """One stream, as the peer knows it."""

    def __init__(self):
        self.came = b""
        self.credit = FIRST_WINDOW
        self.flags = 0


class Peer:
    """The other side of a session."""

    def __init__(self, connection):
        connection.setsockopt(socket.IPPROTO_TCP, socket.TCP_NODELAY, 1)
        self.connection = connection
        self.streams = {}

    def stream(self, number):
        return self.streams.setdefault(number, Stream())

    def turn(self):
        """Takes one frame."""
        _, kind, flags, number, length = HEADER.unpack(take(self.connection, HEADER.size))
        if kind == PING:
            self.connection.sendall(frame(PING, ACK, 0, length))
            return
        assert kind in (DATA, WINDOW), f"a frame of type {kind}, with {length}"
        stream = self.stream(number)
        stream.flags |= flags
        if kind == WINDOW:
            stream.credit += length
        elif length:
            stream.came += take(self.connection, length)
            self.connection.sendall(frame(WINDOW, 0, number, length))

    def await_flag(self, number, flag):
        while not self.stream(number).flags & flag:
            self.turn()

    def open(self, number):
        """Opens a stream, and waits until it is taken or reset."""
        self.connection.sendall(frame(WINDOW, SYN, number, 0))
        self.await_flag(number, ACK | RST)

    def accept(self, number):
        """Takes the stream of this number, once it comes."""
        self.await_flag(number, SYN)
        self.connection.sendall(frame(WINDOW, ACK, number, 0))

    def send(self, number, data):
        """Sends bytes, as credit comes."""
        stream = self.stream(number)
        while data:
            while stream.credit == 0:
                self.turn()
            count = min(stream.credit, AT_ONCE, len(data))
            stream.credit -= count
            self.connection.sendall(frame(DATA, 0, number, count) + data[:count])
            data = data[count:]

    def receive(self, number, count):
        """The next bytes of a stream."""
        stream = self.stream(number)
        while len(stream.came) < count:
            self.turn()
        came, stream.came = stream.came[:count], stream.came[count:]
        return came

    def finish(self, number):
        self.connection.sendall(frame(WINDOW, FIN, number, 0))


class Side:
    """One `ymx` with a peer, and so many connections of users or to a target on its other side."""

    def __init__(self, name, count, *words):
        self.name = name
        self.begun = 0
        if name == "local":
            self.program, connection = local("--count", str(count), *words)
            self.place = self.program.place()
        else:
            self.target, address = listen()
            self.program, connection = remote(address, *words)
        self.peer = Peer(connection)

    def connect(self):
        """The next connection, and the number of its stream."""
        number = 2 * self.begun + 1
        self.begun += 1
        if self.name == "local":
            other = call(self.place)
            self.peer.accept(number)
        else:
            self.peer.open(number)
            other = accept(self.target)
        return other, number

    def ends(self):
        """Both ways of all connections have ended, so the program ends well. What it says of each connection."""
        leave(self.peer.connection)
        status, said = self.program.end()
        assert status == 0, (status, said)
        return [line.split(": ", 2)[2] for line in said.replace(GONE, "").splitlines()]


def swap(peer, number, other, data):
    """These bytes go through a connection each way, a part at a time."""
    for start in range(0, len(data), 100_000):
        piece = data[start : start + 100_000]
        peer.send(number, piece)
        assert take(other, len(piece)) == piece, "other bytes come from the peer"
        other.sendall(piece)
        assert peer.receive(number, len(piece)) == piece, "other bytes come to the peer"


def processor(program):
    """How many seconds of the processor it has used."""
    with open(f"/proc/{program.process.pid}/stat") as file:
        fields = file.read().rsplit(") ", 1)[1].split()
    return (int(fields[11]) + int(fields[12])) / os.sysconf("SC_CLK_TCK")


def idle_beside_busy(name):
    """Many connections stand still beside one with traffic, and then serve. While all stand still it doesn't run."""
    side = Side(name, IDLE + 1)
    idle = [side.connect() for _ in range(IDLE)]
    busy, number = side.connect()
    swap(side.peer, number, busy, MEGABYTE)
    raw.until(lambda: raw.is_at_rest(side.program))
    for other, stream in idle:
        swap(side.peer, stream, other, b"!")
    for other, stream in [*idle, (busy, number)]:
        side.peer.finish(stream)
        other.close()
        side.peer.await_flag(stream, FIN)
    assert len(side.ends()) == IDLE + 1


def unread_beside_others(name):
    """One who reads nothing, to whom more comes than the system keeps, holds up nobody, and gets all in the end."""
    side = Side(name, 2, "--window", "16777216")
    silent, first = side.connect()
    other, second = side.connect()
    side.peer.await_flag(first, SYN | ACK)
    granted = side.peer.stream(first).credit
    assert granted == 16_777_216, granted
    many = MEGABYTE * 12
    side.peer.send(first, many)
    swap(side.peer, second, other, MEGABYTE)
    assert take(silent, len(many)) == many, "other bytes come late"
    for connection, stream in (silent, first), (other, second):
        side.peer.finish(stream)
        connection.close()
        side.peer.await_flag(stream, FIN)
    assert sorted(side.ends()) == [
        "0 bytes to the peer (ended), 12000000 bytes from the peer (ended)",
        "1000000 bytes to the peer (ended), 1000000 bytes from the peer (ended)",
    ]


def half_closes(name):
    """Each way ends by itself, whichever side ends first, and the other way goes on."""
    side = Side(name, 2)
    other, number = side.connect()
    other.sendall(b"question")
    other.shutdown(socket.SHUT_WR)
    assert side.peer.receive(number, 8) == b"question"
    side.peer.await_flag(number, FIN)
    side.peer.send(number, MEGABYTE)
    assert take(other, len(MEGABYTE)) == MEGABYTE
    side.peer.finish(number)
    assert has_ended(other)
    other, number = side.connect()
    side.peer.send(number, b"question")
    side.peer.finish(number)
    assert take(other, 9) == b"question"
    for start in range(0, len(MEGABYTE), 100_000):
        piece = MEGABYTE[start : start + 100_000]
        other.sendall(piece)
        assert side.peer.receive(number, len(piece)) == piece
    assert not side.peer.stream(number).flags & FIN, "it has ended before its connection"
    other.close()
    side.peer.await_flag(number, FIN)
    assert side.ends() == [
        "8 bytes to the peer (ended), 1000000 bytes from the peer (ended)",
        "1000000 bytes to the peer (ended), 8 bytes from the peer (ended)",
    ]


def a_target_that_refuses():
    """Each stream is reset while nobody listens at the target; the next one is served once somebody does."""
    target, address = listen()
    program, connection = remote(address)
    peer = Peer(connection)
    peer.open(1)
    other = accept(target)
    target.close()
    for number in 3, 5:
        peer.open(number)
        peer.await_flag(number, RST)
    swap(peer, 1, other, MEGABYTE)
    host, port = address.split(":")
    with socket.create_server((host, int(port))) as target:
        peer.open(7)
        last = accept(target)
    swap(peer, 7, last, MEGABYTE)
    for connection, number in (other, 1), (last, 7):
        peer.finish(number)
        connection.close()
        peer.await_flag(number, FIN)
    leave(peer.connection)
    status, said = program.end()
    whole = f"{len(MEGABYTE)} bytes to the peer (ended), {len(MEGABYTE)} bytes from the peer (ended)"
    # of two within a second one is logged
    refusals = f"ymx: --target {address}: refused\n"
    assert 1 <= said.count(refusals) <= 2, said
    said = said.replace(refusals, "").replace("ymx: 1 line like those before was left out\n", "")
    assert status == 0 and said.count(GONE) == 1 and sorted(said.replace(GONE, "").splitlines()) == [
        f"ymx: connection {number}: {words}" for number, words in enumerate((whole, FAILED, FAILED, whole), 1)
    ], (status, said)


def a_word_on_a_slow_line():
    """A word isn't sent after all that a download may send: after what the system holds unsent, what is on its way, and two frames."""
    target, address = listen()
    program = raw.Program("remote", "-v", "--bind", ANY, "--target", address)
    with socket.socket() as connection:
        connection.setsockopt(socket.IPPROTO_TCP, socket.TCP_MAXSEG, 1_448)
        connection.setsockopt(socket.SOL_SOCKET, socket.SO_RCVBUF, FRAME)
        host, port = program.place().rsplit(":", 1)
        connection.connect((host, int(port)))
        most = waits_on_a_slow_line(Peer(connection), target)
    assert most <= UNSENT + 5 * FRAME, most


def waits_on_a_slow_line(peer, target):
    """How many bytes of a download come before a word at most, which is sent now and then, on a line that takes a frame in 20 ms."""
    peer.open(1)
    download = accept(target)
    peer.open(3)
    words = accept(target)
    sender = threading.Thread(target=send_all, args=(download, bytes(4_000_000)))
    sender.start()
    most = 0
    for number in range(60):
        peer.turn()
        time.sleep(0.02)
        if number % 10 == 9:
            before = len(peer.stream(1).came)
            peer.send(3, b"?")
            assert take(words, 1) == b"?"
            words.sendall(b"!")
            assert peer.receive(3, 1) == b"!"
            most = max(most, len(peer.stream(1).came) - before)
    peer.connection.close()
    download.close()
    sender.join()
    return most


def pieces_of(connection):
    """In how many pieces bytes have come so far."""
    return PIECES.unpack_from(connection.getsockopt(socket.IPPROTO_TCP, socket.TCP_INFO, 256), PIECES_AT)[0]


def users_at_once():
    """Users who wait at the listener together are taken together: their streams come to the peer in a few pieces. So does what all
    of them send then."""
    program, connection = local()
    place = program.place()
    program.process.send_signal(signal.SIGSTOP)
    users = [call(place) for _ in range(AT_ONCE_USERS)]
    program.process.send_signal(signal.SIGCONT)
    for number in range(AT_ONCE_USERS):
        assert take(connection, HEADER.size) == frame(WINDOW, SYN, 2 * number + 1, 0)
    pieces = pieces_of(connection)
    assert pieces <= FEW, f"{AT_ONCE_USERS} streams in {pieces} pieces"
    program.process.send_signal(signal.SIGSTOP)
    for user in users:
        user.sendall(b"?")
    program.process.send_signal(signal.SIGCONT)
    came = sorted(take(connection, HEADER.size + 1) for _ in users)
    assert came == [frame(DATA, 0, 2 * number + 1, 1) + b"?" for number in range(AT_ONCE_USERS)], came
    pieces = pieces_of(connection) - pieces
    assert pieces <= FEW, f"the words of {AT_ONCE_USERS} users in {pieces} pieces"
    program.process.kill()
    program.end()
    for user in users:
        user.close()


def send_all(connection, data):
    try:
        connection.sendall(data)
    except OSError:
        pass


TESTS = (
    *((f"{IDLE} idle connections and a busy one of {name}", idle_beside_busy, (name,)) for name in ("local", "remote")),
    *((f"one at {name} who reads nothing", unread_beside_others, (name,)) for name in ("local", "remote")),
    *((f"half-closes at {name}", half_closes, (name,)) for name in ("local", "remote")),
    ("a target that refuses", a_target_that_refuses, ()),
    (f"{AT_ONCE_USERS} users at once", users_at_once, ()),
    *([("a word on a slow line", a_word_on_a_slow_line, ())] if raw.COUNTS else []),
)


if __name__ == "__main__":
    sys.exit(raw.main(TESTS))
