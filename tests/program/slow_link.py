"""Has both ends joined by a line that carries 40,000 bytes a second, whose far side holds little and at times takes nothing, and looks that a
user's upload arrives whole: a link on which bytes get on is a living one, however small its window is. And a peer whose
program hangs is given up, however often a user sends a byte.

It prints which tests failed, and nothing where none did. No test follows one that hangs.

usage: slow_link.py YMX
"""

import random
import socket
import sys
import threading
import time

import raw
from beside import Peer
from raw import ACK, ANY, PING, Program, accept, call, frame, listen
from silence import question

# How many bytes the line carries in a second, and what a user sends.
RATE, MANY = 40_000, random.Random(41).randbytes(300_000)
# The same of a line over which no answer to a ping comes for longer than a peer may be silent, though bytes get on.
SLOWEST, FEW = 5_000, MANY[:100_000]
# How many bytes are passed on at once, and the segments of a line that is no loopback.
PIECE, SEGMENT = 2_048, 1_448
# How many bytes the far side of the line holds that weren't passed on, and after how many seconds of silence an end asks its peer.
ROOMS, PATIENCES = (4_096, 16_384, 65_536), (1, 2, 3)
# For how many times these seconds the line takes nothing, after so many bytes: less than twice, after which a peer may be given up.
CLOSED, CLOSED_AFTER = 1.5, 100_000
# How often a user sends a byte to a peer that hangs, and how long that peer may stay.
KEYSTROKE, STAYS = 0.3, 4


class SlowLine:
    """A relay to this address, whose side of a connection holds so many bytes. For so many seconds it takes nothing."""

    def __init__(self, place, room, rate, closed):
        self.place, self.rate, self.closed = place, rate, closed
        self.listener = socket.socket()
        self.listener.setsockopt(socket.SOL_SOCKET, socket.SO_RCVBUF, room)
        self.listener.setsockopt(socket.IPPROTO_TCP, socket.TCP_MAXSEG, SEGMENT)
        self.listener.bind(("127.0.0.1", 0))
        self.listener.listen()
        self.address = "127.0.0.1:{}".format(self.listener.getsockname()[1])
        threading.Thread(target=self.run, daemon=True).start()

    def run(self):
        near, far = accept(self.listener), call(self.place)
        threading.Thread(target=pass_on, args=(far, near), daemon=True).start()
        self.pass_slowly(near, far)

    def pass_slowly(self, giver, taker):
        due = time.monotonic()
        passed = 0
        try:
            while piece := giver.recv(PIECE):
                taker.sendall(piece)
                passed += len(piece)
                due += len(piece) / self.rate
                if self.closed and passed >= CLOSED_AFTER:
                    due, self.closed = due + self.closed, 0
                time.sleep(max(0, due - time.monotonic()))
        except OSError:
            pass
        end(taker)


def pass_on(giver, taker):
    try:
        while piece := giver.recv(65_536):
            taker.sendall(piece)
    except OSError:
        pass
    end(taker)


def end(connection):
    """Nothing more goes there, also where what came was cut off."""
    try:
        connection.shutdown(socket.SHUT_WR)
    except OSError:
        pass


def send_all(connection, sent):
    try:
        connection.sendall(sent)
        connection.shutdown(socket.SHUT_WR)
    except OSError:
        pass


class Upload:
    """A user's upload through both ends and such a line, in a thread of its own: what came, in the end, and why no more."""

    def __init__(self, sent, line, words):
        room, rate, closed = line
        self.name, self.sent, self.came, self.why = f"{' '.join(words)}, {room} bytes", sent, b"", "it lasts too long"
        target, address = listen()
        far = Program("remote", "-v", "--bind", ANY, "--target", address, *words)
        line = SlowLine(far.place(), room, rate, closed)
        near = Program("local", "-v", "--listen", ANY, "--peer", line.address, *words)
        self.user = call(near.place())
        threading.Thread(target=send_all, args=(self.user, sent), daemon=True).start()
        self.service = accept(target)
        self.thread = threading.Thread(target=self.read, daemon=True)
        self.thread.start()

    def read(self):
        came = bytearray()
        try:
            while piece := self.service.recv(65_536):
                came += piece
            self.why = "an end"
        except OSError as fault:
            self.why = str(fault)
        self.came = bytes(came)

    def fault(self):
        """What is wrong with it, once it is over. Nothing where it is whole."""
        self.thread.join()
        return "" if self.came == self.sent else f"{self.name}: {len(self.came)} of {len(self.sent)} bytes, and {self.why}"


def whole(begun):
    """All of these uploads at once are whole."""
    faults = [fault for it in begun if (fault := it.fault())]
    assert not faults, "; ".join(faults)


def uploads(option, closed):
    whole([Upload(MANY, (room, RATE, closed * seconds), (option, str(seconds))) for seconds in PATIENCES for room in ROOMS])


def slowest_uploads():
    whole([Upload(FEW, (room, SLOWEST, 0), ("--ping", "1")) for room in ROOMS[:2]])


def a_program_that_hangs():
    """It has answered once, and then reads nothing, though its system takes all: a user who sends a byte now and then doesn't keep it."""
    target, address = listen()
    program = Program("remote", "-v", "--ping", "1", "--bind", ANY, "--target", address)
    peer = Peer(call(program.place()))
    peer.connection.sendall(frame(PING, ACK, 0, question(peer.connection)))
    peer.open(1)
    service = accept(target)
    began = time.monotonic()
    try:
        while time.monotonic() < began + 10 * STAYS:
            service.sendall(b"!")
            time.sleep(KEYSTROKE)
    except OSError:
        pass
    took = time.monotonic() - began
    assert took < STAYS, f"given up after {took:.1f} seconds"


TESTS = (
    ("uploads with --ping", uploads, ("--ping", 0)),
    ("uploads with --ping while nothing is taken", uploads, ("--ping", CLOSED)),
    ("uploads with --keepalive", uploads, ("--keepalive", 0)),
    ("the slowest uploads", slowest_uploads, ()),
    ("a program that hangs", a_program_that_hangs, ()),
)


if __name__ == "__main__":
    sys.exit(raw.main(TESTS))
