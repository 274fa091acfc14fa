"""Breaks a connection while bytes go to it, and looks at what the peer is told: no break may look like an end.

The target of `ymx remote`, or the user of `ymx local`, reads little of what comes, so that the program waits for room
to write more. Then it breaks its connection. The program can hear of this where it writes and where it reads, and the
system tells it once. The peer, which is played here, must see its stream reset, and no FIN: also where it has ended
the stream itself. Which of both the program hears first is a race, so each case is tried many times.

usage: break.py YMX [TRIES]
"""
import select
import socket
import struct
import subprocess
import sys
import time

# How long what must come may take, in seconds.
PATIENCE = 60
DATA, WINDOW = 0, 1
SYN, ACK, FIN, RST = 1, 2, 4, 8
HEADER = struct.Struct(">BBHII")
# More than the system keeps for a connection at both its ends, and less than the window.
SIZE = 12_000_000
ANY = "127.0.0.1:0"
USUAL_TRIES = 20


class Fault(Exception):
    """What doesn't hold."""


def frame(kind, flags, stream, length):
    return HEADER.pack(0, kind, flags, stream, length)


def take(connection, count):
    came = b""
    while len(came) < count:
        piece = connection.recv(count - len(came))
        if not piece:
            raise Fault("the program has ended")
        came += piece
    return came


def socket_with_little_room():
    end = socket.socket()
    end.setsockopt(socket.SOL_SOCKET, socket.SO_RCVBUF, 4096)
    end.settimeout(PATIENCE)
    return end


def listen(listener):
    """Listens at a port that the system chooses."""
    listener.settimeout(PATIENCE)
    listener.bind(("127.0.0.1", 0))
    listener.listen()
    return f"127.0.0.1:{listener.getsockname()[1]}"


def accept(listener):
    connection, _ = listener.accept()
    connection.settimeout(PATIENCE)
    return connection


def break_off(connection):
    """Ends a connection by a reset."""
    connection.setsockopt(socket.SOL_SOCKET, socket.SO_LINGER, struct.pack("ii", 1, 0))
    connection.close()


class Program:
    """`ymx` with these words and a great window, while a block runs."""

    def __init__(self, path, *words):
        self.process = subprocess.Popen([path, *words, "-v", "--window", "16777216"], stdin=subprocess.DEVNULL,
                                        stdout=subprocess.DEVNULL, stderr=subprocess.PIPE, bufsize=0)

    def __enter__(self):
        return self

    def __exit__(self, *_fault):
        self.process.kill()
        self.process.communicate()

    def port(self):
        """Where it says that it listens."""
        if not select.select([self.process.stderr], [], [], PATIENCE)[0]:
            raise Fault("the program says nothing")
        line = self.process.stderr.readline().decode()
        if not line.startswith("ymx: listening at "):
            raise Fault(f"the program said {line!r}")
        return int(line.rsplit(":", 1)[1])


def send(peer, ends):
    """The peer's bytes on stream 1, and its end if it ends."""
    peer.sendall(frame(DATA, 0, 1, SIZE) + bytes(SIZE) + (frame(WINDOW, FIN, 1, 0) if ends else b""))


def last_flag(peer, other):
    """Breaks the other connection once the program waits for room in it, and answers what the peer is told of it."""
    take(other, 100)
    # Until the program waits. Where that takes longer this try shows less, and fails no more often.
    time.sleep(0.2)
    break_off(other)
    while True:
        _, kind, flags, _, length = HEADER.unpack(take(peer, HEADER.size))
        if kind == DATA:
            take(peer, length)
        if flags & (FIN | RST):
            return flags & (FIN | RST)


def break_of_the_target(path, ends):
    with socket_with_little_room() as target:
        with Program(path, "remote", "--bind", ANY, "--target", listen(target)) as remote:
            with socket.create_connection(("127.0.0.1", remote.port()), PATIENCE) as peer:
                peer.sendall(frame(WINDOW, SYN, 1, 0))
                # The ACK grants the great window.
                take(peer, HEADER.size)
                send(peer, ends)
                return last_flag(peer, accept(target))


def break_of_the_user(path, ends):
    with socket.socket() as listener, socket_with_little_room() as user:
        with Program(path, "local", "--listen", ANY, "--peer", listen(listener)) as local:
            with accept(listener) as peer:
                user.connect(("127.0.0.1", local.port()))
                # The SYN grants the great window.
                take(peer, HEADER.size)
                peer.sendall(frame(WINDOW, ACK, 1, 0))
                send(peer, ends)
                return last_flag(peer, user)


def main():
    path = sys.argv[1]
    tries = int(sys.argv[2]) if len(sys.argv) > 2 else USUAL_TRIES
    failed = 0
    cases = [(name, way, ends) for ends in (True, False) for name, way in (
        ("the target of remote", break_of_the_target),
        ("the user of local", break_of_the_user),
    )]
    for name, way, ends in cases:
        text = f"{name} breaks, and the peer {'has' if ends else 'has not'} ended its side"
        try:
            told = [way(path, ends) for _ in range(tries)]
            as_ends = tries - told.count(RST)
            fault = f"{as_ends} of {tries} breaks came as ends" if as_ends else None
        except (Fault, OSError) as found:
            fault = repr(found)
        failed += fault is not None
        print(f"FAIL  {text}: {fault}" if fault else f"ok    {text}: {tries} resets", flush=True)
    print(f"{len(cases) - failed} passed, {failed} failed")
    return failed != 0


if __name__ == "__main__":
    sys.exit(main())
