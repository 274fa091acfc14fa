"""Many users at once: each is served, as those for whom there is no stream wait. Through one connection between the two
programs, through eight, and with a `remote` that serves ten at once. Then many more, one after another.

usage: bursts.py YMX [USERS [IN_TURN [AT_ONCE]]]
"""

import resource
import selectors
import socket
import subprocess
import sys
import threading

FILES = 16_384
SECONDS = 240


def address_of(place):
    host, port = place.rsplit(":", 1)
    return host, int(port)


class Program:
    """`ymx` with these words, which says where it listens."""

    def __init__(self, *words):
        self.process = subprocess.Popen([sys.argv[1], *words], stdin=subprocess.DEVNULL, stdout=subprocess.DEVNULL,
                                        stderr=subprocess.PIPE, text=True)
        self.place = self.process.stderr.readline().split()[-1]
        threading.Thread(target=self.process.stderr.read, daemon=True).start()

    def kill(self):
        self.process.kill()
        self.process.wait()


def echo(listener):
    """Sends back what comes on each connection, up to its end."""
    chosen = selectors.DefaultSelector()
    chosen.register(listener, selectors.EVENT_READ)
    while True:
        for key, _ in chosen.select():
            if key.fileobj is listener:
                connection, _ = listener.accept()
                chosen.register(connection, selectors.EVENT_READ)
                continue
            try:
                came = key.fileobj.recv(65_536)
                if came:
                    key.fileobj.sendall(came)
                    continue
            except OSError:
                pass
            chosen.unregister(key.fileobj)
            key.fileobj.close()


class User:
    """One who says its number, and waits until that comes back, and then the end."""

    def __init__(self, number, place):
        self.word = b"user %d\n" % number
        self.came = b""
        self.was_sent = False
        self.socket = socket.socket()
        self.socket.setblocking(False)
        self.socket.connect_ex(place)

    def go_on(self):
        """Whether it is done."""
        if not self.was_sent:
            self.socket.sendall(self.word)
            self.socket.shutdown(socket.SHUT_WR)
            self.was_sent = True
            return False
        piece = self.socket.recv(4096)
        self.came += piece
        return not piece


def serve(place, count, at_once):
    """So many users, of whom so many are there at once. How many were not served."""
    waiting, there, lost, begun = selectors.DefaultSelector(), 0, 0, 0
    while begun < count or there:
        while begun < count and there < at_once:
            user = User(begun, place)
            waiting.register(user.socket, selectors.EVENT_WRITE, user)
            begun, there = begun + 1, there + 1
        events = waiting.select(SECONDS)
        if not events:
            return lost + there
        for key, _ in events:
            user = key.data
            try:
                is_done = user.go_on()
            except OSError:
                is_done = True
            if not is_done:
                waiting.modify(user.socket, selectors.EVENT_READ, user)
                continue
            waiting.unregister(user.socket)
            user.socket.close()
            there -= 1
            lost += user.came != user.word
    return lost


def trial(name, target, count, at_once, near=(), far=()):
    remote = Program("remote", "-v", "--keep", "--bind", "127.0.0.1:0", "--target", target, *far)
    local = Program("local", "-v", "--keep", "--listen", "127.0.0.1:0", "--peer", remote.place, *near)
    lost = serve(address_of(local.place), count, at_once)
    for program in remote, local:
        program.kill()
    if lost:
        print(f"FAIL  {name}: {lost} of {count} users were not served")
    return not lost


def main():
    numbers = [int(word) for word in sys.argv[2:]]
    users, in_turn, at_once = (numbers + [1_000, 0, 400][len(numbers):])[:3]
    _, most = resource.getrlimit(resource.RLIMIT_NOFILE)
    resource.setrlimit(resource.RLIMIT_NOFILE, (most if most != resource.RLIM_INFINITY and most < FILES else FILES, most))
    listener = socket.create_server(("127.0.0.1", 0), backlog=4_096)
    target = "{}:{}".format(*listener.getsockname())
    threading.Thread(target=echo, args=(listener,), daemon=True).start()
    good = trial("users at once", target, users, users)
    good &= trial("users at once over eight links", target, users, users, near=("--links", "8"))
    good &= trial("users at once of ten workers", target, users, users, far=("--workers", "10"))
    if in_turn:
        good &= trial("users in turn", target, in_turn, at_once)
        good &= trial("users in turn over eight links", target, in_turn, at_once, near=("--links", "8"))
    sys.exit(not good)


main()
