"""Cuts connections through both ends of a tunnel, in each way that there is, and looks whether what was cut off ever looks
whole: its other side has to see a reset. Where the end was clean it has to see the end, after all bytes.

It says which tests failed, and nothing where none did. No test follows one that hangs.

usage: cuts.py YMX
"""

import random
import select
import socket
import sys
import threading

import raw
from raw import ANY, Program, accept, break_off, call, listen, take

# How often each is tried.
TIMES = 20
# A connection is cut after so many bytes, in turn: within a window, at its edge, and where some are on their way.
SIZES = 1, 1_000, 262_144, 1_000_000
BYTES = random.Random(58).randbytes(max(SIZES))
LINKS = "--links", "4"
# So many bytes can be sent though nobody reads them.
FITS = 262_144
# Connections of which a send was told of the reset: the system tells of it once, and what then reads finds an end. Where an
# end came before the reset, a send is told of a broken pipe.
told = []


def how_it_ends(connection):
    """What comes of it, and whether a reset ends it."""
    came = b""
    try:
        while piece := connection.recv(65_536):
            came += piece
    except ConnectionResetError:
        return came, True
    return came, False


def is_cut(connection, sent):
    """Whether a reset comes after a beginning of these bytes, and no end."""
    came, is_reset = how_it_ends(connection)
    return is_reset and sent.startswith(came)


# How many users may be reset, one after another, where a link of several was cut off.
TRIES = 10


class Relay:
    """What stands between both ends, and can cut their connections. It passes on what comes."""

    def __init__(self, peer):
        self.peer = peer
        self.pairs = []
        self.listener, self.address = listen()
        threading.Thread(target=self.run, daemon=True).start()

    def run(self):
        while True:
            near = accept(self.listener)
            far = call(self.peer)
            self.pairs.append((near, far))
            for giver, taker in (near, far), (far, near):
                threading.Thread(target=self.pass_on, args=(giver, taker), daemon=True).start()

    @staticmethod
    def pass_on(giver, taker):
        try:
            while piece := giver.recv(65_536):
                taker.sendall(piece)
        except OSError:
            pass

    def cut(self):
        """Closes all connections both ways."""
        pairs, self.pairs = self.pairs, []
        for pair in pairs:
            for connection in pair:
                connection.shutdown(socket.SHUT_RDWR)
                connection.close()


class Tunnel:
    """Both ends, with a target, and a relay between them if there `is_relay`."""

    def __init__(self, near=(), far=(), is_relay=False):
        self.has_links = "--links" in near
        self.target, address = listen()
        self.far = Program("remote", "-v", "--bind", ANY, "--target", address, *far)
        peer = self.far.place()
        self.relay = Relay(peer) if is_relay else None
        if is_relay:
            peer = self.relay.address
        self.near = Program("local", "-v", "--listen", ANY, "--peer", peer, *near)
        self.place = self.near.place()
        # Nobody looks at what else they say.
        self.readers = [threading.Thread(target=it.process.stderr.read, daemon=True) for it in (self.far, self.near)]
        for reader in self.readers:
            reader.start()

    def connect(self):
        """A user and his connection at the target. A byte has gone each way. Of several links one that was cut off, and hasn't
        seen that yet, may still take a user, who is reset: then the next one is served."""
        for _ in range(TRIES):
            user = call(self.place)
            try:
                user.sendall(b"?")
                ready, _, _ = select.select([self.target, user], [], [])
                if self.target not in ready:
                    take(user, 1)
                other = accept(self.target)
                assert take(other, 1) == b"?"
                other.sendall(b"!")
                assert take(user, 1) == b"!"
                return user, other
            except ConnectionResetError:
                if not self.has_links:
                    raise
        raise AssertionError("no user is served")

    def close(self):
        for program in self.near, self.far:
            program.process.kill()
            program.process.wait()
        for reader in self.readers:
            reader.join()


def send_some(connection, data):
    """Sends these bytes, in the background where they don't fit."""

    def send():
        try:
            connection.sendall(data)
        except ConnectionResetError:
            told.append(connection)
        except OSError:
            pass

    thread = threading.Thread(target=send, daemon=True)
    thread.start()
    return thread


# ---- one side breaks it off


def sides(tunnel, is_upload):
    """A connection: who sends, and who gets."""
    user, other = tunnel.connect()
    return (user, other) if is_upload else (other, user)


def broken_off(words, is_upload):
    """The sender breaks off."""
    tunnel = Tunnel(near=words, far=("--keep",))
    for turn in range(TIMES):
        sender, getter = sides(tunnel, is_upload)
        data = BYTES[: SIZES[turn % len(SIZES)]]
        send_some(sender, data)
        first = take(getter, 1)
        break_off(sender)
        assert first == data[:1] and is_cut(getter, data[1:]), f"{turn}: no reset"
    tunnel.close()


def broken_off_behind_an_end(words, is_upload):
    """The getter has ended its way before, which the sender has seen, and the sender breaks off."""
    tunnel = Tunnel(near=words, far=("--keep",))
    for turn in range(TIMES):
        sender, getter = sides(tunnel, is_upload)
        getter.shutdown(socket.SHUT_WR)
        assert how_it_ends(sender) == (b"", False)
        data = BYTES[: SIZES[turn % len(SIZES)]]
        send_some(sender, data)
        first = take(getter, 1)
        break_off(sender)
        assert first == data[:1] and is_cut(getter, data[1:]), f"{turn}: no reset"
    tunnel.close()


# ---- the tunnel breaks


def is_cut_within(sender, getter, cut, size):
    """Whether both see a reset, where this cuts their connection in the middle of so many bytes, which the getter doesn't
    read before."""
    data = BYTES[:size]
    sending = send_some(sender, data)
    first = take(getter, 1)
    cut()
    if first != data[:1] or not is_cut(getter, data[1:]):
        return False
    came, is_reset = how_it_ends(sender)
    sending.join(60)
    return came == b"" and (is_reset or sender in told)


def lost_link(words, is_upload):
    """What stands between both ends closes their connections."""
    tunnel = Tunnel(near=("--keep", *words), far=("--keep",), is_relay=True)
    for turn in range(TIMES):
        sender, getter = sides(tunnel, is_upload)
        assert is_cut_within(sender, getter, tunnel.relay.cut, SIZES[turn % len(SIZES)]), f"{turn}: no reset"
    tunnel.close()


def killed_end(words, is_upload):
    """The end beside the sender is killed, and the getter's goes on."""
    for turn in range(TIMES):
        tunnel = Tunnel(near=words, far=("--keep",))
        sender, getter = sides(tunnel, is_upload)
        killed = tunnel.near if is_upload else tunnel.far
        data = BYTES[: SIZES[turn % len(SIZES)]]
        send_some(sender, data)
        first = take(getter, 1)
        killed.process.kill()
        assert first == data[:1] and is_cut(getter, data[1:]), f"{turn}: no reset"
        tunnel.close()


def idle_where_an_end_is_killed(words, is_upload):
    """Nothing moves, and all that was sent has come."""
    for turn in range(TIMES):
        tunnel = Tunnel(near=words, far=("--keep",))
        sender, getter = sides(tunnel, is_upload)
        if turn % 2:
            getter.shutdown(socket.SHUT_WR)
            assert how_it_ends(sender) == (b"", False)
        (tunnel.near if is_upload else tunnel.far).process.kill()
        assert is_cut(getter, b""), f"{turn}: no reset"
        tunnel.close()


def a_user_without_a_session():
    """A user for whom the peer can't be had sees no end of an empty answer."""
    place = raw.free_place()
    program = Program("local", "-v", "--keep", "--listen", ANY, "--peer", place)
    place = program.place()
    threading.Thread(target=program.process.stderr.read, daemon=True).start()
    for turn in range(TIMES):
        assert raw.is_cut_at(place), f"{turn}: no reset"


# ---- clean ends


def end(sending, sender):
    """Ends a way once all was sent."""
    sending.join()
    sender.shutdown(socket.SHUT_WR)


def clean_ends(words, is_upload):
    """Each way ends by itself, and all that was sent comes before its end, also where it is read late."""
    tunnel = Tunnel(near=words, far=("--keep",))
    for turn in range(TIMES):
        sender, getter = sides(tunnel, is_upload)
        data = BYTES[: SIZES[turn % len(SIZES)]]
        sending = send_some(sender, data)
        if turn % 2:
            getter.shutdown(socket.SHUT_WR)
            assert how_it_ends(sender) == (b"", False), f"{turn}: no clean end"
        # What fits between both is read only once it has been ended.
        is_late = len(data) <= FITS
        if is_late:
            end(sending, sender)
        assert take(getter, len(data)) == data, f"{turn}: other bytes"
        if not is_late:
            end(sending, sender)
        assert how_it_ends(getter) == (b"", False), f"{turn}: no clean end"
        if not turn % 2:
            getter.shutdown(socket.SHUT_WR)
            assert how_it_ends(sender) == (b"", False), f"{turn}: no clean end"
    tunnel.close()


def directions(name, test):
    """The same test of uploads and of downloads, over one link and over several."""
    return [
        (f"{name}, {way}{', --links' if words else ''}", test, (words, is_upload))
        for words in ((), LINKS)
        for way, is_upload in (("an upload", True), ("a download", False))
    ]


TESTS = (
    *directions("a connection that is broken off", broken_off),
    *directions("one that is broken off after an end", broken_off_behind_an_end),
    *directions("a link that is lost", lost_link),
    *directions("an end that is killed", killed_end),
    *directions("an end that is killed while nothing moves", idle_where_an_end_is_killed),
    ("a user without a session", a_user_without_a_session, ()),
    *directions("clean ends", clean_ends),
)


if __name__ == "__main__":
    sys.exit(raw.main(TESTS))
