"""Plays the peers of `ymx remote --peer` and of `ymx local --bind`, with --keep and without, and looks whether the side
that calls serves as one that listens does.

It says which tests failed, and nothing where none did. No test follows one that hangs.

usage: calling.py YMX
"""

import socket
import sys
import time

import raw
from beside import Peer, swap
from kept import BYTES, COME, GONE, LOST, SESSIONS, SETTLED, WHOLE
from kept import connection, finish, is_refused, listen_again, rests, says, show, used
from raw import ACK, ANY, FIN, NOT_HERE, NOWHERE, PING, SYN, Program, refused
from raw import accept, break_off, call, frame, free_place, free_places, has_ended, is_cut, is_cut_at, leave, listen, take

# How much less than the pauses may have gone by, as the clocks of two processes count it.
EARLY = 0.1
# How often a time is taken at most, where the machine may have been slow.
ATTEMPTS = 5


def calling(*words):
    """`ymx remote -v --peer`, its peers' listener, where that is, and its target."""
    listener, place = listen()
    target, address = listen()
    return Program("remote", "-v", "--peer", place, "--target", address, *words), listener, place, target


def awaiting(*words):
    """`ymx local -v --bind`, where it listens for its peer, and that peer."""
    program = Program("local", "-v", "--bind", ANY, "--listen", ANY, *words)
    place = program.place()
    return program, place, Peer(call(place))


def half_close(peer, stream, other):
    """Each way ends by itself: first that from the connection."""
    other.sendall(b"question")
    other.shutdown(socket.SHUT_WR)
    assert peer.receive(stream, 8) == b"question"
    peer.await_flag(stream, FIN)
    peer.send(stream, b"answer")
    assert take(other, 6) == b"answer"
    peer.finish(stream)
    assert has_ended(other)


# ---- one session


def remote_calls():
    """Bytes go both ways, and ways end by themselves. It calls once."""
    program, listener, place, target = calling()
    peer = Peer(accept(listener))
    listener.close()
    for stream in 1, 3:
        peer.open(stream)
        other = accept(target)
        swap(peer, stream, other, BYTES)
        half_close(peer, stream, other)
    leave(peer.connection)
    sent = f"{len(BYTES) + 8} bytes to the peer (ended), {len(BYTES) + 6} bytes from the peer (ended)"
    assert program.end() == (0, connection(1, sent) + connection(2, sent) + GONE)


def local_awaits():
    """The same at the other side. It listens for users before its peer is there, so that they wait for it."""
    users = free_place()
    program = Program("local", "-v", "--bind", ANY, "--listen", users, "--count", "2")
    place = program.place()
    says(program, f"ymx: listening at {users}\n")
    first = call(users)
    peer = Peer(call(place))
    for stream in 1, 3:
        user = first if stream == 1 else call(users)
        peer.accept(stream)
        assert is_refused(place), "a second peer is connected"
        swap(peer, stream, user, BYTES)
        half_close(peer, stream, user)
    leave(peer.connection)
    sent = f"{len(BYTES) + 8} bytes to the peer (ended), {len(BYTES) + 6} bytes from the peer (ended)"
    assert program.end() == (0, connection(1, sent) + connection(2, sent))


def roles():
    """Who calls doesn't say who is the client: `local` opens the stream 1, and `remote` takes it."""
    program, listener, _, _ = calling()
    peer = accept(listener)
    peer.sendall(frame(PING, SYN, 0, 7))
    assert take(peer, 12) == frame(PING, ACK, 0, 7)
    leave(peer)
    assert program.end() == (0, GONE)
    program, _, peer = awaiting("--count", "1")
    user = call(program.place())
    peer.accept(1)
    finish(peer, 1, user)
    leave(peer.connection)
    assert program.end()[0] == 0


def both_programs():
    """A connection through both, whose options go by their older names."""
    near = Program("local", "-v", "--await", ANY, "--listen", ANY, "--count", "1")
    target, address = listen()
    far = Program("remote", "-v", "--call", near.place(), "--target", address)
    user = call(near.place())
    other = accept(target)
    for sender, receiver in (user, other), (other, user):
        sender.sendall(b"question")
        assert take(receiver, 8) == b"question"
        sender.shutdown(socket.SHUT_WR)
        assert has_ended(receiver)
    said = connection(1, "8 bytes to the peer (ended), 8 bytes from the peer (ended)")
    assert near.end() == (0, said)
    assert far.end() == (0, said + GONE)


def no_meeting():
    """The peer can't be reached, or awaited."""
    place = free_place()
    assert Program("remote", "--peer", place, "--target", place).end() == (1, f"{refused(place)}ymx: cannot reach {place}\n")
    said = f"{NOWHERE}: {NOT_HERE}\nymx: cannot listen at {NOWHERE}\n"
    assert Program("local", "--bind", NOWHERE, "--listen", ANY).end() == (1, f"ymx: --bind {said}")
    # it takes no peer where it can't listen for users
    assert Program("local", "--bind", ANY, "--listen", NOWHERE).end() == (1, f"ymx: --listen {said}")


# ---- one session after another


def a_peer_that_is_called_again():
    """It is called until it is there, also at first, and again once it has gone."""
    target, address = listen()
    place = free_place()
    program = Program("remote", "-v", "--keep", "--peer", place, "--target", address)
    unreached = f"ymx: cannot reach {place}\n"
    says(program, refused(place), unreached)
    listener = listen_again(place)
    for turn in 1, 2, 3:
        peer = accept(listener)
        show(peer)
        # Calls may have failed until the listener was there.
        while (line := program.line()) in (refused(place), unreached):
            pass
        assert line == COME, line
        peer = Peer(peer)
        peer.open(1)
        other = accept(target)
        swap(peer, 1, other, BYTES)
        if turn == 2:
            listener.close()
            break_off(peer.connection)
            assert is_cut(other)
            says(program, connection(turn, LOST), GONE, refused(place), unreached)
            listener = listen_again(place)
        else:
            finish(peer, 1, other)
            leave(peer.connection)
            says(program, connection(turn, WHOLE), GONE)
    assert program.process.poll() is None, "it has ended"


def pauses():
    """It waits for 1, 2 and 4 seconds between calls that fail. The time is taken from before it begins, as a line may be
    read late."""
    place = free_place()
    began = time.monotonic()
    program = Program("remote", "-v", "--keep", "--peer", place, "--target", place)
    for seconds in 0, 1, 3, 7:
        says(program, refused(place), f"ymx: cannot reach {place}\n")
        passed = time.monotonic() - began
        assert passed >= seconds - EARLY, f"{passed} seconds, and not {seconds}"


def a_session_that_soon_ends():
    """A peer that goes at once isn't told to have come, and is called again after a second, and then after two. Where this process is held up, a
    session may last for a second, and the next call then comes early; so it is tried again."""
    for attempt in range(ATTEMPTS):
        program, listener, _, _ = calling("--keep")
        began = time.monotonic()
        early = None
        for seconds in 0, 1, 3:
            accept(listener).close()
            passed = time.monotonic() - began
            if passed < seconds - EARLY:
                early = f"{passed} seconds, and not {seconds}"
            says(program, GONE)
        if early is None:
            return
    raise AssertionError(early)


def a_peer_that_calls_again():
    """Connections are closed while no peer is there, and served again once one is. Who calls meanwhile waits."""
    program, place, peer = awaiting("--keep", "--count", "4")
    users = program.place()
    show(peer.connection)
    says(program, COME)
    user = call(users)
    peer.accept(1)
    swap(peer, 1, user, BYTES)
    following = Peer(call(place))
    break_off(peer.connection)
    assert is_cut(user)
    says(program, connection(1, LOST), GONE)
    # One that called meanwhile is the next.
    show(following.connection)
    says(program, COME)
    leave(following.connection)
    says(program, GONE)
    assert is_cut_at(users)
    says(program, connection(2, "no stream: Lost"))
    peer = Peer(call(place))
    show(peer.connection)
    says(program, COME)
    for turn, stream in (3, 1), (4, 3):
        user = call(users)
        peer.accept(stream)
        swap(peer, stream, user, BYTES)
        finish(peer, stream, user)
        says(program, connection(turn, WHOLE))
    leave(peer.connection)
    assert program.end() == (0, GONE)


def a_count_that_ends_without_a_peer():
    """The last of its connections comes while no peer is there."""
    program, _, peer = awaiting("--keep", "--count", "1")
    users = program.place()
    leave(peer.connection)
    says(program, GONE)
    assert is_cut_at(users)
    assert program.end() == (0, connection(1, "no stream: Lost"))


def many_peers():
    """What one leaves behind is dropped."""
    program, place, peer = awaiting("--keep")
    users = program.place()
    for number in range(1, SESSIONS + 1):
        show(peer.connection)
        says(program, COME)
        user = call(users)
        peer.accept(1)
        swap(peer, 1, user, b"!")
        finish(peer, 1, user)
        leave(peer.connection)
        says(program, connection(number, "1 bytes to the peer (ended), 1 bytes from the peer (ended)"), GONE)
        rests(program)
        if number == SETTLED:
            before = used(program)
        peer = Peer(call(place))
    show(peer.connection)
    says(program, COME)
    # One more socket is open, that of the last peer.
    files, memory = used(program)
    assert files <= before[0] + 1, f"{files} open files, and {before[0]} before"
    assert memory <= before[1] + 1000, f"{memory} kilobytes, and {before[1]} before"


def killed_programs():
    """Both keep, and ask each other for signs of life. Each is killed once, and comes again at the same places."""
    users, meeting = free_places(2)
    target, address = listen()

    def near_side():
        program = Program("local", "-v", "--keep", "--bind", meeting, "--listen", users, "--ping", "60")
        says(program, f"ymx: listening at {meeting}\n")
        return program

    def far_side():
        return Program("remote", "-v", "--keep", "--peer", meeting, "--target", address, "--ping", "60")

    def ask():
        user = call(users)
        other = accept(target)
        for sender, receiver in (user, other), (other, user):
            sender.sendall(b"question")
            assert take(receiver, 8) == b"question"
        return user, other

    near, far = near_side(), far_side()
    says(near, f"ymx: listening at {users}\n", COME)
    user, other = ask()
    far.process.kill()
    far.process.wait()
    assert is_cut(user)
    says(near, connection(1, "8 bytes to the peer (lost), 8 bytes from the peer (lost)"), GONE)
    far = far_side()
    says(near, COME)
    says(far, COME)
    user, other = ask()
    near.process.kill()
    near.process.wait()
    assert is_cut(other)
    near = near_side()
    says(near, f"ymx: listening at {users}\n", COME)
    ask()


TESTS = (
    ("remote calls", remote_calls, ()),
    ("local awaits", local_awaits, ()),
    ("roles", roles, ()),
    ("both programs", both_programs, ()),
    ("no meeting", no_meeting, ()),
    ("a peer that is called again", a_peer_that_is_called_again, ()),
    ("pauses", pauses, ()),
    ("a session that soon ends", a_session_that_soon_ends, ()),
    ("a peer that calls again", a_peer_that_calls_again, ()),
    ("a count that ends without a peer", a_count_that_ends_without_a_peer, ()),
    (f"{SESSIONS} peers of local", many_peers, ()),
    ("killed programs", killed_programs, ()),
)


if __name__ == "__main__":
    sys.exit(raw.main(TESTS))
