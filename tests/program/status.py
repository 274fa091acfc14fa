"""Asks `ymx local --status` and `ymx remote --status` what they count, and each to take no more connections, and looks
whether what they say is so.

Where Prometheus's promtool stands it reads the page too. It says which tests failed, and nothing where none did. No test
follows one that hangs.

usage: status.py YMX
"""

import re
import select
import shutil
import socket
import subprocess
import sys
import time

import raw
from raw import (ANY, AWAY, DATA, NOBODY, PING, SYN, Program, accept, call, frame, free_place, free_places, has_ended, is_cut_at, leave,
                 listen, next_frame, take)
from standard import await_listener, listens

# How many bytes of a request are read at most.
REQUEST = 8_192
# So many are answered at once, and one more has the place of the one that came first.
AT_ONCE = 16
# How often what a loaded machine may hold up is tried.
ATTEMPTS = 5
SAMPLE = re.compile(r'([a-z_:]+)(?:\{([a-z_]+)="([a-z_]+)"\})? ([0-9]+)')
KINDS = {"counter", "gauge"}


# ---- the page


def ask(place, request):
    """The status, the fields and the body of the answer to this request, after which the connection ends."""
    connection = call(place)
    connection.sendall(request)
    said = b""
    while piece := connection.recv(65_536):
        said += piece
    connection.close()
    head, body = said.split(b"\r\n\r\n", 1)
    lines = head.decode().split("\r\n")
    version, status, _ = lines[0].split(" ", 2)
    assert version == "HTTP/1.1", said
    fields = dict(line.split(": ", 1) for line in lines[1:])
    assert fields["Content-Length"] == str(len(body)), said
    assert fields["Connection"] == "close", said
    return int(status), fields, body.decode()


def request(method, path):
    return f"{method} {path} HTTP/1.1\r\nHost: ymx\r\nAccept: */*\r\n\r\n".encode()


def get(place, path):
    return ask(place, request("GET", path))


def head(place, path):
    """The status and the length of the body that HEAD says, after which nothing comes."""
    connection = call(place)
    connection.sendall(request("HEAD", path))
    said = b""
    while piece := connection.recv(65_536):
        said += piece
    connection.close()
    assert said.endswith(b"\r\n\r\n") and said.count(b"\r\n\r\n") == 1, said
    lines = said.decode().split("\r\n")
    return int(lines[0].split(" ")[1]), dict(line.split(": ", 1) for line in lines[1:-2])["Content-Length"]


def parse(page):
    """The samples of a page in Prometheus's text format, each of which stands after the help and the type of its family."""
    samples, helped, typed = {}, set(), {}
    for line in page.removesuffix("\n").split("\n"):
        if line.startswith("# HELP "):
            helped.add(line.split(" ")[2])
        elif line.startswith("# TYPE "):
            _, _, family, kind = line.split(" ")
            assert kind in KINDS and family in helped and family not in typed, line
            assert (kind == "counter") == family.endswith("_total"), line
            typed[family] = kind
        else:
            family, name, value, number = SAMPLE.fullmatch(line).groups()
            assert family in typed, line
            key = (family, value) if name else family
            assert key not in samples, line
            samples[key] = int(number)
    return samples


def counts(place):
    status, fields, page = get(place, "/metrics")
    assert (status, fields["Content-Type"]) == (200, "text/plain; version=0.0.4; charset=utf-8")
    return parse(page)


def await_counts(place, **wanted):
    """Asks until these are the counts."""
    while any(counts(place)["ymx_" + name] != count for name, count in wanted.items()):
        time.sleep(0.01)


class Tunnel:
    """Both ends, each of which can be asked, and a target."""

    def __init__(self, *words, remote=()):
        self.target, address = listen()
        self.far, self.near, bound = free_places(3)
        self.remote = Program("remote", "--bind", bound, "--target", address, "--status", self.far, *remote)
        wait_for(self.far)
        wait_for(bound) if "--keep" in remote else await_listener(bound)
        self.local = Program("local", "-v", "--listen", ANY, "--peer", bound, "--status", self.near, *words)
        self.users = self.local.place()

    def join(self):
        """A user's connection, and that at the target."""
        user = call(self.users)
        return user, accept(self.target)

    def kill(self):
        for program in (self.local, self.remote):
            program.process.kill()
            program.process.communicate()


def wait_for(place):
    """Waits until somebody listens at this place."""
    call_when_there(place).close()


def pass_on(one, other, count):
    """So many bytes from one to the other."""
    one.sendall(bytes(count))
    assert len(take(other, count)) == count


def counts_what_passes():
    """What is counted of three connections is what was sent through them, at both ends."""
    tunnel = Tunnel(remote=("--workers", "7"))
    assert counts(tunnel.near)["ymx_connections_begun_total"] == 0
    kept = tunnel.join()
    await_counts(tunnel.near, connections_open=1, peers=1, places=1_024)
    await_counts(tunnel.far, connections_open=1, peers=1, places=7)
    # bytes are counted while their connection is open
    pass_on(*kept, 1_000)
    pass_on(*kept[::-1], 200_000)
    for place, ways in ((tunnel.near, ("to_peer", "from_peer")), (tunnel.far, ("from_peer", "to_peer"))):
        while [counts(place)["ymx_bytes_total", way] for way in ways] != [1_000, 200_000]:
            time.sleep(0.01)
    for up, down in ((1, 70_000), (300_000, 0)):
        user, service = tunnel.join()
        pass_on(user, service, up)
        pass_on(service, user, down)
        user.shutdown(socket.SHUT_WR)
        leave(service)
        assert has_ended(user)
        user.close()
    for place in (tunnel.near, tunnel.far):
        await_counts(place, connections_open=1)
        samples = counts(place)
        assert samples["ymx_connections_begun_total"] == 3
        assert samples["ymx_connections_ended_total", "ended"] == 2
        ways = ("to_peer", "from_peer") if place == tunnel.near else ("from_peer", "to_peer")
        assert [samples["ymx_bytes_total", way] for way in ways] == [301_001, 270_000]
        assert (samples["ymx_peers_come_total"], samples["ymx_peers_gone_total"]) == (1, 0)
    # two seconds later it is at least two seconds old
    time.sleep(2)
    assert 2 <= counts(tunnel.near)["ymx_connection_oldest_seconds"] <= 100
    raw.break_off(kept[0])
    await_counts(tunnel.near, connections_open=0)
    samples = counts(tunnel.near)
    assert samples["ymx_connections_ended_total", "connection_failed"] == 1
    assert samples["ymx_connection_oldest_seconds"] == 0
    if tool := shutil.which("promtool"):
        page = get(tunnel.near, "/metrics")[2]
        found = subprocess.run([tool, "check", "metrics"], input=page, text=True, capture_output=True, check=False)
        assert (found.returncode, found.stdout + found.stderr) == (0, ""), found
    tunnel.kill()


def counts_links():
    """Each link is a session, and the counts are of all links."""
    tunnel = Tunnel("--links", "3", remote=("--keep",))
    await_counts(tunnel.near, peers=3)
    pairs = [tunnel.join() for _ in range(3)]
    await_counts(tunnel.near, connections_open=3)
    await_counts(tunnel.far, connections_open=3, peers=3)
    for user, service in pairs:
        user.shutdown(socket.SHUT_WR)
        leave(service)
        user.close()
    await_counts(tunnel.near, connections_open=0)
    assert counts(tunnel.near)["ymx_connections_ended_total", "ended"] == 3
    tunnel.kill()


def counts_the_refused():
    """A user for whom the peer can't be reached is counted as one that got no stream."""
    page = free_place()
    program = Program("local", "-v", "--keep", "--listen", ANY, "--peer", free_place(), "--status", page)
    assert is_cut_at(program.place())
    await_counts(page, connections_begun_total=1)
    samples = counts(page)
    assert samples["ymx_connections_refused_total", "lost"] == 1
    assert (samples["ymx_connections_open"], samples["ymx_peers_come_total"]) == (0, 0)
    program.process.kill()
    program.process.communicate()


def counts_who_waits():
    """A stream for which no place is free is logged and counted, until one is."""
    tunnel = Tunnel(remote=("--workers", "1", "-v"))
    first = tunnel.join()
    await_counts(tunnel.far, connections_open=1, users_waiting=0)
    second = call(tunnel.users)
    await_counts(tunnel.far, users_waiting=1)
    for line in iter(tunnel.remote.line, "ymx: all 1 stream slots are used: users wait\n"):
        assert line.startswith("ymx: listening at "), line
    for connection in first:
        connection.close()
    other = accept(tunnel.target)
    pass_on(second, other, 1_000)
    await_counts(tunnel.far, users_waiting=0)
    tunnel.kill()


def counts_targets():
    """A target that can't be reached is logged, without -v too, and counted by the reason."""
    bound, near, far, nobody = free_places(4)
    remote = Program("remote", "--bind", bound, "--target", nobody, "--status", far)
    wait_for(far)
    local = Program("local", "-v", "--listen", ANY, "--peer", bound, "--status", near)
    users = local.place()
    for _ in range(3):
        assert is_cut_at(users)
    assert remote.line() == f"ymx: --target {nobody}: refused\n"
    while counts(far)["ymx_targets_unreached_total", "refused"] < 3:
        time.sleep(0.01)
    assert counts(far)["ymx_system_refusals_total"] == 0
    # of three within a second one is logged, and the number of the others
    local.process.kill()
    status, said = remote.end()
    others = f"(ymx: --target {nobody}: refused\n|ymx: . lines? like those before w[a-z]* left out\n)*"
    assert status == 0 and re.fullmatch(others, said), (status, said)
    local.process.communicate()


def says_what_is_lost():
    """Where the session is lost, and none follows, that is logged, and no less where the peer can't be reached."""
    tunnel = Tunnel()
    tunnel.remote.process.kill()
    while get(tunnel.near, "/health")[::2] != (503, "lost\n"):
        time.sleep(0.01)
    await_counts(tunnel.near, peers=0, places=0)
    tunnel.kill()
    target, address = listen()
    bound, page = free_places(2)
    local = Program("local", "-v", "--keep", "--listen", ANY, "--peer", bound, "--status", page)
    users = local.place()
    assert get(page, "/health")[::2] == (200, "serving\n")
    assert is_cut_at(users)
    assert get(page, "/health")[::2] == (503, "unreachable\n")
    remote = Program("remote", "-v", "--bind", bound, "--target", address)
    remote.place()
    user = call(users)
    service = accept(target)
    pass_on(user, service, 1)
    assert get(page, "/health")[::2] == (200, "serving\n")
    for program in (local, remote):
        program.process.kill()
        program.process.communicate()


# ---- requests


def answers():
    """Each request is answered by its method and its path."""
    tunnel = Tunnel()
    for place in (tunnel.near, tunnel.far):
        assert get(place, "/")[2].startswith("# HELP ymx_bytes_total ")
        assert get(place, "/health")[::2] == (200, "serving\n")
        assert get(place, "/health?x=1")[::2] == (200, "serving\n")
        assert head(place, "/health") == (200, "8"), "the head alone"
        assert [head(place, path)[0] for path in ("/metrics?x=1", "/other", "/drain")] == [200, 404, 405]
        for method, path, status, allowed in (
            ("GET", "/other", 404, None), ("POST", "/other", 404, None), ("GET", "/metrics/", 404, None),
            ("POST", "/metrics", 405, "GET, HEAD"), ("PUT", "/", 405, "GET, HEAD"),
            ("GET", "/drain", 405, "POST"), ("get", "/metrics", 405, "GET, HEAD"), ("GET", "/x?/health", 404, None),
        ):
            answer = ask(place, request(method, path))
            assert (answer[0], answer[1].get("Allow")) == (status, allowed), (method, path, answer)
        for bad in (b"\r\n", b"GET /metrics\r\n", b"GET /metrics HTTP/2\r\n\r\n", b"\x00\xff\n", b"x" * (REQUEST + 1)):
            assert ask(place, bad)[0] == 400, bad
        # the line may come in parts, and with a line feed alone
        assert ask(place, b"GET /health HTTP/1.0\n\n")[0] == 200
    tunnel.kill()


def parts():
    """A line that comes byte by byte is read."""
    tunnel = Tunnel()
    connection = call(tunnel.near)
    connection.setsockopt(socket.IPPROTO_TCP, socket.TCP_NODELAY, 1)
    for byte in request("GET", "/health"):
        connection.sendall(bytes([byte]))
    assert take(connection, 12) == b"HTTP/1.1 200"
    tunnel.kill()


def is_closed(connection):
    """Whether it ends, or is reset, and no byte comes before."""
    try:
        return connection.recv(1) == b""
    except ConnectionResetError:
        return True


def is_open(connection):
    """Whether neither a byte nor its end has come."""
    return not select.select([connection], [], [], 0)[0]


def stuck_ones():
    """Those who ask nothing, or take no answer, hold up no other, nor the tunnel, and are closed after a while: others are
    served while they are still there. Where this process is held up until all are closed that says nothing; so it is tried
    again."""
    tunnel = Tunnel()
    user, service = tunnel.join()
    for _ in range(ATTEMPTS):
        stuck = [call(tunnel.near) for _ in range(40)]
        for connection in stuck[::2]:
            connection.sendall(b"GET /metrics HTTP/1.1")
        assert get(tunnel.near, "/health")[0] == 200
        pass_on(user, service, 1_000_000)
        are_there = any(is_open(connection) for connection in stuck)
        assert all(is_closed(connection) for connection in stuck)
        if are_there:
            tunnel.kill()
            return
    raise AssertionError("others were held up")


def too_many_ask():
    """As many as are answered at once say nothing; one who asks slowly comes, and all but one of so many more. They take the places of
    those who came first, and he is answered. Where this process is held up until all are closed that says nothing; so it is tried
    again."""
    tunnel = Tunnel()
    for _ in range(ATTEMPTS):
        first = [call(tunnel.near) for _ in range(AT_ONCE)]
        slow = call(tunnel.near)
        slow.sendall(b"GET /hea")
        later = [call(tunnel.near) for _ in range(AT_ONCE - 1)]
        while any(map(is_open, first)) and is_open(later[-1]):
            time.sleep(0.001)
        answer = answered(slow, b"lth HTTP/1.1\r\n\r\n")
        if answer and all(map(is_open, later)):
            assert answer == b"HTTP/1.1 200"
            tunnel.kill()
            return
    raise AssertionError("the first ones keep others out")


def answered(connection, rest):
    """How the answer begins once the rest of a request is sent, or nothing where the connection is closed."""
    try:
        connection.sendall(rest)
        return take(connection, 12)
    except OSError:
        return b""


def address_in_use():
    """Where it can't listen at the address nothing begins, and it says why."""
    listener, address = listen()
    for name, words in (("local", ("--listen", ANY)), ("remote", ("--target", NOBODY))):
        for verbose in ((), ("-v",)):
            program = Program(name, *verbose, "--bind", ANY, "--status", address, *words)
            assert program.end() == (1, f"ymx: --status {address}: address in use\nymx: cannot listen at {address}\n")


# ---- draining


def drain(place):
    assert ask(place, request("POST", "/drain"))[::2] == (202, "draining\n")


def drains(words=(), remote=(), at_once=8):
    """Asked to, it takes no more users, finishes those that it has, and ends with 0."""
    tunnel = Tunnel(*words, remote=remote)
    pairs = [tunnel.join() for _ in range(at_once)]
    await_counts(tunnel.near, connections_open=at_once)
    for user, service in pairs:
        pass_on(user, service, 10_000)
    drain(tunnel.near)
    assert get(tunnel.near, "/health")[::2] == (503, "draining\n")
    while True:
        try:
            assert is_cut_at(tunnel.users)
        except ConnectionRefusedError:
            break
    assert tunnel.local.process.poll() is None
    for user, service in pairs:
        pass_on(user, service, 300_000)
        pass_on(service, user, 300_000)
        user.shutdown(socket.SHUT_WR)
        assert has_ended(service)
        pass_on(service, user, 50_000)
        leave(service)
        assert has_ended(user)
        user.close()
    status, said = tunnel.local.end()
    assert status == 0, (status, said)
    assert said.count("(ended)") == 2 * at_once, said
    tunnel.kill()


def restarts():
    """Of 200 transfers none is cut that has begun where a drained `local` is followed by another at the same place."""
    target, address = listen()
    page, second_page, bound, place = free_places(4)
    far = Program("remote", "--keep", "--bind", bound, "--target", address)
    wait_for(bound)
    words = ("local", "--keep", "--listen", place, "--peer", bound, "--status")
    first = Program(*words, page)
    wait_for(page)
    began = []
    for number in range(200):
        if number == 100:
            drain(page)
            # The page answers before the users' listener is closed.
            while listens(place):
                time.sleep(0.01)
            second = Program(*words, second_page)
            wait_for(second_page)
        user = call_when_there(place)
        user.sendall(bytes(1_000))
        service = accept(target)
        assert len(take(service, 1_000)) == 1_000
        began.append((user, service))
    for user, service in began:
        pass_on(service, user, 50_000)
        pass_on(user, service, 50_000)
        user.shutdown(socket.SHUT_WR)
        leave(service)
        assert has_ended(user)
        user.close()
    assert first.end() == (0, "")
    assert counts(second_page)["ymx_connections_begun_total"] == 100
    for program in (far, second):
        program.process.kill()
        program.process.communicate()


def call_when_there(place):
    """A connection to this place, once somebody listens there."""
    while True:
        try:
            return call(place)
        except ConnectionRefusedError:
            time.sleep(0.01)


def drains_while_idle(words=(), remote=()):
    """With no user it ends at once."""
    tunnel = Tunnel(*words, remote=remote)
    drain(tunnel.near)
    status, said = tunnel.local.end()
    assert status == 0, (status, said)
    tunnel.kill()


def drains_before_its_peer_comes():
    """With --keep --bind it ends at once too where no peer has come."""
    page = free_place()
    program = Program("local", "-v", "--keep", "--listen", ANY, "--bind", ANY, "--status", page)
    program.place()
    program.place()
    drain(page)
    assert program.end() == (0, "")


# ---- draining a `remote`


def finish_all(pairs):
    """Each of these transfers goes on to its end."""
    for user, service in pairs:
        pass_on(user, service, 300_000)
        pass_on(service, user, 300_000)
        user.shutdown(socket.SHUT_WR)
        assert has_ended(service)
        pass_on(service, user, 50_000)
        leave(service)
        assert has_ended(user)
        user.close()


def remote_drains(words=(), remote=(), at_once=8):
    """Asked to, it takes no more peers and no more streams, finishes those that it has, and ends with 0."""
    tunnel = Tunnel(*words, remote=remote)
    pairs = [tunnel.join() for _ in range(at_once)]
    await_counts(tunnel.far, connections_open=at_once)
    for user, service in pairs:
        pass_on(user, service, 10_000)
    drain(tunnel.far)
    drain(tunnel.far)
    assert get(tunnel.far, "/health")[::2] == (503, "draining\n")
    assert tunnel.remote.process.poll() is None
    finish_all(pairs)
    assert tunnel.remote.end() == (0, ""), "the remote ended otherwise"
    tunnel.kill()


def remote_drains_while_idle(words=(), remote=()):
    """With no stream it ends at once."""
    tunnel = Tunnel(*words, remote=remote)
    drain(tunnel.far)
    assert tunnel.remote.end() == (0, "")
    tunnel.kill()


def remote_drains_before_its_peer_comes(*words):
    """It ends at once too where no peer has come."""
    page = free_place()
    program = Program("remote", "--bind", ANY, "--target", NOBODY, "--status", page, *words)
    wait_for(page)
    drain(page)
    assert program.end() == (0, "")


def remote_drains_where_it_calls():
    """One that calls, and whose peer can't be reached, ends too, within its pause."""
    page, nobody = free_places(2)
    program = Program("remote", "--keep", "--peer", nobody, "--target", NOBODY, "--status", page)
    wait_for(page)
    drain(page)
    assert program.end() == (0, "")


def says_go_away(*words):
    """A peer hears Go Away, after which its stream goes on, and no other begins. Who calls then isn't let in."""
    target, address = listen()
    page, bound = free_places(2)
    program = Program("remote", "--bind", bound, "--target", address, "--status", page, *words)
    wait_for(page)
    peer = call_when_there(bound)
    peer.sendall(frame(DATA, SYN, 1, 5) + b"hello")
    service = accept(target)
    assert take(service, 5) == b"hello"
    drain(page)
    while next_frame(peer)[0] != AWAY:
        pass
    peer.sendall(frame(DATA, SYN, 3, 0) + frame(DATA, 0, 1, 5) + b"again")
    assert take(service, 5) == b"again"
    try:
        assert is_cut_at(bound)
    except ConnectionRefusedError:
        pass
    assert program.process.poll() is None
    service.close()
    peer.sendall(frame(DATA, 4, 1, 0))
    while peer.recv(65_536):
        pass
    peer.close()
    assert program.end() == (0, "")


def remote_restarts(words=()):
    """Of 200 transfers none is cut that has begun where a drained `remote` is followed by another at the same place: with --keep
    users who come meanwhile wait for it."""
    target, address = listen()
    page, second_page, bound, place, near = free_places(5)
    far = ("remote", "--keep", "--bind", bound, "--target", address, "--status")
    first = Program(*far, page)
    wait_for(bound)
    local = Program("local", "--keep", "--listen", place, "--peer", bound, "--status", near, *words)
    wait_for(near)
    began = [begin(place, target) for _ in range(100)]
    drain(page)
    # `local` has heard of it once nothing is under way any more.
    raw.until(lambda: raw.is_at_rest(local))
    waiting = [call_when_there(place) for _ in range(100)]
    for user in waiting:
        user.sendall(bytes(1_000))
    finish_all(began)
    assert first.end() == (0, "")
    # It calls in vain before its peer is there again.
    raw.until(lambda: get(near, "/health")[::2] == (503, "unreachable\n"))
    second = Program(*far, second_page)
    later = []
    for _ in waiting:
        service = accept(target)
        assert len(take(service, 1_000)) == 1_000
        service.sendall(bytes(50_000))
        service.shutdown(socket.SHUT_WR)
        later.append(service)
    for user in waiting:
        assert len(take(user, 50_000)) == 50_000
        assert has_ended(user)
        user.close()
    for service in later:
        assert has_ended(service)
        service.close()
    assert counts(second_page)["ymx_connections_begun_total"] == 100
    for program in (local, second):
        program.process.kill()
        program.process.communicate()


def begin(place, target):
    """A user's connection, and that at the target, through which bytes have come."""
    user = call_when_there(place)
    user.sendall(bytes(1_000))
    service = accept(target)
    assert len(take(service, 1_000)) == 1_000
    return user, service


def users_wait_behind_go_away():
    """With --keep a user who comes where the peer has gone away waits for the next session, with another peer of yamux too."""
    peers, address = listen()
    program = Program("local", "-v", "--keep", "--listen", ANY, "--peer", address)
    users = program.place()
    first = call(users)
    first.sendall(b"one")
    peer = accept(peers)
    assert next_frame(peer)[1] == SYN
    # What answers the ping has heard the Go Away before it.
    peer.sendall(frame(AWAY, 0, 0, 0) + frame(PING, SYN, 0, 7))
    while next_frame(peer)[0] != PING:
        pass
    second = call(users)
    second.sendall(b"two")
    raw.until(lambda: raw.is_at_rest(program))
    assert is_open(second), "he is closed"
    first.close()
    peer.sendall(frame(DATA, 4, 1, 0))
    while peer.recv(65_536):
        pass
    peer.close()
    peer = accept(peers)
    assert next_frame(peer)[1] == SYN
    second.close()
    peer.close()
    program.process.kill()
    program.process.communicate()


TESTS = (
    ("counts what passes", counts_what_passes, ()),
    ("counts links", counts_links, ()),
    ("counts the refused", counts_the_refused, ()),
    ("counts who waits", counts_who_waits, ()),
    ("counts targets", counts_targets, ()),
    ("says what is lost", says_what_is_lost, ()),
    ("answers", answers, ()),
    ("a line in parts", parts, ()),
    ("stuck ones", stuck_ones, ()),
    ("too many ask", too_many_ask, ()),
    ("address in use", address_in_use, ()),
    ("drains", drains, ()),
    ("drains with --keep", drains, (("--keep",), ("--keep",))),
    ("drains with --links", drains, (("--links", "3"), ("--keep",))),
    ("drains with --links --keep", drains, (("--links", "3", "--keep"), ("--keep",))),
    ("a restart", restarts, ()),
    ("drains while idle", drains_while_idle, ()),
    ("drains while idle with --keep", drains_while_idle, (("--keep",), ("--keep",))),
    ("drains while idle with --links", drains_while_idle, (("--links", "3"), ("--keep",))),
    ("drains before its peer comes", drains_before_its_peer_comes, ()),
    ("a remote drains", remote_drains, ()),
    ("a remote drains with --keep", remote_drains, (("--keep",), ("--keep",))),
    ("a remote drains with --peers", remote_drains, ((), ("--peers", "2"))),
    ("a remote drains with --links", remote_drains, (("--links", "3"), ("--keep",))),
    ("a remote drains while idle", remote_drains_while_idle, ()),
    ("a remote drains while idle with --keep", remote_drains_while_idle, (("--keep",), ("--keep",))),
    ("a remote drains before its peer comes", remote_drains_before_its_peer_comes, ()),
    ("a remote drains before its peer comes with --keep", remote_drains_before_its_peer_comes, ("--keep",)),
    ("a remote drains where it calls", remote_drains_where_it_calls, ()),
    ("says go away", says_go_away, ()),
    ("says go away with --keep", says_go_away, ("--keep",)),
    ("a restart of remote", remote_restarts, ()),
    ("a restart of remote with --links", remote_restarts, (("--links", "3"),)),
    ("users wait after go away", users_wait_behind_go_away, ()),
)


if __name__ == "__main__":
    sys.exit(raw.main(TESTS))
