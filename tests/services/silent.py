#!/usr/bin/env python3
"""The line between the two ends of a tunnel is cut, and no word of it reaches them.

`silent.py PROGRAM NEAR FAR PING WATCH` makes two network namespaces of these names, with a line between them. `remote`
and an echo server run in the far one, `local` and a user in the near one. The line is cut in one of three ways:

- frames: what is sent comes to nobody, as behind a router that has failed; both cards stay up
- down: the near card is taken down
- address: the near card gets another address

The user's connection is idle then, or sends a byte a second. It looks, for so many seconds, when each end says that its
peer has gone, and when the connections of the user and of the service end. Then the near namespace is made anew, as a
machine that was switched off and on, and a new `local` tries to reach `remote`.

With PING above 0 both ends are told `--ping PING`: then each has to notice within twice these seconds.
"""

import ctypes
import os
import signal
import socket
import subprocess
import sys
import threading
import time

CLONE_NEWNET = 0x40000000
NEAR_HOST, MOVED_HOST, FAR_HOST = "10.78.0.1", "10.78.0.3", "10.78.0.2"
# nobody's address on this line
NOBODY = "02:00:00:00:00:77"
REMOTE_PORT, LOCAL_PORT, NEXT_PORT = 4000, 8080, 8081
PATIENCE = 10
# what a busy machine may add to the time in which an end notices
SLACK = 1.0


class Fault(Exception):
    """What was found wrong."""


def ip(*words):
    done = subprocess.run(["ip", *words], capture_output=True, text=True)
    if done.returncode:
        raise Fault(f"ip {' '.join(words)}: {done.stderr.strip()}")


def inside(namespace, work):
    """What `work` answers in this namespace. A socket stays in the one where it was made."""
    answer = []

    def run():
        file = os.open(f"/run/netns/{namespace}", os.O_RDONLY)
        try:
            if ctypes.CDLL(None, use_errno=True).setns(file, CLONE_NEWNET) != 0:
                raise OSError(ctypes.get_errno(), "setns")
            answer.append((work(), None))
        except OSError as fault:
            answer.append((None, fault))
        finally:
            os.close(file)

    thread = threading.Thread(target=run)
    thread.start()
    thread.join()
    value, fault = answer[0]
    if fault:
        raise fault
    return value


class Line:
    """Two namespaces, and a line between them."""

    def __init__(self, near, far):
        self.near, self.far = near, far

    def make(self):
        ip("netns", "add", self.far)
        ip("-n", self.far, "link", "set", "lo", "up")
        self.make_near(NEAR_HOST)

    def make_near(self, host):
        """The near namespace, and the line from it."""
        ip("netns", "add", self.near)
        ip("-n", self.near, "link", "set", "lo", "up")
        ip("link", "add", "ymx0", "netns", self.near, "type", "veth", "peer", "name", "ymx1", "netns", self.far)
        for namespace, card, address in (self.near, "ymx0", host), (self.far, "ymx1", FAR_HOST):
            ip("-n", namespace, "addr", "add", f"{address}/24", "dev", card)
            ip("-n", namespace, "link", "set", card, "up")

    def cut(self, how):
        if how == "frames":
            for namespace, card, host in (self.near, "ymx0", FAR_HOST), (self.far, "ymx1", NEAR_HOST):
                ip("-n", namespace, "neigh", "replace", host, "lladdr", NOBODY, "nud", "permanent", "dev", card)
        elif how == "down":
            ip("-n", self.near, "link", "set", "ymx0", "down")
        else:
            ip("-n", self.near, "addr", "add", f"{MOVED_HOST}/24", "dev", "ymx0")
            ip("-n", self.near, "addr", "del", f"{NEAR_HOST}/24", "dev", "ymx0")
            ip("-n", self.near, "addr", "replace", f"{MOVED_HOST}/24", "dev", "ymx0")

    def renew(self, how, near_ones):
        """Makes the near namespace anew. What ran there ends after its card, so that no word of it comes out."""
        ip("-n", self.near, "link", "del", "ymx0")
        for one in near_ones:
            one.stop()
        self.drop_namespace(self.near)
        self.make_near(MOVED_HOST if how == "address" else NEAR_HOST)

    def drop(self):
        self.drop_namespace(self.near)
        self.drop_namespace(self.far)

    def drop_namespace(self, name):
        subprocess.run(["ip", "netns", "del", name], capture_output=True)


def wait_for(condition, seconds=PATIENCE):
    """How long it took until this held, or None."""
    began = time.monotonic()
    while not condition():
        if time.monotonic() > began + seconds:
            return None
        time.sleep(0.02)
    return time.monotonic() - began


class End:
    """One end of the tunnel, and what it says: when, and which line."""

    def __init__(self, namespace, words):
        self.process = subprocess.Popen(
            ["ip", "netns", "exec", namespace, *words], stdin=subprocess.DEVNULL, stderr=subprocess.PIPE, text=True
        )
        self.said = []
        threading.Thread(target=self.read, daemon=True).start()

    def read(self):
        for line in self.process.stderr:
            self.said.append((time.monotonic(), line.rstrip()))
        self.said.append((time.monotonic(), f"(it ended with status {self.process.wait()})"))

    def when(self, text):
        """When it first said this, or None."""
        return next((time_ for time_, line in self.said if text in line), None)

    def lines_since(self, moment):
        return [(time_ - moment, line) for time_, line in self.said if time_ >= moment]

    def stop(self):
        """Ends it, and the sockets that it had; the line may have gone before."""
        self.process.send_signal(signal.SIGKILL)
        self.process.wait()


class Service:
    """An echo server in the far namespace. `ended` is when the first connection to it ended."""

    def __init__(self, namespace):
        self.listener = inside(namespace, lambda: socket.create_server(("127.0.0.1", 0)))
        self.port = self.listener.getsockname()[1]
        self.ended = None
        threading.Thread(target=self.serve, daemon=True).start()

    def serve(self):
        while True:
            try:
                connection = self.listener.accept()[0]
            except OSError:
                return
            threading.Thread(target=self.echo, args=(connection,), daemon=True).start()

    def echo(self, connection):
        try:
            while came := connection.recv(65536):
                connection.sendall(came)
        except OSError:
            pass
        self.ended = self.ended or time.monotonic()
        connection.close()

    def stop(self):
        self.listener.shutdown(socket.SHUT_RDWR)
        self.listener.close()


class User:
    """A user of the tunnel. `ended` is when the connection ended."""

    def __init__(self, namespace, port):
        place = ("127.0.0.1", port)
        self.connection = inside(namespace, lambda: socket.create_connection(place, timeout=PATIENCE))
        self.ended = None

    def ask(self):
        """Whether a text comes back."""
        self.connection.sendall(b"hello")
        came = b""
        while len(came) < 5 and (got := self.connection.recv(5 - len(came))):
            came += got
        return came == b"hello"

    def go_on(self, is_busy):
        """Waits for the end, and sends a byte a second until then."""
        self.connection.settimeout(None)
        threading.Thread(target=self.wait, daemon=True).start()
        if is_busy:
            threading.Thread(target=self.send, daemon=True).start()

    def wait(self):
        try:
            while self.connection.recv(65536):
                pass
        except OSError:
            pass
        self.ended = time.monotonic()

    def send(self):
        try:
            while not self.ended:
                self.connection.sendall(b".")
                time.sleep(1)
        except OSError:
            pass

    def stop(self):
        try:
            self.connection.shutdown(socket.SHUT_RDWR)
        except OSError:
            pass
        self.connection.close()


class Case:
    """One cut."""

    def __init__(self, program, line, ping, watch, how, is_busy):
        self.program, self.line, self.ping, self.how, self.is_busy = program, line, ping, how, is_busy
        self.watch = max(watch, 2 * ping + SLACK) if ping else watch
        self.options = ["--keep", "-v"] + (["--ping", f"{ping:g}"] if ping else [])
        self.running = []

    def started(self, one):
        self.running.append(one)
        return one

    def local(self, port):
        words = [self.program, "local", *self.options, "--listen", f"127.0.0.1:{port}", "--peer"]
        return self.started(End(self.line.near, [*words, f"{FAR_HOST}:{REMOTE_PORT}"]))

    def run(self):
        """What was seen, as lines; a Fault where something had to be otherwise."""
        self.line.make()
        service = self.started(Service(self.line.far))
        place = ["--bind", f"{FAR_HOST}:{REMOTE_PORT}", "--target", f"127.0.0.1:{service.port}"]
        remote = self.started(End(self.line.far, [self.program, "remote", *self.options, *place]))
        if wait_for(lambda: remote.when("listening at")) is None:
            raise Fault(f"remote doesn't listen: {remote.said}")
        local = self.local(LOCAL_PORT)
        if wait_for(lambda: local.when("listening at")) is None:
            raise Fault(f"local doesn't listen: {local.said}")
        user = self.started(User(self.line.near, LOCAL_PORT))
        if not user.ask():
            raise Fault("nothing came back before the cut")
        user.go_on(self.is_busy)
        # so that nothing is under way any more where nothing moves; and with `--ping` one has gone there and back
        time.sleep(1.2 + self.ping)
        if local.when("the peer has gone") or remote.when("the peer has gone") or user.ended:
            raise Fault(f"an end has lost its peer before the cut: {local.said} {remote.said}")
        cut = time.monotonic()
        self.line.cut(self.how)
        noticed = lambda: local.when("the peer has gone") and remote.when("the peer has gone")
        wait_for(lambda: noticed() and user.ended and service.ended, self.watch)
        seen, faults = [], []
        for name, end in ("local", local), ("remote", remote):
            moment = end.when("the peer has gone")
            seen.append(f"{name} {self.after(moment, cut, 'notices')}")
            if self.ping and (moment is None or moment - cut > 2 * self.ping + SLACK):
                faults.append(f"{name} has to notice within {2 * self.ping:g} seconds")
        seen.append(f"the user's connection {self.after(user.ended, cut, 'ends')}")
        seen.append(f"the service's {self.after(service.ended, cut, 'ends')}")
        for name, end in ("local", local), ("remote", remote):
            seen += [f"      {name} said, {moment:.1f} s after the cut: {text}" for moment, text in end.lines_since(cut)]
        self.line.renew(self.how, (local, user))
        seen.append(self.begin_anew(faults))
        if faults:
            raise Fault("\n      ".join(faults + seen))
        return seen

    def after(self, moment, cut, what):
        if moment is None:
            return f"{what} nothing in {self.watch:g} s" if what == "notices" else f"doesn't end in {self.watch:g} s"
        return f"{what} after {moment - cut:.1f} s"

    def begin_anew(self, faults):
        """The near machine has begun anew, and its new `local` calls until it is served."""
        began, tries, said = time.monotonic(), 0, ""
        while time.monotonic() < began + self.watch:
            tries += 1
            local = self.local(NEXT_PORT)
            wait_for(lambda: local.when("listening at") or local.when("(it ended"), self.watch)
            if local.when("listening at"):
                user = self.started(User(self.line.near, NEXT_PORT))
                user.connection.settimeout(self.watch)
                if answered(user):
                    return f"a new local is served after {time.monotonic() - began:.1f} s, at try {tries}"
                said = "its user gets no answer"
            else:
                said = local.said[0][1]
            local.stop()
            time.sleep(0.5)
        if self.ping:
            faults.append("a new local has to be served")
        return f"a new local is not served in {self.watch:g} s ({tries} tries: {said})"

    def stop(self):
        for one in self.running:
            one.stop()
        self.line.drop()


def answered(user):
    try:
        return user.ask()
    except OSError:
        return False


def main():
    program, near, far = sys.argv[1:4]
    ping, watch = float(sys.argv[4]), float(sys.argv[5])
    passed = failed = 0
    for how in "frames", "down", "address":
        for is_busy in False, True:
            name = f"{how}, {'a byte a second' if is_busy else 'idle'}"
            case = Case(program, Line(near, far), ping, watch, how, is_busy)
            began = time.monotonic()
            try:
                seen = case.run()
                passed += 1
                print(f"ok    {name} ({time.monotonic() - began:.1f} seconds)")
                for text in seen:
                    print(text if text.startswith(" ") else f"      {text}")
            except (Fault, OSError) as fault:
                failed += 1
                print(f"FAIL  {name}: {fault}")
            finally:
                case.stop()
            sys.stdout.flush()
    print(f"{passed} passed, {failed} failed")
    return failed != 0


if __name__ == "__main__":
    sys.exit(main())
