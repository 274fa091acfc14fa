"""Kills the processes round a tunnel in the middle of transfers, and looks at what is left.

A client, `ymx local`, `ymx remote` and a target stand on the loopback. Each side of a connection sends bytes that
their place in the connection settles, and compares what comes: so what came is always a beginning of what was sent.

1. At a random moment `ymx remote`, `ymx local`, the target or a client is killed, 100 times. Where the session is
   lost, the clients see an end, and the other `ymx` ends with its status, within a minute; how long it took at most is
   printed. Where a client or the target died, the same tunnel serves the next clients, holds no descriptor of the dead
   ones, and has one thread.
2. The same for `ymx` and connections on which nothing moves: idle ones, ones of which one side has ended, ones of
   which nobody reads.
3. Short connections, 64 at once: descriptors and threads after 1,000, 10,000 and 20,000. The second 10,000 must leave
   resident memory as it was.
4. 500 clients killed in the middle: descriptors and threads again.

usage: kill.py YMX [KILLS [SEED]]
"""
import json
import os
import random
import selectors
import signal
import socket
import struct
import subprocess
import sys
import tempfile
import time

sys.path.append(os.path.join(os.path.dirname(__file__), ".."))
from ports import free_port

# What a client says first: its number, how many bytes the target sends, whether it then ends its side, and whether
# it reads.
HEAD = struct.Struct(">QQ??")
# After so many bytes, a prime, the bytes of a connection are the same again.
PERIOD = 1_048_573
TEXT = random.Random(20).randbytes(PERIOD) * 2
AT_ONCE = 65_536
ENDLESS = 1 << 40
# How long a tunnel may take to begin, in seconds.
BEGINNING = 60.0
# How long whatever must end may take after a kill, in seconds: also on a loaded machine.
PATIENCE = 60.0
# How long nobody runs where nothing moves any more, in seconds.
STILL = 0.3
# How much more resident memory 10,000 short connections may leave behind, in KiB: less than 1 KiB for each, where a
# ring, a buffer or a stack that is left would be 4 at least.
MOST_GROWTH = 8192


def piece(number, from_target, place, count):
    """So many of the bytes that one side of a connection sends, from this place on."""
    start = (number * 65_537 + from_target * 524_287 + place) % PERIOD
    return memoryview(TEXT)[start : start + count]


class Side:
    """One side of a connection: it sends, and compares what comes."""

    def __init__(self, connection, number, from_target, sends, ends, reads):
        self.connection = connection
        self.number = number
        self.from_target = from_target
        self.sends = sends
        self.ends = ends
        self.reads = reads
        self.head = b""
        self.sent = 0
        self.came = 0
        self.has_sent_all = False
        self.has_seen_end = False
        self.is_broken = False
        self.differs = False

    def send(self):
        """Sends what the connection takes now."""
        try:
            if self.head:
                self.head = self.head[self.connection.send(self.head) :]
            elif self.sent < self.sends:
                count = min(AT_ONCE, self.sends - self.sent)
                self.sent += self.connection.send(piece(self.number, self.from_target, self.sent, count))
            if not self.head and self.sent == self.sends:
                self.has_sent_all = True
                if self.ends:
                    self.connection.shutdown(socket.SHUT_WR)
        except BlockingIOError:
            pass
        except OSError:
            self.is_broken = True

    def receive(self):
        """Compares what is there."""
        try:
            got = self.connection.recv(AT_ONCE)
        except BlockingIOError:
            return
        except OSError:
            self.is_broken = True
            return
        self.take(got)
        self.has_seen_end = not got

    def take(self, got):
        """Compares these bytes, which come next."""
        if got != piece(self.number, not self.from_target, self.came, len(got)):
            self.differs = True
        self.came += len(got)

    def is_over(self):
        """Whether it can close the connection; who never ends its side holds it open."""
        return self.is_broken or self.differs or (self.has_seen_end and self.has_sent_all and self.ends)

    def wants(self):
        """Which events it waits for; none once it is over, or where it only holds the connection."""
        if self.is_over():
            return 0
        events = 0
        if not self.has_sent_all:
            events |= selectors.EVENT_WRITE
        if self.reads and not self.has_seen_end:
            events |= selectors.EVENT_READ
        return events


# ---- the target


def run_target(listener, faults):
    """Serves all connections as their heads say, until it is killed; writes to this file what was wrong."""
    selector = selectors.DefaultSelector()
    listener.setblocking(False)
    selector.register(listener, selectors.EVENT_READ, None)
    while True:
        for key, events in selector.select():
            if key.data is None:
                accept(selector, listener)
            elif isinstance(key.data, bytes):
                begin(selector, key.fileobj, key.data)
            else:
                turn(selector, key.data, events, faults)


def accept(selector, listener):
    try:
        connection, _ = listener.accept()
    except OSError:
        return
    connection.setblocking(False)
    selector.register(connection, selectors.EVENT_READ, b"")


def begin(selector, connection, head):
    """Reads more of the head of a connection."""
    try:
        got = connection.recv(HEAD.size - len(head))
    except OSError:
        got = b""
    head += got
    if not got:
        selector.unregister(connection)
        connection.close()
    elif len(head) < HEAD.size:
        selector.modify(connection, selectors.EVENT_READ, head)
    else:
        number, sends, ends, reads = HEAD.unpack(head)
        side = Side(connection, number, True, sends, ends, reads)
        if sends == 0:
            side.send()
        if side.wants():
            selector.modify(connection, side.wants(), side)
        else:
            # It is quiet: it holds the connection until it is killed, or until the tunnel ends it.
            hold(selector, connection, side)


def hold(selector, connection, side):
    """Keeps a connection on which this side does nothing."""
    selector.unregister(connection)
    HELD.append((connection, side))


HELD = []


def turn(selector, side, events, faults):
    if events & selectors.EVENT_WRITE:
        side.send()
    if events & selectors.EVENT_READ:
        side.receive()
    if side.differs:
        faults.write(f"connection {side.number}: other bytes came at {side.came}\n")
        faults.flush()
    wanted = side.wants()
    if wanted:
        selector.modify(side.connection, wanted, side)
    elif side.is_over():
        selector.unregister(side.connection)
        side.connection.close()
    else:
        hold(selector, side.connection, side)


# ---- clients


def call(address, number, target_sends, target_ends=True, target_reads=True, sends=0, ends=True, reads=True):
    """A connection of a client, whose head is not sent yet."""
    connection = socket.create_connection(address)
    connection.setblocking(False)
    side = Side(connection, number, False, sends, ends, reads)
    side.head = HEAD.pack(number, target_sends, target_ends, target_reads)
    return side


def run_client(sides, begun):
    """Works on these connections until all are over; `begun` is called once bytes came on each, or it ended."""
    selector = selectors.DefaultSelector()
    for side in sides:
        selector.register(side.connection, side.wants(), side)
    while selector.get_map():
        for key, events in selector.select():
            side = key.data
            if events & selectors.EVENT_WRITE:
                side.send()
            if events & selectors.EVENT_READ:
                side.receive()
            if side.wants():
                selector.modify(side.connection, side.wants(), side)
            else:
                selector.unregister(side.connection)
                if side.is_over():
                    side.connection.close()
        if begun and all(side.came or not side.wants() for side in sides):
            begun()
            begun = None


def run_load(address, numbers, at_once, random_size):
    """Makes short connections, so many at once, and answers how many went wrong."""
    selector = selectors.DefaultSelector()
    numbers = iter(numbers)
    wrong = 0
    open_now = 0

    def one_more():
        nonlocal open_now, wrong
        number = next(numbers, None)
        if number is None:
            return
        size = random_size(number)
        try:
            side = call(address, number, size, sends=size)
        except OSError:
            wrong += 1
            return
        selector.register(side.connection, side.wants(), side)
        open_now += 1

    for _ in range(at_once):
        one_more()
    while open_now:
        for key, events in selector.select():
            side = key.data
            if events & selectors.EVENT_WRITE:
                side.send()
            if events & selectors.EVENT_READ:
                side.receive()
            if side.wants():
                selector.modify(side.connection, side.wants(), side)
                continue
            selector.unregister(side.connection)
            side.connection.close()
            open_now -= 1
            if side.differs or side.is_broken or side.came != side.sends:
                wrong += 1
            one_more()
    return wrong


# ---- processes


def fork(work):
    """Starts a process that does this work, and answers its number."""
    sys.stdout.flush()
    pid = os.fork()
    if pid:
        return pid
    status = 1
    try:
        status = work() or 0
    except BaseException as fault:
        os.write(2, f"kill.py: {fault!r}\n".encode())
    finally:
        os._exit(status)


def wait_for(condition, seconds=PATIENCE):
    """Waits until this holds, and answers the seconds that it took, or None."""
    began = time.monotonic()
    while not condition():
        if time.monotonic() - began > seconds:
            return None
        time.sleep(0.005)
    return time.monotonic() - began


def end_of(pid):
    """The status of an ended child, or None while it runs."""
    found, status = os.waitpid(pid, os.WNOHANG)
    return None if found == 0 else os.waitstatus_to_exitcode(status)


def kill(pid):
    os.kill(pid, signal.SIGKILL)


def listens(port):
    """Whether somebody listens at this port of the loopback; to call would be a connection."""
    wanted = f"0100007F:{port:04X}"
    with open("/proc/net/tcp") as table:
        return any(line.split()[1] == wanted and line.split()[3] == "0A" for line in list(table)[1:])


def descriptors(pid):
    return len(os.listdir(f"/proc/{pid}/fd"))


def has_set(pid):
    """Whether it has made the set of descriptors that it waits for."""
    try:
        return any(os.readlink(entry.path) == "anon_inode:[eventpoll]" for entry in os.scandir(f"/proc/{pid}/fd"))
    except FileNotFoundError:
        return False


def threads(pid):
    return len(os.listdir(f"/proc/{pid}/task"))


def memory(pid, name="VmRSS"):
    """Resident memory in KiB."""
    with open(f"/proc/{pid}/status") as lines:
        return next(int(line.split()[1]) for line in lines if line.startswith(name + ":"))


def waits(pid):
    """Whether it waits, and how often it has begun to."""
    with open(f"/proc/{pid}/status") as status:
        lines = dict(line.split(":", 1) for line in status)
    return lines["State"].split()[0] == "S", int(lines["voluntary_ctxt_switches"])


class Fault(Exception):
    """What should hold and doesn't."""


class Target:
    """The target, in a process of its own."""

    def __init__(self, folder, port=0):
        listener = socket.create_server(("127.0.0.1", port), backlog=1024)
        self.address = listener.getsockname()
        self.faults = os.path.join(folder, f"faults{time.monotonic_ns()}")
        with open(self.faults, "w") as faults:
            self.pid = fork(lambda: run_target(listener, faults))
        listener.close()

    def check(self):
        with open(self.faults) as faults:
            text = faults.read()
        if text:
            raise Fault(f"the target says: {text}")

    def kill(self):
        if self.pid is not None:
            kill(self.pid)
            os.waitpid(self.pid, 0)
        self.pid = None


class Ymx:
    """One `ymx`, with what it says on its standard output and on standard error."""

    def __init__(self, folder, words):
        self.said = open(os.path.join(folder, f"said{time.monotonic_ns()}"), "w+")
        self.words = words
        self.process = subprocess.Popen(words, stdin=subprocess.DEVNULL, stdout=self.said, stderr=subprocess.STDOUT)
        self.pid = self.process.pid

    def wait_until_it_listens(self, port):
        if wait_for(lambda: listens(port), BEGINNING) is None:
            raise SystemExit(f"{self.words} does not listen: {self.text()}")

    def text(self):
        self.said.seek(0)
        return self.said.read()

    def kill(self):
        kill(self.pid)
        self.process.wait()
        self.said.close()

    def ends_well(self, began):
        """It ends with status 0 and says nothing, within the patience of a kill at this time."""
        left = PATIENCE - (time.monotonic() - began)
        try:
            status = self.process.wait(max(left, 0.1))
        except subprocess.TimeoutExpired:
            raise Fault(f"{self.words[1]} still runs {PATIENCE:.0f} seconds after the kill") from None
        text = self.text()
        self.said.close()
        if status != 0 or text:
            raise Fault(f"{self.words[1]} ended with status {status} and said {text!r}")


class Tunnel:
    """`ymx local` and `ymx remote`, and what each holds while no connection is open. `between` makes of
    the place where `remote` listens another one, which `local` calls."""

    def __init__(self, folder, program, target, workers=32, between=None):
        port = free_port()
        address = f"127.0.0.1:{port}"
        host, target_port = target.address
        words = [program, "remote", "--bind", address, "--target", f"{host}:{target_port}", "--workers", str(workers)]
        self.remote = Ymx(folder, words)
        self.remote.wait_until_it_listens(port)
        peer = between(("127.0.0.1", port)) if between else address
        port = free_port()
        self.local = Ymx(folder, [program, "local", "--listen", f"127.0.0.1:{port}", "--peer", peer])
        self.local.wait_until_it_listens(port)
        self.address = ("127.0.0.1", port)
        # The set of descriptors that each waits for is made last, once both are connected.
        if wait_for(lambda: all(has_set(one.pid) for one in (self.local, self.remote)), BEGINNING) is None:
            raise SystemExit("a side makes no set of descriptors to wait for")
        self.at_rest = self.holds()

    def holds(self):
        """Descriptors and threads of both."""
        return [(descriptors(one.pid), threads(one.pid)) for one in (self.local, self.remote)]

    def check_rest(self):
        """Both hold the descriptors that they held at first, and have one thread. In a minute at most."""
        wanted = [(held, 1) for held, _ in self.at_rest]
        if wait_for(lambda: self.holds() == wanted) is None:
            raise Fault(f"descriptors and threads of local and remote are {self.holds()}, and were {wanted}")

    def kill(self):
        for one in self.local, self.remote:
            if one.process.poll() is None:
                one.kill()


class Client:
    """A client, in a process of its own. It tells once bytes came on each of its connections."""

    def __init__(self, folder, address, numbers, **plan):
        self.report = os.path.join(folder, f"client{time.monotonic_ns()}")
        read_end, write_end = os.pipe()
        self.pid = fork(lambda: self.work(address, numbers, plan, write_end))
        os.close(write_end)
        self.begun = read_end
        self.status = None

    def work(self, address, numbers, plan, begun):
        sides = [call(address, number, **plan) for number in numbers]
        run_client(sides, lambda: os.write(begun, b"!"))
        with open(self.report, "w") as report:
            keys = ("number", "sends", "sent", "came", "is_broken", "has_seen_end", "differs")
            json.dump([{key: getattr(side, key) for key in keys} for side in sides], report)

    def wait_until_begun(self):
        with selectors.DefaultSelector() as selector:
            selector.register(self.begun, selectors.EVENT_READ)
            if not selector.select(PATIENCE):
                raise Fault("nothing comes through the tunnel")
        os.close(self.begun)

    def kill(self):
        kill(self.pid)
        os.waitpid(self.pid, 0)
        self.status = -signal.SIGKILL

    def has_ended(self):
        if self.status is None:
            self.status = end_of(self.pid)
        return self.status is not None

    def sides(self, seconds=PATIENCE):
        """How its connections ended, once all have."""
        if wait_for(self.has_ended, seconds) is None:
            self.kill()
            raise Fault(f"a client still waits {seconds:.0f} seconds later")
        if self.status != 0:
            raise Fault(f"a client ended with {self.status}")
        with open(self.report) as report:
            sides = json.load(report)
        for side in sides:
            if side["differs"]:
                raise Fault(f"other bytes came to a client: {side}")
        return sides

    def check_whole(self, seconds):
        """All was sent, and all came, with the ends."""
        for side in self.sides(seconds):
            if side["came"] != side["sends"] or side["sent"] != side["sends"] or not side["has_seen_end"]:
                raise Fault(f"not all came: {side}")


# ---- the tests


class Tests:
    """Counts what holds and what doesn't."""

    def __init__(self):
        self.passed = 0
        self.failed = 0

    def note(self, name, fault):
        if fault is None:
            self.passed += 1
        else:
            self.failed += 1
            print(f"FAIL  {name}: {fault}", flush=True)

    def attempt(self, name, work):
        """Runs one test, and answers whether it holds."""
        fault = None
        try:
            work()
        except Fault as found:
            fault = found
        self.note(name, fault)
        return fault is None


class Killing:
    """Kills in the middle of transfers. Connections are numbered on through all rounds."""

    def __init__(self, folder, program, chance):
        self.folder = folder
        self.program = program
        self.chance = chance
        self.number = 0
        self.target = Target(folder)
        self.tunnel = None
        self.longest = 0.0
        self.moved = 0

    def numbers(self, count):
        self.number += count
        return range(self.number - count, self.number)

    def client(self, count, size):
        return Client(self.folder, self.tunnel.address, self.numbers(count), target_sends=size, sends=size)

    def stop(self):
        if self.tunnel is not None:
            self.tunnel.kill()
        self.tunnel = None

    def round(self, victim):
        if self.tunnel is None:
            self.tunnel = Tunnel(self.folder, self.program, self.target)
        client = self.client(8, ENDLESS)
        client.wait_until_begun()
        beside = self.client(4, self.chance.randrange(1 << 20)) if victim == "client" else None
        time.sleep(self.chance.random() * 0.3)
        began = time.monotonic()
        try:
            getattr(self, "kill_" + victim)(client, beside, began)
        finally:
            if not client.has_ended():
                client.kill()
            if beside is not None and not beside.has_ended():
                beside.kill()
        self.target.check()

    def note_end(self, client, began):
        """All connections of this client end; what came was right."""
        self.moved += sum(side["came"] for side in client.sides())
        self.longest = max(self.longest, time.monotonic() - began)

    def kill_remote(self, client, _beside, began):
        self.tunnel.remote.kill()
        self.note_end(client, began)
        call_until_it_ends(self.tunnel.local, self.tunnel.address)
        self.tunnel.local.ends_well(began)
        self.longest = max(self.longest, time.monotonic() - began)
        self.tunnel = None

    def kill_local(self, client, _beside, began):
        self.tunnel.local.kill()
        self.tunnel.remote.ends_well(began)
        self.note_end(client, began)
        self.tunnel = None

    def kill_target(self, client, _beside, began):
        port = self.target.address[1]
        self.target.kill()
        self.target.check()
        self.note_end(client, began)
        self.target = Target(self.folder, port)
        self.goes_on()

    def kill_client(self, client, beside, _began):
        client.kill()
        beside.check_whole(PATIENCE)
        self.goes_on()

    def goes_on(self):
        """The tunnel serves the next client, and holds nothing of those before."""
        self.client(4, self.chance.randrange(1 << 20)).check_whole(PATIENCE)
        self.tunnel.check_rest()


def call_until_it_ends(local, address):
    """Where its session is lost, `ymx local` ends at the next connection that comes, and closes it."""

    def has_ended():
        time.sleep(0.1)
        try:
            socket.create_connection(address).close()
        except OSError:
            pass
        return local.process.poll() is not None

    wait_for(has_ended)


# What both sides do on connections on which nothing moves any more.
QUIET = {
    "idle connections": dict(target_sends=1, target_ends=False, sends=1, ends=False),
    "clients that have ended their side": dict(target_sends=1, target_ends=False, sends=1, ends=True),
    "targets that have ended their side": dict(target_sends=1, target_ends=True, sends=1, ends=False),
    "clients that don't read": dict(target_sends=ENDLESS, target_ends=False, sends=1, ends=False, reads=False),
    "targets that don't read": dict(target_sends=1, target_ends=False, target_reads=False, sends=ENDLESS, ends=False),
}
# Here what has come waits for a reader that has ended its own side: the other `ymx` ends once that reader is gone.
UNREAD = {
    "remote": dict(target_sends=ENDLESS, target_ends=False, sends=1, reads=False),
    "local": dict(target_sends=1, target_reads=False, sends=ENDLESS, ends=False),
}


def wait_until_still(pids):
    """Waits until each of these has waited for a while, and not run."""

    def is_still():
        before = [waits(pid) for pid in pids]
        time.sleep(STILL)
        return before == [waits(pid) for pid in pids] and all(now for now, _ in before)

    if wait_for(is_still) is None:
        raise Fault("somebody runs where nothing moves")


def run_quiet(folder, program, victim, plan, workers=32, has_readers=True):
    """One `ymx` is killed where nothing moves any more: the other one ends, once those who don't read are gone."""
    target = Target(folder)
    tunnel = Tunnel(folder, program, target, workers)
    holders = []


    def holds():
        sides = [call(tunnel.address, number, **plan) for number in range(4)]
        run_client(sides, None)
        signal.pause()

    try:
        holders.append(fork(holds))
        wait_until_still([holders[0], target.pid, tunnel.local.pid, tunnel.remote.pid])
        dead, alive = (tunnel.remote, tunnel.local) if victim == "remote" else (tunnel.local, tunnel.remote)
        dead.kill()
        if not has_readers:
            time.sleep(0.2)
            kill(holders[0])
            target.kill()
        began = time.monotonic()
        if victim == "remote":
            call_until_it_ends(tunnel.local, tunnel.address)
        alive.ends_well(began)
        target.check()
    finally:
        for pid in holders:
            kill(pid)
            os.waitpid(pid, 0)
        tunnel.kill()
        target.kill()


def run_leaks(folder, program, tests):
    """Short connections, and then clients that are killed: what is left behind."""
    target = Target(folder)
    tunnel = Tunnel(folder, program, target, 64)
    both = (("local", tunnel.local), ("remote", tunnel.remote))
    held = []

    def load(numbers):
        pid = fork(lambda: min(run_load(tunnel.address, numbers, 64, lambda number: number * 7919 % 2048), 255))
        _, status = os.waitpid(pid, 0)
        if status:
            raise Fault(f"{os.waitstatus_to_exitcode(status)} connections went wrong")
        target.check()
        tunnel.check_rest()
        held.append([memory(one.pid) for _, one in both])

    def grown(before, after):
        for (name, _), less, more in zip(both, before, after):
            if more - less >= MOST_GROWTH:
                raise Fault(f"{name} grew from {less} to {more} KiB")

    def killed():
        numbers = iter(range(500))
        for _ in range(10):
            clients = []
            for _ in range(50):
                number = next(numbers)
                clients.append(Client(folder, tunnel.address, [number], target_sends=ENDLESS, sends=ENDLESS))
            for client in clients:
                client.wait_until_begun()
            for client in clients:
                client.kill()
        target.check()
        tunnel.check_rest()

    try:
        print(f"      at rest: {told(tunnel, both)}", flush=True)
        for first, last in (0, 1000), (1000, 10_000), (10_000, 20_000):
            tests.attempt(f"{last} short connections", lambda: load(range(first, last)))
            print(f"      after {last:,} connections: {told(tunnel, both)}", flush=True)
        tests.attempt("resident memory after 20,000 connections", lambda: grown(*held[-2:]))
        tests.attempt("500 clients killed in the middle", killed)
        print(f"      after 500 killed clients: {told(tunnel, both)}", flush=True)
        tests.attempt("200 connections after that", lambda: load(range(200)))
    finally:
        tunnel.kill()
        target.kill()


def told(tunnel, both):
    """What both hold, in words."""
    return "; ".join(
        f"{name} {held} descriptors, {count} threads, {memory(one.pid)} KiB resident"
        for (name, one), (held, count) in zip(both, tunnel.holds())
    )


def run_kills(folder, program, kills, seed, tests):
    chance = random.Random(seed)
    killing = Killing(folder, program, chance)
    counts = {}
    try:
        for number in range(1, kills + 1):
            victim = chance.choice(("remote", "local", "target", "client"))
            counts[victim] = counts.get(victim, 0) + 1
            if not tests.attempt(f"kill {number}, of the {victim}", lambda: killing.round(victim)):
                killing.stop()
    finally:
        killing.stop()
        killing.target.kill()
    print(f"      killed: {counts}; the last end came {killing.longest:.2f} seconds after the kill at most; "
          f"{killing.moved / 1e6:,.0f} MB came to clients and were right", flush=True)


def main():
    program = sys.argv[1]
    kills = int(sys.argv[2]) if len(sys.argv) > 2 else 100
    seed = int(sys.argv[3]) if len(sys.argv) > 3 else random.SystemRandom().randrange(1 << 32)
    print(f"seed {seed}", flush=True)
    tests = Tests()
    with tempfile.TemporaryDirectory() as folder:
        run_kills(folder, program, kills, seed, tests)
        for name, plan in QUIET.items():
            for victim in ("remote", "local"):
                work = lambda: run_quiet(folder, program, victim, plan)
                tests.attempt(f"{victim} is killed beside {name}", work)
        for victim, plan in UNREAD.items():
            work = lambda: run_quiet(folder, program, victim, plan, has_readers=False)
            tests.attempt(f"{victim} is killed beside readers that have ended their side", work)
        for victim in ("remote", "local"):
            work = lambda: run_quiet(folder, program, victim, QUIET["idle connections"], workers=1)
            tests.attempt(f"{victim} is killed beside connections that wait for a worker", work)
        run_leaks(folder, program, tests)
    print(f"{tests.passed} passed, {tests.failed} failed")
    return tests.failed != 0


if __name__ == "__main__":
    sys.exit(main())
