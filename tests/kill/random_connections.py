"""Makes many connections through a tunnel, of random sizes and with random ends, and compares all that comes.

The users and the target are coroutines of this process; `ymx local` and `ymx remote` stand between them. Of each
connection these are random: how many bytes each side sends, in which pieces, and how it ends. The two sides end in
good order, one after the other or both at once; or nobody reads for a while; or one side closes early, or resets its
connection. What came is compared with what was sent, byte for byte. Where the connection ended in good order it is the
whole of it, and else a beginning. Nothing waits for longer than a bound.

It is done in five blocks. After each block both `ymx` must hold the descriptors that they held at first. After the
last block they have no more resident memory than after the first, up to a bound, where a block has 1,000 connections
or more. While a block runs they never hold many more descriptors than there are users.

Before that the test is tried itself: a proxy between the two changes one byte, or drops the last byte of a connection,
or the end of one; a connection is left open; memory is in use. Each of these must be found.

usage: random_connections.py YMX [CONNECTIONS [SEED]]
"""
import asyncio
import random
import socket
import struct
import sys
import tempfile
import threading
import time

from kill import Fault, Tests, Tunnel, descriptors, memory, piece, wait_for

# What a user says first: the number of its connection.
HEAD = struct.Struct(">Q")
# A frame of yamux: its version, its type, its flags, its stream, and a length.
FRAME = struct.Struct(">BBHII")
DATA, FIN = 0, 4
USUAL_COUNT = 10_000
USUAL_SEED = 20
BLOCKS = 5
AT_ONCE = 100
# How long one side of a connection may take, in seconds: also on a loaded machine.
PATIENCE = 300
# How long both `ymx` may take to close what is over, or to take what is sent, in seconds.
REST = 120
# How long a connection is waited for whose end is taken away, in seconds.
SHORT = 2
# How long nobody reads, at most, in seconds.
LONGEST_PAUSE = 0.2
# How much more resident memory a side may have after the last block than after the first, in KiB. Measured were 2 to 11
# MiB after 10,000 connections in four runs, and no more than 12 after 40,000, of which the last 10,000 added less than
# 0.2: what is freed lies in pieces between what is not. 8,000 connections that leave 2 KiB each are 16 MiB; a ring, a
# buffer or a stack that is left would be 4 KiB at least.
MOST_GROWTH = 16_384
# Smaller blocks say nothing of it: some of them hold a few large connections, and others none.
SMALLEST_BLOCK = 1_000
# How many more descriptors a side may hold while connections run than there are users at once: those of which this
# process has closed both ends, and the side has not yet heard it.
MOST_LATE = 100
# How many faults are told.
MOST_TOLD = 10
# How a connection ends, and how many of a hundred do.
ENDS = {
    "the user ends first": 20,
    "the target ends first": 20,
    "both end at once": 20,
    "nobody reads for a while": 4,
    "the user closes early": 9,
    "the user resets": 9,
    "the target closes early": 9,
    "the target resets": 9,
}


class Plan:
    """What is to be done on one connection."""

    def __init__(self, number, end, user_sends, target_sends, seed):
        self.number = number
        self.end = end
        self.sends = {False: user_sends, True: target_sends}
        self.seed = seed

    def is_whole(self):
        """Whether both sides end in good order."""
        return not (self.end.endswith("early") or self.end.endswith("resets"))

    def cuts(self, from_target):
        """Whether this side cuts the connection."""
        return not self.is_whole() and self.end.startswith("the target") == from_target

    def ends_second(self, from_target):
        """Whether this side sends its end only once it has seen the other's."""
        return self.end.endswith("ends first") and self.end.startswith("the target") != from_target


def random_size(chance):
    """How many bytes one side sends: most are few, some none, and some of several MiB."""
    kind = chance.random()
    if kind < 0.1:
        return 0
    if kind < 0.75:
        return chance.randrange(1, 1 << chance.randrange(1, 15))
    if kind < 0.99:
        return chance.randrange(200_000)
    return chance.randrange(1 << 20, 5 << 20)


def random_plan(seed, number):
    """The plan of one connection, which no other changes."""
    chance = random.Random(f"{seed} {number}")
    end = chance.choices(list(ENDS), ENDS.values())[0]
    return Plan(number, end, random_size(chance), random_size(chance), f"{seed} {number}")


# ---- one connection


class Side:
    """One side of a connection: what it has sent, and what came."""

    def __init__(self, connection, plan, from_target, patience):
        connection.setblocking(False)
        self.patience = patience
        self.connection = connection
        self.plan = plan
        self.from_target = from_target
        self.chance = random.Random(f"{plan.seed} {from_target}")
        self.sends = plan.sends[from_target]
        # At most some 60 pieces on average, as each takes a call.
        self.largest = max(1 << self.chance.randrange(17), self.sends // 30)
        self.offered = 0
        self.came = 0
        self.has_seen_end = False

    def __str__(self):
        name = "target" if self.from_target else "user"
        return (f"connection {self.plan.number} ({self.plan.end}), the {name}: offered {self.offered} of {self.sends}, "
                f"{self.came} came of {self.plan.sends[not self.from_target]}, end seen: {self.has_seen_end}")

    async def send(self, count):
        """Sends so many bytes in random pieces."""
        loop = asyncio.get_running_loop()
        while self.offered < count:
            size = min(self.chance.randint(1, self.largest), count - self.offered)
            bytes_ = piece(self.plan.number, self.from_target, self.offered, size)
            self.offered += size
            await loop.sock_sendall(self.connection, bytes_)

    async def receive(self):
        """Compares what comes, up to the end."""
        loop = asyncio.get_running_loop()
        while got := await loop.sock_recv(self.connection, self.chance.choice((100, 5_000, 65_536))):
            if got != piece(self.plan.number, not self.from_target, self.came, len(got)):
                raise Fault(f"other bytes came after {self.came}: {self}")
            self.came += len(got)
        self.has_seen_end = True

    async def run(self):
        """Does what the plan says for this side."""
        work = self.cut() if self.plan.cuts(self.from_target) else self.carry()
        try:
            await asyncio.wait_for(work, self.patience)
        except asyncio.TimeoutError:
            raise Fault(f"it still waits after {self.patience} seconds: {self}") from None
        except OSError as fault:
            if self.plan.is_whole():
                raise Fault(f"{fault!r}: {self}") from None
        finally:
            self.connection.close()

    async def carry(self):
        """Sends all and its end, and receives up to the end of the other."""
        receiving = asyncio.ensure_future(self.receive_late())
        try:
            await self.send(self.sends)
            if self.plan.ends_second(self.from_target):
                await receiving
            self.connection.shutdown(socket.SHUT_WR)
            await receiving
        finally:
            await stop(receiving)

    async def receive_late(self):
        if self.plan.end == "nobody reads for a while":
            await asyncio.sleep(self.chance.random() * LONGEST_PAUSE)
        await self.receive()

    async def cut(self):
        """Sends some, and then closes the connection, with or without having read."""
        reads = self.chance.random() < 0.5
        receiving = asyncio.ensure_future(self.receive() if reads else asyncio.sleep(0))
        try:
            await self.send(self.chance.randint(0, self.sends))
            await asyncio.sleep(self.chance.choice((0, 0, self.chance.random() * 0.02)))
        finally:
            await stop(receiving)
            if self.plan.end.endswith("resets"):
                self.connection.setsockopt(socket.SOL_SOCKET, socket.SO_LINGER, struct.pack("ii", 1, 0))


async def stop(task):
    """Ends a task, and raises the fault that it found."""
    if not task.done():
        task.cancel()
    try:
        await task
    except (asyncio.CancelledError, OSError):
        pass


def check_pair(user, target):
    """What came to each side was sent by the other, and all of it where both ended in good order."""
    for side, other in (user, target), (target, user):
        if side.came > other.offered:
            raise Fault(f"more came than {other.offered}: {side}")
        if side.plan.is_whole() and (side.came != other.sends or not side.has_seen_end):
            raise Fault(f"not all came: {side}")


# ---- many connections


class Load:
    """The users and the target of a tunnel."""

    def __init__(self, plan_of, patience=PATIENCE):
        self.plan_of = plan_of
        self.patience = patience
        self.listener = socket.create_server(("127.0.0.1", 0), backlog=1024)
        self.listener.setblocking(False)
        self.address = self.listener.getsockname()
        self.targets = {}
        self.tasks = set()
        self.faults = []
        self.whole = self.cut = self.moved = 0

    async def serve(self):
        """Accepts the connections to the target."""
        while True:
            connection, _ = await asyncio.get_running_loop().sock_accept(self.listener)
            task = asyncio.ensure_future(self.noted(self.run_target(connection)))
            self.tasks.add(task)
            task.add_done_callback(self.tasks.discard)

    async def noted(self, work):
        """Does this work, and notes the fault that it finds."""
        try:
            await work
        except Fault as fault:
            self.faults.append(str(fault))

    async def run_target(self, connection):
        """The target's side. Of one that was cut early not even the head may come."""
        connection.setblocking(False)
        try:
            head = await asyncio.wait_for(take(connection, HEAD.size), PATIENCE)
        except asyncio.TimeoutError:
            connection.close()
            raise Fault("a connection came to the target, and neither its number nor its end") from None
        if len(head) < HEAD.size:
            connection.close()
            return
        number = HEAD.unpack(head)[0]
        if number in self.targets:
            raise Fault(f"connection {number} came twice")
        side = Side(connection, self.plan_of(number), True, self.patience)
        over = asyncio.get_running_loop().create_future()
        self.targets[number] = side, over
        try:
            await side.run()
        finally:
            over.set_result(None)

    async def run_user(self, place, number):
        """One connection of a user, and what both sides have of it."""
        plan = self.plan_of(number)
        connection = socket.socket()
        side = Side(connection, plan, False, self.patience)
        loop = asyncio.get_running_loop()
        try:
            await asyncio.wait_for(loop.sock_connect(connection, place), PATIENCE)
            await asyncio.wait_for(loop.sock_sendall(connection, HEAD.pack(number)), PATIENCE)
        except (OSError, asyncio.TimeoutError) as fault:
            connection.close()
            raise Fault(f"{fault!r} at the beginning: {side}") from None
        await side.run()
        if plan.is_whole() and number not in self.targets:
            raise Fault(f"it never came to the target: {side}")
        if number in self.targets:
            target, over = self.targets[number]
            await over
            check_pair(side, target)
            self.moved += side.came + target.came
        self.whole += plan.is_whole()
        self.cut += not plan.is_whole()

    async def run_users(self, place, numbers):
        """So many users at once, until all these connections have been made or one has a fault."""
        numbers = iter(numbers)

        async def work():
            for number in numbers:
                if self.faults:
                    return
                await self.noted(self.run_user(place, number))

        await asyncio.gather(*(work() for _ in range(AT_ONCE)))
        while self.tasks:
            await asyncio.wait(self.tasks)
        self.targets.clear()

    def check(self):
        if self.faults:
            raise Fault("\n      ".join(self.faults[:MOST_TOLD]))


async def take(connection, count):
    """So many bytes, or fewer before the end."""
    came = b""
    try:
        while len(came) < count and (got := await asyncio.get_running_loop().sock_recv(connection, count - len(came))):
            came += got
    except OSError:
        pass
    return came


# ---- what both `ymx` hold


class Watch:
    """The most descriptors and the most resident memory of both sides while a block runs."""

    def __init__(self, tunnel):
        self.sides = tunnel.local, tunnel.remote
        self.descriptors = [0, 0]
        self.memory = [0, 0]

    async def run(self):
        while True:
            self.descriptors = [max(most, descriptors(side.pid)) for most, side in zip(self.descriptors, self.sides)]
            self.memory = [max(most, memory(side.pid)) for most, side in zip(self.memory, self.sides)]
            await asyncio.sleep(0.05)


def check_rest(tunnel, seconds=REST):
    """Both hold the descriptors that they held at first. Their resident memory then, in KiB."""
    if wait_for(lambda: tunnel.holds() == tunnel.at_rest, seconds) is None:
        raise Fault(f"descriptors and threads of local and remote are {tunnel.holds()}, and were {tunnel.at_rest}")
    return held(tunnel)


def held(tunnel):
    return [memory(side.pid) for side in (tunnel.local, tunnel.remote)]


def check_growth(first, last):
    for name, before, after in zip(("local", "remote"), first, last):
        if after - before >= MOST_GROWTH:
            raise Fault(f"resident memory of {name} grew from {before} to {after} KiB")


async def run_block(tunnel, load, numbers):
    """Makes these connections, and answers what both held while they ran, and their memory after them."""
    watch = Watch(tunnel)
    watching = asyncio.ensure_future(watch.run())
    try:
        await load.run_users(tunnel.address, numbers)
    finally:
        watching.cancel()
    load.check()
    behind = check_rest(tunnel)
    for name, most, (rest, _) in zip(("local", "remote"), watch.descriptors, tunnel.at_rest):
        if most > rest + AT_ONCE + MOST_LATE:
            raise Fault(f"{name} held {most} descriptors, and {rest} at rest")
    print(f"      {numbers.stop:,} connections: {load.whole:,} whole, {load.cut:,} cut, {load.moved / 1e6:,.0f} MB; "
          f"descriptors at most {watch.descriptors}, KiB at most {watch.memory}, KiB behind {behind}", flush=True)
    return behind


async def run_all(folder, program, count, seed):
    """The connections, in blocks."""
    load = Load(lambda number: random_plan(seed, number))
    serving = asyncio.ensure_future(load.serve())
    tunnel = Tunnel(folder, program, load, 1024)
    try:
        print(f"      at rest: descriptors {[held for held, _ in tunnel.at_rest]}, KiB {held(tunnel)}", flush=True)
        behind = []
        for block in range(BLOCKS):
            behind.append(await run_block(tunnel, load, range(count * block // BLOCKS, count * (block + 1) // BLOCKS)))
        if count // BLOCKS >= SMALLEST_BLOCK:
            check_growth(behind[0], behind[-1])
    finally:
        serving.cancel()
        tunnel.kill()
        load.listener.close()


# ---- the test is tried


class Proxy:
    """Stands between `ymx local` and `ymx remote`, and spoils what `local` sends on one stream."""

    STREAM = 5

    def __init__(self, spoil):
        self.spoil = spoil
        self.held = b""
        self.has_spoiled = False

    def begin(self, behind):
        """Listens for `local`, in a thread of its own, and answers where. `remote` listens at the place after it."""
        listener = socket.create_server(("127.0.0.1", 0))

        def work():
            near, far = listener.accept()[0], socket.create_connection(behind)
            listener.close()
            threading.Thread(target=self.pass_on, args=(far, near, False), daemon=True).start()
            self.pass_on(near, far, True)

        threading.Thread(target=work, daemon=True).start()
        return "127.0.0.1:%d" % listener.getsockname()[1]

    def pass_on(self, giver, taker, spoils):
        """Passes frames on, until one side ends."""
        try:
            while header := take_all(giver, FRAME.size):
                version, kind, flags, stream, length = FRAME.unpack(header)
                payload = take_all(giver, length) if kind == DATA else b""
                if spoils and stream == self.STREAM and self.spoil:
                    flags, payload = getattr(self, self.spoil)(flags, payload)
                length = len(payload) if kind == DATA else length
                taker.sendall(FRAME.pack(version, kind, flags, stream, length) + payload)
            taker.shutdown(socket.SHUT_WR)
        except (OSError, struct.error):
            pass

    def change_a_byte(self, flags, payload):
        """Of the first frame that holds more than the head."""
        if len(payload) > HEAD.size and not self.has_spoiled:
            self.has_spoiled = True
            payload = payload[:-1] + bytes([payload[-1] ^ 1])
        return flags, payload

    def drop_the_last_byte(self, flags, payload):
        """Each byte waits for the next, and the last one waits for ever."""
        all_ = self.held + payload
        self.held = all_[-1:]
        return flags, all_[:-1]

    def drop_the_end(self, flags, payload):
        return flags & ~FIN, payload


def take_all(connection, count):
    """So many bytes, or fewer before the end."""
    came = b""
    while len(came) < count and (got := connection.recv(count - len(came))):
        came += got
    return came


async def run_spoiled(folder, program, spoil):
    """Twenty whole connections through a proxy. What was found."""
    patience = SHORT if spoil == "drop_the_end" else PATIENCE
    load = Load(lambda number: Plan(number, "both end at once", 3_000, 3_000, f"{number}"), patience)
    tunnel = Tunnel(folder, program, load, 1024, Proxy(spoil).begin)
    serving = asyncio.ensure_future(load.serve())
    try:
        await load.run_users(tunnel.address, range(20))
        load.check()
        return ""
    except Fault as fault:
        return str(fault)
    finally:
        serving.cancel()
        tunnel.kill()
        load.listener.close()


async def run_held(folder, program):
    """Connections that are left open, with much that nobody reads. What is found of descriptors, and of memory."""
    listener = socket.create_server(("127.0.0.1", 0), backlog=1024)
    load = type("Target", (), {"address": listener.getsockname()})
    tunnel = Tunnel(folder, program, load, 1024)
    users = []
    try:
        before = check_rest(tunnel)
        for _ in range(AT_ONCE):
            users.append(socket.create_connection(tunnel.address))
            users[-1].setblocking(False)

        def is_found():
            """Sends what the tunnel takes now: how fast that is depends on the machine."""
            for one in users:
                send_some(one)
            return found(lambda: check_growth(before, held(tunnel)))

        wait_for(is_found, REST)
        return [found(lambda: check_rest(tunnel, 0.2)), found(lambda: check_growth(before, held(tunnel)))]
    finally:
        for one in users:
            one.close()
        listener.close()
        tunnel.kill()


def send_some(connection):
    """Sends what a connection takes now, of some bytes."""
    try:
        connection.send(bytes(1 << 20))
    except BlockingIOError:
        pass


def found(check):
    """The fault that this check finds."""
    try:
        check()
    except Fault as fault:
        return str(fault)
    return ""


def try_itself(folder, program, tests):
    """Each fault must be found, and none where there is none."""
    for spoil, wanted in (
        (None, ""),
        ("change_a_byte", "other bytes came"),
        ("drop_the_last_byte", "not all came"),
        ("drop_the_end", "still waits"),
    ):
        told = asyncio.run(run_spoiled(folder, program, spoil))
        missed = f"it finds {told!r}" if (wanted not in told or bool(wanted) != bool(told)) else None
        tests.note(f"a proxy that is to {spoil or 'do nothing'}", missed)
    for told, wanted in zip(asyncio.run(run_held(folder, program)), ("descriptors", "resident memory")):
        tests.note(f"{wanted} in use", None if told.startswith(wanted) else f"it finds {told!r}")


def main():
    program = sys.argv[1]
    count = int(sys.argv[2]) if len(sys.argv) > 2 else USUAL_COUNT
    seed = int(sys.argv[3]) if len(sys.argv) > 3 else USUAL_SEED
    print(f"seed {seed}", flush=True)
    tests = Tests()
    with tempfile.TemporaryDirectory() as folder:
        try_itself(folder, program, tests)
        began = time.monotonic()
        tests.attempt(f"{count:,} connections", lambda: asyncio.run(run_all(folder, program, count, seed)))
        print(f"      {time.monotonic() - began:.1f} seconds", flush=True)
    print(f"{tests.passed} passed, {tests.failed} failed")
    return tests.failed != 0


if __name__ == "__main__":
    sys.exit(main())
