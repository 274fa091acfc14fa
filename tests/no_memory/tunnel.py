"""Refuses the tunnel, and `ymx selftest`, an allocation at a time, a thread, or a call about the readiness of
descriptors. Its words: the program, and the library that refuses.

One small connection goes through `ymx local --count 1` and `ymx remote` to a target: the client sends some bytes and
ends its side, and the target then answers some and ends its own. In each run one of the two is refused one allocation
or one call about readiness: the first, the second and so on, up to the first number that a run doesn't come to.

Whichever it is, both end within 60 seconds of what they wait for. A status is 0, and nothing is said, or it is 1 and
one text is said: of the side that was refused an allocation `ymx: out of memory`, of the side that was refused a call
that it can't listen, or can't reach its peer, and of `ymx local` also that it can't reach a `ymx remote` that has gone.
What arrives is a beginning of what was sent, and all of it where both statuses are 0. So a `ymx remote` that rejects the
stream, as it has no memory for it, says so too. Only where it is refused to watch its connection to the target does it
reset the stream, as where the target refuses it, and says nothing.

The same is tried of `ymx local --links 2`, which starts a thread for the second link, to a `ymx remote --peers 2`: where it
can't be made it says that it can't reach its peer, and the first link serves. Of all allocations just those of that thread may
end so. Each link says its own fault: where the one that was refused something had called before, and its peer has ended with it,
the other can't reach it any more.

The same is tried of a side that is told `--keep`. A `ymx remote` then goes on, so it is ended from outside once
`ymx local` has ended. It starts a thread for each of 16 peers at first, and these starts are refused too. Where a thread can't
be made, the standard library doesn't say whether there was no memory for it. `ymx remote --keep` says then that it can't
listen. Of all allocations just those of these threads may end so.

`ymx selftest` is refused each in the same way, and the start of each thread. It ends within 60 seconds too: with status
0 and its three lines, or with status 1 and one text: that there was no memory, that it can't listen, or which connection
failed, after the lines of those before.
"""

import collections
import functools
import os
import random
import re
import signal
import socket
import subprocess
import sys
import tempfile
import threading
import time

sys.path.append(os.path.join(os.path.dirname(__file__), ".."))
from ports import free_ports

QUESTION = random.Random(3).randbytes(20_000)
ANSWER = random.Random(4).randbytes(30_000)
# In seconds, for whatever must end: also on a slow machine where others run.
PATIENCE = 60.0
OUT_OF_MEMORY = "ymx: out of memory\n"
CANNOT_LISTEN = "ymx: cannot listen at 127.0.0.1:0\n"
# Why something can't be had, which is said before that.
REASON = re.compile(r"^ymx: --[a-z]+(?: 127\.0\.0\.1:[0-9]+)?: .*\n(?=ymx: cannot )", re.MULTILINE)
# What refuses a call about readiness.
POLL = "FAIL_POLL_AT"
# What refuses the start of a thread.
THREAD = "FAIL_THREAD_AT"
# How a run ends in which no thread could be made for a peer, or a link.
NO_THREAD = "no thread"
# What `ymx selftest` prints.
LINES = [f"connection {number}: {size} bytes echoed\n" for number, size in enumerate([0, 1, 300_000], 1)]


def read_all(connection):
    """What comes, up to the end or to a fault."""
    came = bytearray()
    try:
        while piece := connection.recv(65_536):
            came += piece
    except OSError:
        pass
    return bytes(came)


class Target(threading.Thread):
    """Answers each connection once its question has ended, until `stop`."""

    def __init__(self):
        super().__init__(daemon=True)
        self.listener = socket.create_server(("127.0.0.1", 0))
        self.address = "127.0.0.1:%d" % self.listener.getsockname()[1]
        self.questions = []
        self.last = None
        self.start()

    def run(self):
        while True:
            connection, caller = self.listener.accept()
            with connection:
                if caller == self.last:
                    return
                self.questions.append(read_all(connection))
                try:
                    connection.sendall(ANSWER)
                except OSError:
                    pass

    def stop(self):
        """What was asked, once all who have called were answered."""
        with socket.socket() as caller:
            caller.bind(("127.0.0.1", 0))
            self.last = caller.getsockname()
            caller.connect(self.listener.getsockname())
            self.join(PATIENCE)
        if self.is_alive():
            raise TimeoutError("the target waits for the end of a connection")
        self.listener.close()
        return self.questions


def listens(port):
    """Whether somebody listens at this port; to call would be the one connection of `ymx remote`."""
    with open("/proc/net/tcp") as table:
        return any(line.split()[1:4:2] == [f"0100007F:{port:04X}", "0A"] for line in table)


class Side:
    """One `ymx` that listens at a port of its own."""

    def __init__(self, words, port, environment):
        self.port = port
        self.process = subprocess.Popen(
            words, env=environment, stdin=subprocess.DEVNULL, stdout=subprocess.PIPE, stderr=subprocess.PIPE, text=True
        )

    def is_there(self):
        """Waits until it listens, or has ended: whether it listens."""
        late = time.monotonic() + PATIENCE
        while self.process.poll() is None:
            if listens(self.port):
                return True
            if time.monotonic() > late:
                raise TimeoutError("it neither listens nor ends")
            time.sleep(0.002)
        return False

    def end(self):
        """Its status, and what it says, but for the reason of a fault, once it has ended."""
        out, said = self.process.communicate(timeout=PATIENCE)
        return self.process.returncode, REASON.sub("", said) if out == "" else f"on standard output {out!r}"

    def is_at_rest(self):
        """Whether it has no socket but its listener, and all its threads wait, now and a little later."""
        process = f"/proc/{self.process.pid}"
        try:
            for _ in range(2):
                files = [os.readlink(f"{process}/fd/{number}") for number in os.listdir(f"{process}/fd")]
                if sum(file.startswith("socket:") for file in files) > 1:
                    return False
                for task in os.listdir(f"{process}/task"):
                    with open(f"{process}/task/{task}/stat") as stat:
                        if stat.read().rsplit(")", 1)[1].split()[0] != "S":
                            return False
                time.sleep(0.01)
        except OSError:
            return False
        return True

    def end_kept(self):
        """What it says, as a side that was ended from outside, or its status, if it has ended by itself. Its peer has gone
        by then. What went wrong is said only afterwards, so it is ended once it is at rest."""
        late = time.monotonic() + PATIENCE
        while self.process.poll() is None:
            if self.is_at_rest():
                self.process.terminate()
                break
            if time.monotonic() > late:
                raise TimeoutError("it is never at rest")
            time.sleep(0.002)
        status, said = self.end()
        return (0 if said == "" else 1, said) if status == -signal.SIGTERM else (status, said)

    def kill(self):
        if self.process.poll() is None:
            self.process.kill()
            self.process.communicate()


class Tunnel:
    """Runs of the tunnel, in which one side is refused something, and of `ymx selftest`."""

    def __init__(self, program, failing, folder):
        self.program, self.failing = program, failing
        self.mark = os.path.join(folder, "failed")

    def environment(self, refused, variable, number):
        """That of a side, which is refused what has this number, or nothing."""
        if not refused:
            return dict(os.environ)
        return dict(os.environ, LD_PRELOAD=self.failing, FAILED=self.mark, **{variable: str(number)})

    def run(self, name, variable, number):
        """Refuses this side what has this number: how the run ended, and whether it came to it."""
        target = Target()
        sides = []
        try:
            near, far, answer = self.carry(target, sides, name, variable, number)
            questions = target.stop()
        except (TimeoutError, subprocess.TimeoutExpired) as fault:
            raise SystemExit(f"FAIL  ymx {name}: {variable}={number}: it hangs: {fault}")
        finally:
            for side in sides:
                side.kill()
        came = self.has_come()
        try:
            return judge(name, variable, near, far, questions, answer, sides), came
        except AssertionError as fault:
            raise SystemExit(f"FAIL  ymx {name}: {variable}={number}: {fault}: local {near}, remote {far}")

    def carry(self, target, sides, name, variable, number):
        """One connection: how both sides end, and what the client reads."""
        ports = free_ports(2)
        place, peer = (f"127.0.0.1:{port}" for port in ports)
        side, *keep = name.split()
        words = [self.program, "remote", "--bind", peer, "--target", target.address, "--workers", "2"]
        words += ["--peers", "2"] * ("--links" in keep)
        is_refused = side == "remote"
        far = Side(words + keep * is_refused, ports[1], self.environment(is_refused, variable, number))
        sides.append(far)
        far.is_there()
        words = [self.program, "local", "--listen", place, "--peer", peer, "--count", "1"]
        is_refused = side == "local"
        near = Side(words + keep * is_refused, ports[0], self.environment(is_refused, variable, number))
        sides.append(near)
        answer = ask(ports[0]) if near.is_there() else b""
        near_end = near.end()
        if near_end[0] != 0 and far.process.poll() is None:
            # It may have gone before it called.
            with socket.socket() as caller:
                caller.connect_ex(("127.0.0.1", ports[1]))
        return near_end, far.end_kept() if name == "remote --keep" else far.end(), answer

    def run_selftest(self, variable, number):
        """Refuses `ymx selftest` what has this number: how the run ended, and whether it came to it."""
        words, environment = [self.program, "selftest"], self.environment(True, variable, number)
        try:
            ended = subprocess.run(
                words, env=environment, stdin=subprocess.DEVNULL, capture_output=True, text=True, timeout=PATIENCE
            )
        except subprocess.TimeoutExpired:
            raise SystemExit(f"FAIL  ymx selftest: {variable}={number}: it hangs")
        try:
            return judge_selftest(ended.returncode, ended.stdout, ended.stderr), self.has_come()
        except AssertionError as fault:
            raise SystemExit(f"FAIL  ymx selftest: {variable}={number}: {fault}: {ended}")

    def has_come(self):
        """Whether the run came to what was to be refused."""
        came = os.path.exists(self.mark)
        if came:
            os.remove(self.mark)
        return came


def ask(port):
    """What a client reads that asks at this port: nothing where the one who listened there has just ended, or ends now."""
    try:
        client = socket.create_connection(("127.0.0.1", port), PATIENCE)
    except ConnectionError:
        return b""
    with client:
        try:
            client.sendall(QUESTION)
            client.shutdown(socket.SHUT_WR)
        except OSError:
            pass
        return read_all(client)


def judge(name, variable, near, far, questions, answer, sides):
    """How a run ended."""
    unreached = (1, f"ymx: cannot reach 127.0.0.1:{sides[0].port}\n")
    good = (0, "")
    refused = {"local": [(1, OUT_OF_MEMORY)], "remote": [(1, OUT_OF_MEMORY)]}
    cannot_listen = (1, f"ymx: cannot listen at 127.0.0.1:{sides[0].port}\n")
    if name == "remote --keep" and variable != POLL and (near, far, questions, answer) == (unreached, cannot_listen, [], b""):
        return NO_THREAD
    if name == "local --links 2" and near[0] == 1:
        # where the peer has ended with the first link, the second can't reach it, and says that too
        said = sorted(near[1].splitlines(keepends=True), key=unreached[1].__eq__)
        if said[1:] == [unreached[1]]:
            near = (1, said[0])
    if name == "local --links 2" and variable != POLL and near == unreached and far == good:
        assert (questions, answer) == ([QUESTION], ANSWER), "the first link doesn't serve"
        return NO_THREAD
    if variable == POLL:
        refused["remote"] = [cannot_listen]
        refused["local"] = [unreached, (1, f"ymx: cannot listen at 127.0.0.1:{sides[-1].port}\n")]
    is_local = name.startswith("local")
    assert near in ([good, *refused["local"]] if is_local else [good, unreached]), "local ends so"
    assert far in ([good] if is_local else [good, *refused["remote"]]), "remote ends so"
    assert near != unreached or variable == POLL or far in refused["remote"], "remote was there"
    assert len(questions) <= 1, "more than one connection"
    assert QUESTION.startswith(b"".join(questions)) and ANSWER.startswith(answer), "other bytes arrive"
    if (near, far) != (good, good):
        return "out of memory" if variable != POLL else "refused by the system"
    if variable == POLL and not is_local and (questions, answer) == ([b""], b""):
        return "a reset stream"
    assert (questions, answer) == ([QUESTION], ANSWER), f"{list(map(len, questions))} and {len(answer)} bytes arrive"
    return "as ever"


def judge_selftest(status, out, said):
    """How a run of `ymx selftest` ended."""
    lines = out.splitlines(keepends=True)
    assert lines == LINES[: len(lines)], "other lines"
    if (status, said, lines) == (0, "", LINES):
        return "as ever"
    assert status == 1 and len(lines) < len(LINES), "it ends so"
    if said == f"ymx: selftest failed: connection {len(lines) + 1}\n":
        return "a connection failed"
    if said == CANNOT_LISTEN and not lines:
        return "cannot listen"
    assert said == OUT_OF_MEMORY, "another text"
    return "out of memory"


def try_all(run, name, variable):
    """Refuses one after another, until a run comes to no more."""
    counts = collections.Counter()
    number, came = 0, True
    while came:
        number += 1
        ending, came = run(variable, number)
        counts[ending] += 1
    told = ", ".join(f"{count} {ending}" for ending, count in sorted(counts.items()))
    # Each start of a thread allocates once or twice.
    most = {"remote --keep": 16, "local --links 2": 1}.get(name, 0) * (1 if variable == THREAD else 2)
    if counts[NO_THREAD] > most:
        raise SystemExit(f"FAIL  ymx {name}: {variable}: {told}: other threads than those that serve")
    if counts["as ever"] == sum(counts.values()):
        raise SystemExit(f"FAIL  ymx {name}: {variable}: no run was refused anything")
    print(f"ok    ymx {name}: {variable} up to {number - 1}: {told}", flush=True)


def main():
    program, failing = sys.argv[1:]
    with tempfile.TemporaryDirectory() as folder:
        tunnel = Tunnel(program, failing, folder)
        names = "remote", "local", "remote --keep", "local --keep", "local --links 2"
        runs = {name: functools.partial(tunnel.run, name) for name in names}
        runs["selftest"] = tunnel.run_selftest
        for name, run in runs.items():
            try_all(run, name, "FAIL_AT")
            try_all(run, name, POLL)
        for name in "remote --keep", "local --links 2", "selftest":
            try_all(runs[name], name, THREAD)


main()
