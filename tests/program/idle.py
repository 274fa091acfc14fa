"""Counts the calls of the system that both ends of a tunnel make while many users are connected, and nothing moves. Without
`--ping` neither makes any: it waits in one call that was made before. With it each ping and each answer wakes an end, so often
as seconds say, and not as users are. Of a static program it also measures what a user takes of memory: less than a page.

It says which tests failed, and nothing where none did. It needs `strace`, and leave to look at another process: without
either it says that in one line on standard output, which begins with `--`.

usage: idle.py YMX [USERS [SECONDS]]
"""

import resource
import shutil
import subprocess
import sys
import tempfile
import time

import raw
from raw import ANY, COUNTS, Program, accept, call, listen, take

FILES = 16_384
USERS, SECONDS = [*map(int, sys.argv[2:]), *(200, 5)[len(sys.argv[2:]):]]
# Once both ends have been silent for so long, in seconds, they have done what there was to do.
PAUSE = 1
# How many calls a ping may cost an end: it asks and is asked, each of which is a wait, a write or two reads, and a wait.
A_PING = 12
# How many bytes of memory a user may take who has sent and got a byte, where no ring of a stream was needed for them.
A_USER = 4_096


def traced(programs, seconds):
    """The names of the calls that each of these makes within so many seconds."""
    with tempfile.TemporaryDirectory() as folder:
        logs = [f"{folder}/{number}" for number in range(len(programs))]
        tracers = [subprocess.Popen(["strace", "-f", "-q", "-o", log, "-p", str(program.process.pid)],
                                    stdin=subprocess.DEVNULL, stderr=subprocess.PIPE)
                   for log, program in zip(logs, programs)]
        time.sleep(PAUSE + seconds)
        for tracer in tracers:
            assert tracer.poll() is None, tracer.stderr.read().decode().strip()
            tracer.terminate()
            tracer.communicate()
        return [names(log) for log in logs]


def names(log):
    """The calls of a log that came back. One that another thread's call stands between has two lines, of which the second counts."""
    found = []
    with open(log, encoding="utf-8") as lines:
        for line in lines:
            said = line.split(maxsplit=1)[1]
            if said.startswith("<... "):
                found.append(said.split()[1])
            elif said[0].isalpha() and "<unfinished" not in said and "<detached" not in said:
                found.append(said.split("(")[0])
    return found


def resident(program):
    """How many bytes of it are in memory."""
    with open(f"/proc/{program.process.pid}/status", encoding="utf-8") as said:
        return next(int(line.split()[1]) * 1024 for line in said if line.startswith("VmRSS:"))


def is_static(program):
    """Whether it needs no loader, whose place stands at a program's beginning: then its heap is musl's."""
    with open(f"/proc/{program.process.pid}/exe", "rb") as made:
        return b"/ld-linux" not in made.read(4096)


def idle(words, most):
    """Each end makes at most so many calls while nothing moves, and keeps little for each user."""
    target, address = listen()
    target.listen(4096)
    remote = Program("remote", "-v", "--bind", ANY, "--target", address, *words)
    local = Program("local", "-v", "--listen", ANY, "--peer", remote.place(), *words)
    place = local.place()
    ends, before = [], []
    for number in range(1 + USERS):
        user = call(place)
        user.sendall(b"?")
        other = accept(target)
        assert take(other, 1) == b"?"
        ends += [user, other]
        if number == 0:
            # both have their buffers, which are no user's
            before = [resident(end) for end in (local, remote)]
    time.sleep(PAUSE)
    for end, was in zip((local, remote), before):
        taken = (resident(end) - was) / USERS
        assert not (COUNTS and is_static(end)) or taken <= A_USER, f"a user takes {taken:.0f} bytes of memory"
    for name, calls in zip(("local", "remote"), traced((local, remote), SECONDS)):
        if len(sys.argv) > 2:
            counts = {word: calls.count(word) for word in sorted(set(calls))}
            print(f"{name} {' '.join(words)}: {len(calls)} calls in {SECONDS} s beside {USERS} users: {counts}")
        assert len(calls) <= most, f"{name} makes {len(calls)} calls: {calls[:50]}"
    for end in ends:
        end.close()


TESTS = (
    ("no call without --ping", idle, ((), 0)),
    ("few calls with --ping 1", idle, (("--ping", "1"), A_PING * (SECONDS + PAUSE + 1))),
    ("few calls with --ping 5", idle, (("--ping", "5"), A_PING * ((SECONDS + PAUSE) // 5 + 1))),
)


def why_not():
    """Why no process can be looked at, or nothing."""
    if not shutil.which("strace"):
        return "no strace"
    looked_at = subprocess.Popen(["sleep", "60"])
    try:
        tracer = subprocess.run(["timeout", "1", "strace", "-q", "-p", str(looked_at.pid)], stdin=subprocess.DEVNULL,
                                capture_output=True, text=True)
    finally:
        looked_at.kill()
        looked_at.wait()
    return "" if tracer.returncode == 124 else tracer.stderr.strip()


def main():
    if why := why_not():
        print(f"--    the calls of an idle tunnel: left out: {why}")
        return 0
    _, most = resource.getrlimit(resource.RLIMIT_NOFILE)
    resource.setrlimit(resource.RLIMIT_NOFILE, (most if most != resource.RLIM_INFINITY and most < FILES else FILES, most))
    return raw.main(TESTS)


if __name__ == "__main__":
    sys.exit(main())
