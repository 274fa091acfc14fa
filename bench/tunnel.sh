#!/bin/sh
# Measures the tunnel over TCP on the loopback: a client, `ymx local`, `ymx remote` and an echo server; the same
# with Go's yamux in place of ymx, and with plain copying in place of yamux; and, if they are installed, with `ssh -L`
# and an sshd, which encrypt, and with two haproxies. Medians of five runs, in turn. The
# client compares what comes back. Then it times 64 bytes there and back, 500 times one after another: alone, beside
# 1,000 idle connections, and beside 63 busy ones. It ends with the lines of bench/README.md, for tools/speeds.py. Needs Go,
# as tests/interop/run.sh does. With a number it makes so many runs. If YMX_BEFORE names a program of ymx, such as one from before a change, that is measured in turn too.
set -eu
top=$(cd "$(dirname "$0")/.." && pwd)
case ${1-5} in
'' | *[!0-9]*) echo "usage: bench/tunnel.sh [RUNS]" >&2 && exit 2 ;;
esac
[ -d /usr/share/gocode/src/github.com/hashicorp/yamux ] || { echo 'bench/tunnel.sh needs golang-go and golang-github-hashicorp-yamux-dev' >&2; exit 1; }
"$top/ymx" --version > /dev/null
folder=$(mktemp -d)
trap 'rm -rf "$folder"' EXIT
# where Debian's servers stand
PATH=$PATH:/usr/sbin
GO111MODULE=off GOPATH=/usr/share/gocode go build -o "$folder/peer" "$top/tests/interop/peer.go"
PYTHONPATH=$top/bench python3 -B - "$folder/peer" "$top/out/ymx" "${1-5}" <<'PYTHON'
import contextlib
import os
import resource
import shutil
import signal
import socket
import statistics
import subprocess
import sys
import time

import others

peer, ymx, runs = sys.argv[1], sys.argv[2], int(sys.argv[3])
folder = os.path.dirname(peer)
# for 1,000 connections through one process
most = resource.getrlimit(resource.RLIMIT_NOFILE)[1]
resource.setrlimit(resource.RLIMIT_NOFILE, (most, most))
ANY = "127.0.0.1:0"
# Both ends with windows of 1 MiB.
WIDE = "ymx --window 1048576"
# Four connections between the ends, each with a thread of its own at either.
LINKS = "ymx --links 4"
# Another program of ymx, to be compared.
BEFORE = os.environ.get("YMX_BEFORE")
KINDS = ["ymx", "ymx before"] if BEFORE else ["ymx"]
KINDS += ["Go's yamux"]
KINDS += ["ssh -L"] if others.has_ssh() else []
KINDS += ["haproxy"] if shutil.which("haproxy") else []
KINDS += ["plain copying"]
CASES = [
    ("1 connection of 1 GiB", 1, 1, 1 << 30),
    ("64 connections of 16 MiB at once", 64, 64, 16 << 20),
    ("2,000 connections of 1 KiB, 64 at once", 2000, 64, 1024),
    ("2,000 empty connections in turn", 2000, 1, 0),
]
# The lines of bench/README.md, which tools/speeds.py takes.
ROWS, COSTS, WAITS = [], [], []


def short(number):
    """The number with two digits that tell, or whole."""
    return f"{number:.0f}" if number >= 10 else f"{number:.2g}"


def free_address():
    """An address that nobody listens at."""
    with socket.socket() as one:
        one.bind(("127.0.0.1", 0))
        return f"127.0.0.1:{one.getsockname()[1]}"


def fresh(program):
    """A new copy of the program: one can be a tenth faster than another, probably by the pages of memory in which its file lies."""
    copy = os.path.join(folder, f"copy of {os.path.basename(program)}")
    with contextlib.suppress(FileNotFoundError):
        os.remove(copy)
    return shutil.copy(program, copy)


def listens(address):
    """Whether somebody listens there; to call would be the one connection of `ymx remote`."""
    return f" {address} " in subprocess.run(["ss", "-ltn"], capture_output=True, text=True, check=True).stdout


def family(process):
    """This process, and all that it has begun."""
    parents = {}
    for one in filter(str.isdigit, os.listdir("/proc")):
        try:
            parents[int(one)] = int(open(f"/proc/{one}/stat").read().rsplit(") ", 1)[1].split()[1])
        except (FileNotFoundError, ProcessLookupError):
            pass
    found = [process]
    for one in found:
        found += [child for child, parent in parents.items() if parent == one]
    return found


class Process:
    """A process that says where it listens, or of which that is known."""

    def __init__(self, words, address=None):
        self.log = open(os.path.join(folder, f"log{time.monotonic_ns()}"), "w+")
        self.process = subprocess.Popen(words, stdout=self.log, stderr=subprocess.STDOUT)
        for _ in range(200):
            if address and listens(address):
                self.address = address
                return
            self.log.seek(0)
            found = [line.split()[-1] for line in self.log if "listening at " in line]
            if found:
                self.address = found[0]
                return
            time.sleep(0.05)
        self.log.seek(0)
        raise SystemExit(f"{words} says nothing: {self.log.read()}")

    def cost(self):
        """Seconds of the processor, and the largest resident memory of one process in MiB."""
        seconds, memory = 0, 0
        for one in family(self.process.pid):
            fields = open(f"/proc/{one}/stat").read().rsplit(") ", 1)[1].split()
            seconds += (int(fields[11]) + int(fields[12])) / os.sysconf("SC_CLK_TCK")
            memory = max(memory, int(open(f"/proc/{one}/status").read().split("VmHWM:")[1].split()[0]) / 1024)
        return seconds, memory

    def stop(self):
        for one in reversed(family(self.process.pid)):
            with contextlib.suppress(ProcessLookupError):
                os.kill(one, signal.SIGKILL)
        self.process.wait()


def tunnel(kind, echo):
    """The two processes between the client and the echo server, the client's first."""
    at, near = free_address(), free_address()
    if kind == "ssh -L":
        far = Process(others.sshd(folder, at), at)
        return Process(others.ssh(folder, at, near, echo.address), near), far
    if kind == "haproxy":
        far = Process(others.haproxy(folder, at, echo.address), at)
        return Process(others.haproxy(folder, near, at), near), far
    if kind == "plain copying":
        far = Process([peer, "forward", "-at", ANY, "-to", echo.address])
        return Process([peer, "forward", "-at", ANY, "-to", far.address]), far
    if kind == "Go's yamux":
        program = fresh(peer)
        far = Process([program, "remote", "-at", ANY, "-to", echo.address])
        return Process([program, "local", "-at", ANY, "-to", far.address]), far
    options = ["--window", "1048576"] if kind == WIDE else []
    links, peers = (["--links", "4"], ["--peers", "4"]) if kind == LINKS else ([], [])
    program = fresh(BEFORE if kind == "ymx before" else ymx)
    far = Process([program, "remote", "--bind", at, "--target", echo.address, *options, *peers], at)
    return Process([program, "local", "--listen", near, "--peer", far.address, *options, *links], near), far


def measure(kind, count, at_once, size):
    echo = Process([peer, "echo", "-at", ANY])
    near, far = tunnel(kind, echo)
    words = [peer, "load", "-at", near.address, "-count", str(count), "-at-once", str(at_once), "-size", str(size)]
    seconds, failures = subprocess.run(words, capture_output=True, text=True, check=True, timeout=300).stdout.split()
    costs = near.cost(), far.cost()
    for each in near, far, echo:
        each.stop()
    if failures != "0":
        raise SystemExit(f"{kind}: {failures} connections of {count} failed")
    return float(seconds), sum(cost[0] for cost in costs), max(cost[1] for cost in costs)


for name, count, at_once, size in CASES:
    print(name)
    figures = {kind: [] for kind in KINDS}
    if count == 1:
        figures[WIDE] = []
    elif at_once > 1:
        figures[LINKS] = []
    for _ in range(runs):
        for kind in figures:
            figures[kind].append(measure(kind, count, at_once, size))
    speeds, costs = {}, {}
    unit = "MB a second each way" if size >= 1 << 20 else "connections a second"
    for kind, taken in figures.items():
        seconds, processor, memory = (statistics.median(column) for column in zip(*taken))
        speeds[kind] = f"{(count * size / 1e6 if size >= 1 << 20 else count) / seconds:,.0f}"
        costs[kind] = f"{short(processor)} s, {memory:.0f} MiB"
        print(f"  {kind}: {speeds[kind]} {unit}; {costs[kind]}")
    ROWS.append(f"| tunnel, {name}: {'; '.join(KINDS)} | {'; '.join(speeds[kind] for kind in KINDS)} {unit} |")
    COSTS.append([name, *(costs[kind] for kind in KINDS)])
    if name.startswith("64 "):
        ROWS.append(f"| the same with `local --links 4` | {speeds[LINKS]} {unit} |")

EXCHANGES = 500
BESIDE = [
    ("nothing", 0, 0),
    ("1,000 idle connections", 1000, 0),
    ("63 connections that carry as much as they can", 0, 63),
]


def exchange(one):
    """64 bytes go there and come back."""
    one.sendall(bytes(64))
    left = 64
    while left:
        came = len(one.recv(left))
        if came == 0:
            raise SystemExit("a connection ended before its bytes had come back")
        left -= came


def connected(address):
    """A connection that has carried bytes both ways."""
    host, port = address.rsplit(":", 1)
    one = socket.create_connection((host, int(port)))
    one.setsockopt(socket.IPPROTO_TCP, socket.TCP_NODELAY, 1)
    exchange(one)
    return one


def measure_exchanges(kind, idle, busy):
    """The median of an exchange in milliseconds, and the largest resident memory of one process in MiB."""
    echo = Process([peer, "echo", "-at", ANY])
    near, far = tunnel(kind, echo)
    words = [peer, "load", "-at", near.address, "-count", str(busy), "-at-once", str(busy), "-size", str(1 << 40)]
    load = subprocess.Popen(words, stdout=subprocess.DEVNULL) if busy else None
    others = [connected(near.address) for _ in range(idle)]
    time.sleep(0.5)
    times = []
    with connected(near.address) as one:
        for _ in range(EXCHANGES):
            began = time.perf_counter()
            exchange(one)
            times.append((time.perf_counter() - began) * 1000)
    memory = max(near.cost()[1], far.cost()[1])
    if load:
        load.kill()
        load.wait()
    for each in others:
        each.close()
    for each in near, far, echo:
        each.stop()
    return statistics.median(times), memory


for name, idle, busy in BESIDE:
    print(f"64 bytes there and back, beside {name}")
    figures = {kind: [] for kind in KINDS}
    for _ in range(runs):
        for kind in figures:
            figures[kind].append(measure_exchanges(kind, idle, busy))
    waits = []
    for kind, taken in figures.items():
        wait, memory = (statistics.median(column) for column in zip(*taken))
        waits.append(f"{short(wait)} ms" + f", {memory:.0f} MiB" * (idle + busy > 0))
        print(f"  {kind}: {waits[-1]}")
    WAITS.append([name, *waits])

print("\n" + "\n".join(ROWS))
for first, rows in ("Connections", COSTS), ("Beside", WAITS):
    print()
    for row in [[first, *KINDS], ["---"] * (len(KINDS) + 1), *rows]:
        print(f"| {' | '.join(row)} |".replace(" --- ", "---"))
PYTHON
