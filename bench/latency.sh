#!/bin/sh
# Measures how long a small stream waits beside large ones: 64 bytes there and back, one exchange after another, beside
# downloads that take all that a slow line carries. The line is the relay bench/line.py, which needs no privilege. The
# same is measured of Go's yamux, if tests/interop/run.sh finds Go, of `ssh -L` and of two haproxies, if they are installed,
# and of plain TCP over the line, in turn. haproxy has a connection over the line for each user.
#
#     bench/latency.sh [RUNS]
#
# RUNS is how often each is measured, 3 if it is left out: it prints the medians of these runs' medians, with the lowest
# and the highest, Jain's index of what the downloads brought (1 if each brought as much), and what they brought
# together. It ends with the lines of bench/README.md, for tools/speeds.py. If YMX_BEFORE names a program of ymx, such as
# one from before a change, that is measured in turn too. ROWS names the rows to measure, by their numbers from 1 on.
# Needs Python 3 and iproute2.
set -eu
here=$(cd "$(dirname "$0")" && pwd)
. "$here/../tests/over.sh"
numbers "$@"
find_program
peer=
if has_go; then
    peer=$scratch/peer
    go_program "$root/tests/interop/peer.go" "$peer"
fi
# where Debian's sshd stands
PATH=$PATH:/usr/sbin
PYTHONPATH=$root/tests:$here python3 -B - "$ymx" "${YMX_BEFORE-}" "$peer" "$here/line.py" "${1-3}" "${ROWS-1 2 3 4}" "$scratch" << 'PYTHON'
import random
import selectors
import shutil
import socket
import statistics
import subprocess
import sys
import threading
import time

import others
from ports import free_port

ymx, before, peer, relay, runs, chosen, folder = sys.argv[1:]
# What is measured, million bits a second, the round trip in milliseconds, how many downloads, the windows.
ROWS = [
    ("8 downloads over 10 Mbit/s and 50 ms", 10, 50, 8, 262_144),
    ("the same with windows of 1 MiB", 10, 50, 8, 1 << 20),
    ("50 downloads over 100 Mbit/s and 20 ms", 100, 20, 50, 262_144),
    ("1 download over 10 Mbit/s and 50 ms", 10, 50, 1, 262_144),
]
# Seconds in which the downloads get going, and for which exchanges are measured.
WARM, MEASURED = 4, 12
SIZE = 64
PIECE = 65_536
DOWNLOAD, ECHO = b"d", b"e"


def listens(port):
    return f":{port} " in subprocess.run(["ss", "-ltn"], capture_output=True, text=True, check=True).stdout


def begin(processes, port, words):
    """A process that listens at this port."""
    processes.append(subprocess.Popen(words, stdout=subprocess.DEVNULL))
    for _ in range(300):
        if listens(port):
            return
        time.sleep(0.05)
    raise SystemExit(f"{words} doesn't listen at port {port}")


def serve(connection):
    """Sends zeros for ever to who asks for a download, and else gives back what comes."""
    piece = bytes(PIECE)
    try:
        first = connection.recv(SIZE)
        while first == DOWNLOAD:
            connection.sendall(piece)
        while first:
            connection.sendall(first)
            first = connection.recv(SIZE)
    except OSError:
        pass
    connection.close()


def server():
    """The port of a server for each who calls."""
    listener = socket.create_server(("127.0.0.1", 0), backlog=256)

    def accept():
        while True:
            connection = listener.accept()[0]
            connection.setsockopt(socket.IPPROTO_TCP, socket.TCP_NODELAY, 1)
            threading.Thread(target=serve, args=(connection,), daemon=True).start()

    threading.Thread(target=accept, daemon=True).start()
    return listener.getsockname()[1]


class Downloads:
    """Connections that take what comes, and how much each brought since `mark` was called."""

    def __init__(self, port, count):
        self.selector = selectors.DefaultSelector()
        self.brought = [0] * count
        self.ends = False
        for number in range(count):
            one = connected(port)
            one.sendall(DOWNLOAD)
            one.setblocking(False)
            self.selector.register(one, selectors.EVENT_READ, number)
        self.thread = threading.Thread(target=self.run)
        self.thread.start()

    def run(self):
        buffer = bytearray(PIECE)
        while not self.ends:
            for key, _ in self.selector.select(0.1):
                self.brought[key.data] += key.fileobj.recv_into(buffer)

    def mark(self):
        self.brought = [0] * len(self.brought)

    def close(self):
        self.ends = True
        self.thread.join()
        for key in list(self.selector.get_map().values()):
            key.fileobj.close()


def connected(port):
    one = socket.create_connection(("127.0.0.1", port), timeout=120)
    one.setsockopt(socket.IPPROTO_TCP, socket.TCP_NODELAY, 1)
    return one


def exchanges(port, seconds):
    """How many milliseconds each exchange took."""
    took = []
    with connected(port) as one:
        end = time.monotonic() + seconds
        while time.monotonic() < end or not took:
            began = time.monotonic()
            one.sendall(ECHO * SIZE)
            left = SIZE
            while left:
                left -= len(one.recv(left))
            took.append((time.monotonic() - began) * 1000)
            # (so that no exchange keeps step with the line)
            time.sleep(random.uniform(0, 0.02))
    return took


def jain(brought):
    squares = sum(count * count for count in brought)
    return sum(brought) ** 2 / (len(brought) * squares) if squares else 0.0


def tunnel(processes, kind, target, row):
    """The port at which users of it call, where its ends have the line between them."""
    _, megabits, trip, _, window = row
    at = {name: free_port() for name in ("users", "line", "remote")}
    place = {name: f"127.0.0.1:{port}" for name, port in at.items()}
    line = [sys.executable, relay, place["line"], f"127.0.0.1:{target}", str(megabits), str(trip / 2)]
    if kind == "plain TCP":
        begin(processes, at["line"], line)
        return at["line"]
    program = {"ymx": ymx, "ymx before": before, "Go's yamux": peer, "ssh -L": "ssh", "haproxy": "haproxy"}[kind]
    if program == "ssh":
        remote = others.sshd(folder, place["remote"])
        local = others.ssh(folder, place["line"], place["users"], f"127.0.0.1:{target}")
    elif program == "haproxy":
        remote = others.haproxy(folder, place["remote"], f"127.0.0.1:{target}")
        local = others.haproxy(folder, place["users"], place["line"])
    elif program == peer:
        remote = [peer, "remote", "-at", place["remote"], "-to", f"127.0.0.1:{target}", "-window", str(window)]
        local = [peer, "local", "-at", place["users"], "-to", place["line"], "-window", str(window)]
    else:
        remote = [program, "remote", "--bind", place["remote"], "--target", f"127.0.0.1:{target}", "--window", str(window)]
        local = [program, "local", "--listen", place["users"], "--peer", place["line"], "--window", str(window)]
    line[3] = place["remote"]
    for name, words in ("remote", remote), ("line", line), ("users", local):
        begin(processes, at[name], words)
    return at["users"]


def measure(kind, target, row):
    """The median of an exchange, Jain's index, and what came in a second."""
    processes = []
    try:
        port = tunnel(processes, kind, target, row)
        downloads = Downloads(port, row[3])
        try:
            time.sleep(WARM)
            downloads.mark()
            began = time.monotonic()
            took = exchanges(port, MEASURED)
            brought, seconds = downloads.brought, time.monotonic() - began
        finally:
            downloads.close()
        return statistics.median(took), jain(brought), sum(brought) / seconds / 1e6
    finally:
        for one in reversed(processes):
            one.kill()
            one.wait()


target = server()
kinds = ["ymx"] + ["ymx before"] * bool(before) + ["Go's yamux"] * bool(peer) + ["ssh -L"] * others.has_ssh()
kinds += ["haproxy"] * bool(shutil.which("haproxy")) + ["plain TCP"]
# The lines of bench/README.md, which tools/speeds.py takes.
lines = []
print(f"{SIZE} bytes there and back beside downloads; medians of {runs}")
for number in map(int, chosen.split()):
    row = ROWS[number - 1]
    print(row[0], flush=True)
    found = {kind: [] for kind in kinds}
    for _ in range(int(runs)):
        for kind in kinds:
            found[kind].append(measure(kind, target, row))
    for kind in kinds:
        waits, fair, speed = zip(*found[kind])
        print(
            f"  {kind:>10}: {statistics.median(waits):7.0f} ms ({min(waits):.0f} to {max(waits):.0f});"
            f" Jain's index {statistics.median(fair):.3f}; {statistics.median(speed):.2f} MB a second",
            flush=True,
        )
    medians = (f"{statistics.median(wait for wait, _, _ in found[kind]):,.0f}" for kind in kinds)
    lines.append(f"| latency, {row[0]}: {'; '.join(kinds)} | {'; '.join(medians)} ms |")
print("\n" + "\n".join(lines))
PYTHON
