#!/bin/sh
# Measures the tunnel over a long line: how fast one connection is with each `--window`, where a round trip between the
# two ends takes 50 milliseconds. Between them stands a line that delays, and doesn't limit: two network namespaces with
# `tc netem` where the machine lets us make them, and else the relay bench/delay.py. It says which.
#
#     bench/delay.sh [--relay] [MILLISECONDS [RUNS]]
#
# MILLISECONDS is the round trip, 50 if it is left out. RUNS is how often each is measured, 3 if it is left out: the
# median is printed, and the least and the most. `--relay` takes the relay in any case. Where Go and its yamux stand, as
# tests/interop/run.sh needs them, the same is measured of them, in turn. The last column is what a window can carry at
# most: the window once a round trip. The last row is the line alone. Needs Python 3 and iproute2.
set -eu
here=$(cd "$(dirname "$0")" && pwd)
. "$here/../tests/over.sh"
netem=try
if [ "${1-}" = --relay ]; then
    netem=no
    shift
fi
numbers "$@"
trip=${1-50}
runs=${2-3}
find_program
peer=
if has_go; then
    peer=$scratch/peer
    go_program "$root/tests/interop/peer.go" "$peer"
fi

# The two namespaces, if there are any; a name for each process, since several may run at once.
near=ymx_near_$$
far=ymx_far_$$
drop_namespaces() {
    ip netns del $near 2> /dev/null || true
    ip netns del $far 2> /dev/null || true
}
trap 'stop; drop_namespaces; rm -rf "$scratch"' EXIT

# make_namespaces: two of them, joined by a line that delays each way by half of the trip
make_namespaces() {
    half=$(awk "BEGIN { print $trip / 2 }")ms
    ip netns add $near && ip netns add $far &&
        ip link add ymx0 netns $near type veth peer name ymx1 netns $far &&
        ip -n $near addr add 10.77.0.1/24 dev ymx0 && ip -n $far addr add 10.77.0.2/24 dev ymx1 &&
        ip -n $near link set ymx0 up && ip -n $far link set ymx1 up &&
        ip -n $near link set lo up && ip -n $far link set lo up &&
        tc -n $near qdisc add dev ymx0 root netem delay "$half" limit 1000000 &&
        tc -n $far qdisc add dev ymx1 root netem delay "$half" limit 1000000
}

if [ $netem = try ] && make_namespaces > "$scratch/netem" 2>&1; then
    echo "line: two network namespaces, tc netem"
else
    [ $netem = no ] || echo "no netem here: $(tail -n 1 "$scratch/netem")"
    echo "line: the relay bench/delay.py"
    drop_namespaces
    near=
    far=
fi
PYTHONPATH=$root/tests python3 -B - "$ymx" "$here/delay.py" "$trip" "$runs" "$near" "$far" "$peer" << 'PYTHON'
import ctypes
import os
import socket
import statistics
import subprocess
import sys
import threading
import time

from ports import free_port

ymx, relay, trip, runs, near, far, peer = sys.argv[1:]
trip, runs = float(trip), int(runs)
WINDOWS = [262_144, 1 << 20, 4 << 20, 8 << 20, 16 << 20]
# Each connection is measured for so many seconds, after some in which it gets going.
WARM, MEASURED = 1.0, 3.0
PIECE = 1 << 20
CLONE_NEWNET = 0x40000000
FAR_HOST = "10.77.0.2" if far else "127.0.0.1"


def enter(namespace):
    """Takes this thread into a namespace."""
    if namespace:
        file = os.open(f"/run/netns/{namespace}", os.O_RDONLY)
        libc = ctypes.CDLL(None, use_errno=True)
        if libc.setns(file, CLONE_NEWNET) != 0:
            raise OSError(ctypes.get_errno(), "setns")
        os.close(file)


def inside(namespace, words):
    return (["ip", "netns", "exec", namespace] if namespace else []) + words


def wait_for_listener(namespace, port):
    for _ in range(300):
        said = subprocess.run(inside(namespace, ["ss", "-ltn"]), capture_output=True, text=True, check=True).stdout
        if f":{port} " in said:
            return
        time.sleep(0.05)
    raise SystemExit(f"nobody listens at port {port}")


class Sender:
    """A server beside the far end, which sends zeros to each who calls."""

    def __init__(self):
        self.ready = threading.Event()
        threading.Thread(target=self.run, daemon=True).start()
        self.ready.wait()

    def run(self):
        enter(far)
        with socket.create_server(("0.0.0.0" if far else "127.0.0.1", 0), backlog=64) as listener:
            self.port = listener.getsockname()[1]
            self.ready.set()
            while True:
                threading.Thread(target=self.send, args=(listener.accept()[0],), daemon=True).start()

    def send(self, connection):
        piece = bytes(PIECE)
        try:
            while True:
                connection.sendall(piece)
        except OSError:
            connection.close()


def speed(host, port):
    """What a connection there brings, in bytes a second."""
    answer = []

    def run():
        enter(near)
        with socket.create_connection((host, port), timeout=60) as one:
            end = time.monotonic() + WARM
            buffer = bytearray(PIECE)
            while time.monotonic() < end:
                one.recv_into(buffer)
            began, came = time.monotonic(), 0
            while time.monotonic() < began + MEASURED:
                came += one.recv_into(buffer)
            answer.append(came / (time.monotonic() - began))

    thread = threading.Thread(target=run)
    thread.start()
    thread.join()
    return answer[0]


class Line:
    """What starts between the two ends: `host` and `port` are what the near one calls."""

    def __init__(self, processes, target):
        self.host, self.port = FAR_HOST, target
        if not far:
            self.port = free_port()
            words = [sys.executable, relay, f"127.0.0.1:{self.port}", f"127.0.0.1:{target}", str(trip / 2)]
            processes.append(subprocess.Popen(words))
            wait_for_listener("", self.port)


def words_of_ymx(window, place, target):
    """How `remote` begins here, and how `local` does."""
    options = ["--window", str(window)]
    return (lambda inner: [ymx, "remote", "--bind", inner, "--target", target, *options]), (
        lambda line: [ymx, "local", "--listen", place, "--peer", line, *options]
    )


def words_of_go(window, place, target):
    """The same of Go's yamux."""
    options = ["-window", str(window)]
    return (lambda inner: [peer, "remote", "-at", inner, "-to", target, *options]), (
        lambda line: [peer, "local", "-at", place, "-to", line, *options]
    )


def begin(namespace, words):
    return subprocess.Popen(inside(namespace, words), stdout=subprocess.DEVNULL)


def through_tunnel(words_of, sender, window):
    processes = []
    try:
        inner, outer = free_port(), free_port()
        remote, local = words_of(window, f"127.0.0.1:{outer}", f"127.0.0.1:{sender.port}")
        processes.append(begin(far, remote(f"{FAR_HOST}:{inner}")))
        wait_for_listener(far, inner)
        line = Line(processes, inner)
        processes.append(begin(near, local(f"{line.host}:{line.port}")))
        wait_for_listener(near, outer)
        return speed("127.0.0.1", outer)
    finally:
        end(processes)


def line_alone(sender):
    processes = []
    try:
        line = Line(processes, sender.port)
        return speed(line.host, line.port)
    finally:
        end(processes)


def end(processes):
    for one in processes:
        one.kill()
    for one in processes:
        one.wait()


def shown(speeds):
    """The median, and the least and the most, in MB a second."""
    if not speeds:
        return f"{'':>22}"
    low, middle, high = (at(speeds) / 1e6 for at in (min, statistics.median, max))
    return f"{middle:6.1f} ({low:.1f}, {high:.1f})".ljust(22)


def row(name, ours, theirs, most):
    print(f"{name:>12} | {shown(ours)} | {shown(theirs)} | {most:>12}", flush=True)


sender = Sender()
print(f"a round trip of {trip:g} ms; one connection, from `remote` to `local`; MB a second, medians of {runs}")
theirs = "Go's yamux" if peer else "(no Go here)"
print(f"{'--window':>12} | {'ymx':22} | {theirs:22} | window a trip")
for window in WINDOWS:
    speeds = {words_of_ymx: [], words_of_go: []}
    for _ in range(runs):
        for words_of, found in speeds.items():
            if words_of is words_of_ymx or peer:
                found.append(through_tunnel(words_of, sender, window))
    row(f"{window:,}", *speeds.values(), f"{window / trip * 1000 / 1e6:.1f}")
row("no tunnel", [line_alone(sender) for _ in range(runs)], [], "")
PYTHON
