"""Records a tunnel for run.sh, in the folder where it runs: tunnel.pcap, both directions as packets; up and down, the bytes
from `local` and from `remote`; sums, what each frame leaves of a window, a line each. B1.pcap and others have a fault each.

usage: dissector.py PROGRAM | dissector.py --lines
With --lines it writes the head lines that tshark shows of frames as `ymx frames` prints them.
"""

import re
import socket
import struct
import subprocess
import sys
import threading
import time

from ports import free_ports

HOST = "127.0.0.1"
SIZES = (0, 1, 100_000, 700_000)
KINDS = {"Data": "data", "Window Update": "window", "Ping": "ping", "Go Away": "away"}
FLAGS = {"SYN": 1, "ACK": 2, "FIN": 4, "RST": 8}
FIRST_CREDIT = 262_144


def as_printed(lines):
    for line in lines:
        kind, flags, stream, length = re.fullmatch(r"([A-Z][A-Za-z ]*[a-z])(?: \((.*)\))?, stream (\d+), length (\d+)\n", line).groups()
        number = sum(FLAGS[flag] for flag in flags.split(", ")) if flags else 0
        yield f"{KINDS[kind]} flags={number:04x} id={stream} len={length}"


def packet(is_up, sent, came, payload):
    """An IPv4 packet between ports 50000 and 4000, after so many bytes each way."""
    ports = (50000, 4000) if is_up else (4000, 50000)
    hosts = (bytes([10, 0, 0, 1]), bytes([10, 0, 0, 2]))
    tcp = struct.pack("!HHIIBBHHH", *ports, 1 + sent, 1 + came, 5 << 4, 0x18, 65535, 0, 0)
    ip = struct.pack("!BBHHHBBH", 0x45, 0, 20 + len(tcp) + len(payload), 0, 0, 64, 6, 0)
    return ip + b"".join(hosts if is_up else hosts[::-1]) + tcp + payload


def write_capture(name, pieces):
    """The capture of these (whether from the client, bytes), in this order."""
    passed = {True: 0, False: 0}
    with open(name, "wb") as file:
        file.write(struct.pack("!IHHiIII", 0xA1B2C3D4, 2, 4, 0, 0, 262_144, 101))
        for number, (is_up, payload) in enumerate(pieces):
            whole = packet(is_up, passed[is_up], passed[not is_up], payload)
            passed[is_up] += len(payload)
            file.write(struct.pack("!IIII", number // 1000, number % 1000, len(whole), len(whole)) + whole)


class Frames:
    """Cuts the bytes of a direction into heads: (type, flags, stream, length)."""

    def __init__(self):
        self.bytes = b""

    def cut(self, piece):
        self.bytes += piece
        while len(self.bytes) >= 12:
            _, kind, flags, stream, length = struct.unpack("!BBHII", self.bytes[:12])
            size = 12 + (length if kind == 0 else 0)
            if len(self.bytes) < size:
                return
            self.bytes = self.bytes[size:]
            yield kind, flags, stream, length


def sums_of(pieces):
    """What each frame of data, and each update, leaves of the window that it changes."""
    cutters, credits = {True: Frames(), False: Frames()}, {}
    for is_up, piece in pieces:
        for kind, flags, stream, length in cutters[is_up].cut(piece):
            if kind > 1:
                continue
            if flags & 1:
                credits[stream, True] = credits[stream, False] = FIRST_CREDIT
            key = (stream, is_up if kind == 0 else not is_up)
            credits[key] += -length if kind == 0 else length
            yield credits[key]


# ---- a tunnel


def all_of(source):
    return b"".join(iter(lambda: source.recv(65536), b""))


def serve(listener):
    for _ in SIZES:
        user = listener.accept()[0]
        threading.Thread(target=lambda user=user: (user.sendall(all_of(user)), user.close())).start()


def relay(source, target, is_up, pieces, lock):
    while piece := source.recv(1448):
        with lock:
            pieces.append((is_up, piece))
        target.sendall(piece)
    target.shutdown(socket.SHUT_WR)


def connect(port):
    for _ in range(1200):
        try:
            return socket.create_connection((HOST, port))
        except ConnectionRefusedError:
            time.sleep(0.1)
    sys.exit(f"nobody listens at {port}")


def record(program):
    """What goes over the link of a tunnel, through which some texts go there and back."""
    at, target, users = free_ports(3)
    service, between = socket.create_server((HOST, target)), socket.create_server((HOST, 0))
    threading.Thread(target=serve, args=(service,), daemon=True).start()
    remote = subprocess.Popen([program, "remote", "--bind", f"{HOST}:{at}", "--target", f"{HOST}:{target}", "--ping", "1"])
    onward = connect(at)
    local = subprocess.Popen([program, "local", "--peer", f"{HOST}:{between.getsockname()[1]}", "--listen", f"{HOST}:{users}", "--count", str(len(SIZES))])
    link, pieces, lock = between.accept()[0], [], threading.Lock()
    ways = [threading.Thread(target=relay, args=(*ends, pieces, lock)) for ends in ((link, onward, True), (onward, link, False))]
    for way in ways:
        way.start()
    for size in SIZES:
        user, text = connect(users), bytes(size)
        threading.Thread(target=lambda user=user, text=text: (user.sendall(text), user.shutdown(socket.SHUT_WR))).start()
        assert all_of(user) == text
    for way in ways:
        way.join()
    assert (local.wait(60), remote.wait(60)) == (0, 0)
    return pieces


def frame(kind, flags, stream, length, payload=b"", version=0):
    return struct.pack("!BBHII", version, kind, flags, stream, length) + payload


FAULTS = {
    "B1": [frame(1, 1, 1, 0, version=1)],
    "B2": [frame(4, 0, 0, 0)],
    "B5": [frame(1, 1, 1, 0)] + [frame(0, 0, 1, 16_384, bytes(16_384))] * 17,
    "B6": [frame(1, 1, 1, 4_294_967_295)],
    "B7": [frame(3, 0, 0, 3)],
}


def main(words):
    if words == ["--lines"]:
        print("\n".join(as_printed(sys.stdin)))
        return
    pieces = record(*words)
    write_capture("tunnel.pcap", pieces)
    for name, is_up in (("up", True), ("down", False)):
        with open(name, "wb") as file:
            file.write(b"".join(piece for way, piece in pieces if way == is_up))
    with open("sums", "w") as file:
        file.writelines(f"{it}\n" for it in sums_of(pieces))
    for name, frames in FAULTS.items():
        write_capture(f"{name}.pcap", [(True, it) for it in frames])


if __name__ == "__main__":
    main(sys.argv[1:])
