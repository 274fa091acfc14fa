#!/usr/bin/env python3
"""system_calls.py: whether one short file makes all calls of the program's tunnel that reach the system's sockets.

No contract says what such a call does, so `crates/ymx_sockets/src/system.rt` is to be read, and it has at most 450 lines.
Sockets that never wait are private there. Those that wait are the standard library's, and other files may name their
types, as bounds do. They make no call of them, and import nothing else of `std::net` or `std::io`, so that reads and
writes of such a socket aren't in scope. And they name neither `mio` nor `libc`.
One file writes a line into memory by `Write`, and names no socket.
It prints each place that does, and ends with 'N lines to be read, M calls elsewhere'.
"""
import re
import sys
from pathlib import Path

CRATES = Path(__file__).resolve().parent.parent / "crates"
TUNNEL = ("ymx_sockets", "ymx_loop", "ymx_forward")
READ = "ymx_sockets/src/system.rt"
MOST = 450
# what others may import of `std::net` and of `std::io`
MAY = {
    "net": {"Net", "Ipv4Addr", "SocketAddr", "SocketAddrV4", "TcpListener", "TcpStream"},
    "io": {"ErrorKind", "IoSlice"},
}
# who writes into memory: it names no socket
LENT = {"proxy.rt": "Write"}
SOCKET = re.compile(r"\b(?:Tcp|Udp|Unix)\w+")
IMPORT = re.compile(r"\buse std::(net|io)::(\{[^}]*\}|[\w*]+)")
METHODS = "incoming|local_addr|peer_addr|take_error|set_\\w+|shutdown|try_clone|peek|write_vectored|as_\\w*fd"
CALL = re.compile(
    r"\b(?:mio|libc|os)\b|\bio::(?:copy|Read|Write)\b|\buse std::\{[^;]*\b(?:io|net)::"
    r"|\b(?:Tcp(?:Stream|Listener)|UdpSocket|Unix\w+)::\w+"
    rf"|\.(?:accept\(\)|(?:{METHODS})\()"
)


def places(code, name):
    """Where the code of this file makes a call of the system's sockets, or imports one."""
    if name in LENT:
        yield from (found.start() for found in SOCKET.finditer(code))
        code = re.sub(rf"\buse std::io::{LENT[name]};", lambda found: " " * len(found[0]), code)
    for found in CALL.finditer(code):
        yield found.start()
    for found in IMPORT.finditer(code):
        if not set(re.findall(r"[\w*]+", found[2])) <= MAY[found[1]]:
            yield found.start()


def main():
    lines = (CRATES / READ).read_text(encoding="utf-8").count("\n")
    calls = 0
    for path in sorted(it for name in TUNNEL for it in CRATES.glob(f"{name}/src/*.rt")):
        if path == CRATES / READ:
            continue
        # what clauses import calls nothing
        code = re.sub("(?m)//.*|^ *ghost use .*", "", path.read_text(encoding="utf-8"))
        for place in sorted(places(code, path.name)):
            calls += 1
            number = code.count("\n", 0, place) + 1
            print(f"{path.relative_to(CRATES)}:{number}: a call of sockets: {code.splitlines()[number - 1].strip()}")
    if lines > MOST:
        print(f"{READ}: more than {MOST} lines")
    print(f"{lines} lines to be read, {calls} calls elsewhere")
    return 1 if calls or lines > MOST else 0


if __name__ == "__main__":
    sys.exit(main())
