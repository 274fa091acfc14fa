#!/usr/bin/env python3
"""Ports that nobody listens at: `ports.py [COUNT]` prints as many, one a line.

No two are the same. They lie outside the range from which the system takes a port by itself, so no connection that
calls has one of them before its listener is there.
"""

import random
import socket
import sys

HOST = "127.0.0.1"
FIRST, LAST = 10_000, 65_535


def outside(first, last):
    """Those of the ports from FIRST to LAST that the system doesn't take by itself, from `first` to `last`; all where
    that leaves few."""
    below = range(FIRST, first)
    above = range(last + 1, LAST + 1)
    largest = max(below, above, key=len)
    return largest if len(largest) >= 1_000 else range(FIRST, LAST + 1)


# What this process has given out: who has one may not have bound it yet.
GIVEN = set()


def free_ports(count):
    """So many ports, which no earlier call of this process gave. Each is held until all are found."""
    with open("/proc/sys/net/ipv4/ip_local_port_range") as text:
        ports = outside(*map(int, text.read().split()))
    held = []
    try:
        while len(held) < count:
            port = random.choice(ports)
            one = socket.socket()
            held.append(one)
            try:
                one.bind((HOST, port))
            except OSError:
                held.pop().close()
                continue
            if port in GIVEN:
                held.pop().close()
            GIVEN.add(port)
        return [one.getsockname()[1] for one in held]
    finally:
        for one in held:
            one.close()


def free_port():
    """One port."""
    return free_ports(1)[0]


if __name__ == "__main__":
    print(*free_ports(int(sys.argv[1]) if len(sys.argv) > 1 else 1), sep="\n")
