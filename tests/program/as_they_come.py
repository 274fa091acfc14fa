#!/usr/bin/env python3
"""as_they_come.py PROGRAM LIBRARY: whether `selftest` prints the line of a connection before it makes the next one.

Each call of `connect` is held until this script lets it go, by the library, which is preloaded. A connection takes two:
the client's and the tunnel's. They are dropped once the line of the connection before has come, so a program that keeps
its lines until the end prints none, and is given up after a minute.
"""
import os
import select
import subprocess
import sys

SECONDS = 60
# One call joins the two ends, before the first connection.
FIRST, EACH = 3, 2

program, library = sys.argv[1:]
held, lets_go = os.pipe()
environment = {**os.environ, "LD_PRELOAD": library, "HELD_BY": str(held)}
child = subprocess.Popen([program, "selftest"], stdout=subprocess.PIPE, bufsize=0, env=environment, pass_fds=[held])
os.close(held)
for number, size in enumerate((0, 1, 300000), 1):
    os.write(lets_go, bytes(FIRST if number == 1 else EACH))
    if not select.select([child.stdout], [], [], SECONDS)[0]:
        child.kill()
        sys.exit(f"selftest: line {number} doesn't come before the connection behind it is made")
    line = child.stdout.readline()
    if line != b"connection %d: %d bytes echoed\n" % (number, size):
        sys.exit(f"selftest: line {number} is {line}")
# What it connects to at the end, so that nobody waits, is no connection of the test.
os.close(lets_go)
rest = child.stdout.read()
status = child.wait(SECONDS)
if status != 0 or rest != b"":
    sys.exit(f"selftest: status {status}, and after its lines {rest}")
