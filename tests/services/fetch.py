#!/usr/bin/env python3
"""`fetch.py HOST:PORT FOLDER COUNT`: so many users ask a web server for the files of this folder, all at once.

Each has a connection of its own, which is there before the first one asks, and asks twice. What comes is compared with
the file. Prints how much came; exits with 1 where something is wrong.
"""

import hashlib
import http.client
import os
import sys
import threading

PATIENCE = 120


class User(threading.Thread):
    """One user, who asks for these files one after another over one connection."""

    def __init__(self, place, sums, files, start):
        super().__init__()
        self.place, self.sums, self.files, self.start_line = place, sums, files, start
        self.came = 0
        self.fault = None

    def run(self):
        try:
            connection = http.client.HTTPConnection(*self.place, timeout=PATIENCE)
            connection.connect()
            self.start_line.wait(PATIENCE)
            for name in self.files:
                self.ask(connection, name)
            connection.close()
        except (OSError, http.client.HTTPException, threading.BrokenBarrierError) as fault:
            self.fault = f"{self.files}: {fault!r}"

    def ask(self, connection, name):
        connection.request("GET", f"/{name}")
        answer = connection.getresponse()
        found = hashlib.sha256()
        while piece := answer.read(65536):
            found.update(piece)
            self.came += len(piece)
        if answer.status != 200 or found.digest() != self.sums[name]:
            self.fault = f"{name}: status {answer.status}, or other bytes"


def main():
    host, port = sys.argv[1].rsplit(":", 1)
    folder, count = sys.argv[2], int(sys.argv[3])
    sums = {}
    for name in sorted(os.listdir(folder), key=int):
        with open(os.path.join(folder, name), "rb") as file:
            sums[name] = hashlib.sha256(file.read()).digest()
    names = list(sums)
    start = threading.Barrier(count)
    users = [
        User((host, int(port)), sums, [names[number % len(names)], names[(number + 3) % len(names)]], start)
        for number in range(count)
    ]
    for user in users:
        user.start()
    for user in users:
        user.join()
    faults = [user.fault for user in users if user.fault]
    for fault in faults[:5]:
        print(fault)
    print(f"{2 * count} answers, {sum(user.came for user in users) / 1e6:.0f} MB, {len(faults)} faults")
    return bool(faults)


if __name__ == "__main__":
    sys.exit(main())
