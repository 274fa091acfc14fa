#!/bin/sh
# Measures `ymx script` from a file to /dev/null: lines a second, medians of five runs, of two scripts of
# 100,000 lines. Both move 1,000 bytes at a time over eight streams: the first by `fill` and `skip`, the
# second by `write` and `read`, whose lines and answers have the bytes in hexadecimal.
set -eu
top=$(cd "$(dirname "$0")/.." && pwd)
"$top/ymx" --help > /dev/null
folder=$(mktemp -d)
trap 'rm -rf "$folder"' EXIT INT TERM

python3 - "$folder" "$top/out/ymx" <<'PYTHON'
import itertools
import os
import subprocess
import sys
import time

folder, program = sys.argv[1], sys.argv[2]
LINES = 100_000
STREAMS = [2 * k + 1 for k in range(8)]


def lines(write, read):
    for _ in STREAMS:
        yield "A open"
    yield from ("emit A 1000", "deliver AB 1000")
    for _ in STREAMS:
        yield "B accept"
    yield from ("emit B 1000", "deliver BA 1000")
    while True:
        for stream in STREAMS:
            yield write(stream)
        yield from ("emit A 10000", "deliver AB 10000")
        for stream in STREAMS:
            yield read(stream)
        yield from ("emit B 1000", "deliver BA 1000")


def measure(name, write, read):
    path = os.path.join(folder, "script")
    with open(path, "w") as out:
        for line in itertools.islice(lines(write, read), LINES):
            out.write(line + "\n")
    size = os.path.getsize(path)
    answers = subprocess.run([program, "script", path], stdout=subprocess.PIPE, check=True).stdout
    refused = [line for line in answers.splitlines() if line.startswith((b"refused", b"wait", b"error"))]
    assert answers.count(b"\n") == LINES and not refused, refused[:3]
    times = []
    for _ in range(5):
        with open(os.devnull, "wb") as sink:
            began = time.perf_counter()
            subprocess.run([program, "script", path], stdout=sink, check=True)
            times.append(time.perf_counter() - began)
    middle = sorted(times)[2]
    print(f"{name}: {LINES / middle:,.0f} lines a second, {size / middle / 1e6:,.0f} MB a second read ({middle:.3f} s)")


digits = "78" * 1000
measure("100,000 lines, fill and skip", lambda id: f"A fill {id} 1000", lambda id: f"B skip {id} 1000")
measure("100,000 lines, write and read", lambda id: f"A write {id} {digits}", lambda id: f"B read {id} 1000")
PYTHON
