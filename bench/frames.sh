#!/bin/sh
# Measures `ymx frames` from a file to /dev/null: frames and bytes a second, medians of five runs. The
# inputs are made in a temporary folder.
set -eu
top=$(cd "$(dirname "$0")/.." && pwd)
"$top/ymx" --help > /dev/null
folder=$(mktemp -d)
trap 'rm -rf "$folder"' EXIT INT TERM

python3 - "$folder" "$top/out/ymx" <<'PYTHON'
import os
import subprocess
import sys
import time

folder, program = sys.argv[1], sys.argv[2]


def header(kind, flags, stream, length):
    return bytes([0, kind]) + flags.to_bytes(2, "big") + stream.to_bytes(4, "big") + length.to_bytes(4, "big")


def repeat(path, block, count, at_once):
    with open(path, "wb") as out:
        for _ in range(count // at_once):
            out.write(block * at_once)


def measure(name, frames, block):
    path = os.path.join(folder, "input")
    repeat(path, block, frames, max(1, min(frames, 4096) // 64) if len(block) > 60000 else 1000)
    size = os.path.getsize(path)
    assert size == frames * len(block), (size, frames, len(block))
    times = []
    for _ in range(5):
        with open(path, "rb") as source, open(os.devnull, "wb") as sink:
            began = time.perf_counter()
            subprocess.run([program, "frames"], stdin=source, stdout=sink, check=True)
            times.append(time.perf_counter() - began)
    middle = sorted(times)[2]
    print(f"{name}: {frames / middle:,.0f} frames a second, {size / middle / 1e6:,.0f} MB a second ({middle:.3f} s)")


payload = bytes(k % 251 for k in range(65536))
measure("2,000,000 Window Update frames", 2_000_000, header(1, 0, 1, 131072))
measure("1,000,000 Data frames of 100 bytes", 1_000_000, header(0, 0, 1, 100) + payload[:100])
measure("4,096 Data frames of 65,536 bytes (256 MiB)", 4_096, header(0, 0, 1, 65536) + payload)
PYTHON
