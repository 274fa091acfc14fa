#!/bin/sh
# Says what a session takes over TCP on the loopback, with no stream: the bytes that it asks the C
# library for, and its resident memory, with what of its threads' stacks is touched. It is what 65 sessions at once take more
# than one, by 64. Needs `rt`, a C compiler and Python 3; proves and builds in a temporary folder, which takes some minutes.
# With a program it takes that one: size_bench.rattle, as it was built before.
set -eu
top=$(cd "$(dirname "$0")/.." && pwd)
work=$(mktemp -d)
trap 'rm -rf "$work"' EXIT
trap 'exit 130' INT TERM
"${CC:-cc}" -O2 -Wall -shared -fPIC -o "$work/held.so" "$top/bench/held.c"
program=${1-}
if [ "$program" = '' ]; then
    # shellcheck disable=SC2046
    "$top/tools/kit.py" copy "$work" size_bench yamux $("$top/tools/kit.py" uses yamux) anyhow
    cp "$top/bench/size_bench.rattle" "$work/crates/size_bench/src/main.rt"
    echo "proving and building the bench (some minutes)" >&2
    cd "$work/crates/size_bench"
    rt run > "$work/log" 2>&1 || { tail -n 20 "$work/log" >&2; exit 1; }
    program=out/size_bench
fi
python3 - "$program" "$work/held.so" << 'END'
import os, re, resource, subprocess, sys

program, held = sys.argv[1:]


def taken(count):
    """What so many sessions ask for at once, and their program's resident memory."""
    words = [program, *["x"] * count]
    asked = subprocess.run(words, env={**os.environ, "LD_PRELOAD": held}, stderr=subprocess.PIPE, text=True, check=True).stderr
    ran = subprocess.Popen(words)
    used = os.wait4(ran.pid, 0)[2]
    return int(re.search(r"^held (\d+)$", asked, re.M).group(1)), used.ru_maxrss * 1024


one, many = taken(1), taken(65)
for name, few, all_ in zip(("asked_for_bytes", "resident_bytes"), one, many):
    print(f"session_{name} {(all_ - few) // 64}")
END
