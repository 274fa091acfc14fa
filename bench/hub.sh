#!/bin/sh
# Times two running sessions of one process that talk over pipes in memory and over TCP on the loopback: payload of one
# stream and of 64 at once, pings, and a byte that goes there and back beside 10 and beside 1,000 streams on which both
# sides wait; of hubs with the recorder `Off` and with `Full`, and, over TCP, of the sessions of `yamux`, and of HashiCorp's
# yamux for Go if that is installed. Then 100,000 streams of `yamux` that are opened, echoed, each by a thread of its own, and
# closed, one after another: how many a second, and the memory that is resident after 10,000 and after all. Medians of five
# runs, in turn. Needs `rt`; proves and builds in a temporary folder, which takes some minutes. With a number it makes so many
# runs, and with a program after that it takes that one: the bench, as it was built before. With --processor it says in place of
# all that what 4 GiB over 64 streams of TCP take of the processors, and how often a thread has waited or was stopped, of ymx and
# of Go; with --processor PROGRAM of a bench that is built.
set -eu
top=$(cd "$(dirname "$0")/.." && pwd)
processor=false
if [ "${1-}" = --processor ]; then
    processor=true
    shift
fi
program=${2-}
$processor && program=${1-}
runs=${1-5}
work=$(mktemp -d)
trap 'rm -rf "$work"' EXIT
trap 'exit 130' INT TERM
if [ "$program" = '' ]; then
    # shellcheck disable=SC2046
    "$top/tools/kit.py" copy "$work" hub_bench yamux ymx_ring $("$top/tools/kit.py" uses yamux) anyhow
    cp "$top/bench/hub_bench.rattle" "$work/crates/hub_bench/src/main.rt"
    echo "proving and building the bench (some minutes)" >&2
    cd "$work/crates/hub_bench"
    rt run > "$work/first" 2> "$work/log" || { tail -n 20 "$work/log" >&2; exit 1; }
    program=out/hub_bench
fi
go_peer=true
if command -v go > /dev/null && [ -d /usr/share/gocode/src/github.com/hashicorp/yamux ]; then
    go_peer=$work/hub_go
    GO111MODULE=off GOPATH=/usr/share/gocode go build -o "$go_peer" "$top/bench/hub.go"
fi
if $processor; then
    python3 - "$program" "$go_peer" << 'END'
import os, statistics, subprocess, sys

found = {name: [] for name in sys.argv[1:]}
for name in 5 * sys.argv[1:]:
    ran = subprocess.Popen([name, "64"], stdout=subprocess.PIPE, text=True)
    told = ran.stdout.read().split()
    used = os.wait4(ran.pid, 0)[2]
    if len(told) == 3:
        speed = int(told[1]) / int(told[2]) * 1e3
        found[name].append((speed, used.ru_utime, used.ru_stime, used.ru_nvcsw, used.ru_nivcsw))
for name, runs in found.items():
    if runs:
        speed, own, kernel, waits, stops = (statistics.median(it) for it in zip(*runs))
        print(f"{os.path.basename(name)}: {speed:.0f} MB a second; {own + kernel:.2f} s of processor time, of which {kernel:.2f} in the kernel; {waits:.0f} waits, stopped {stops:.0f} times")
END
    exit
fi
while [ "$runs" -gt 0 ]; do
    runs=$((runs - 1))
    "$program"
    "$go_peer"
    "$program" streams
done > "$work/figures"
grep -E '^[a-z_0-9]+ failed$' "$work/figures" && exit 1
grep -E '^[a-z_0-9]+ [0-9]+( [0-9]+)?$' "$work/figures" | awk '
  { if (NF == 3) printf "%s %.0f a second\n", $1, $2 / $3 * 1e9; else print }' | sort -k1,1 -k2,2n | awk '
  { if ($1 != name) { if (n > 0) print line[int((n + 1) / 2)]; name = $1; n = 0 } line[++n] = $0 }
  END { print line[int((n + 1) / 2)] }'
