#!/bin/sh
# Times looking up and changing one record of 10 and of 1,000, and a turn of the one busy stream among as
# many. Needs `rt`; proves and builds in a temporary folder, which takes some minutes.
set -eu
top=$(cd "$(dirname "$0")/.." && pwd)
work=$(mktemp -d)
trap 'rm -rf "$work"' EXIT
"$top/tools/kit.py" copy "$work" table_bench ymx_table ymx_half anyhow
cp "$top/bench/table_bench.rattle" "$work/crates/table_bench/src/main.rt"
echo "proving and building the bench (some minutes)" >&2
cd "$work/crates/table_bench"
rt run 2> "$work/log" | grep records || { tail -n 20 "$work/log" >&2; exit 1; }
