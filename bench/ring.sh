#!/bin/sh
# Times the byte ring: medians of five runs. Needs `rt`; builds in a temporary folder.
set -eu
top=$(cd "$(dirname "$0")/.." && pwd)
work=$(mktemp -d)
trap 'rm -rf "$work"' EXIT
"$top/tools/kit.py" copy "$work" ring_bench ymx_ring
cp "$top/bench/ring_bench.rattle" "$work/crates/ring_bench/src/main.rt"
echo "proving and building the bench (a few minutes)" >&2
cd "$work/crates/ring_bench"
for run in 1 2 3 4 5; do
  rt run 2> "$work/log" || { cat "$work/log" >&2; exit 1; }
done > "$work/figures"
grep -E '^[a-z_0-9]+ [0-9]+$' "$work/figures" | sort -k1,1 -k2,2n | awk '
  { if ($1 != name) { if (name != "") print name, value[int((n + 1) / 2)]; name = $1; n = 0 } value[++n] = $2 }
  END { print name, value[int((n + 1) / 2)] }'
