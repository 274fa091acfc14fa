#!/bin/sh
# Times two sessions that talk in one thread over a buffer of 64 KiB each way: payload of one stream, frames one
# by one, messages of 64 streams, beside idle streams too, whole streams, and pings. Medians of five runs. Needs
# `rt`; proves and builds in a temporary folder, which takes some minutes.
set -eu
top=$(cd "$(dirname "$0")/.." && pwd)
work=$(mktemp -d)
trap 'rm -rf "$work"' EXIT
"$top/tools/kit.py" copy "$work" session_bench ymx_session ymx_model anyhow
cp "$top/bench/session_bench.rattle" "$work/crates/session_bench/src/main.rt"
echo "proving and building the bench (some minutes)" >&2
cd "$work/crates/session_bench"
for run in 1 2 3 4 5; do
  rt run 2> "$work/log" || { tail -n 20 "$work/log" >&2; exit 1; }
done > "$work/figures"
grep -E '^[a-z_0-9]+ [0-9]+ [0-9]+$' "$work/figures" | awk '{ printf "%s %.0f\n", $1, $2 / $3 * 1e9 }' | sort -k1,1 -k2,2n | awk '
  { if ($1 != name) { if (name != "") print name, value[int((n + 1) / 2)], "a second"; name = $1; n = 0 } value[++n] = $2 }
  END { print name, value[int((n + 1) / 2)], "a second" }'
