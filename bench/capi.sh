#!/bin/sh
# Times two sessions that talk in one thread over a buffer of 64 KiB each way, from C over libymx and from Rattle, in
# turn: the figures of bench/session.sh. And from C alone bytes by copies and without, on one stream and on 64. Medians of
# five runs, and the ratio. Needs `rt` and a C compiler; proves and builds the bench in Rattle over what the crates' out/
# keep, in a temporary folder.
set -eu
top=$(cd "$(dirname "$0")/.." && pwd)
work=$(mktemp -d)
trap 'rm -rf "$work"' EXIT
trap 'exit 130' INT TERM
"$top/tools/kit.py" copy "$work" session_bench ymx_session ymx_model anyhow
cp "$top/bench/session_bench.rattle" "$work/crates/session_bench/src/main.rt"
echo "proving and building the bench (some minutes)" >&2
"$top/c/build.sh" "$work/c" > "$work/log"
cc -std=c99 -O2 -I"$work/c/include" -o "$work/capi_bench" "$top/bench/capi_bench.c" "$work/c/lib/libymx.a"
cd "$work/crates/session_bench"
for run in 1 2 3 4 5; do
  rt run 2> "$work/log" || { tail -n 20 "$work/log" >&2; exit 1; }
  "$work/capi_bench" | sed 's/^/c_/'
done > "$work/figures"
grep -E '^[a-z_0-9]+ [0-9]+ [0-9]+$' "$work/figures" | awk '{ printf "%s %.0f\n", $1, $2 / $3 * 1e9 }' | sort -k1,1 -k2,2n | awk '
  { if (!($1 in n)) name[++names] = $1; value[$1, ++n[$1]] = $2 }
  END {
    for (i = 1; i <= names; i++) median[name[i]] = value[name[i], int((n[name[i]] + 1) / 2)]
    for (i = 1; i <= names; i++)
      if (sub(/_without_copies$/, "", name[i])) printf "%s from C without copies %s a second, by copies %s, ratio %.2f\n", substr(name[i], 3), median[name[i] "_without_copies"], median[name[i]], median[name[i] "_without_copies"] / median[name[i]]
      else if (name[i] !~ /^c_/) printf "%s %s a second, from C %s, ratio %.2f\n", name[i], median[name[i]], median["c_" name[i]], median["c_" name[i]] / median[name[i]]
  }'
