#!/bin/sh
# Times a world, two sessions and the pipes between them that one thread drives: 1 GiB goes over one stream by fills,
# emissions and deliveries of 64 KiB, played by `ymx script`; and an audit of two histories of 100,000 entries each.
# Medians of five runs. Needs `rt`; proves and builds the audit's bench in a temporary folder, which takes some minutes.
set -eu
top=$(cd "$(dirname "$0")/.." && pwd)
"$top/ymx" --version > /dev/null
work=$(mktemp -d)
trap 'rm -rf "$work"' EXIT
trap 'exit 130' INT TERM

python3 - "$work" "$top/out/ymx" <<'PYTHON'
import os
import subprocess
import sys
import time

folder, program = sys.argv[1], sys.argv[2]
ROUNDS = 16_384
BLOCK = 65_536
# Four Data frames of 16,384 bytes.
FRAMES = BLOCK + 4 * 12
OPEN = ["A open", "emit A 12", "deliver AB 12", "B accept", "emit B 12", "deliver BA 12"]
ROUND = [f"A fill 1 {BLOCK}", f"emit A {FRAMES}", f"deliver AB {FRAMES}", f"B skip 1 {BLOCK}", "emit B 12", "deliver BA 12"]
ANSWERS = [f"took {BLOCK}", f"emitted {FRAMES}", f"fed {FRAMES}", f"bytes {BLOCK}"]

path = os.path.join(folder, "script")
with open(path, "w") as out:
    out.writelines(line + "\n" for line in OPEN + ROUND * ROUNDS)
answers = subprocess.run([program, "script", path], capture_output=True, text=True, check=True).stdout.splitlines()
assert len(answers) == len(OPEN) + ROUNDS * len(ROUND)
for number in range(ROUNDS):
    at = len(OPEN) + number * len(ROUND)
    assert answers[at : at + 4] == ANSWERS, (number, answers[at : at + 4])
times = []
for _ in range(5):
    with open(os.devnull, "wb") as sink:
        began = time.perf_counter()
        subprocess.run([program, "script", path], stdout=sink, check=True)
        times.append(time.perf_counter() - began)
middle = sorted(times)[2]
print(f"1 GiB by fills, emissions and deliveries of 64 KiB: {ROUNDS * BLOCK / middle / 1e6:,.0f} MB a second ({middle:.3f} s)")
PYTHON

# shellcheck disable=SC2046
"$top/tools/kit.py" copy "$work" audit_bench ymx_world $("$top/tools/kit.py" uses ymx_world) anyhow
cp "$top/bench/audit_bench.rattle" "$work/crates/audit_bench/src/main.rt"
echo "proving and building the bench (some minutes)" >&2
cd "$work/crates/audit_bench"
for run in 1 2 3 4 5; do
    rt run 2> "$work/log" || { tail -n 20 "$work/log" >&2; exit 1; }
done > "$work/figures"
sed -n 's/^audit_steps \([0-9]*\) \([0-9]*\)$/\2 \1/p' "$work/figures" | sort -n | sed -n 3p |
    awk '{ printf "audit of 100,000 entries a side, %d steps: %.0f ms\n", $2, $1 / 1e6 }'
