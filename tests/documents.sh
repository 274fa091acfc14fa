#!/bin/sh
# Runs what the documents show: documents.py says how. It proves nothing: where the release is of other sources, the
# program is the one of ./ymx, and the library for C is the released one. Each word is a line of commands whose block isn't run,
# as a test before has run it.
set -eu
here=$(cd "$(dirname "$0")" && pwd)
. "$here/over.sh"
find_program
mkdir -p "$scratch/clone/out"
(cd "$root" && find . \( -name out -o -name target -o -name .git -o -name __pycache__ \) -prune -o -type f -print | tar -cf - -T -) | tar -xf - -C "$scratch/clone"
cp "$ymx" "$scratch/clone/out/ymx"
"$root/release/sources.sh" > "$scratch/clone/out/ymx.sources"
if ! "$root/release/library.sh" "$scratch/libymx_c.a" > "$scratch/said" 2>&1; then
    gzip -dc "$root/release/$(uname -m)/libymx_c.a.gz" > "$scratch/libymx_c.a"
    export YMX_ARCHIVE="$scratch/libymx_c.a"
fi
python3 -B "$here/documents.py" "$scratch/clone" "$@"
