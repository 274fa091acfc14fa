#!/bin/sh
# try_tests.sh TESTS..: runs the tests of these folders of tests/ (`session`, `units/ymx_half`) as one crate, which
# `one_crate.py` writes, so that they and all below them are compiled once. Nothing is proved here, and the repository is
# left alone. A test whose name ends in `_holds` has to pass whichever of its allocations is refused: `refusing_heap.c`
# tries each, and tells of which tests it did. Ends with the count of the tests, which all passed.
set -eu
here=$(cd "$(dirname "$0")" && pwd)
. "$here/over.sh"

: > "$scratch/refused"
"${CC:-cc}" -O2 -Wall -DTOLD="\"$scratch/refused\"" -c -o "$scratch/refusing_heap.o" "$here/refusing_heap.c"
wanted=$("$here/one_crate.py" --link "$scratch/refusing_heap.o" "$scratch" "$@")
TMPDIR=$scratch sh "$scratch/run" > "$scratch/log" 2>&1 || true
grep -q "^test result: ok. $wanted passed; 0 failed; 0 ignored; 0 filtered out" "$scratch/log" ||
    fail "the tests, of which there are $wanted" "$scratch/log"
holding=$(grep -c '^test .*_holds \.\.\. ok$' "$scratch/log") || true
[ "$(wc -l < "$scratch/refused")" = "$holding" ] || fail "of $holding tests not each was tried with refusals" "$scratch/refused"
refused=$(awk '{ all += $2 } END { print all + 0 }' "$scratch/refused")
echo "$wanted tests, of which $holding pass whichever of their $refused allocations is refused"
