#!/bin/sh
# `tests/bindings.sh python|rust`: the own tests of a binding, over a libymx that is built for them.
set -eu
here=$(cd "$(dirname "$0")" && pwd)
. "$here/over.sh"
case $1 in
python)
    if ! command -v python3 > /dev/null; then left_out "$1" 'no python3' python3; fi
    ;;
rust)
    if ! command -v cargo > /dev/null; then left_out "$1" 'no cargo' cargo; fi
    ;;
*)
    echo 'usage: tests/bindings.sh python|rust' >&2
    exit 2
    ;;
esac
if [ "$omitted" != 0 ]; then
    counted
    exit
fi
PREFIX=$scratch/built "$root/c/build.sh" "$scratch/built" > "$scratch/log" 2>&1 || fail "libymx can't be built" "$scratch/log"
export YMX_LIB_DIR="$scratch/built/lib" YMX_LIBRARY="$scratch/built/lib/libymx.so.0" CARGO_TARGET_DIR="$scratch/target"
status=0
"$root/bindings/$1/test.sh" > "$scratch/said" 2>&1 || status=$?
grep '^--  ' "$scratch/said" || true
# what either language's tests say of themselves
count=$(awk '/^Ran [0-9]+ tests? / { sum += $2 } /^test .* ok$/ { sum += 1 } END { print sum + 0 }' "$scratch/said")
passed=$count
if [ $status != 0 ] || [ "$count" = 0 ]; then bad "the binding for $1" "$scratch/said"; fi
counted
