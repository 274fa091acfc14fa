#!/bin/sh
# What programs of others have come upon over the bindings, small: for Python scenes of asyncio's own streams beside TCP, and
# protocols that a program brings, over uvloop too where that stands; for Rust what programs do with any stream of the
# standard library's, and who writes to nobody; for Go responses and downloads that are given up, deadlines, and two servers.
# What needs a toolchain that isn't here is left out with a word. Ends with 'N passed, M failed'.
set -eu
here=$(cd "$(dirname "$0")" && pwd)
. "$here/over.sh"
PREFIX=$scratch/built "$root/c/build.sh" "$scratch/built" > "$scratch/log" 2>&1 || fail "libymx can't be built" "$scratch/log"
library=$scratch/built/lib
export PKG_CONFIG_PATH="$library/pkgconfig" LD_LIBRARY_PATH="$library" YMX_LIBRARY="$library/libymx.so.0" YMX_LIB_DIR="$library"
export PYTHONPATH="$root/bindings/python/src" PYTHONDONTWRITEBYTECODE=1 CARGO_TARGET_DIR="$scratch/cargo"

in_python() {
    cd "$root/bindings/python/tests"
    "$1" -W ignore -m unittest test_scenes test_protocols test_faults test_threads
}

over_uvloop() {
    cd "$root/bindings/python/tests"
    YMX_LOOP=uvloop /usr/bin/python3 -W ignore -m unittest test_protocols test_faults test_ymx
}

in_rust() {
    cd "$root/bindings/rust"
    cargo test --offline -p ymx --test ways_of_std && cargo test --offline -p ymx --test connection nobody
}

in_go() {
    cd "$root/bindings/go"
    go test -count 1 -run 'Cancelled|Behind|GivenUp|Twice|MadeAlike|Silent' .
}

if command -v python3 > /dev/null; then at_once Python in_python python3; else left_out Python 'no python3' python3; fi
if /usr/bin/python3 -c 'import uvloop' 2> /dev/null; then at_once uvloop over_uvloop; else left_out uvloop 'no uvloop' python3-uvloop; fi
if command -v cargo > /dev/null; then at_once Rust in_rust; else left_out Rust 'no cargo' cargo; fi
if command -v go > /dev/null; then at_once Go in_go; else left_out Go 'no Go' golang-go; fi
awaited
counted
