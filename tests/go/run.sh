#!/bin/sh
# Tries the Go package: its tests, without cgo and under the race detector; those with the stack of each call looked at; those of a
# Linux on arm64 and of Windows, under qemu and wine; that it is built for all systems that it names; its heap, beside the C library;
# and the packed module. Needs Go, a C compiler, and Debian's packages that `debian` names. In the gate these are installed where they
# are lacking; elsewhere what needs them is left out with a word. Ends with 'N passed, M failed'.
set -eu
here=$(cd "$(dirname "$0")" && pwd)
. "$here/../over.sh"
package=$root/bindings/go
export GOFLAGS='' GOTOOLCHAIN=local

# is_here THING: a command, or a file
is_here() {
    command -v "$1" > /dev/null || [ -e "$1" ]
}

# debian THING PACKAGE..: whether a command or a file is here. In the gate Debian's packages are installed where it isn't, and it is
# a failure where that doesn't help.
debian() {
    thing=$1
    shift
    ! is_here "$thing" || return 0
    if [ "${YMX_FROM_GATE-}" = yes ]; then
        apt-get -o DPkg::Lock::Timeout=600 install -y --no-install-recommends "$@" > "$scratch/log" 2>&1 || true
        ! is_here "$thing" || return 0
        bad "$thing can't be had" "$scratch/log"
    else
        left_out "what needs $thing" "apt-get install $*"
    fi
    return 1
}

# tests: of the package. One that is skipped needs a package that isn't here, which the gate doesn't take for a test.
tests() {
    cd "$package"
    CGO_ENABLED=0 go test -count 1 -v . > "$scratch/tests" 2>&1 || { cat "$scratch/tests"; return 1; }
    passes=$(grep -c '^--- PASS' "$scratch/tests")
    skips=$(grep -c '^--- SKIP' "$scratch/tests" || true)
    grep -A1 '^--- SKIP' "$scratch/tests" || true
    [ "$skips" = 0 ] || [ "${YMX_FROM_GATE-}" != yes ] || return 1
    echo "$passes passed, $skips skipped"
}

for_all_systems() {
    cd "$package"
    for system in linux windows darwin freebsd; do
        for processor in amd64 arm64; do
            CGO_ENABLED=0 GOOS=$system GOARCH=$processor go vet ./... || return 1
        done
    done
    [ -z "$(gofmt -l .)" ] && echo 'eight systems'
}

with_races() {
    cd "$package"
    CGO_ENABLED=1 go test -race -count 1 .
}

painted() {
    python3 "$here/painted.py" "$scratch/painted" && python3 "$here/painted.py" --small "$scratch/small" || return 1
    cd "$scratch/small"
    if CGO_ENABLED=0 go test -count 1 -run TestMany . > "$scratch/small.said" 2>&1 || ! grep -q SIGTRAP "$scratch/small.said"; then
        cat "$scratch/small.said"
        echo 'too small a room was not seen'
        return 1
    fi
    cd "$scratch/painted"
    CGO_ENABLED=0 go test -count 1 .
}

on_arm() {
    cd "$package"
    CGO_ENABLED=0 GOARCH=arm64 go test -c -o "$scratch/arm.test" . && qemu-aarch64-static "$scratch/arm.test"
}

on_windows() {
    cd "$package"
    CGO_ENABLED=0 GOOS=windows go test -c -o "$scratch/windows.test.exe" . && WINEPREFIX=$scratch/wine WINEDEBUG=-all wine "$scratch/windows.test.exe"
}

the_heap() {
    for checks in address,undefined thread; do
        "${CC-cc}" -std=gnu11 -O1 -g -Wall -Wextra -fno-builtin -pthread "-fsanitize=$checks" -o "$scratch/heap" "$here/heap.c" || return 1
        ASAN_OPTIONS=detect_leaks=0 "$scratch/heap" "$checks" || return 1
    done
}

if ! debian go golang-go; then
    counted
    exit
fi
libraries=/usr/share/gocode/src
debian $libraries/github.com/hashicorp/yamux golang-github-hashicorp-yamux-dev || true
debian $libraries/golang.org/x/net golang-golang-x-net-dev || true
debian $libraries/github.com/hashicorp/go-plugin golang-github-hashicorp-go-plugin-dev golang-google-grpc-dev golang-goprotobuf-dev \
    golang-github-oklog-run-dev golang-github-mitchellh-go-testing-interface-dev || true
try 'for all systems' for_all_systems
try 'its tests' tests
try 'its tests, under the race detector' with_races
try 'its tests, with the stack of each call looked at' painted
try 'its heap' the_heap
try 'the packed module' "$here/module.sh"
if debian qemu-aarch64-static qemu-user-static; then try 'its tests on arm64, under qemu' on_arm; fi
if debian wine wine64 wine; then try 'its tests on Windows, under wine' on_windows; fi
counted
