#!/bin/sh
# Runs all tests that stand beside `rt ci`, a line each, and what a test that failed has to say. With --no-kit it runs
# those that need no Rattle kit: of the released program, the library for C, the bindings, and the documents. With --all it
# runs too what takes longer: it proves and runs the programs of the guide, packs the release and tries that, tries the wrong
# bodies, talks to Go's yamux over 10,000 streams, makes 10,000 random connections, kills 100 processes, and runs all tests of
# others over the bindings, which takes some hours.
# Two long tests aren't run again where they have passed and nothing that they depend on has changed; --all runs them.
# What is left out for lack of a tool is listed at the end, with the package that has it (tools/packages.sh has all); in the
# gate it fails. Ends with 'N passed, M failed', and ', K left out' if there are any.
set -eu
here=$(cd "$(dirname "$0")" && pwd)
. "$here/over.sh"

case ${1-} in
'' | --all | --no-kit) ;;
*)
    echo "usage: tests/run.sh [--all | --no-kit]" >&2
    exit 2
    ;;
esac
# what need not be run again (`once` of over.sh)
once=--once
[ "${1-}" != --all ] || once=
# tests that wait more than they work stand beside others; the gate may run on two slow processors, and takes its time
[ "${1-}" != --no-kit ] || AT_ONCE=yes
export AT_ONCE
try 'what the documents quote' "$root/tools/quotes.py"
try 'the links of the documents' "$root/tools/links.py"
try 'the picture of the speeds' "$root/tools/speeds.py" --same
try 'the pictures of what the program prints' "$root/tools/pictures.py" --same
try 'bodies are the same for all recorders' "$root/tools/recorders.py"
try 'requests of memory are bounded' "$root/tools/requests.py"
try 'the calls of sockets stand in one file' "$root/tools/system_calls.py"
try 'the released program' "$root/tests/release/run.sh"
try 'the released program, beside busybox alone' "$root/tests/release/busybox.sh"
if [ "${YMX_FROM_GATE-}" = yes ]; then
    # before those that preload a library: it compiles the object that they take
    # shellcheck disable=SC2086
    try 'the release is what is built here' "$root/tests/release/objects.sh" $once
elif [ "${1-}" != --no-kit ]; then
    echo "--    the release is what is built here: left out: no gate has built anything"
fi
# beside the others, as it waits more than it works
at_once 'the program from outside' "$root/tests/program/run.sh"
if [ "${1-}" = --no-kit ]; then
    try 'the released program for arm64, under qemu' "$root/tests/release/arm.sh" --quick
else
    # shellcheck disable=SC2086
    try 'the release for arm64, under qemu' "$root/tests/release/arm.sh" $once
fi
try 'what is not run again' "$root/tests/release/once.sh"
try 'the program, installed' "$root/tests/release/installed.sh"
try 'the parts of the program in C' "$root/tests/release/parts.sh"
try '500 random connections' "$root/tests/kill/random.sh" 500
try 'scripts and what they print' "$root/tests/script/run.sh"
try 'the dissector for Wireshark' "$root/tests/dissector/run.sh"
try 'the C interface' "$root/tests/capi/run.sh"
try 'the bindings, as programs of others use them' "$root/tests/cases.sh"
try 'the Go package' "$root/tests/go/run.sh"
try "HashiCorp's tests over the Go package" "$root/tests/hashicorp.sh" 1
try 'the binding for Python' "$root/tests/bindings.sh" python
try 'the binding for Rust' "$root/tests/bindings.sh" rust
# the first run of the program was run before, and so were the own tests of these bindings
at_once 'what the documents show is run' "$root/tests/documents.sh" './ymx selftest' \
    'cd bindings/go && CGO_ENABLED=0 go test' 'YMX_LIB_DIR=$PWD/../../c/out/lib cargo test'
try 'the bindings, crosswise' "$root/tests/capi/interop.sh"
try 'software of others over the bindings' "$root/tests/real.sh" net/rpc net/http/httputil hypercorn led rustls
at_once "the tunnel and Go's yamux" "$root/tests/interop/run.sh" 1000
at_once 'processes that are killed' "$root/tests/kill/run.sh" 20
try 'real services' "$root/tests/services/run.sh"
try 'the units, under systemd' "$root/tests/services/systemd.sh"
awaited
if [ "${1-}" != --no-kit ]; then
    try "the Go package's machine code is the release's" "$root/tests/go/code.sh"
    try 'wrong bodies and the sources' "$root/tests/wrong_bodies.sh" --fit
    try 'wrong statements' "$root/tests/refused.sh"
    try 'each allocation fails once' "$root/tests/no_memory/run.sh"
    try 'programs that must not compile' "$root/tests/must_not_compile/run.sh"
    # compiled together, as most of the time goes into what they share
    try 'sessions, engines, threads and units' "$root/tests/try_tests.sh" session worlds engine hub tunnel yamux no_memory/parts units
    try "the guide's client and server" "$root/tests/examples/run.sh" guide
fi
if [ "${1-}" = --all ]; then
    try 'the programs of the guide' "$root/tests/examples/run.sh"
    try 'the packages' "$root/tests/release/packages.sh"
    try 'wrong bodies' "$root/tests/wrong_bodies.sh"
    try "the tunnel and Go's yamux, 10,000 streams" "$root/tests/interop/run.sh"
    try "HashiCorp's tests over the Go package, five times" "$root/tests/hashicorp.sh"
    try 'all software of others over the bindings' "$root/tests/real.sh"
    try '10,000 random connections' "$root/tests/kill/random.sh"
    try '100 processes that are killed' "$root/tests/kill/run.sh"
fi
counted
