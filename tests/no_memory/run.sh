#!/bin/sh
# Makes each allocation fail in turn. Whichever it is, the program ends as if none had failed, or it
# says so: `ymx: out of memory`, status 1, and a beginning of the output; in a script a call may be refused
# too, or a stream rejected. And in each crate that takes memory for a stream or a session, and for two running
# sessions, a test holds: what was refused changed nothing.
set -eu
here=$(cd "$(dirname "$0")" && pwd)
. "$here/../over.sh"

find_program
find_dynamic
# shellcheck disable=SC2016
[ -n "$dynamic" ] || fail 'nothing can be preloaded into a static program, and the object that it was made of is not here: `release/prove.py --kept --target x86_64 --objects out/objects` compiles it'
"${CC:-cc}" -O2 -Wall -shared -fPIC -o "$scratch/failing_malloc.so" "$here/failing_malloc.c"
cd "$scratch"
echo 'ymx: out of memory' > no_memory
{ cat "$root/examples/hello.yamux"; printf '\0\4\0\0\0\0\0\0\0\0\0\0'; } > fault
head -c 20 "$root/examples/hello.yamux" > rest

# run NUMBER WORDS..: the program, in which the allocation of this number fails
run() {
    number=$1
    shift
    rm -f failed
    status=0
    FAIL_AT=$number FAILED=failed LD_PRELOAD=./failing_malloc.so "$dynamic" "$@" < input > out 2> err || status=$?
}

# each STATUS INPUT WORDS..: the program ends so where no allocation fails; then each fails in turn
each() {
    wanted=$1
    cp "$2" input
    shift 2
    run 0 "$@"
    [ "$status" = "$wanted" ] || fail "ymx $*: status $status"
    mv out all_out
    mv err all_err
    number=0 told=0
    while number=$((number + 1)) && run $number "$@" && [ -e failed ]; do
        if [ "$status" = 1 ] && cmp -s err no_memory && head -c "$(wc -c < out)" all_out | cmp -s - out; then
            told=$((told + 1))
        elif [ "$status" != "$wanted" ] || ! cmp -s out all_out || ! cmp -s err all_err; then
            fail "ymx $*: allocation $number: status $status" err
        fi
    done
    [ $told -gt 0 ] || fail "ymx $*: no run was out of memory"
    echo "ok    ymx $*: $((number - 1)) allocations, $told runs were out of memory"
}

each 0 "$root/examples/hello.yamux" frames
each 1 fault frames
each 1 rest frames --limit 300000
each 0 /dev/null --help
each 2 /dev/null frames --limit 5
each 2 /dev/null local

# Scripts of two sessions: what was refused changed nothing, and a stream without memory is rejected.
python3 "$here/scripts.py" "$dynamic" "$scratch/failing_malloc.so" "$root/tests/script/bytes_one_by_one.script" \
    "$root/tests/script/window.script" "$root/tests/script/half_close.script" "$root/tests/script/reset.script" \
    "$root/tests/script/go_away.script" "$root/tests/script/open_with_data.script"

# Both ends of the tunnel, and one connection through them: each that is refused memory, or a call about the readiness
# of its descriptors, says so, and both end. And the selftest, which ends too.
python3 "$here/tunnel.py" "$dynamic" "$scratch/failing_malloc.so"

# What a part of a session, a session and two running sessions do: each test holds whichever allocation fails. The gate
# runs these among others (tests/run.sh).
if [ "${YMX_FROM_GATE-}" != yes ]; then
    "$root/tests/try_tests.sh" no_memory/parts
fi
