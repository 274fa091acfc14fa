#!/bin/sh
# The programs of docs/GUIDE.md: proves those of examples/, runs a server, and its client against it over TCP on the
# loopback, and compares what they print. The client and the server that the guide shows must have at most 22 and 32 lines. The
# history that two hubs keep must be one run, and both ends of the echo that are one program must say that all came back. The client
# of the guide must say so where a thread can't be made, and send nothing. Proofs of examples end in .proof there.
# The repository is left alone: the programs are crates in a copy, which takes over what was proved before. With `guide` it
# is the client and the server of the guide alone. With YMX_FROM_GATE=yes they are proved over the libraries as `rt ci` has
# proved and built them, by the compiler that it calls.
set -eu
here=$(cd "$(dirname "$0")" && pwd)
. "$here/../over.sh"

is_from_gate=${YMX_FROM_GATE-no}
# The examples name two ports from which a caller of another test may have one: they run at others.
free_ports 2 > "$scratch/ports"
port=$(sed -n 1p "$scratch/ports")
proxy_port=$(sed -n 2p "$scratch/ports")
mkdir "$scratch/crates"
cp "$root/crates.txt" "$root/HANDLES" "$scratch"
if [ "$is_from_gate" = no ]; then
    for crate in "$root"/crates/*; do
        cp -R --reflink=auto "$crate" "$scratch/crates/"
    done
fi

# crate_of NAME: the name of the crate that examples/NAME.rattle is
crate_of() {
    echo "example_$1" | tr / _
}

# prove NAME LIBRARY..: examples/NAME.rattle as a crate over these libraries, with the proofs of examples/NAME if it has any, whose files
# end in .antt there; `crate` is its name then
prove() {
    source=$1
    crate=$(crate_of "$source")
    shift
    mkdir -p "$scratch/crates/$crate/src"
    sed "s/127\.0\.0\.1:47100/127.0.0.1:$port/; s/127\.0\.0\.1:47101/127.0.0.1:$proxy_port/" \
        "$root/examples/$source.rattle" > "$scratch/crates/$crate/src/main.rt"
    if [ -d "$root/examples/$source/proofs" ]; then
        (cd "$root/examples/$source" && find proofs -name '*.proof') | while read -r file; do
            mkdir -p "$scratch/crates/$crate/${file%/*}"
            cp "$root/examples/$source/$file" "$scratch/crates/$crate/${file%.proof}.antt"
        done
    fi
    check=$scratch/check_of_$crate
    if [ "$is_from_gate" = yes ]; then
        "$root/tools/kit.py" program "$scratch/crates/$crate" "$crate" "$@" anyhow > "$check" 2>&1 || fail "examples/$source.rattle isn't proved" "$check"
        return
    fi
    echo "$crate: $* anyhow" >> "$scratch/crates.txt"
    (cd "$scratch/crates/$crate" && rt check > "$check" 2>&1) || fail "examples/$source.rattle isn't proved" "$check"
    grep -q '^logic=proved ' "$check" || fail "examples/$source.rattle isn't proved" "$check"
}

# build: `program` is the program of this crate. `rt run` builds what is proved, and runs it: a client that finds nobody
# to connect to ends with an error.
build() {
    program=$scratch/crates/$crate/out/$crate
    [ "$is_from_gate" = no ] || return 0
    (cd "$scratch/crates/$crate" && timeout 300 rt run < /dev/null > "$scratch/run" 2>&1) || true
    [ -x "$program" ] || fail "$crate can't be built" "$scratch/run"
}

# serve: starts the server of the guide
serve() {
    server=$(crate_of server)
    if [ "$is_from_gate" = yes ]; then
        timeout 300 "$scratch/crates/$server/out/$server" < /dev/null > "$scratch/server.out" 2>&1 &
    else
        (cd "$scratch/crates/$server" && exec timeout 300 rt run < /dev/null > "$scratch/server.out" 2>&1) &
    fi
    jobs=$!
}

# ask: starts the server, and runs `program` against it until that can be reached
ask() {
    serve
    until "$program" < "$scratch/input" > "$scratch/client.out" 2> /dev/null; do
        kill -0 "$jobs" 2> /dev/null || fail 'the server failed' "$scratch/server.out"
        sleep 0.2
    done
    wait "$jobs" || fail 'the server failed' "$scratch/server.out"
    jobs=
}

# same_came_back: what the client and the server of the guide print
same_came_back() {
    grep -qx 'the same came back: true' "$scratch/client.out" || fail 'the client printed something else' "$scratch/client.out"
    grep -q 'streams served: 1$' "$scratch/server.out" || fail 'the server printed something else' "$scratch/server.out"
}

# without_thread NUMBER: where no thread of this number can be made, the client of the guide says so, its function is not
# called, and no byte comes to the peer
without_thread() {
    # what an earlier peer has said must not be taken for this one's word
    rm -f "$scratch/failed" "$scratch/peer.out"
    python3 "$here/peer.py" "$port" > "$scratch/peer.out" 2>&1 &
    jobs=$!
    until grep -q listening "$scratch/peer.out" 2> /dev/null; do
        kill -0 "$jobs" 2> /dev/null || fail 'the peer failed' "$scratch/peer.out"
        sleep 0.1
    done
    if FAIL_THREAD_AT=$1 FAILED=$scratch/failed LD_PRELOAD=$scratch/failing_malloc.so timeout 60 "$program" \
        < /dev/null > "$scratch/client.out" 2> "$scratch/client.err"; then
        fail "the client came to a good end without thread $1" "$scratch/client.out"
    fi
    wait "$jobs" || fail 'the peer failed' "$scratch/peer.out"
    jobs=
    [ -e "$scratch/failed" ] || fail "the client made no thread $1" "$scratch/client.err"
    grep -q 'NoThread' "$scratch/client.err" || fail "the client said something else without thread $1" "$scratch/client.err"
    [ ! -s "$scratch/client.out" ] || fail "the client went on without thread $1" "$scratch/client.out"
    grep -qx 'bytes: 0' "$scratch/peer.out" || fail "bytes came without thread $1" "$scratch/peer.out"
}

[ "$(wc -l < "$root/examples/client.rattle")" -le 22 ] || fail 'examples/client.rattle has more than 22 lines'
[ "$(wc -l < "$root/examples/server.rattle")" -le 32 ] || fail 'examples/server.rattle has more than 32 lines'

: > "$scratch/input"
if [ "$is_from_gate" = yes ]; then
    # both at once, as no proof is kept
    prove server yamux &
    jobs=$!
    prove client yamux
    wait "$jobs" || exit 1
    jobs=
else
    prove server yamux
    prove client yamux
fi
build
ask
same_came_back
# the threads of both pumps
"${CC:-cc}" -O2 -Wall -shared -fPIC -o "$scratch/failing_malloc.so" "$root/tests/no_memory/failing_malloc.c"
without_thread 1
without_thread 2
if [ "${1-}" = guide ]; then
    echo '2 programs proved and run'
    exit 0
fi
printf 'one\n\nthree\n' > "$scratch/input"
prove echo yamux
build
ask
cmp "$scratch/input" "$scratch/client.out" || fail 'the echo is another text' "$scratch/client.out"
grep -q 'streams served: 3$' "$scratch/server.out" || fail 'the server printed something else' "$scratch/server.out"

prove proxy yamux
build
serve
timeout 300 "$here/user.py" "$proxy_port" "$program" > "$scratch/user.out" 2>&1 || fail 'the proxy failed' "$scratch/user.out"
stop

prove history/main ymx_joined ymx_connect ymx_hub ymx_session ymx_seats ymx_model
build
timeout 300 "$program" > "$scratch/history.out" || fail 'both hubs failed' "$scratch/history.out"
printf 'the word has come: true\nboth histories are one run: true\n' | cmp - "$scratch/history.out" || fail 'the history is another' "$scratch/history.out"

prove echoed ymx_joined yamux ymx_connect ymx_seats ymx_headline ymx_machine ymx_model
build
timeout 300 "$program" > "$scratch/echoed.out" || fail 'both ends of the echo failed' "$scratch/echoed.out"
printf 'the same came back: true\none stream was echoed: true\n' | cmp - "$scratch/echoed.out" || fail 'the echo is another' "$scratch/echoed.out"
echo '6 programs proved and run'
