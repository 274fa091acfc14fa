#!/bin/sh
# Tries libymx over TCP on the loopback, crosswise: the clients and servers of the bindings for Go, Python and Rust, and of
# HashiCorp's yamux for Go, and the server in C. 500 streams of 20,000 bytes and 5 of 3,000,000, whose bytes are compared;
# a stream that the server resets, one that the client resets, and a connection that breaks off in the middle of a
# stream. Then one busy stream beside 1,000 idle ones. Needs Debian's packages golang-go and
# golang-github-hashicorp-yamux-dev; what needs a toolchain that isn't here is left out with a word.
set -eu
here=$(cd "$(dirname "$0")" && pwd)
root=$(cd "$here/../.." && pwd)
if ! command -v go > /dev/null || [ ! -d /usr/share/gocode/src/github.com/hashicorp/yamux ]; then
    echo "--    the bindings, crosswise: left out: no Go, or not its yamux (apt-get install golang-go golang-github-hashicorp-yamux-dev)"
    exit 77
fi
scratch=$(mktemp -d)
server=
stop() {
    [ -z "$server" ] || kill "$server" 2> /dev/null || true
    server=
}
trap 'stop; rm -rf "$scratch"' EXIT
trap 'exit 130' INT TERM
PREFIX=$scratch/built "$root/c/build.sh" "$scratch/built"
built=$scratch/built
export PKG_CONFIG_PATH="$built/lib/pkgconfig" LD_LIBRARY_PATH="$built/lib"
export YMX_LIBRARY="$built/lib/libymx.so.0" PYTHONPATH="$root/bindings/python/src" PYTHONDONTWRITEBYTECODE=1
export YMX_LIB_DIR="$built/lib" CARGO_TARGET_DIR="$scratch/cargo"
cd "$scratch"
GO111MODULE=off GOPATH=/usr/share/gocode go build -o go_echo "$here/go_echo.go"
(cd "$root/bindings/go" && go build -o "$scratch/echo_in_go" ./examples/echo)
cc -O2 -I"$built/include" -o echo_server "$root/examples/c/echo_server.c" "$built/lib/libymx.a"
cc -O2 -I"$built/include" -o idle "$here/idle.c" "$built/lib/libymx.a"
passed=0
failed=0

# begin COMMAND..: starts a server, and waits until it says where it listens
begin() {
    : > listens
    "$@" > listens 2> said_by_server &
    server=$!
    tries=0
    until address=$(sed -n 's/^listening at //p' listens) && [ -n "$address" ]; do
        tries=$((tries + 1))
        [ $tries -lt 1200 ] || { echo "$1 says nothing:"; cat said_by_server; exit 1; }
        sleep 0.1
    done
}

# is NAME COMMAND..: a test, and the last line of what it says
is() {
    name=$1
    shift
    if "$@" > said 2>&1; then
        passed=$((passed + 1))
        echo "ok    $name: $(tail -n 1 said)"
    else
        failed=$((failed + 1))
        echo "FAIL  $name:"
        cat said
    fi
}

# try NAME COMMAND..: with two minutes of time
try() {
    name=$1
    shift
    is "$name" timeout 600 "$@"
}

# left_out NAME: a binding that can't be tried here
left_out() {
    echo "--    $1: left out: no $2 (apt-get install $2)"
}

clients='hashicorp go'
servers='hashicorp c go'
if command -v python3 > /dev/null; then
    clients="$clients python"
    servers="$servers python"
else
    left_out Python python3
fi
if command -v cargo > /dev/null; then
    (cd "$root/bindings/rust" && cargo build --offline --release --examples) > said 2>&1 || { cat said; exit 1; }
    clients="$clients rust"
    servers="$servers rust"
else
    left_out Rust cargo
fi

# program NAME: the command of a client or server
program() {
    case $1 in
    hashicorp) echo ./go_echo ;;
    c) echo ./echo_server ;;
    go) echo ./echo_in_go ;;
    python) echo python3 "$root/bindings/python/examples/echo.py" ;;
    rust) echo "$CARGO_TARGET_DIR/release/examples/echo" ;;
    esac
}

# can WORD CLIENT SERVER: the server in C echoes alone; HashiCorp's package can't reset a stream, and takes a lost
# connection for an end
can() {
    case $1 in
    reset) [ "$3" != c ] && [ "$3" != hashicorp ] ;;
    count | lost) [ "$2" != hashicorp ] && [ "$3" != c ] ;;
    esac
}

# cross CLIENT SERVER: all that both can
cross() {
    # shellcheck disable=SC2046
    begin $(program "$2") serve
    # shellcheck disable=SC2046
    try "$1 calls $2" $(program "$1") call "$address" 500 20000
    # shellcheck disable=SC2046
    try "$1 calls $2, wide streams" $(program "$1") call "$address" 5 3000000
    for word in reset count lost; do
        # shellcheck disable=SC2046
        ! can $word "$1" "$2" || try "$1 calls $2, $word" $(program "$1") $word "$address"
    done
    stop
}

for one in $clients; do
    for other in $servers; do
        [ "$one $other" = 'hashicorp hashicorp' ] || cross "$one" "$other"
    done
done
is "one busy stream beside 1,000 idle ones" timeout 600 ./idle
echo "$passed passed, $failed failed"
[ $failed = 0 ]
