#!/bin/sh
# Runs software of others over streams of the bindings, each test of it alone, beside TCP and HashiCorp's package: for Go the
# tests of net/http, http2, crypto/tls, gRPC and ssh, with net.Listen and net.Dial of a copy of Go led over one session
# (real/hook.go); for Python hypercorn, and aiohttp, uvicorn, hypercorn and websockets over TLS with downloads that are given
# up; for Rust rustls and tokio-rustls. A suite that Debian's packages don't bring here is left out with a word. It takes an
# hour; the gate runs what takes minutes. With names it runs these alone: `tests/real.sh net/http`.
# Ends with 'N passed, M failed'.
set -eu
here=$(cd "$(dirname "$0")" && pwd)
. "$here/over.sh"
PREFIX=$scratch/built "$root/c/build.sh" "$scratch/built" > "$scratch/log" 2>&1 || fail "libymx can't be built" "$scratch/log"
export PKG_CONFIG_PATH="$scratch/built/lib/pkgconfig" LD_LIBRARY_PATH="$scratch/built/lib"
export YMX_LIBRARY="$scratch/built/lib/libymx.so.0" YMX_LIB_DIR="$scratch/built/lib" PYTHONDONTWRITEBYTECODE=1
wanted=" $* "

# is_wanted NAME
is_wanted() {
    [ "$wanted" = '  ' ] || [ "${wanted#* "$1" }" != "$wanted" ]
}

# both_gos: two copies of Go whose net is led over streams, with ours and with HashiCorp's package in them; and a copy of
# Debian's packages, as a test is added to them
both_gos() {
    mkdir "$scratch/path"
    cp -rL /usr/share/gocode/src "$scratch/path" 2> "$scratch/log" || true
    for one in ours theirs; do
        go=$scratch/$one
        mkdir "$go"
        cp -rL "$(go env GOROOT)/." "$go" 2> "$scratch/log" || true
        rm -rf "$go/pkg/linux_amd64_race"
        python3 "$here/real/patched_net.py" "$go/src/net/dial.go"
        mkdir -p "$go/src/ystream" "$go/src/github.com/hashicorp/yamux"
        cp "$here/real/hook.go" "$go/src/ystream/"
        if [ $one = ours ]; then from=$root/bindings/go; else from=/usr/share/gocode/src/github.com/hashicorp/yamux; fi
        find "$from" -maxdepth 1 \( -name '*.go' -o -name '*.s' \) -exec cp -t "$go/src/github.com/hashicorp/yamux" {} +
        rm -f "$go"/src/github.com/hashicorp/yamux/*_test.go
    done
}

# debian_of FOLDER: the package of Debian's that has it
debian_of() {
    case $1 in
    google.golang.org/*) echo golang-google-grpc-dev ;;
    */crypto/*) echo golang-golang-x-crypto-dev ;;
    *) echo golang-golang-x-net-dev ;;
    esac
}

# suite NAME FOLDER PACKAGE: the tests of a package of Go's own (below its src), or of Debian's
suite() {
    name=$1 folder=$2 package=$3
    is_wanted "$name" || return 0
    [ -d "$scratch/ours/src" ] || both_gos
    for one in theirs ours; do
        go=$scratch/$one
        where=$go/src/$folder
        [ -d "$where" ] || where=$scratch/path/src/$folder
        [ -d "$where" ] || { left_out "$name" "no /usr/share/gocode/src/$folder" "$(debian_of "$folder")"; return 0; }
        printf 'package %s\n\nimport _ "ystream"\n' "$package" > "$where/led_test.go"
        (cd "$where" && GOROOT=$go GO111MODULE=off GOPATH=$scratch/path GOCACHE=$scratch/cache GOFLAGS=-vet=off \
            "$go/bin/go" test -c -o "$scratch/$one.test" .) > "$scratch/log" 2>&1 || { bad "$name can't be compiled" "$scratch/log"; return 0; }
    done
    if (cd "$where" && GOROOT=$scratch/ours PATH=$scratch/ours/bin:$PATH GO111MODULE=off GOPATH=$scratch/path \
        GOCACHE=$scratch/cache python3 "$here/real/each.py" "$name" "$scratch/ours.test" "$scratch/theirs.test") > "$scratch/said" 2>&1; then
        good
    else
        bad "$name"
    fi
    cat "$scratch/said"
}

# program NAME COMMAND..: one that says what it did in its last line
program() {
    name=$1
    shift
    is_wanted "${name%% *}" || return 0
    if timeout 900 "$@" > "$scratch/said" 2>&1; then
        good
        echo "ok    $name: $(tail -n 1 "$scratch/said")"
    else
        bad "$name" "$scratch/said"
    fi
}

if has_go; then
    suite net/http net/http http_test
    suite crypto/tls crypto/tls tls
    suite net/rpc net/rpc rpc
    suite net/http/httputil net/http/httputil httputil
    suite http2 golang.org/x/net/http2 http2
    suite ssh golang.org/x/crypto/ssh ssh
    suite gRPC google.golang.org/grpc/test test
else
    left_out "Go's suites" 'no Go, or not its yamux' golang-go golang-github-hashicorp-yamux-dev
fi
for python in python3 /usr/bin/python3; do
    if "$python" -c 'import hypercorn' 2> /dev/null && is_wanted hypercorn; then
        program hypercorn "$python" "$here/real/served.py"
        break
    fi
done
[ "$python" != /usr/bin/python3 ] || "$python" -c 'import hypercorn' 2> /dev/null || left_out hypercorn 'no python3 has it' python3-hypercorn
if ! is_wanted led; then
    :
elif /usr/bin/python3 -c 'import aiohttp, hypercorn, uvicorn, websockets' 2> /dev/null && command -v openssl > "$scratch/log"; then
    program 'led over TCP' /usr/bin/python3 -W ignore "$here/real/led.py" tcp
    program 'led over streams' /usr/bin/python3 -W ignore "$here/real/led.py"
else
    left_out 'aiohttp, uvicorn, hypercorn and websockets' 'not all stand here' openssl python3-aiohttp python3-hypercorn python3-uvicorn python3-websockets
fi
registry=/usr/share/cargo/registry
# in_rust NAME FILE CRATE DEPENDENCIES: builds and runs a program that reads a certificate and its key, and needs CRATE of Debian's
in_rust() {
    is_wanted "${1%% *}" || return 0
    ls -d "$registry/$3"* > /dev/null 2>&1 || { left_out "$1" "no $registry/$3" "librust-${3%-*}-dev"; return 0; }
    mkdir -p "$scratch/tls/src"
    cp "$here/real/$2" "$scratch/tls/src/main.rs"
    printf '[package]\nname = "tls"\nversion = "0.1.0"\nedition = "2021"\n\n[dependencies]\n%s\n' "$4" > "$scratch/tls/Cargo.toml"
    program "$1" env -C "$scratch/tls" CARGO_TARGET_DIR="$scratch/tls/target" cargo run -q --offline
}

if ! command -v cargo > /dev/null; then
    left_out rustls 'no cargo' cargo
elif is_wanted rustls && ! command -v openssl > /dev/null; then
    left_out rustls 'no openssl' openssl
elif is_wanted rustls; then
    mkdir -p "$scratch/tls/.cargo"
    printf '[source.crates-io]\nreplace-with = "debian"\n[source.debian]\ndirectory = "%s"\n' "$registry" > "$scratch/tls/.cargo/config.toml"
    openssl req -x509 -newkey rsa:2048 -nodes -subj /CN=localhost -keyout "$scratch/key" -outform der -out "$scratch/tls/certificate" 2> "$scratch/log"
    openssl pkcs8 -topk8 -nocrypt -in "$scratch/key" -outform der -out "$scratch/tls/key"
    in_rust rustls tls.rs rustls-0.20 "rustls = { version = \"0.20\", features = [\"dangerous_configuration\"] }
ymx = { path = \"$root/bindings/rust/ymx\" }"
    in_rust 'rustls with tokio' tls_tokio.rs tokio-rustls-0.23 "tokio = { version = \"1.24\", features = [\"io-util\", \"macros\", \"net\", \"rt-multi-thread\"] }
tokio-rustls = { version = \"0.23\", features = [\"dangerous_configuration\"] }
ymx-tokio = { path = \"$root/bindings/rust/ymx-tokio\" }"
fi
counted
