#!/bin/sh
# The tests of the binding for Rust. YMX_LIB_DIR is the folder of the library. Then: both ways to find it and both to link
# it, what is said where there is none, the packages, and clippy where it stands; and the crate for tokio, where Debian's
# packages of tokio, hyper and futures stand.
set -eu
here=$(cd "$(dirname "$0")" && pwd)
cd "$here"
scratch=$(mktemp -d)
trap 'rm -rf "$scratch"' EXIT
trap 'exit 130' INT TERM
export CARGO_TARGET_DIR="${CARGO_TARGET_DIR:-$scratch/target}"
folder=$YMX_LIB_DIR

fail() {
    echo "$1"
    cat "$scratch/said"
    exit 1
}

timeout 600 cargo test --offline --workspace

# linked NAME: the word of a session goes across, and the library is the shared one or not
linked() {
    cargo test --offline -p ymx --test word > "$scratch/said" 2>&1 || fail "$1"
    program=$(sed -n 's/^ *Running tests.word.rs (\(.*\))$/\1/p' "$scratch/said")
    case $program in
    /*) ;;
    *) program=$here/$program ;;
    esac
    needs=no
    ! readelf -d "$program" | grep -q 'NEEDED.*\[libymx\.so\.0\]' || needs=yes
    [ $needs = "$2" ] || fail "$1: libymx.so.0 is needed: $needs"
}
export LD_LIBRARY_PATH="$folder${LD_LIBRARY_PATH:+:$LD_LIBRARY_PATH}"
(export YMX_LINK=shared && linked 'linked as a shared library, from a folder' yes)
unset YMX_LIB_DIR
export PKG_CONFIG_PATH="$folder/pkgconfig"
linked 'found by pkg-config' no
(export YMX_LINK=shared && linked 'found by pkg-config, and shared' yes)

# refused NAME TEXT: it is not built, and this is said
refused() {
    if cargo build --offline > "$scratch/said" 2>&1; then fail "$1: it is built all the same"; fi
    grep -qF "$2" "$scratch/said" || fail "$1: this is not said: $2"
}
# shellcheck disable=SC2016
(export YMX_LINK=other && refused 'another word' 'YMX_LINK is `other`, and not `static` or `shared`')
(export YMX_LIB_DIR=/nowhere && refused 'a folder without it' 'there is no /nowhere/libymx.a')
# shellcheck disable=SC2016
(export PKG_CONFIG=/nowhere/pkg-config && refused 'no pkg-config' 'by `c/build.sh install`')
(export PKG_CONFIG_PATH=/nowhere PKG_CONFIG_LIBDIR=/nowhere &&
    refused 'not installed' 'Or let YMX_LIB_DIR name the folder in which libymx.a lies')
unset PKG_CONFIG_PATH

export YMX_LIB_DIR="$folder"
cargo fmt --all --check > "$scratch/said" 2>&1 || fail 'cargo fmt would change something'
# the packages are built from what is in them; one cargo that is older than 1.90 can't have one need the other
if cargo package --help 2> /dev/null | grep -q -- --workspace && cargo package --offline --workspace --allow-dirty > "$scratch/said" 2>&1; then
    for name in ymx-sys ymx; do
        archive=$CARGO_TARGET_DIR/package/$name-0.3.0.crate
        tar -xzOf "$archive" "$name-0.3.0/LICENSE" | cmp - "$here/../../LICENSE" || fail "the licence is not in the package of $name"
    done
    echo 'the packages of both crates are built from what is in them'
else
    ! cargo --version | grep -qE ' 1\.(9[0-9]|[1-9][0-9][0-9])' || fail 'the packages are not made'
    echo 'no packages: this cargo is too old for two that need one another'
fi
if cargo clippy --version > /dev/null 2>&1; then
    cargo clippy --offline --workspace --all-targets -- -D warnings > "$scratch/said" 2>&1 || fail 'clippy finds something'
    echo 'clippy finds nothing'
fi

registry=/usr/share/cargo/registry
if ls -d "$registry"/tokio-1.* "$registry"/hyper-0.14.* "$registry"/futures-io-0.3.* "$registry"/futures-util-0.3.* > /dev/null 2>&1; then
    mkdir "$scratch/home"
    printf '[source.crates-io]\nreplace-with = "debian"\n[source.debian]\ndirectory = "%s"\n' "$registry" > "$scratch/home/config.toml"
    export CARGO_HOME="$scratch/home"
    cp -r rustfmt.toml ymx ymx-sys ymx-tokio "$scratch/" # cargo writes a Cargo.lock
    cd "$scratch/ymx-tokio"
    cargo fmt --check > "$scratch/said" 2>&1 || fail 'cargo fmt would change something of ymx-tokio'
    cargo build --offline > "$scratch/said" 2>&1 || fail 'ymx-tokio is not built without the feature futures'
    timeout 600 cargo test --offline --features futures
else
    echo '--    ymx-tokio: left out: no tokio (apt-get install librust-tokio-dev librust-hyper-dev librust-futures-util-dev)'
fi
