#!/bin/sh
# `bench/bindings.sh rust|python [RUNS [OTHER]]` times a binding, both sides in one process, over TCP on the loopback: words
# of 64 bytes there and back, one stream echoed, and streams that are opened, echoed and closed one after another. Medians of
# seven runs of the speed and the processor time. With OTHER, the folder bindings/rust or bindings/python of another tree,
# both take turns, each over a library of this tree, and it says the medians of the ratios. `rust` needs cargo and
# librust-tokio-dev.
set -eu
top=$(cd "$(dirname "$0")/.." && pwd)
usage() {
    echo 'usage: bench/bindings.sh rust|python [RUNS [OTHER]]' >&2
    exit 2
}
case ${1-} in
rust | python) language=$1 ;;
*) usage ;;
esac
runs=${2-7}
case $runs in
'' | *[!0-9]*) usage ;;
esac
other=${3:+$(cd "$3" && pwd)}
work=$(mktemp -d)
trap 'rm -rf "$work"' EXIT
trap 'exit 130' INT TERM
PREFIX="$work/built" "$top/c/build.sh" "$work/built" > "$work/log" 2>&1 || { cat "$work/log" >&2; exit 1; }
export YMX_LIB_DIR="$work/built/lib" YMX_LIBRARY="$work/built/lib/libymx.so.0"

# made NAME FOLDER: the program of the binding in FOLDER
made_rust() {
    mkdir -p "$work/$1/src" "$work/cargo"
    cp "$top/bench/rust_bench.rs" "$work/$1/src/main.rs"
    printf '[source.crates-io]\nreplace-with = "debian"\n[source.debian]\ndirectory = "/usr/share/cargo/registry"\n' > "$work/cargo/config.toml"
    cat > "$work/$1/Cargo.toml" << WORDS
[package]
name = "$1"
version = "0.0.0"
edition = "2021"

[dependencies]
tokio = { version = "1.24", features = ["io-util", "macros", "net", "rt-multi-thread"] }
ymx = { path = "$2/ymx" }
ymx-tokio = { path = "$2/ymx-tokio" }
WORDS
    CARGO_HOME="$work/cargo" CARGO_TARGET_DIR="$work/target" cargo build --quiet --release --offline --manifest-path "$work/$1/Cargo.toml"
}

made_python() {
    # shellcheck disable=SC2016
    printf '#!/bin/sh\nPYTHONPATH="%s/src" exec python3 "%s/bench/python_bench.py"\n' "$2" "$top" > "$work/target/release/$1"
    chmod +x "$work/target/release/$1"
}

mkdir -p "$work/target/release"
[ "$language" = python ] || ls -d /usr/share/cargo/registry/tokio-1.* > /dev/null 2>&1 || {
    echo 'bench/bindings.sh rust needs cargo and librust-tokio-dev' >&2
    exit 1
}
"made_$language" this "$top/bindings/$language"
[ -z "$other" ] || "made_$language" other "$other"
cd "$work"
echo "load before: $(cut -d ' ' -f 1-3 /proc/loadavg)"
run=0
while [ $run -lt "$runs" ]; do
    run=$((run + 1))
    for name in this ${other:+other}; do
        "target/release/$name" | sed "s/^/$run $name /" >> figures
    done
done
echo "load after: $(cut -d ' ' -f 1-3 /proc/loadavg)"
python3 - << 'WORDS'
from collections import defaultdict
from statistics import median

taken = defaultdict(dict)
for line in open("figures"):
    run, side, name, *numbers = line.split()
    taken[name, side][run] = [float(number) for number in numbers]
for name in dict.fromkeys(name for name, _ in taken):
    this, other = taken[name, "this"], taken[name, "other"]
    speed, spent = (median(pair[at] for pair in this.values()) for at in (0, 1))
    text = f"{name:8} {speed:.0f} a second, {spent:.0f} ms of processor time"
    if other:
        ratios = [median(this[run][at] / other[run][at] for run in this) for at in (0, 1)]
        text += "; to the other {:.2f}, and {:.2f} of its processor time".format(*ratios)
    print(text)
WORDS
