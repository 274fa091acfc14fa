#!/bin/bash
# musl.sh TARGET: prints the folder in which Debian's package musl-dev for that target stands, so that lib/TARGET-linux-musl
# and include/TARGET-linux-musl are below it: /usr, or out/debian/usr, where tools/debian.sh unpacks it if it isn't installed.
# Ends with status 1, and says why, where it can't be had.
# musl.sh --sum TARGET: prints a hash of the four files that are linked.
# musl.sh --version TARGET: prints the package's version.
set -euo pipefail
root=$(cd "$(dirname "$0")/.." && pwd)
what=place
case ${1-} in
--sum | --version) what=${1#--} && shift ;;
esac
target=${1-}
case $target in
x86_64) architecture=amd64 ;;
aarch64) architecture=arm64 ;;
*)
    echo 'usage: release/musl.sh [--sum | --version] x86_64|aarch64' >&2
    exit 2
    ;;
esac

# stands_in FOLDER
stands_in() {
    [ -f "$1/lib/$target-linux-musl/libc.a" ] && [ -f "$1/include/$target-linux-musl/stdlib.h" ]
}

place=/usr
if ! stands_in $place; then
    place=$root/out/debian/usr
    stands_in "$place" || "$root/tools/debian.sh" musl-dev "$architecture"
    stands_in "$place" || { echo "musl-dev:$architecture lacks libc.a, or its headers" >&2; exit 1; }
fi
case $what in
place) echo "$place" ;;
sum) cd "$place/lib/$target-linux-musl" && cat rcrt1.o crti.o libc.a crtn.o | sha256sum | cut -d ' ' -f 1 ;;
version) { gzip -dc "$place/share/doc/musl-dev/changelog.Debian.gz" || echo '(unknown)'; } | sed -n '1s/.*(\(.*\)).*/\1/p' ;;
esac
