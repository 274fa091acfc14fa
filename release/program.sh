#!/bin/sh
# program.sh FILE TARGET: writes the released program for that target to FILE, if it was made from the sources that are here,
# and is whole. TARGET is x86_64 or aarch64. Ends with status 1, and says why, where it is not.
set -eu
here=$(cd "$(dirname "$0")" && pwd)

fact() {
    sed -n "s/^$1: //p" "$here/RELEASE"
}

fail() {
    echo "$1"
    rm -f "$2"
    exit 1
}

[ "$(fact sources)" = "$("$here/sources.sh")" ] || fail 'the released program was made from other sources' "$1"
[ -n "$(fact "program $2")" ] || fail "the release has no program for $2" "$1"
gzip -dc "$here/$2/ymx.gz" > "$1" || fail "release/$2/ymx.gz can't be unpacked" "$1"
[ "$(sha256sum < "$1" | cut -d ' ' -f 1)" = "$(fact "program $2")" ] || fail "release/$2/ymx.gz isn't the program of which release/RELEASE speaks" "$1"
chmod 755 "$1"
