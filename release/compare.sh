#!/bin/sh
# compare.sh TARGET PROGRAM: whether the released program for that target is this one, which was proved and built from the
# sources that are here, byte for byte.
# compare.sh --object TARGET OBJECT: whether the program's object for that target is the one that the release was made of.
# Then it is linked here, and that program compared too, where musl is the one of the release.
# Ends with status 1, and says why, where it is not.
set -eu
here=$(cd "$(dirname "$0")" && pwd)
what=program
[ "$1" != --object ] || { what=object; shift; }
target=$1 made=$2
scratch=$(mktemp -d)
trap 'rm -rf "$scratch"' EXIT

fail() {
    echo "$1: release/make.sh renews the release"
    exit 1
}

fact() {
    sed -n "s/^$1: //p" "$here/RELEASE"
}

sum() {
    sha256sum < "$1" | cut -d ' ' -f 1
}

[ "$(fact sources)" = "$("$here/sources.sh")" ] || fail 'the release was made from other sources'
[ "$(fact parts)" = "$(cat "$here"/*.c | sha256sum | cut -d ' ' -f 1)" ] || fail 'the release was made with other parts in C'
gzip -dc "$here/$target/ymx.gz" > "$scratch/ymx" || fail "release/$target/ymx.gz can't be unpacked"
[ "$(sum "$scratch/ymx")" = "$(fact "program $target")" ] || fail "release/$target/ymx.gz isn't the program of which release/RELEASE speaks"
if [ $what = object ]; then
    [ "$(fact "object $target")" = "$(sum "$made")" ] || fail "the release was made of another object for $target than was built here"
    if musl=$("$here/musl.sh" --sum "$target" 2> "$scratch/said") && [ "$musl" = "$(fact "musl-sum $target")" ]; then
        "$here/link.sh" "$target" "$made" "$scratch/linked"
        made=$scratch/linked
    else
        [ ! -s "$scratch/said" ] || cat "$scratch/said"
        echo "the object for $target is the one of the release; the linked program: left out: another C library"
        exit
    fi
fi
cmp "$scratch/ymx" "$made" || fail "the released program for $target is another one than was built here"
echo "the released program for $target is the one that was built here, byte for byte"
