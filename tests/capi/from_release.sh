#!/bin/sh
# A copy of the repository, in which nothing was built, and a PATH with no rt: the library is built from the release, and
# carries bytes. A release that is one byte off is refused, and a source that has changed wants a proof. Beside the gate
# the release may be of other sources, and nothing is tried then.
set -eu
root=$(cd "$(dirname "$0")/../.." && pwd)
scratch=$(mktemp -d)
trap 'rm -rf "$scratch"' EXIT
trap 'exit 130' INT TERM
cd "$scratch"

fail() {
    echo "$1"
    exit 1
}

if ! "$root/release/library.sh" released; then
    [ "${YMX_FROM_GATE-}" != yes ]
    exit
fi
(cd "$root" && find c release crates.txt HANDLES examples/c crates -name out -prune -o -type f -print | tar -cf - -T -) | tar -xf - -C "$scratch"
without_rt=$(echo "$PATH" | tr : '\n' | while read -r folder; do [ -x "$folder/rt" ] || echo "$folder"; done | paste -sd:)
PATH=$without_rt c/build.sh ./built || fail 'the library does not build without a toolchain'
if c/build.sh instal 2> said || [ -e instal ]; then fail 'a mistyped word is taken for a folder'; fi
cc -o pair -Ibuilt/include examples/c/pair.c built/lib/libymx.a
./pair

packed=release/$(uname -m)/libymx_c.a.gz
gzip -dc "$packed" > off
printf 'X' | dd of=off bs=1 seek=1000 conv=notrunc 2> dd_said
gzip -9nc off > "$packed"
if release/library.sh off_too; then fail 'a library that is one byte off passes for the release'; fi

echo '//' >> crates/ymx_header/src/lib.rt
if PATH=$without_rt c/build.sh ./built_anew 2> said; then fail 'a changed source builds the old library'; fi
grep -q 'made from other sources' said || fail "a changed source is not told: $(cat said)"
