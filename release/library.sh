#!/bin/sh
# library.sh FILE [TARGET]: writes the released archive of the library for C to FILE, if it was made from the sources that
# are here, and is whole. TARGET is x86_64 or aarch64: this machine, if it is left out. Ends with status 1, and says why,
# where it is not.
set -eu
here=$(cd "$(dirname "$0")" && pwd)
target=${2-$(uname -m)}

fact() {
    sed -n "s/^$1: //p" "$here/RELEASE"
}

fail() {
    echo "$1"
    rm -f "$2"
    exit 1
}

[ "$(fact library-sources)" = "$("$here/sources.sh" ymx_c)" ] || fail 'the released library was made from other sources' "$1"
if [ "$(uname -s)" != Linux ] || [ -z "$(fact "library $target")" ]; then fail "the release has no library for $target $(uname -s)" "$1"; fi
gzip -dc "$here/$target/libymx_c.a.gz" > "$1" || fail "release/$target/libymx_c.a.gz can't be unpacked" "$1"
[ "$(sha256sum < "$1" | cut -d ' ' -f 1)" = "$(fact "library $target")" ] || fail "release/$target/libymx_c.a.gz isn't the library of which release/RELEASE speaks" "$1"
