#!/bin/bash
# Makes the release anew, for each target: proves the crates of the program and of the library for C and compiles both, from
# nothing, links the program, and writes TARGET/ymx.gz, TARGET/libymx_c.a.gz, RELEASE and seconds, and of the library the
# machine code in bindings/go. That takes an hour and a half of processor time. With --kept it takes over what was proved
# before, with --gate the libraries as `rt ci` has just proved and built them here: some minutes. Neither makes the library
# anew where the release has it of the same sources, by the same kit, with the same words for its compiler and with the same
# parts in C.
# It needs the Rattle kit's `rt` on the PATH, Python 3, Debian's packages binutils and binutils-aarch64-linux-gnu, and its
# musl-dev for amd64 and arm64, which it fetches where they aren't installed. The sources have to be committed, since RELEASE
# names their commit.
set -euo pipefail
cd "$(dirname "$0")/.."
case ${1-} in
'' | --kept | --gate) [ $# -le 1 ] ;;
*) false ;;
esac || { echo 'usage: release/make.sh [--kept | --gate]' >&2; exit 2; }
fail() {
    echo "$*" >&2
    exit 1
}
[ -z "$(git status --porcelain -- crates crates.txt HANDLES 'release/*.c')" ] || fail 'commit the sources first: the release names their commit'
command -v rt > /dev/null || fail "the proofs are made by a checker, and the Rattle toolchain's rt is not on the PATH"

targets='x86_64 aarch64'
room=out/release
mkdir -p $room
for target in $targets; do
    release/musl.sh "$target" > /dev/null
done
fact() {
    sed -n "s/^$1: //p" release/RELEASE
}
# machine TARGET: where it runs. Linux has the calls since 3.2, and 64-bit Arm since 3.7
machine() {
    case $1 in
    x86_64) echo 'any x86-64 processor, Linux from 3.2 on' ;;
    aarch64) echo 'any 64-bit Arm processor, Linux from 3.7 on' ;;
    esac
}
sum() {
    cat "$@" | sha256sum | cut -d ' ' -f 1
}
parts() {
    sum release/*.c
}
# beside: what the library's compiler is given for each target, in one line
beside() {
    for target in $targets; do
        echo "$target $(tools/kit.py beside "$target")"
    done | paste -sd ';'
}
for tool in objdump aarch64-linux-gnu-objdump; do
    command -v $tool > /dev/null || fail "$tool is not here, by which release/go_code.py reads the library's code: apt-get install binutils binutils-aarch64-linux-gnu"
done

# what release/prove.py is asked for
words=(--objects "$room")
library_sources=$(release/sources.sh ymx_c)
if [ "${1-}" != '' ] && [ "$(fact library-sources)" = "$library_sources" ] && [ "$(fact kit)" = "$(rt version)" ] &&
    [ "$(fact parts)" = "$(parts)" ] && [ "$(fact library-words)" = "$(beside)" ]; then
    for target in $targets; do
        gunzip -c "release/$target/libymx_c.a.gz" > "$room/$target.a"
    done
else
    words+=(--libraries "$room")
fi
[ "${1-}" != '' ] || words+=(--seconds release/seconds)
release/prove.py ${1+"$1"} "${words[@]}"
for target in $targets; do
    release/link.sh "$target" "$room/$target.o" "$room/$target"
    [ "${words[2]-}" != --libraries ] || release/link.sh --library "$target" "$room/$target.c.o" "$room/$target.a"
    mkdir -p "release/$target"
    gzip -9nc "$room/$target" > "release/$target/ymx.gz"
    gzip -9nc "$room/$target.a" > "release/$target/libymx_c.a.gz"
done

{
    cat << TEXT
The program ymx and the proved part of the library for C, packed as ymx.gz and libymx_c.a.gz in a folder for each target,
which has the name that \`uname -m\` gives such a machine. Each is made of

- the repository's sources, proved and compiled by the kit that is named below, with what they call of its library:
  LICENSE. The compiled code is the object;
- parts.c, with musl.c and signals.c in it, compiled by the kit's clang: LICENSE;
- in the programs what they call of musl, a C library, from Debian's package musl-dev: LICENSE.musl.

\`release/make.sh\` makes all of it from nothing. \`./ymx --prove\` proves and compiles the program anew, and compares the
bytes, as \`c/build.sh --prove\` does with the library. The gate does so with the program for each target. The linked program
has the same bytes where the files of musl have the sum that is named here; that of the object doesn't depend on it.

sources: $(release/sources.sh)
commit: $(git log -1 --format=%h -- crates crates.txt HANDLES)
kit: $(rt version)
parts: $(parts)
library-sources: $library_sources
library-words: $(beside)
TEXT
    for target in $targets; do
        cat << TEXT
machine $target: $(machine "$target")
musl $target: $(release/musl.sh --version "$target")
musl-sum $target: $(release/musl.sh --sum "$target")
object $target: $(sum "$room/$target.o")
program $target: $(sum "$room/$target")
library $target: $(sum "$room/$target.a")
TEXT
    done
} > release/RELEASE.new
mv release/RELEASE.new release/RELEASE
cat release/RELEASE
release/go_code.py
du -cb release/*/*.gz | tail -n 1
