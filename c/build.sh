#!/bin/sh
# Builds libymx.a, libymx.so.0, and what pkg-config and CMake read of them, and installs them.
# Usage: c/build.sh [--prove] [FOLDER]           into FOLDER, or c/out: include/ymx.h, lib/libymx.a, lib/libymx.so*,
#                                                lib/pkgconfig/ymx.pc, lib/cmake/ymx/
#        c/build.sh [--prove] install [FOLDER]   builds, in a folder that goes if none is named, and installs
#        c/build.sh uninstall                    takes away what `install` of the same version has put there
# FOLDER has a / in it, so that no mistyped word is taken for one.
# PREFIX says where to: /usr/local, if it is left out. LIBDIR is where the libraries lie, below PREFIX unless it begins
# with a /: lib, if it is left out. With DESTDIR all is put below that folder, to be moved from there to PREFIX. Modes are
# the same under any umask.
# The proved part is that of release/, if it was made from these very sources: this needs no toolchain but C's. It is taken
# for the processor that CC compiles for, x86-64 or arm64. Where a source has changed, the crates of the library that aren't
# proved yet are proved with `rt`. --prove proves all of them from nothing, and compares what it built with the release. Or
# YMX_ARCHIVE names the archive. CC, CPPFLAGS and CFLAGS are for the C part, ymx.c; CC, CFLAGS and LDFLAGS for libymx.so.
set -eu
here=$(cd "$(dirname "$0")" && pwd)
root=$(cd "$here/.." && pwd)

# absolute PATH: the same, from /
absolute() {
    case $1 in
    /*) printf '%s\n' "$1" ;;
    *) printf '%s\n' "$PWD/$1" ;;
    esac
}

prefix=$(absolute "${PREFIX-/usr/local}")
prefix=${prefix%/}
libdir=${LIBDIR-lib}
case $libdir in
/*) ;;
*) libdir=$prefix/$libdir ;;
esac
libdir=${libdir%/}
destdir=${DESTDIR-}
[ -z "$destdir" ] || destdir=$(absolute "$destdir")
destdir=${destdir%/}
compiler=${CC-cc}
# what it compiles for, as `uname -m` names it
# shellcheck disable=SC2086
processor=$($compiler -dumpmachine 2> /dev/null || uname -m)
processor=${processor%%-*}
prove=no
task=build
[ "${1-}" != --prove ] || { prove=yes; shift; }
case ${1-} in
install | uninstall) task=$1 && shift ;;
esac

usage() {
    echo 'usage: c/build.sh [--prove] [install] [FOLDER], or c/build.sh uninstall' >&2
    exit 2
}

case ${1-} in
-*) usage ;;
'' | */*) ;;
*) usage ;;
esac
[ $# -le 1 ] || usage
[ "$task" != uninstall ] || [ "$prove $#" = 'no 0' ] || usage

# The version stands in ymx.h alone.
part() { sed -n "s/^#define YMX_VERSION_$1 //p" "$here/ymx.h"; }
major=$(part MAJOR)
version=$major.$(part MINOR).$(part PATCH)

# The number behind libymx.so is the major version, so 0 in 0.x. A program that was built with one version runs with each
# later one of the same number: calls, their parameters and the values of ymx.h stay, and new ones raise the minor version.
# What takes one away, or gives it another meaning in a program that is already built, raises the major version, and with
# it this number. Version 1.0 has the number 1 in any case.
soname=libymx.so.$major

# ---- where things lie, once installed

files="$prefix/include/ymx.h
$libdir/libymx.a
$libdir/libymx.so.$version
$libdir/$soname
$libdir/libymx.so
$libdir/pkgconfig/ymx.pc
$libdir/cmake/ymx/ymxConfig.cmake
$libdir/cmake/ymx/ymxConfigVersion.cmake
$prefix/share/man/man3/ymx.3"
# A page for each call, which leads to ymx.3: the calls that it shows.
pages=$(sed -n 's/^\.B .*[ *]\(ymx_[a-z_]*\)(.*);$/\1.3/p' "$here/ymx.3")
files="$files
$(printf '%s\n' "$pages" | sed "s|^|$(printf '%s\n' "$prefix" | sed 's/[\\&|]/\\&/g')/share/man/man3/|")"
# of the program and of the library
license=$prefix/share/doc/ymx/LICENSE

# may_write FOLDER: ends the script unless the folder, or the nearest above it that is there, may be written
may_write() {
    place=$1
    until [ -e "$place" ]; do place=$(dirname "$place"); done
    [ -w "$place" ] || { echo "c/build.sh: $place can't be written: be root, or name another place by PREFIX" >&2; exit 1; }
}

[ "$task" = build ] || for folder in "$prefix/include" "$libdir" "$prefix/share/man/man3" "$prefix/share/doc"; do
    may_write "$destdir$folder"
done

if [ "$task" = uninstall ]; then
    printf '%s\n' "$files" | while read -r file; do
        rm -f "$destdir$file"
    done
    # the licence stays as long as the program does
    [ -e "$destdir$prefix/bin/ymx" ] || rm -f "$destdir$license"
    # (a folder that something else is in stays)
    rmdir "$destdir$libdir/cmake/ymx" "$destdir$prefix/share/doc/ymx" 2> /dev/null || true
    echo "libymx $version is no longer below $destdir$prefix"
    exit
fi

# ---- building

scratch=$(mktemp -d)
trap 'rm -rf "$scratch"' EXIT
trap 'exit 130' INT TERM
if [ $# = 1 ]; then
    target=$1
elif [ "$task" = install ]; then
    target=$scratch/target
else
    target=$here/out
fi

# tool NAME: the one that belongs to the compiler
tool() {
    # shellcheck disable=SC2086
    $compiler "-print-prog-name=$1" 2> /dev/null || echo "$1"
}
ar=$(tool ar)
as=$(tool as)
ld=$(tool ld)
nm=$(tool nm)
objcopy=$(tool objcopy)
objdump=$(tool objdump)
for it in "${compiler%% *}" "$ar" "$as" "$ld" "$nm" "$objcopy" "$objdump"; do
    command -v "$it" > /dev/null || { echo "c/build.sh needs $it, a C compiler and GNU binutils" >&2; exit 1; }
done
mkdir -p "$target/include" "$target/lib/pkgconfig" "$target/lib/cmake/ymx"
target=$(cd "$target" && pwd)

# Only proved crates are compiled.
need_rt() {
    if ! command -v rt > /dev/null; then
        echo "$1, and the Rattle toolchain's rt is not on the PATH, so the library can't be proved and built here" >&2
        exit 1
    fi
}

archive=${YMX_ARCHIVE-}
if [ -n "$archive" ]; then
    archive=$(absolute "$archive")
elif [ $prove = yes ]; then
    need_rt 'the proofs are made by a checker'
    "$root/release/prove.py" --target "$processor" --libraries "$scratch"
    "$root/release/link.sh" --library "$processor" "$scratch/$processor.c.o" "$scratch/archive"
    archive=$scratch/archive
    if "$root/release/library.sh" "$scratch/released" "$processor" >&2; then
        cmp "$scratch/released" "$archive" || { echo 'proved, but the released library is another one than was built here' >&2; exit 1; }
        echo 'proved; it is the released library, byte for byte' >&2
    fi
elif "$root/release/library.sh" "$scratch/released" "$processor" > "$scratch/log"; then
    archive=$scratch/released
else
    need_rt "$(cat "$scratch/log")"
    "$root/release/prove.py" --kept --target "$processor" --libraries "$scratch" > "$scratch/log" 2>&1 || { cat "$scratch/log" >&2; exit 1; }
    mv "$scratch/$processor.c.o" "$scratch/ymx_c.o"
fi

# One object of all three parts: what is proved, its heap over malloc and free, and ymx.c. Only ymx.h's names stay visible.
# The release has the heap with it.
cd "$scratch"
[ -z "$archive" ] || "$ar" x "$archive"
# shellcheck disable=SC2086
[ -f heap.pic.o ] || $compiler -O2 -std=c11 -fPIC -fno-lto -fasynchronous-unwind-tables -DHEAP_ALONE -c "$root/release/parts.c" -o heap.pic.o
# (ld -r can't read what -flto makes)
# shellcheck disable=SC2086
$compiler ${CPPFLAGS-} ${CFLAGS--O2} -std=c99 -fPIC -fno-lto -fasynchronous-unwind-tables -Wall -Wextra -pedantic \
    -I"$here" -c "$here/ymx.c" -o ymx.o
# The compiler of the proved part writes no unwind tables. They are made of its code, where that is for x86-64; where they
# can't be made, awk says why, and there are none.
"$nm" -S ymx_c.o > sizes
"$objdump" -dr --no-show-raw-insn ymx_c.o > code
if [ "$processor" != x86_64 ] || ! awk -f "$here/unwind.awk" sizes code > unwind.s; then
    printf '.section .note.GNU-stack,"",%%progbits\n' > unwind.s
fi
# shellcheck disable=SC2016
"$nm" ymx_c.o | sed -n 's/^[0-9a-f]* t /--globalize-symbol=/p' | tr '\n' '\0' |
    xargs -0 sh -c 'objcopy=$1 && shift && "$objcopy" "$@" ymx_c.o' sh "$objcopy"
"$as" -o unwind.o unwind.s
"$ld" -r -o core.o ymx_c.o unwind.o
"$objcopy" --rename-section .unwind=.eh_frame core.o
"$ld" -r -o libymx.o core.o heap.pic.o ymx.o
"$nm" ymx.o | sed -n 's/^[0-9a-f]* T //p' | grep '^ymx_' > names
"$objcopy" --keep-global-symbols=names libymx.o
rm -f "$target/lib/libymx.a"
"$ar" rcs "$target/lib/libymx.a" libymx.o
# shellcheck disable=SC2086
$compiler ${CFLAGS--O2} -fno-lto ${LDFLAGS-} -shared "-Wl,-soname,$soname" "-Wl,--version-script,$here/libymx.map" \
    -Wl,-z,relro,-z,now,-z,noexecstack -Wl,--no-undefined -o "$target/lib/libymx.so.$version" libymx.o
ln -sf "libymx.so.$version" "$target/lib/$soname"
ln -sf "$soname" "$target/lib/libymx.so"
cp "$here/ymx.h" "$target/include/ymx.h"

# within FOLDER PATH: the path from that folder to one in it, or nothing where it lies elsewhere
within() {
    case $2 in
    "$1"/*) printf '%s\n' "${2#"$1"/}" ;;
    esac
}

# literal TEXT: what stands for it in the second half of a sed command
literal() {
    printf '%s\n' "$1" | sed 's/[\\&|]/\\&/g'
}

# fill FILE WORD TEXT ..: prints c/FILE.in with each @WORD@ replaced by its text
fill() {
    template=$here/$1.in
    shift
    edits=$(while [ $# -gt 0 ]; do
        printf 's|@%s@|%s|\n' "$1" "$(literal "$2")"
        shift 2
    done)
    sed "$edits" "$template"
}

# describe FOLDER PREFIX LIBDIR: what pkg-config and CMake read of a library that lies there, into this folder
describe() {
    below=$(within "$2" "$3")
    # shellcheck disable=SC2016
    fill ymx.pc prefix "$2" libdir "${below:+\${prefix\}/}${below:-$3}" version "$version" > "$1/ymx.pc"
    if [ -n "$below" ]; then
        include="\${_ymx_lib}/$(printf '%s\n' "$below" | sed 's|[^/][^/]*|..|g')/include"
    else
        include=$2/include
    fi
    fill ymxConfig.cmake include "$include" version "$version" soname "$soname" > "$1/ymxConfig.cmake"
    fill ymxConfigVersion.cmake version "$version" major "$major" > "$1/ymxConfigVersion.cmake"
}

mkdir built installed
describe built "$target" "$target/lib"
cp built/ymx.pc "$target/lib/pkgconfig/"
cp built/ymxConfig.cmake built/ymxConfigVersion.cmake "$target/lib/cmake/ymx/"
[ "$task" = install ] || { echo "libymx $version in $target"; exit; }

# ---- installing

# put MODE FILE PLACE: this file, to be found at the place
put() {
    mkdir -p "$(dirname "$destdir$3")"
    install -m "$1" "$2" "$destdir$3"
}

# for the folders that are made
umask 022
describe installed "$prefix" "$libdir"
put 644 "$target/include/ymx.h" "$prefix/include/ymx.h"
put 644 "$target/lib/libymx.a" "$libdir/libymx.a"
put 755 "$target/lib/libymx.so.$version" "$libdir/libymx.so.$version"
ln -sf "libymx.so.$version" "$destdir$libdir/$soname"
ln -sf "$soname" "$destdir$libdir/libymx.so"
put 644 installed/ymx.pc "$libdir/pkgconfig/ymx.pc"
put 644 installed/ymxConfig.cmake "$libdir/cmake/ymx/ymxConfig.cmake"
put 644 installed/ymxConfigVersion.cmake "$libdir/cmake/ymx/ymxConfigVersion.cmake"
put 644 "$here/ymx.3" "$prefix/share/man/man3/ymx.3"
echo '.so man3/ymx.3' > page
for page in $pages; do
    put 644 page "$prefix/share/man/man3/$page"
done
put 644 "$root/LICENSE" "$license"
echo "libymx $version installed below $destdir$prefix"
[ -n "$destdir" ] || echo "programs find $soname in $libdir after \`ldconfig\`, if that looks there, or with LD_LIBRARY_PATH=$libdir"
