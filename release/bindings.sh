#!/bin/bash
# bindings.sh FOLDER: packs the bindings with the library in them, so that nothing has to be installed:
# FOLDER/ymx-VERSION-*.whl for Python, with libymx.so.0, and FOLDER/rust, crates of which ymx-sys has libymx.a for its feature
# `bundled`, each for x86-64 and arm64 Linux; FOLDER/go, a Go module, and FOLDER/goproxy, in which Go finds the same module by
# GOPROXY=file://FOLDER/goproxy, each for all systems. The same release and the same compilers give the same bytes.
# It needs a C compiler for each: `cc`, and aarch64-linux-gnu-gcc with libc6-dev-arm64-cross. CC_x86_64 and CC_aarch64 name
# others.
set -euo pipefail
here=$(cd "$(dirname "$0")" && pwd)
root=$(cd "$here/.." && pwd)
[[ $# = 1 && $1 != -* ]] || { echo 'usage: release/bindings.sh FOLDER' >&2; exit 2; }
compilers="${CC_x86_64-cc} ${CC_aarch64-aarch64-linux-gnu-gcc}"
for tool in python3 readelf git $compilers; do
    command -v "$tool" > /dev/null || { echo "release/bindings.sh needs $tool" >&2; exit 1; }
done
mkdir -p "$1"
folder=$(cd "$1" && pwd)
scratch=$(mktemp -d)
# all come to the folder at the end, so that one that fails leaves nothing there
to=$scratch/packed
mkdir "$to"
trap 'rm -rf "$scratch"' EXIT
umask 022
SOURCE_DATE_EPOCH=$("$here/when.sh")
export SOURCE_DATE_EPOCH
version=$("$here/version.sh")
for target in x86_64 aarch64; do
    compiler=${compilers%% *}
    compilers=${compilers#* }
    CC=$compiler "$root/c/build.sh" "$scratch/$target" > "$scratch/said" 2>&1 || { cat "$scratch/said" >&2; exit 1; }
    strip=$($compiler -print-prog-name=strip)
    cp "$scratch/$target/lib/libymx.so.$version" "$scratch/$target.so"
    "$strip" --strip-unneeded "$scratch/$target.so"
    # it needs no glibc younger than that of the wheel's tag
    least=$(readelf -W --dyn-syms "$scratch/$target.so" | sed -n 's/.*@GLIBC_\([0-9.]*\) .*/\1/p' | sort -V | tail -n 1)
    [ "$(printf '%s\n2.17\n' "$least" | sort -V | tail -n 1)" = 2.17 ] || { echo "libymx.so for $target needs glibc $least" >&2; exit 1; }
    # musl's loader takes libc.so.6 for itself, and looks at no versions
    python3 "$here/wheel.py" "$root/bindings/python" "$scratch/$target.so" "manylinux_2_17_$target.manylinux2014_$target.musllinux_1_2_$target" "$to"
done

# copy FOLDER NAME: a binding as the repository has it, and nothing that was built
copy() {
    mkdir "$to/$2"
    (cd "$root/bindings/$1" && git ls-files -z . | tar --null -cf - -T -) | tar -xf - -C "$to/$2"
    cp "$root/LICENSE" "$to/$2/"
}

copy go go
"$here/go_module.py" "$to/goproxy"

copy rust rust
for target in x86_64 aarch64; do
    mkdir -p "$to/rust/ymx-sys/bundled/$target"
    cp "$scratch/$target/lib/libymx.a" "$to/rust/ymx-sys/bundled/$target/"
done
cp "$root/c/ymx.h" "$to/rust/ymx-sys/bundled/"
(cd "$to" && find . -type f \( -name '*.whl' -o -name libymx.a -o -name '*.zip' \) | LC_ALL=C sort | xargs sha256sum)
rm -rf "${folder:?}/go" "${folder:?}/goproxy" "${folder:?}/rust"
mv "$to"/* "$folder/"
