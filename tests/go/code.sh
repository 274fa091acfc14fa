#!/bin/sh
# The machine code of the Go package is that of the release: release/go_code.py writes it again, and each file has to be the one of
# bindings/go, byte for byte. Then it has to refuse code that Go can't run: which uses a register of Go's or of a system's, has memory
# below the stack pointer, calls by a pointer, changes the stack pointer in a way that isn't counted, calls itself, writes to data of
# its own, or depends on where it lies. Needs `rt`, binutils and those for arm64.
set -eu
here=$(cd "$(dirname "$0")" && pwd)
. "$here/../over.sh"
cd "$scratch"
command -v aarch64-linux-gnu-objdump > /dev/null || [ "${YMX_FROM_GATE-}" != yes ] ||
    apt-get -o DPkg::Lock::Timeout=600 install -y --no-install-recommends binutils binutils-aarch64-linux-gnu > log 2>&1 || fail 'no binutils for arm64' log
mkdir made
"$root/release/go_code.py" made > said 2>&1 || fail 'the code of the Go package is not made of the release' said
cat said
for file in made/*; do
    if cmp "$file" "$root/bindings/go/${file#made/}" > said 2>&1; then good; else bad "bindings/go/${file#made/} is not what release/go_code.py makes" said; fi
done
for file in "$root"/bindings/go/*.s; do
    [ -f "made/${file##*/}" ] || bad "bindings/go has ${file##*/}, which nobody makes"
done
if python3 "$here/code.py" > said 2>&1; then good; else bad 'what release/go_code.py refuses' said; fi
tail -n 1 said
counted
