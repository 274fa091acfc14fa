#!/bin/sh
# The release is what is built here. Over the libraries as `rt ci` has proved and built them, the program's crate is proved
# and compiled for each target, as release/make.sh does it. Each object has to be that of the release. It is linked too, where
# musl is the one of the release, and has to be the released program, byte for byte; where musl is another, or can't be had,
# that is left out. An object that is one byte off is refused. Needs `rt`, and what `rt ci` has left. With --once it isn't run
# again where it has passed with all that it depends on (`once` of over.sh), and its object for this machine is still here.
set -eu
here=$(cd "$(dirname "$0")" && pwd)
. "$here/../over.sh"
word=${1-}
# (later tests preload a library into what is linked of that object)
kept=$root/out/gate/ymx_cli/ymx_cli.$(uname -m).o
if ! [ -f "$kept" ] || [ "$(sha256sum < "$kept" | cut -d ' ' -f 1)" != "$(sed -n "s/^object $(uname -m): //p" "$root/release/RELEASE")" ]; then word=; fi
once objects "$word" tests/release/objects.sh tests/over.sh tools
cd "$scratch"
is_whole=yes
"$root/release/prove.py" --gate --objects objects > said 2>&1 || fail 'the program is not compiled for all targets' said
for object in objects/*.o; do
    target=$(basename "$object" .o)
    "$root/release/compare.sh" --object "$target" "$object" > compared 2>&1 || fail "the release for $target" compared
    cat compared
    ! grep -q 'left out' compared || is_whole=no
    printf 'X' | dd of="$object" bs=1 seek=1000 conv=notrunc 2> dd_said
    if "$root/release/compare.sh" --object "$target" "$object" > compared 2>&1; then fail "an object for $target that is one byte off passes"; fi
done
grep -h 'processor time' said
[ $is_whole = no ] || passes_now
