#!/bin/sh
# Tries to compile each program of this folder over the libraries of the repository. The second line of
# a program is what the compiler has to answer: an error, or, of the program that checks this script
# itself, that it ran. The repository is left alone. Where nothing of the libraries is kept, `rt check` first
# reads the sources, and where it finds such an error it ends there. Where proofs of another text of theirs are
# kept, it builds the libraries first. Had it found no error, it would prove them all, and is stopped.
set -eu
here=$(cd "$(dirname "$0")" && pwd)
. "$here/../over.sh"

copy_repository
mkdir -p "$scratch/crates/misuse/src" "$scratch/crates/misuse_of_hubs/src"
{
    echo "misuse: ymx_half ymx_ring ymx_memory"
    echo "misuse_of_hubs: ymx_hub $(below ymx_hub)"
} >> "$scratch/crates.txt"

for program in "$here"/*.rattle; do
    name=$(basename "$program" .rattle)
    want=$(sed -n '2s,^// ,,p' "$program")
    crate=misuse
    ! grep -q '^use ymx_hub::' "$program" || crate=misuse_of_hubs
    cp "$program" "$scratch/crates/$crate/src/main.rt"
    try='timeout 1200 rt check'
    [ "$want" != 'run=ended status=0' ] || try='rt try'
    answer=$(cd "$scratch/crates/$crate" && $try 2>&1 || true)
    if printf '%s\n' "$answer" | grep -qF -- "$want"; then
        good
        echo "ok    $name"
    else
        printf 'wanted: %s\n%s\n' "$want" "$answer" > "$scratch/said"
        bad "$name" "$scratch/said"
    fi
done
counted
