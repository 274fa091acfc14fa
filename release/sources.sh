#!/bin/sh
# Prints a hash of all sources that the program ymx is made of, or with ymx_c those of the library for C: the crates below
# it, their lines of crates.txt, and HANDLES. Tests, documents and crates beside it don't count.
# `./ymx` calls it at each start, also where there is no Python, so it reads crates.txt without tools/kit.py.
set -eu
last=${1:-ymx_cli}
cd "$(dirname "$0")/.."
LC_ALL=C
export LC_ALL

# Prints the lines of crates.txt of that crate and of those below it.
lines_of_crates() {
    awk -v last="$last" '
        function visit(name, words, count, i) {
            if (!(name in line) || name in seen) return
            seen[name] = 1
            count = split(uses[name], words, " ")
            for (i = 1; i <= count; i++) visit(words[i])
        }
        { sub(/#.*/, "") }
        /:/ { split($0, half, ":"); split(half[1], head, " "); uses[head[1]] = half[2]; line[head[1]] = $0 }
        END { visit(last); for (name in seen) print line[name] }' crates.txt | sort
}

lines=$(lines_of_crates)
{
    echo "$lines"
    folders=
    for name in $(echo "$lines" | sed 's/[ :].*//'); do
        for part in src specs proofs; do
            [ ! -d "crates/$name/$part" ] || folders="$folders crates/$name/$part"
        done
    done
    # (no name of a crate has a blank)
    # shellcheck disable=SC2086
    find HANDLES $folders -type f | sort | tr '\n' '\0' | xargs -0 sha256sum
} | sha256sum | cut -d ' ' -f 1
