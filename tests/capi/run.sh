#!/bin/sh
# Tries libymx as a C program gets it: ymx.h in C99 and C++11 without a warning, the libraries' names and their versions,
# any flags, the way back from each instruction, each constant against the proved crate's, what ymx.h says in words, NULL
# everywhere, bytes in pieces, touched streams and lent bytes, streams that are released, bytes without copies, each
# allocation refused, how much memory stays in use, every byte over a socketpair under the sanitizers, the manual, what is installed and found by
# pkg-config and CMake, and a copy of the repository that builds it from the release with no toolchain but C's. It ends
# with a line that says the count.
# c/build.sh says what it is built from.
set -eu
here=$(cd "$(dirname "$0")" && pwd)
root=$(cd "$here/../.." && pwd)
scratch=$(mktemp -d)
trap 'rm -rf "$scratch"' EXIT
trap 'exit 130' INT TERM
passed=0
failed=0
CFLAGS='-O2 -Werror' "$root/c/build.sh" "$scratch/built"
library=$scratch/built/lib
cd "$scratch"

# is NAME COMMAND..: a test, which says nothing where it is good
is() {
    name=$1
    shift
    if "$@" > said 2>&1; then
        passed=$((passed + 1))
        echo "ok    $name"
    else
        failed=$((failed + 1))
        echo "FAIL  $name:"
        cat said
    fi
}

strict="-Wall -Wextra -pedantic -Werror -I$scratch/built/include"

# in_c PROGRAM SOURCE WORDS..: compiled as C99, linked with the archive
in_c() {
    program=$1
    source=$2
    shift 2
    # shellcheck disable=SC2086
    cc -std=c99 $strict -o "$program" "$@" "$source" "$library/libymx.a"
}

built_and_run() {
    in_c "$@" && "./$1"
}

in_cpp() {
    # shellcheck disable=SC2086
    c++ -std=c++11 $strict -o header "$here/header.cc" "$library/libymx.a" && ./header
}

only_ours() {
    nm -D --defined-only "$library/libymx.so" | sed -n 's/.* T //p' | sort > versions
    sed 's/@@.*//' versions > shown
    sed -n 's/^YMX_API.*[ *]\(ymx_[a-z_]*\)(.*/\1/p' "$root/c/ymx.h" | sort > declared
    nm -g --defined-only "$library/libymx.a" | sed -n 's/.* T //p' | sort > linked
    diff declared shown && diff declared linked && ! grep -v '@@LIBYMX_[0-9]*\.[0-9]*$' versions
}

# With the flags of a distribution, and with those of clang, where it stands.
any_flags() {
    CPPFLAGS=-DNDEBUG CFLAGS='-O3 -g -flto=auto -fstack-protector-strong' LDFLAGS='-Wl,-z,separate-code -Wl,--build-id=0xabcdef01' \
        "$root/c/build.sh" ./flagged || return 1
    readelf -n flagged/lib/libymx.so | grep -q 'Build ID: abcdef01$' || { echo 'LDFLAGS are not honoured'; return 1; }
    readelf -S flagged/lib/libymx.a | grep -q '\.debug_info' || { echo 'CFLAGS are not honoured'; return 1; }
    cc -o by_flagged -Iflagged/include "$root/examples/c/pair.c" -Lflagged/lib -lymx && LD_LIBRARY_PATH=flagged/lib ./by_flagged || return 1
    readelf -V by_flagged | grep -q LIBYMX_0.2 || { echo 'a program asks for no version'; return 1; }
    ! command -v clang > /dev/null || CC=clang "$root/c/build.sh" ./by_clang
}

only_libc() {
    readelf -d "$library/libymx.so" | sed -n 's/.*(NEEDED).*\[\(.*\)\]/\1/p' > needs
    echo libc.so.6 | diff - needs || return 1
    nm -D --undefined-only "$library/libymx.so" | sed 's/^ *[Uw] //; s/@.*//' | grep -v '^_' | sort > asks
    cat asks
    ! grep -qvE '^(malloc|realloc|free|malloc_trim|memcpy|memmove|memset|memcmp)$' asks || return 1
    # what musl lacks is asked for weakly
    nm -D --undefined-only "$library/libymx.so" | grep -q '^ *w malloc_trim'
}

# A way back to the caller from each function, and from each instruction that calls go through.
unwinds() {
    nm "$library/libymx.a" | grep -ci ' t ' > functions
    readelf --debug-dump=frames "$library/libymx.a" | grep -c FDE | diff functions - || return 1
    # shellcheck disable=SC2086
    cc -std=c99 -O1 -mno-red-zone $strict -o unwind "$here/unwind.c" -L"$library" -lymx && LD_LIBRARY_PATH=$library ./unwind
}

# The numbers of the proved crate, in the names of ymx.h.
numbers_of_crate() {
    sed -n 's/^ *CallFault::\([A-Za-z]*\)[(_)]* => \(-[0-9]*\),/\1 \2/p; s/^ *NewFault::\(Bad[A-Za-z]*\) => \(-[0-9]*\),/\1 \2/p' "$root/crates/ymx_c/src/face.rt" |
        sed 's/OutOfMemory/NoMemory/; s/\([a-z]\)\([A-Z]\)/\1_\2/g' | awk '{ print "YMX_E_" toupper($1), $2 }'
    sed -n 's/^const WAIT: i64 = \(.*\);/YMX_WAIT \1/p; s/^ *Status::\([A-Z][a-z]*\) => \([0-9]*\),/\1 \2/p; s/^ *Status::\(Broken\)(fault) => \([0-9]*\) +.*/\1 \2/p' "$root/crates/ymx_c/src/face.rt" |
        awk '{ print ($1 ~ /^YMX/ ? $1 : "YMX_" toupper($1)), $2 }'
    sed -n 's/^ *Some(FrameKind::\(Reset\|Credit\|Data\|Fin\)) => \([0-9]*\),/\1 \2/p; s/^ *Some(FrameKind::Open .*) => \([0-9]*\),/First \1/p; s/^ *return kind + \([0-9]*\);/Rest \1/p' "$root/crates/ymx_c/src/face.rt" |
        sed 's/Fin/End/' | awk '{ print "YMX_NEXT_" toupper($1), $2 }'
    sed -n 's/^ *if number == \(.*\) {$/YMX_CLIENT \1/p' "$root/crates/ymx_c/src/face.rt"
    sed -n 's/^pub const FIRST_CREDIT: u32 = \(.*\);/YMX_LEAST_WINDOW \1/p; s/^pub const WIDEST_WINDOW: u32 = \(.*\);/YMX_WIDEST_WINDOW \1/p' "$root/crates/ymx_header/src/wire.rt" | tr -d _ |
        sed 's/YMX\(LEAST\|WIDEST\)WINDOW/YMX_\1_WINDOW/'
    sed -n 's/^ *Fault::\([A-Za-z]*\) => \([0-9]\),/\1 \2/p' "$root/crates/ymx_header/src/fault.rt" |
        sed 's/\([a-z]\)\([A-Z]\)/\1_\2/g' | awk '{ print "YMX_FAULT_" toupper($1), $2 }'
    # the table of the faults, in which two may share a line
    sed -n '/^## Faults/,/^## /s/^| \(B[^|]*\) |.*/\1/p' "$root/docs/PROTOCOL.md" | tr -d ' ' | tr ',' '\n' | sed 's/^B\([0-9]\)$/& \1/'
}

same_numbers() {
    in_c constants "$here/constants.c" && ./constants | sort > ours && numbers_of_crate | sort > theirs && diff ours theirs
}

# what ymx.h declares is what the man page shows, word for word, and names as an error
same_manual() {
    sed -n 's/^YMX_API //p' "$root/c/ymx.h" | sort > declared
    sed -n 's/^\.B \(.*(.*);\)$/\1/p' "$root/c/ymx.3" | sort > shown
    diff declared shown || return 1
    sed -n 's/^ *\(YMX_E_[A-Z_]*\) = .*/\1/p' "$root/c/ymx.h" | sort > declared
    sed -n '/^\.TP$/{n;s/^\.B \(YMX_E_[A-Z_]*\)$/\1/p}' "$root/c/ymx.3" | sort > shown
    diff declared shown
}

is "ymx.h and a program in C++11" in_cpp
is "the libraries show what ymx.h declares, and nothing else" only_ours
is "the shared library needs libc alone" only_libc
is "it is built with any flags, and a program asks for its version" any_flags
is "from each instruction there is a way back to the caller" unwinds
is "each constant is the proved crate's" same_numbers
is "texts of refusals and faults, and calls in the document" python3 "$here/texts.py" "$scratch/built/lib/libymx.so.0" "$root/c/ymx.h" "$root/crates/yamux/src/error.rt" "$root/docs/C.md"
is "what ymx.h says in words" built_and_run words "$here/words.c" -O1 -fsanitize=address,undefined -fno-sanitize-recover=all
is "NULL" built_and_run nulls "$here/nulls.c" -fsanitize=address,undefined -fno-sanitize-recover=all
is "bytes one by one and at once" built_and_run pieces "$here/pieces.c" -O1 -fsanitize=address,undefined -fno-sanitize-recover=all
is "touched streams, lent bytes, room and the end" built_and_run touched "$here/touched.c" -O1 -fsanitize=address,undefined -fno-sanitize-recover=all
is "what is asked of streams, and streams that are released" built_and_run streams "$here/streams.c" -O1 -fsanitize=address,undefined -fno-sanitize-recover=all
is "bytes without copies" built_and_run through "$here/through.c" -O1 -fsanitize=address,undefined -fno-sanitize-recover=all
is "each allocation refused" built_and_run refused_memory "$here/refused_memory.c" -Wl,--wrap=malloc,--wrap=realloc,--wrap=free
is "how much memory stays in use" built_and_run memory "$here/memory.c"
is "every byte over a socketpair, with no leak" built_and_run pair "$root/examples/c/pair.c" -O1 -fsanitize=address,undefined -fno-sanitize-recover=all
is "the echo server" in_c echo_server "$root/examples/c/echo_server.c"
is "the manual shows what ymx.h declares" same_manual
is "what is installed, under any umask, and uninstalled" "$here/installed.sh" modes
is "a program of its own, by pkg-config" "$here/installed.sh" pkg_config
if command -v cmake > /dev/null && command -v make > /dev/null; then
    is "a program of its own, by CMake" "$here/installed.sh" cmake
else
    echo "--    a program of its own, by CMake: left out: there is no cmake, or no make (apt-get install cmake make)"
fi
is "a copy with no toolchain builds it from the release" "$here/from_release.sh"
echo "$passed passed, $failed failed"
[ $failed = 0 ]
