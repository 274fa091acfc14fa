#!/bin/sh
# What the release has for arm64, under qemu's emulation of that processor: the README's first run by ./ymx, which finds such
# a machine; the program's selftest, scripts, parts in C, and the program from outside; and the library for C with programs in C, linked
# with musl. What counts threads or memory of the program is left out, as qemu has some of its own. So is what no tool is here
# for: qemu and the libraries are fetched from Debian's packages where they aren't installed, and the programs in C want the
# kit's clang. With --quick only the first run, selftest and scripts. With --once it isn't run again where all of it has passed
# with all that it depends on (`once` of over.sh).
set -eu
here=$(cd "$(dirname "$0")" && pwd)
. "$here/../over.sh"

# shut WHAT WHY: nothing of this can be tried here
shut() {
    left_out "$@"
    counted
    exit
}

if [ "$(uname -m)" != x86_64 ]; then
    impossible 'arm64 under qemu' "this machine is $(uname -m)"
    counted
    exit
fi
[ "$(sed -n 's/^sources: //p' "$root/release/RELEASE")" = "$("$root/release/sources.sh")" ] || shut 'arm64 under qemu' 'the release was made from other sources'
[ "${1-}" = --quick ] || once arm "${1-}" ymx tests bench c examples tools
qemu=$(command -v qemu-aarch64-static || true)
if [ -z "$qemu" ]; then
    "$root/tools/debian.sh" qemu-user-static amd64 > "$scratch/said" 2>&1 || shut 'arm64 under qemu' "$(cat "$scratch/said")"
    qemu=$root/out/debian/usr/bin/qemu-aarch64-static
fi
cd "$scratch"
mkdir arm
gzip -dc "$root/release/aarch64/ymx.gz" > arm/ymx
chmod +x arm/ymx
"${CC-cc}" -O2 "-DUNDER=\"$qemu\"" "-DPROGRAM=\"$scratch/arm/ymx\"" -o ymx "$root/tests/runs.c"

# part NAME COMMAND..: what it counts is counted here
part() {
    name=$1
    shift
    status=0
    "$@" > log 2>&1 || status=$?
    last=$(tail -n 1 log)
    case $last in
    *' passed, '*' failed'*)
        passed=$((passed + ${last%% *}))
        last=${last#* passed, }
        failed=$((failed + ${last%% *}))
        [ $status = 0 ] || cat log
        ;;
    *) bad "$name under qemu: status $status" log ;;
    esac
}

printf 'connection %s bytes echoed\n' '1: 0' '2: 1' '3: 300000' > echoed
if ./ymx selftest > got 2>&1 && cmp got echoed; then good; else bad 'its selftest' got; fi
printf 'window flags=0001 id=1 len=0\ndata flags=0000 id=1 len=5 68656c6c6f\n' > first
if ./ymx frames "$root/examples/hello.yamux" > got 2>&1 && cmp got first; then good; else bad 'it shows no frames' got; fi

# The README's first run, in a copy in which nothing was built. `uname` says what such a machine is, and each program for it
# runs under qemu, as a system does that has qemu for them.
mkdir copy bin
(scratch=$scratch/copy && copy_repository ymx release examples)
printf '#!/bin/sh\n[ "$1" = -m ] && echo aarch64 || echo Linux\n' > bin/uname
chmod +x bin/uname
"${CC-cc}" -O2 -shared -fPIC "-DUNDER=\"$qemu\"" -o exec_arm.so "$here/exec_arm.c" -ldl
# on_arm WORD..: ./ymx of that copy, there
on_arm() {
    env -u YMX_FROM_GATE LD_PRELOAD="$scratch/exec_arm.so" PATH="$scratch/bin:$PATH" copy/ymx "$@" >> got 2>> said
}
cat first first echoed > wanted
: > got
: > said
if on_arm frames copy/examples/hello.yamux && on_arm frames < copy/examples/hello.yamux && on_arm selftest && cmp got wanted && cmp copy/out/ymx arm/ymx; then
    good
else
    bad "the README's first run" got said
fi
part scripts env YMX="$scratch/ymx" YMX_UNDER_QEMU=yes "$root/tests/script/run.sh"
if [ "${1-}" = --quick ]; then
    counted
    exit
fi
part 'its parts in C' env YMX="$scratch/ymx" YMX_UNDER_QEMU=yes "$here/parts.sh"
part 'the program from outside' env YMX="$scratch/ymx" YMX_UNDER_QEMU=yes "$root/tests/program/run.sh"

# ---- the library for C

libgcc=/usr/lib/gcc-cross/aarch64-linux-gnu/12/libgcc.a
[ -f $libgcc ] || libgcc=$root/out/debian$libgcc
if ! command -v rt > said; then
    left_out 'programs in C' 'there is no kit, so no compiler for arm64'
elif ! musl=$("$root/release/musl.sh" aarch64 2> said) || ! { [ -f "$libgcc" ] || "$root/tools/debian.sh" libgcc-12-dev-arm64-cross amd64 2> said; }; then
    left_out 'programs in C' "$(cat said)"
else
    tools=$(dirname "$(rt doc)")/toolchain/bin
    libc=$musl/lib/aarch64-linux-musl
    gzip -dc "$root/release/aarch64/libymx_c.a.gz" > libymx_c.a

    # object SOURCE NAME: compiled as C99, without a warning
    object() {
        "$tools/clang" --target=aarch64-linux-musl -std=c99 -O1 -Wall -Wextra -pedantic -Werror -nostdinc -isystem "$musl/include/aarch64-linux-musl" \
            -I"$root/c" -c "$1" -o "$2.o"
    }

    # in_c NAME SOURCE WORD..: the program is linked with the library, and ends well
    in_c() {
        name=$1 source=$2
        shift 2
        if object "$source" "$name" && "$tools/ld.lld" -static "$@" -o "$name" "$libc/crt1.o" "$libc/crti.o" "$name.o" ymx.o --whole-archive libymx_c.a \
            --no-whole-archive "$libc/libc.a" "$libgcc" "$libc/crtn.o" && "$qemu" "./$name"; then good; else bad "$name in C"; fi > said 2>&1
        grep -v '^ok' said || true
    }

    object "$root/c/ymx.c" ymx
    for name in words nulls pieces touched streams through; do
        in_c $name "$root/tests/capi/$name.c"
    done
    in_c refused_memory "$root/tests/capi/refused_memory.c" --wrap=malloc --wrap=realloc --wrap=free
    in_c pair "$root/examples/c/pair.c"
fi
[ $failed != 0 ] || [ $omitted != 0 ] || passes_now
counted
