# What the test scripts share. Each sources it, after a line that says where it stands:
#
#     here=$(cd "$(dirname "$0")" && pwd)
#     . "$here/../over.sh"
#
# It sets `root`, the repository, and makes `scratch`, a folder of the script's own. When the script ends, that folder
# goes, and so do the processes whose numbers stand in `jobs`.
# shellcheck shell=sh disable=SC2034,SC2154
root=$here
until [ -f "$root/crates.txt" ]; do
    root=$(dirname "$root")
done
scratch=$(mktemp -d)
jobs=
passed=0
failed=0
omitted=0

# stop: ends what `jobs` names
stop() {
    # shellcheck disable=SC2086
    [ -z "$jobs" ] || kill $jobs 2> /dev/null || true
    jobs=
}
trap 'stop; rm -rf "$scratch"' EXIT
trap 'exit 130' INT TERM

# numbers WORD..: ends a script of which a word is no number
numbers() {
    for word in "$@"; do
        case $word in
        '' | *[!0-9]*) echo "$0: $word is no number" >&2 && exit 2 ;;
        esac
    done
}

# ---- counting

# good: a test that passed
good() {
    passed=$((passed + 1))
}

# bad TEXT [FILE..]: a test that failed, and what there is to see of it
bad() {
    failed=$((failed + 1))
    echo "FAIL  $1"
    shift
    [ $# = 0 ] || cat "$@"
}

# counted: what its tests have left out, and the last line of a script; and its status: 77 if nothing was tried
counted() {
    if [ -s "$scratch/omitted" ]; then
        cat "$scratch/omitted"
    fi
    if [ "$omitted" = 0 ]; then
        echo "$passed passed, $failed failed"
    else
        echo "$passed passed, $failed failed, $omitted left out"
    fi
    [ "$failed" = 0 ] || return 1
    [ "$passed" != 0 ] || return 77
}

# tried NUMBER NAME COMMAND..: a test, for a shell of its own: keeps what it says, how it ends and what it takes
tried() {
    kept=$scratch/test.$1
    echo "$2" > "$kept.name"
    shift 2
    began=$(date +%s)
    status=0
    "$@" > "$kept.said" 2>&1 < /dev/null || status=$?
    # (in a pipe it would tell of another shell)
    times > "$kept.times"
    echo "$status $(($(date +%s) - began))" > "$kept.ended"
}

# judged NUMBER: counts such a test; one that could try nothing counts as none. What it has left out is listed at the end. In the
# gate, which installs all tools, it fails for that, unless it is the machine that can't.
judged() {
    kept=$scratch/test.$1
    read -r status seconds < "$kept.ended"
    if grep '^--  ' "$kept.said" > "$kept.omitted"; then
        omitted=$((omitted + $(wc -l < "$kept.omitted")))
        cat "$kept.omitted" >> "$scratch/omitted"
        if [ "${YMX_FROM_GATE-}" = yes ] && grep -q ': left out: ' "$kept.omitted"; then
            bad "$(cat "$kept.name"): the gate leaves nothing out" "$kept.omitted"
            return
        fi
    fi
    case $status in
    0)
        good
        spent=$(sed -n 2p "$kept.times" | tr 'ms' '  ' | awk '{ printf "%.0f", 60 * ($1 + $3) + $2 + $4 }')
        echo "ok    $(cat "$kept.name"): $(tail -n 1 "$kept.said") ($seconds seconds, $spent of processor time)"
        ;;
    77) [ -s "$kept.omitted" ] || bad "$(cat "$kept.name") has tried nothing" "$kept.said" ;;
    *) bad "$(cat "$kept.name")" "$kept.said" ;;
    esac
}

begun=0
beside=
processes=

# try NAME COMMAND..: one test
try() {
    begun=$((begun + 1))
    (tried $begun "$@")
    judged $begun
}

# at_once NAME COMMAND..: begins a test beside the others, if AT_ONCE says so; `awaited` waits for all of these, and counts
# them
at_once() {
    if [ "${AT_ONCE-}" != yes ]; then
        try "$@"
        return
    fi
    begun=$((begun + 1))
    tried $begun "$@" &
    beside="$beside $begun"
    processes="$processes $!"
}

awaited() {
    # shellcheck disable=SC2086
    wait $processes
    for number in $beside; do judged "$number"; done
}

# fail TEXT [FILE..]: ends the script here
fail() {
    bad "$@"
    exit 1
}

# ---- tests that are run once

# once NAME WORD PATH..: where the word is `--once`, ends a script that has passed here before, with a line that says so, if all
# is as it was then: the sources of the program and of the library for C, the kit, the release, and these files and folders of
# the repository. Any other run has to call `passes_now` once it has passed; until then nothing says that it has.
once() {
    note=$root/out/passed/$1 word=$2
    shift 2
    now=$(sum_of_all "$@")
    if [ "$word" = --once ] && [ "$(sed -n 1p "$note" 2> /dev/null)" = "$now" ]; then
        echo "not run again: it passed on $(sed -n 2p "$note") with the same sources, kit, release and tests"
        exit
    fi
    rm -f "$note"
}

# passes_now: notes that the script has passed, where that can be kept
passes_now() {
    if mkdir -p "${note%/*}" 2> /dev/null && [ -w "${note%/*}" ]; then
        printf '%s\n' "$now" "$(date -u +%F)" > "$note.$$"
        mv "$note.$$" "$note"
    fi
}

# sum_of_all PATH..: a hash of all that `once` names
sum_of_all() {
    sources=$("$root/release/sources.sh")
    library=$("$root/release/sources.sh" ymx_c)
    kit='no kit'
    if command -v rt > /dev/null; then kit=$(rt version); fi
    files=$(cd "$root" && find release "$@" \( -name out -o -name __pycache__ \) -prune -o -type f -print | LC_ALL=C sort | tr '\n' '\0' | xargs -0 sha256sum)
    printf '%s\n' "$sources" "$library" "$kit" "$files" | sha256sum | cut -d ' ' -f 1
}

# ---- the program and its crates

# find_program: `ymx` is the program, as ./ymx finds or builds it, or the one whose path YMX has
find_program() {
    ymx=${YMX:-$root/out/ymx}
    if [ -z "${YMX-}" ]; then
        "$root/ymx" --version > /dev/null
    fi
}

# find_dynamic: `dynamic` is the program that `ymx` is, linked with this machine's C library, so that a library can be
# preloaded: itself, or what `cc` makes of the object of the release, where that was compiled here. It is empty where there
# is none.
find_dynamic() {
    dynamic=${YMX_DYNAMIC-}
    # (under qemu `ymx` is what starts it, and no build of the program)
    if [ -n "$dynamic" ] || [ "${YMX_UNDER_QEMU-}" = yes ]; then return 0; fi
    # (the place of its loader stands at its beginning)
    if head -c 4096 "$ymx" | LC_ALL=C grep -qa '/ld-linux'; then
        dynamic=$ymx
        return
    fi
    wanted=$(sed -n "s/^object $(uname -m): //p" "$root/release/RELEASE")
    for object in "$root"/out/gate/ymx_cli/ymx_cli."$(uname -m)".o "$root"/out/kept/ymx_cli/ymx_cli."$(uname -m)".o "$root/out/release/$(uname -m).o"; do
        if [ -f "$object" ] && [ "$(sha256sum < "$object" | cut -d ' ' -f 1)" = "$wanted" ] &&
            "${CC-cc}" -O2 -o "$scratch/dynamic" "$object" "$root/release/parts.c" -Wl,--wrap=main; then
            dynamic=$scratch/dynamic
            return
        fi
    done
}

# alone: from here on `ymx` runs in a root of its own, the folder `scratch`, in which nothing of this machine lies but what the
# test puts there. That takes a static program and a superuser; `ymx` stays what it is where either is lacking.
alone() {
    cp "$ymx" "$scratch/ymx_alone"
    mkdir -p "$scratch/alone"
    "${CC-cc}" -O2 "-DROOT=\"$scratch\"" -o "$scratch/alone/ymx" "$root/tests/runs.c"
    if "$scratch/alone/ymx" --version > "$scratch/said" 2>&1; then
        ymx=$scratch/alone/ymx
    else
        impossible 'a root of its own' "$(head -n 1 "$scratch/said")"
    fi
}

# left_out WHAT WHY [PACKAGE..]: a test that isn't made here for lack of a tool, which these packages of Debian's bring
left_out() {
    what=$1 why=$2
    shift 2
    omitted=$((omitted + 1))
    echo "--    $what: left out: $why${1+ (apt-get install $*)}"
}

# impossible WHAT WHY: a test that this machine's kernel, or what holds it in, doesn't let one make, whatever is installed
impossible() {
    omitted=$((omitted + 1))
    echo "--    $1: can't be tried here: $2"
}

# below CRATE: what it uses, as crates.txt has it
below() {
    "$root/tools/kit.py" uses "$1"
}

# copy_repository [NAME..]: the crates, and what else is named, to `scratch`; nothing that was built
copy_repository() {
    (cd "$root" && find crates crates.txt HANDLES "$@" -name out -prune -o -type f -print | tar -cf - -T -) | tar -xf - -C "$scratch"
}

# ---- processes that listen

# free_ports COUNT: as many ports at which nobody listens, no two the same, a line each
free_ports() {
    python3 "$root/tests/ports.py" "$1"
}

# in_time COMMAND..: tries it until it succeeds, for two minutes or longer: a bound that no slow machine comes to
in_time() {
    tries=0
    until "$@"; do
        tries=$((tries + 1))
        [ $tries -lt 1200 ] || return 1
        sleep 0.1
    done
}

# is_listening ADDRESS
is_listening() {
    ss -ltn | grep -q " $1 "
}

# begin SAID ADDRESS COMMAND..: starts it, with what it says in the file SAID, and waits until it listens at the address
begin() {
    said=$1 address=$2
    shift 2
    "$@" > "$said" 2>&1 &
    jobs="$jobs $!"
    in_time is_listening "$address" || fail "$1 does not listen at $address:" "$said"
}

# begin_anywhere SAID COMMAND..: the same where the command chooses, and says `listening at ADDRESS`: sets `address`
begin_anywhere() {
    said=$1
    shift
    # what an earlier one said is gone before it is looked for
    : > "$said"
    "$@" > "$said" 2>&1 &
    jobs="$jobs $!"
    in_time grep -q 'listening at [^ ]*[0-9]$' "$said" || fail "$1 does not say where it listens:" "$said"
    address=$(sed -n 's/^.*listening at //p' "$said" | head -n 1)
}

# ---- Go

# has_go: whether Go and HashiCorp's yamux stand here, as Debian's packages put them
has_go() {
    command -v go > /dev/null && [ -d /usr/share/gocode/src/github.com/hashicorp/yamux ]
}

# go_program SOURCE NAME: builds a program over that yamux
go_program() {
    GO111MODULE=off GOPATH=/usr/share/gocode go build -o "$2" "$1"
}
