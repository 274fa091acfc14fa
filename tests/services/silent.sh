#!/bin/sh
# Cuts the line between the two ends of a tunnel without a word, and looks at what each end does, and when: silent.py
# says how. Both ends run with `--keep`, each in a network namespace of its own. It needs root, iproute2 and Python 3,
# and a kernel that lets one make namespaces.
#
#     tests/services/silent.sh [--ping SECONDS] [--watch SECONDS]
#
# Without `--ping` it says what it saw, and a case fails only where the tunnel did not carry anything before the cut.
# With it both ends are told `--ping SECONDS`. Then each has to notice within twice these seconds, and `remote` has to
# take a new peer. It watches for 10 seconds, or as `--watch` says. Ends with 'N passed, M failed'.
set -eu
here=$(cd "$(dirname "$0")" && pwd)
. "$here/../over.sh"
ping=0
watch=10
while [ $# != 0 ]; do
    case $#,$1 in
    1,*)
        echo 'usage: tests/services/silent.sh [--ping SECONDS] [--watch SECONDS]' >&2
        exit 2
        ;;
    *,--ping) ping=$2 ;;
    *,--watch) watch=$2 ;;
    *)
        echo 'usage: tests/services/silent.sh [--ping SECONDS] [--watch SECONDS]' >&2
        exit 2
        ;;
    esac
    shift 2
done
find_program
near=ymx_near_$$
far=ymx_far_$$
trap 'stop; ip netns del $near 2> /dev/null || true; ip netns del $far 2> /dev/null || true; rm -rf "$scratch"' EXIT
if ! { ip netns add $near && ip netns del $near; } > "$scratch/said" 2>&1; then
    impossible 'a line that is cut' "no network namespaces: $(tail -n 1 "$scratch/said")"
    counted
    exit
fi
python3 "$here/silent.py" "$ymx" $near $far "$ping" "$watch"
