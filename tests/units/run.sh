#!/bin/sh
# units/run.sh [NAME..]: runs the unit tests of the crates, or of these crates: NAME/FILE.rattle stands after
# crates/NAME/src/FILE.rt, in a copy. They run and are not proved: to prove them would prove each of these crates a
# second time.
set -eu
here=$(cd "$(dirname "$0")" && pwd)
cd "$here"
[ $# -gt 0 ] || set -- */
for name in "$@"; do
    set -- "$@" "units/${name%/}"
    shift
done
exec "$here/../try_tests.sh" "$@"
