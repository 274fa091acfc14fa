#!/bin/sh
# Breaks connections while bytes go to them, and looks at what the peer is told: break.py says how. Then kills the
# processes round a tunnel in the middle of transfers, and looks at what is left: kill.py says how. It needs Python 3.
# With a number it makes so many kills in place of 100; with a second one it takes that seed.
set -eu
here=$(cd "$(dirname "$0")" && pwd)
. "$here/../over.sh"
numbers "$@"
find_program
status=0
python3 "$here/break.py" "$ymx" || status=1
python3 "$here/kill.py" "$ymx" "$@" || status=1
exit $status
