#!/bin/sh
# Worked examples through two real sessions: what `World` answers, and what its audit finds. They run and are
# not proved, since to prove them takes longer than to prove `ymx_world`; so they stand beside `rt ci`.
# Each row is played again with each allocation refused in turn.
set -eu
here=$(cd "$(dirname "$0")" && pwd)
exec "$here/../try_tests.sh" worlds
