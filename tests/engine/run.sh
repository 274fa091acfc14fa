#!/bin/sh
# Joins two engines by pipes in memory, whose devices move odd pieces, fail and end.
set -eu
here=$(cd "$(dirname "$0")" && pwd)
exec "$here/../try_tests.sh" engine
