#!/bin/sh
# Plays whole exchanges of two sessions, byte for byte.
set -eu
here=$(cd "$(dirname "$0")" && pwd)
exec "$here/../try_tests.sh" session
