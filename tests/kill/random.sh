#!/bin/sh
# Makes 10,000 connections through a tunnel, of random sizes and with random ends, and compares what comes:
# random_connections.py says how. It needs Python 3. With a number it makes so many; with a second one it takes that
# seed.
set -eu
here=$(cd "$(dirname "$0")" && pwd)
. "$here/../over.sh"
numbers "$@"
find_program
python3 -B "$here/random_connections.py" "$ymx" "$@"
