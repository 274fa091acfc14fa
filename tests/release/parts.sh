#!/bin/sh
# What the program does by release/parts.c alone, and no contract says: parts.py. Ends with 'N passed, M failed'.
set -eu
here=$(cd "$(dirname "$0")" && pwd)
. "$here/../over.sh"
find_program
python3 -B "$here/parts.py" "$ymx"
