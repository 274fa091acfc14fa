#!/bin/sh
# Tries wrong bodies: the edits crates/NAME/wrong/*.edit, which the check must refuse as it refuses those of
# must-fail/. `rt ci` doesn't try them. Each is tried on a copy of its crate, over what out/ keeps: half a minute an edit
# or less, where a check from nothing takes minutes. A crate is proved first where out/ keeps nothing of it.
# Usage: tests/wrong_bodies.sh [NAME..]; with no NAME, every crate that has a folder wrong/. As many crates are tried
# side by side as there are processors, or as the variable LANES says.
# Ends with 'N refused, M not'. With --fit it proves nothing, and says which edits no longer fit the sources.
set -eu
exec python3 "$(dirname "$0")/wrong_bodies.py" "$@"
