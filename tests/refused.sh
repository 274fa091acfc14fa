#!/bin/sh
# Tries the wrong statements of tests/refused: those of the headline are proved false, and those of one stream's law are
# refused. Ends with a line for each file. They stand among the proofs of a program of their own, over the library of
# ymx_headline and those below it. These have to stand in crates/*/out as one `rt ci` has left them, or `rt lib` in
# crates/ymx_headline; nothing is written there. Takes half a minute.
set -eu
exec python3 "$(dirname "$0")/refused.py"
