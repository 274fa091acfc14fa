#!/bin/sh
# The running session: hubs, halves and pumps in several threads. The histories of two hubs are audited, and the
# audited steps run by `World`.
set -eu
here=$(cd "$(dirname "$0")" && pwd)
exec "$here/../try_tests.sh" hub
