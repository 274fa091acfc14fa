#!/bin/sh
# Copies between devices and streams: each call of each end fails or is refused in turn. Both servers over TCP.
set -eu
here=$(cd "$(dirname "$0")" && pwd)
exec "$here/../try_tests.sh" tunnel
