#!/bin/sh
# Sessions and streams: exchanges, and what becomes of streams and sessions that are dropped.
set -eu
here=$(cd "$(dirname "$0")" && pwd)
exec "$here/../try_tests.sh" yamux
