#!/bin/sh
# Prints when the release's sources were committed, in seconds since 1970: the time of all files of its packages. Where that
# can't be told, as in an archive of the repository, it is the time of RELEASE. SOURCE_DATE_EPOCH comes before both.
set -eu
cd "$(dirname "$0")"
if [ -n "${SOURCE_DATE_EPOCH-}" ]; then
    echo "$SOURCE_DATE_EPOCH"
else
    git log -1 --format=%ct "$(sed -n 's/^commit: //p' RELEASE)" 2> /dev/null || stat -c %Y RELEASE
fi
