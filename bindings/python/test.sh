#!/bin/sh
# The tests of the binding for Python, with each python3 that stands here: that of the PATH, and the system's own, which
# is another one where pyenv or the like is used; over uvloop too where one of them has it. YMX_LIBRARY names the library.
# mypy looks at the types where one of them has it. asyncio's own tests of streams, TLS and servers run over streams, with the
# first that has them.
set -eu
here=$(cd "$(dirname "$0")" && pwd)
cd "$here"
export PYTHONPATH="$here/src" PYTHONDONTWRITEBYTECODE=1
tried=
checked=no
over_uvloop=no
with_aiohttp=no
suites=
for python in python3 /usr/bin/python3; do
    where=$("$python" -c 'import sys; print(sys.base_prefix, sys.version.split()[0])' 2> /dev/null) || continue
    [ "$where" != "$tried" ] || continue
    tried=$where
    echo "$where:"
    timeout 300 "$python" -W ignore -m unittest discover -s tests
    if "$python" -c 'import uvloop' 2> /dev/null; then
        echo 'the same over uvloop:'
        YMX_LOOP=uvloop timeout 300 "$python" -W ignore -m unittest discover -s tests
        over_uvloop=yes
    fi
    if "$python" -c 'import aiohttp' 2> /dev/null; then with_aiohttp=yes; fi
    if [ -z "$suites" ] && "$python" -c 'import sys, test.test_asyncio.utils; assert sys.version_info >= (3, 11)' 2> /dev/null; then
        suites=$python
        echo "asyncio's own tests:"
        timeout 300 "$python" -W ignore tests/asyncio_suites.py
    fi
    if "$python" -c 'import mypy' 2> /dev/null; then
        "$python" -m mypy --strict --cache-dir=/dev/null src/ymx
        checked=yes
    fi
done
[ -n "$tried" ] || exit 1
[ $checked = yes ] || echo '--    the types: left out: no mypy (apt-get install mypy)'
[ $over_uvloop = yes ] || echo '--    uvloop: left out: no python3 has it (apt-get install python3-uvloop)'
[ $with_aiohttp = yes ] || echo '--    aiohttp: left out: no python3 has it (apt-get install python3-aiohttp)'
version=$(/usr/bin/python3 -c 'import sys; print("%d.%d" % sys.version_info[:2])' 2> /dev/null || echo 3)
[ -n "$suites" ] || echo "--    asyncio's own tests: left out: no python3 has them (apt-get install libpython$version-testsuite)"
