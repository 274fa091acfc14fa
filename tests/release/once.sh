#!/bin/sh
# What `once` of over.sh doesn't run again: only a test that has passed with the very same release, sources, kit and tests. Each of
# them is changed here by a byte, in a copy with a test of its own.
set -eu
here=$(cd "$(dirname "$0")" && pwd)
. "$here/../over.sh"

copy_repository release tests/over.sh
cd "$scratch"
cat > tests/tried.sh << 'END'
#!/bin/sh
set -eu
here=$(cd "$(dirname "$0")" && pwd)
. "$here/over.sh"
once tried "${1-}" tests
[ ! -e "$root/is_bad" ] || fail 'it is bad'
passes_now
echo 'it was run'
END
mkdir bin
printf '#!/bin/sh\necho a kit\n' > bin/rt
chmod +x bin/rt tests/tried.sh
PATH=$scratch/bin:$PATH

# says TEXT WHAT: the test, with --once, says this
says() {
    if tests/tried.sh --once > said 2>&1 && grep -q "^$1" said; then good; else bad "$2: it doesn't say '$1'" said; fi
}

# other WHAT FILE: with one byte more in this file it is run
other() {
    cp "$2" kept
    printf ' ' >> "$2"
    says 'it was run' "another $1"
    says 'not run again' "another $1, again"
    cp kept "$2"
    says 'it was run' "the $1 of before"
}

says 'it was run' 'the first time'
says "not run again: it passed on $(date -u +%Y)-" 'the second time'
if [ "$(tests/tried.sh)" = 'it was run' ]; then good; else bad 'it is not run where that is not asked for'; fi
other release release/x86_64/ymx.gz
other 'word of the release' release/RELEASE
other source crates/ymx_header/src/lib.rt
other 'source of the library for C' crates/ymx_c/src/lib.rt
other test tests/tried.sh
printf '#!/bin/sh\necho another kit\n' > bin/rt
says 'it was run' 'another kit'
says 'not run again' 'another kit, again'
: > is_bad
says 'not run again' 'what it does not depend on'
if tests/tried.sh > said 2>&1; then bad 'a bad one passes' said; else good; fi
rm is_bad
says 'it was run' 'one that has failed'
counted
