#!/bin/sh
# Runs the tests of HashiCorp's yamux for Go over bindings/go: both sides ours, and ours against theirs on either side;
# and over their own package, to compare. The tests are taken from Debian's package golang-github-hashicorp-yamux-dev,
# into a folder that goes again: nothing of theirs is in this repository. tests/hashicorp has what stands for the private
# names that they use, and what is waited for where a test leaves to chance what comes first. Prints a table of how many tries
# passed, and ends with a count. Their tests wait for 250 ms at most, which a busy machine misses now and then, also with
# their own package: so a test passes where most of its tries do.
# Needs Go and that package. With a number it makes so many tries of each test in place of 3.
set -eu
here=$(cd "$(dirname "$0")" && pwd)
. "$here/over.sh"
numbers "$@"
tries=${1-3}
theirs=/usr/share/gocode/src/github.com/hashicorp/yamux
has_go || fail "Go or its yamux is not here: apt-get install golang-go golang-github-hashicorp-yamux-dev"

export CGO_ENABLED=0
mkdir "$scratch/ours" "$scratch/theirs" "$scratch/tests"
cd "$scratch"
printf 'module scratch\n\ngo 1.19\n' > go.mod
cp "$root"/bindings/go/*.go "$root"/bindings/go/*.s "$here/hashicorp/our_hooks.go" ours/
cp "$theirs"/*.go "$here/hashicorp/their_hooks.go" theirs/
rm -f ours/*_test.go theirs/*_test.go
cp "$theirs/const.go" "$theirs/util.go" "$theirs"/*_test.go "$here/hashicorp/sides.go" tests/
sed -i -f "$here/hashicorp/order.sed" tests/session_test.go
# what it changes may stand in their tests otherwise some day
diff "$theirs/session_test.go" tests/session_test.go > changes || true
[ "$(grep -c '^>' changes)" = 16 ] || fail 'order.sed was written for other tests of HashiCorp than these' changes
go test -c -vet=off -o their_tests ./tests > log 2>&1 || fail "the tests don't compile over the binding" log

# pass TEST SIDES: one try
pass() {
    CLIENT=${2%/*} SERVER=${2#*/} timeout 120 ./their_tests -test.run "^$1\$" -test.timeout 100s > said 2>&1
}

# cell TEST SIDES: how many tries passed, of how many. There are more where most of them failed, 20 at most.
cell() {
    want=$tries
    [ "$1" != TestSendData_VeryLarge ] || want=1
    passes=0
    made=0
    while [ $made -lt "$want" ]; do
        made=$((made + 1))
        if pass "$1" "$2"; then
            passes=$((passes + 1))
        else
            cp said "said.$1.$(echo "$2" | tr / .)"
        fi
        [ $made != "$want" ] || [ $((passes * 2)) -gt $made ] || [ "$want" -ge 20 ] || want=$((want + 1))
    done
    text=$passes/$made
    [ "$2" != theirs/theirs ] || return 0
    if [ $((passes * 2)) -gt $made ]; then
        good
    else
        bad "$1 at $2" "said.$1.$(echo "$2" | tr / .)"
    fi
}

echo "load: $(cut -d ' ' -f 1-3 /proc/loadavg)"
echo "Tries that passed, by client/server"
printf '%-42s %-10s %-12s %-12s %s\n' test ours/ours ours/theirs theirs/ours theirs/theirs
for test in $(sed -n 's/^func \(Test[A-Za-z_]*\).*/\1/p' tests/session_test.go); do
    row=$(printf '%-42s' "$test")
    for sides in ours/ours ours/theirs theirs/ours theirs/theirs; do
        cell "$test" $sides
        row="$row $(printf '%-11s' "$text")"
    done
    echo "$row"
done
echo
echo "Not run, as they call private helpers of their package and no session:"
sed -n 's/^func \(Test[A-Za-z_]*\).*/    \1/p' tests/const_test.go tests/util_test.go
counted
