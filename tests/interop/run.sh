#!/bin/sh
# Runs `ymx` against HashiCorp's yamux for Go, over TCP on the loopback: Go's client calls `ymx remote`, and
# `ymx local` calls Go's server. 10,000 streams each way of 0 to 1 MiB, up to 64 at once; the bytes are compared at
# both ends. Streams end from either side first, some break in the middle, and Go's side pings all the time. Both
# with windows of 262,144 bytes, and of 1 MiB. Needs Debian's packages golang-go and
# golang-github-hashicorp-yamux-dev. With a number it makes so many streams in place of 10,000.
set -eu
here=$(cd "$(dirname "$0")" && pwd)
. "$here/../over.sh"
numbers "$@"
count=${1-10000}
if ! has_go; then
    left_out "Go's yamux" 'no Go, or not its yamux' golang-go golang-github-hashicorp-yamux-dev
    counted
    exit
fi
find_program
cd "$scratch"
go_program "$here/peer.go" peer

# ended NAME COMMAND..: the last line of what it says, as a test
ended() {
    name=$1
    shift
    if timeout 600 "$@" > calls 2>&1; then
        good
        echo "ok    $name: $(tail -n 1 calls)"
    else
        tail -n 3 calls > said
        bad "$name" said
    fi
    stop
}

any=127.0.0.1:0
for ours in 262144 1048576; do
    for theirs in 262144 1048576; do
        begin_anywhere target ./peer serve-tcp -at $any
        target=$address
        address=127.0.0.1:$(free_ports 1)
        begin ymx_said "$address" "$ymx" remote --bind "$address" --target "$target" --window $ours --workers 64
        ended "Go's client ($theirs) calls ymx remote ($ours)" \
            ./peer call-mux -at "$address" -window $theirs -count "$count" -at-once 64
        begin_anywhere server ./peer serve-mux -at $any -window $theirs
        peer=$address
        address=127.0.0.1:$(free_ports 1)
        begin ymx_said "$address" "$ymx" local --listen "$address" --peer "$peer" --window $ours
        ended "ymx local ($ours) calls Go's server ($theirs)" ./peer call-tcp -at "$address" -count "$count" -at-once 64
    done
done
counted
