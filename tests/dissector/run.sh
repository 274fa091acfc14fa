#!/bin/sh
# The dissector of share/wireshark, by tshark: the frames of examples/hello.yamux; those of a tunnel, in each direction as
# `ymx frames` prints them, with the windows that dissector.py counts itself; each fault that it knows; and the same again
# if packets are dissected twice. Left out where there is no tshark.
set -eu
here=$(cd "$(dirname "$0")" && pwd)
. "$here/../over.sh"
if ! command -v tshark > /dev/null || ! command -v text2pcap > /dev/null; then
    left_out 'the dissector' 'no tshark' tshark
    counted
    exit
fi
find_program
cd "$scratch"
lua=$root/share/wireshark/yamux.lua
export PYTHONPATH="$root/tests"

# show FILE WORD..: what tshark shows of yamux in a capture, whose server has port 4000
show() {
    file=$1
    shift
    tshark -X "lua_script:$lua" -d tcp.port==4000,yamux -r "$file" "$@" 2> said
}

# expect NAME: whether `got` is `wanted`
expect() {
    if cmp -s got wanted; then good; else
        diff wanted got | head -n 20 > difference
        bad "$1" difference said
    fi
}

od -Ax -tx1 -v "$root/examples/hello.yamux" > hello.txt
text2pcap -q -T 50000,4000 hello.txt hello.pcap 2> said
show hello.pcap -O yamux | sed -n 's/^yamux, //p; s/^ *Payload: //p' > got
printf '%s\n' 'Window Update (SYN), stream 1, length 0' 'Data, stream 1, length 5' 68656c6c6f > wanted
expect 'examples/hello.yamux is shown otherwise'

if ! python3 -B "$here/dissector.py" "$ymx" > said 2>&1; then fail 'no tunnel was recorded' said; fi
for way in up down; do
    port=$([ $way = up ] && echo dstport || echo srcport)
    show tunnel.pcap -O yamux -Y "tcp.$port == 4000" | sed -n 's/^yamux, //p' > shown
    python3 -B "$here/dissector.py" --lines < shown > got
    "$ymx" frames $way | cut -d ' ' -f 1-4 > wanted
    [ -s wanted ] || fail "nothing went $way"
    expect "the frames that went $way are shown otherwise than by ymx frames"
done
show tunnel.pcap -T fields -e yamux.credit -Y yamux.credit | tr ',' '\n' > got
cp sums wanted
expect 'the windows are others'
show tunnel.pcap -T fields -e frame.number -Y yamux.fault > got
: > wanted
expect 'a tunnel has faults'
show tunnel.pcap -O yamux > wanted
show tunnel.pcap -O yamux -2 > got
expect 'a second pass shows something else'

for fault in B1 B2 B5 B6 B7; do
    show $fault.pcap -O yamux | sed -n 's/^ *\[Expert Info (Error.*): \(B[0-9]\):.*/\1/p' > got
    echo $fault > wanted
    expect "$fault is shown otherwise"
done
counted
