#!/bin/sh
# Tries the program from outside, as ./ymx builds it: its exit status, and what it writes on standard output
# and on standard error. The texts that it must write stand in this folder. A program that hangs is ended after five
# minutes, and fails; on a loaded machine too each of them needs less.
set -eu
here=$(cd "$(dirname "$0")" && pwd)
. "$here/../over.sh"
find_program
find_dynamic
# lacks WHAT: what needs the program linked with this machine's C library; under qemu there is none
lacks() {
    if [ "${YMX_UNDER_QEMU-}" = yes ]; then
        impossible "$1" 'under qemu the program is static'
    else
        left_out "$1" 'the program is static, and no kit is here to link another'
    fi
}
# where there is a /dev/null, which a root of its own lacks
outside=$ymx
alone
cd "$scratch"
: > nothing
printf 'window flags=0001 id=1 len=0\ndata flags=0000 id=1 len=5 68656c6c6f\n' > lines
cp "$root/examples/hello.yamux" hello
head -c 11 hello > rest
# the header of a Data frame of 262,145 bytes
printf '\0\0\0\0\0\0\0\1\0\4\0\1' > long

# expect STATUS OUTPUT ERRORS INPUT WORDS..: the program ends so, on this file as its standard input
expect() {
    status=$1 output=$2 errors=$3 input=$4
    shift 4
    got=0
    timeout 300 "$ymx" "$@" < "$input" > out 2> err || got=$?
    if [ "$got" = "$status" ] && cmp -s out "$output" && cmp -s err "$errors"; then
        good
    else
        bad "ymx $*: status $got, and not $status, or another text:" out err
    fi
}

# says TEXT..: a file with these lines
says() {
    printf '%s\n' "$@" > said
    echo said
}

expect 0 lines nothing hello frames
expect 0 lines nothing hello frames -
expect 0 lines nothing rest frames hello
expect 0 lines nothing rest frames --limit 262144 hello
expect 1 "$(says 'rest 11')" nothing rest frames
echo 'ymx: B1: the version of a frame is not 0; B2: its type is above 3; B5: its payload is longer than --limit' > rules
expect 1 "$(says 'fault B5 at 0')" rules long frames
expect 1 "$(says 'rest 12')" nothing long frames --limit=300000
expect 1 "$(says 'rest 12')" nothing long frames --limit 300000
expect 1 nothing "$(says 'ymx: absent: no such file' "ymx: absent: the file can't be opened")" hello frames absent
expect 1 nothing "$(says 'ymx: .: is a folder' "ymx: .: the file can't be opened")" hello frames .

# the tunnel: three connections through it, and addresses that are none, the first of which is told
printf 'connection %s bytes echoed\n' '1: 0' '2: 1' '3: 300000' > echoed
expect 0 echoed nothing nothing selftest
"${CC-cc}" -O2 -shared -fPIC -o held.so "$here/held_connect.c" -ldl
if [ -z "$dynamic" ]; then
    lacks "whether selftest prints its lines as they come"
elif timeout 300 "$here/as_they_come.py" "$dynamic" "$scratch/held.so" > log 2>&1; then
    good
else
    bad "a line of selftest doesn't come with its connection:" log
fi
# wants OPTION TEXT: what is said where an option was given this text, which is no address
wants() {
    says "ymx: --$1: it wants an IPv4 address and a port, as 127.0.0.1:8080" "ymx: bad address $2"
}

expect 2 nothing "$(wants listen localhost:1)" nothing local --listen localhost:1 --peer x
expect 2 nothing "$(wants peer 127.0.0.1)" nothing local --listen 127.0.0.1:1 --peer 127.0.0.1
expect 2 nothing "$(wants bind 127.0.0.1:65536)" nothing remote --bind 127.0.0.1:65536 --target x
expect 2 nothing "$(wants bind x)" nothing local --listen 127.0.0.1:1 --bind x
expect 2 nothing "$(wants bind x)" nothing local --listen 127.0.0.1:1 --await x
expect 2 nothing "$(wants listen 1)" nothing local --listen 1 --peer x
expect 2 nothing "$(wants target 127.0.0.1:0)" nothing remote --bind 127.0.0.1:1 --target 127.0.0.1:0
expect 2 nothing "$(wants peer x)" nothing remote --target 1 --peer x
expect 2 nothing "$(wants peer '')" nothing remote --call '' --target x

# port_of FILE: the port that a program has said in this file, once it has. What an earlier one said there has to be gone
# before the program begins: in the background the file may be emptied late.
port_of() {
    in_time grep -qs '[0-9]$' "$1"
    sed -n '1s/.*[^0-9]//; 1p' "$1"
}

# holds TEXT COMMAND..: one thing that must hold
holds() {
    text=$1
    shift
    if "$@"; then
        good
    else
        bad "$text" local_out local_err remote_out remote_err
    fi
}

# through PORT..: one connection through both ends, as this client makes it and an echo server answers it
through() {
    python3 "$here/ends.py" ask "$1" > answer || return 1
    both_end && [ "$(cat answer)" = hello ]
}

# told FILE: what it says, but for who its connections and peers are from, and how long connections lasted
told() {
    sed -e 's/^\(ymx: connection [0-9]*\) from 127\.0\.0\.1:[0-9]*: \(.*\), [0-9]*\.[0-9][0-9][0-9] s$/\1: \2/' \
        -e 's/^\(ymx: the peer has gone\) from 127\.0\.0\.1:[0-9]*$/\1/' "$1" > told
    echo told
}

# both_end: both ends end well, and have printed nothing
both_end() {
    wait "$local" && wait "$remote" && cmp -s nothing local_out && cmp -s nothing remote_out
}

python3 "$here/ends.py" echo > echo_port &
target=127.0.0.1:$(port_of echo_port)
timeout 300 "$ymx" remote -v --bind 127.0.0.1:0 --target "$target" > remote_out 2> remote_err &
remote=$!
peer=$(port_of remote_err)
timeout 300 "$ymx" local --verbose --listen 127.0.0.1:0 --peer "127.0.0.1:$peer" --count 1 > local_out 2> local_err &
local=$!
port=$(port_of local_err)
end='ymx: connection 1: 5 bytes to the peer (ended), 5 bytes from the peer (ended)'
holds 'a connection with -v' through "$port"
gone='ymx: the peer has gone'
holds 'what local -v says' cmp -s "$(told local_err)" "$(says "ymx: listening at 127.0.0.1:$port" "$end")"
holds 'what remote -v says' cmp -s "$(told remote_err)" "$(says "ymx: listening at 127.0.0.1:$peer" "$end" "$gone")"

# without -v nothing is logged
rm -f echo_port remote_err local_err
python3 "$here/ends.py" echo > echo_port &
target=127.0.0.1:$(port_of echo_port)
free_ports 2 > ports
{ read -r peer && read -r port; } < ports
timeout 300 "$ymx" remote --bind "127.0.0.1:$peer" --target "$target" > remote_out 2> remote_err &
remote=$!
reach() {
    timeout 300 "$ymx" local --listen "127.0.0.1:$port" --peer "127.0.0.1:$peer" --count 1 > local_out 2> local_err
}
in_time reach &
local=$!
holds 'a connection without -v' through "$port"
holds 'local says nothing' cmp -s local_err nothing
holds 'remote says nothing' cmp -s remote_err nothing

# nobody listens at the target
rm -f remote_err local_err
free_ports 2 > ports
{ read -r peer && read -r nobody; } < ports
timeout 300 "$ymx" remote -v --bind "127.0.0.1:$peer" --target "127.0.0.1:$nobody" > remote_out 2> remote_err &
remote=$!
port_of remote_err > remote_port
timeout 300 "$ymx" local -v --listen 127.0.0.1:0 --peer "127.0.0.1:$peer" --count 1 > local_out 2> local_err &
local=$!
python3 "$here/ends.py" ask "$(port_of local_err)" > answer 2> answer_err || true
holds 'both end well without a target' both_end
end='ymx: connection 1: 0 bytes to the peer (connection failed: refused), 0 bytes from the peer (connection failed: refused)'
refused="ymx: --target 127.0.0.1:$nobody: refused"
holds 'what remote -v says without a target' cmp -s "$(told remote_err)" "$(says "ymx: listening at 127.0.0.1:$peer" "$refused" "$end" "$gone")"
holds 'what local -v says without a target' grep -q '^ymx: connection 1 from 127.0.0.1:[0-9]*: .* bytes to the peer (.*), 0 bytes from the peer (.*), [0-9]*\.[0-9][0-9][0-9] s$' local_err

# from here on each is begun beside the others, as they wait more than they work
holds() {
    at_once "$@"
}

holds 'both ends, frame by frame' python3 "$here/raw.py" "$ymx"
holds 'connections beside others' python3 -B "$here/beside.py" "$ymx"
"${CC-cc}" -O2 -shared -fPIC -o refusing.so "$here/../no_memory/failing_malloc.c" -ldl
[ -n "$dynamic" ] || lacks 'threads that are refused'
# shellcheck disable=SC2086
holds 'one session after another' python3 -B "$here/kept.py" "$ymx" ${dynamic:+"$dynamic" "$scratch/refusing.so"}
holds 'many links to one peer' python3 -B "$here/links.py" "$ymx"
holds 'the side that calls is the one that serves' python3 -B "$here/calling.py" "$ymx"
holds 'a peer that is silent' python3 -B "$here/silence.py" "$ymx"
holds 'a link that is slow' python3 -B "$here/slow_link.py" "$ymx"
holds 'peers from elsewhere, and too many' python3 -B "$here/strangers.py" "$ymx"
holds 'what is cut off' python3 -B "$here/cuts.py" "$ymx"
holds 'closed standard input, output and error' python3 -B "$here/standard.py" "$outside"
holds 'signs of life that the system asks for' python3 -B "$here/keepalive.py" "$ymx"
holds 'a target that answers nobody' python3 -B "$here/unanswered.py" "$ymx"
holds 'the calls of an idle tunnel' python3 -B "$here/idle.py" "$ymx"
holds 'peers that never answer a call' python3 -B "$here/timeouts.py" "$ymx"
holds 'what an end counts, and how it is drained' python3 -B "$here/status.py" "$ymx"
holds 'nobody reads what it says' python3 -B "$here/unread.py" "$outside"
holds 'the time before each line' python3 -B "$here/times.py" "$ymx"
holds 'a thousand users at once' python3 -B "$here/bursts.py" "$ymx" 1000
holds 'users beyond a full link' python3 -B "$here/full.py" "$ymx"
holds 'connections on which no byte moves' python3 -B "$here/still.py" "$ymx"
holds 'a line that says who a user is' python3 -B "$here/proxy.py" "$ymx"
holds 'sessions that are lost, and drains' python3 -B "$here/lost.py" "$ymx"
holds 'an end that has nothing to do' python3 -B "$here/asleep.py" "$ymx"
holds 'how long a user waits at most' python3 -B "$here/bounds.py" "$ymx"
holds 'what hundreds of peers leave' python3 -B "$here/residue.py" "$ymx"
holds 'each row of the tables' python3 -B "$here/tables.py" "$ymx"
holds 'what a lot of bytes costs' python3 -B "$here/cost.py" "$ymx"

expect 0 "$here/help" nothing hello --help
expect 0 "$here/help" nothing hello help
expect 0 "$here/help" nothing hello help --help
expect 0 "$here/help" nothing hello help -h
expect 0 "$here/local_help" nothing hello local --help
expect 0 "$here/remote_help" nothing hello remote --help
expect 0 "$here/remote_help" nothing hello help remote
expect 0 "$here/remote_help" nothing hello help remote --help
expect 0 "$here/frames_help" nothing hello frames --help
expect 0 "$here/script_help" nothing hello script --help
expect 0 "$here/selftest_help" nothing hello selftest --help
expect 0 "$(says 'ymx 0.3.0')" nothing hello --version
expect 0 "$(says 'ymx-remote 0.3.0')" nothing hello remote --version
expect 2 nothing "$here/mistake" hello frames --limit 5
expect 2 nothing "$(says 'error: a word of the command line is not UTF-8')" hello frames "$(printf '\377')"

# refuses BEGINNING WORDS..: status 2, nothing on standard output, and a mistake that begins so
refuses() {
    beginning=$1
    shift
    got=0
    timeout 300 "$ymx" "$@" < hello > out 2> err || got=$?
    if [ "$got" = 2 ] && cmp -s out nothing && head -n 1 err | grep -q "^$beginning"; then
        good
    else
        bad "ymx $*: status $got, and not 2, or another text:" out err
    fi
}

# says_next LINE: what the last mistake says in its second line
says_next() {
    if [ "$(sed -n 2p err)" = "$1" ]; then
        good
    else
        bad "another text, and not '$1':" err
    fi
}

required='error: the following required arguments were not provided:'
refuses "error: 'ymx' requires a subcommand but one was not provided"
refuses "error: unrecognized subcommand 'frame'" frame
refuses "$required" local
says_next '  --listen <ADDRESS>'
refuses "$required" remote --bind 127.0.0.1:0
says_next '  --target <ADDRESS>'
for connects in --peer --call; do
    refuses "$required" remote $connects 127.0.0.1:1
    says_next '  --target <ADDRESS>'
done
# an option that the other end alone has
refuses 'ymx: --peers is an option of `ymx remote`$' local --listen 127.0.0.1:0 --peer 127.0.0.1:1 --peers 2
refuses 'ymx: --links is an option of `ymx local`$' remote --bind 127.0.0.1:0 --links=2 --target 127.0.0.1:1
refuses "error: unexpected argument '--limit' found" local --listen 127.0.0.1:0 --peer 127.0.0.1:1 --limit 262144
# just one way to meet the peer
refuses "$required" local --listen 127.0.0.1:0
says_next '  <--peer <ADDRESS>|--bind <ADDRESS>>'
if grep -q '^Usage: ymx local \[OPTIONS\] --listen <ADDRESS>' err; then good; else bad 'the usage of local, where its options have a mistake' err; fi
refuses "$required" remote --target 127.0.0.1:1
says_next '  <--peer <ADDRESS>|--bind <ADDRESS>>'
both="error: the argument '--peer <ADDRESS>' cannot be used with '--bind <ADDRESS>'"
# `--await` and `--call` are older names of `--bind` and `--peer`
for listens in --bind --await; do
    refuses "$both" local --listen 127.0.0.1:0 --peer 127.0.0.1:1 $listens 127.0.0.1:0
done
for connects in --peer --call; do
    refuses "$both" remote --target 127.0.0.1:1 --bind 127.0.0.1:0 $connects 127.0.0.1:1
done
refuses "error: the argument '--bind <ADDRESS>' cannot be used multiple times" local --listen 127.0.0.1:0 --bind 127.0.0.1:0 --await 127.0.0.1:0
refuses "error: the argument '--peer <ADDRESS>' cannot be used multiple times" remote --target 127.0.0.1:1 --peer 127.0.0.1:1 --call 127.0.0.1:1
refuses "error: the argument '--links <N>' cannot be used with '--bind <ADDRESS>'" local --listen 127.0.0.1:0 --bind 127.0.0.1:0 --links 2
refuses "error: the argument '--peers <N>' cannot be used with '--peer <ADDRESS>'" remote --target 127.0.0.1:1 --peer 127.0.0.1:1 --peers 2
# out_of_range 'OPTION <VALUE>' 'FROM to TO' TEXT WORDS..: the option doesn't take this text for a number
out_of_range() {
    option=${1%% *} argument=$1 range=$2 text=$3
    shift 3
    refuses "error: invalid value '$text' for '--$argument': a number is decimal digits alone, from $range" "$@" "--$option=$text"
}

# a number is decimal digits alone: no sign, no blank, no empty text
for limit in 262143 16777217 x -1 +262144 -262144 ' 262144' '262144 ' 262_144 0x40000 ''; do
    out_of_range 'limit <BYTES>' '262144 to 16777216' "$limit" frames
    out_of_range 'window <BYTES>' '262144 to 16777216' "$limit" local --listen 127.0.0.1:0 --peer 127.0.0.1:1
    out_of_range 'window <BYTES>' '262144 to 16777216' "$limit" remote --bind 127.0.0.1:0 --target 127.0.0.1:1
done
for count in 4294967296 x -1 +5 -0 +0 ' 5' '5 ' + ''; do
    out_of_range 'count <N>' '0 to 4294967295' "$count" local --listen 127.0.0.1:0 --peer 127.0.0.1:1
done
for workers in 0 1025 x +16 -16 ' 16' ''; do
    out_of_range 'workers <N>' '1 to 1024' "$workers" remote --bind 127.0.0.1:0 --target 127.0.0.1:1
done
for seconds in 0 3601 x +5 -5 ' 5' ''; do
    out_of_range 'ping <SECONDS>' '1 to 3600' "$seconds" local --listen 127.0.0.1:0 --peer 127.0.0.1:1
    out_of_range 'ping <SECONDS>' '1 to 3600' "$seconds" remote --bind 127.0.0.1:0 --target 127.0.0.1:1
done
for seconds in 3601 x +5 -5 -0 ' 5' 5s ''; do
    out_of_range 'keepalive <SECONDS>' '0 to 3600' "$seconds" local --listen 127.0.0.1:0 --peer 127.0.0.1:1
    out_of_range 'keepalive <SECONDS>' '0 to 3600' "$seconds" remote --bind 127.0.0.1:0 --target 127.0.0.1:1
done
for seconds in 0 86401 x -5 5s ''; do
    out_of_range 'idle <SECONDS>' '1 to 86400' "$seconds" local --listen 127.0.0.1:0 --peer 127.0.0.1:1
    out_of_range 'idle <SECONDS>' '1 to 86400' "$seconds" remote --bind 127.0.0.1:0 --target 127.0.0.1:1
done
for seconds in 0 3601 x +5 -5 ' 5' 5s ''; do
    out_of_range 'timeout <SECONDS>' '1 to 3600' "$seconds" local --listen 127.0.0.1:0 --peer 127.0.0.1:1
    out_of_range 'timeout <SECONDS>' '1 to 3600' "$seconds" remote --peer 127.0.0.1:1 --target 127.0.0.1:1
done
uncalled="error: the argument '--timeout <SECONDS>' cannot be used with '--bind <ADDRESS>'"
refuses "$uncalled" local --listen 127.0.0.1:0 --bind 127.0.0.1:0 --timeout 5
refuses "$uncalled" remote --target 127.0.0.1:1 --bind 127.0.0.1:0 --timeout 5
for peers in 0 257 x +5 -5 ' 5' ''; do
    out_of_range 'peers <N>' '1 to 256' "$peers" remote --bind 127.0.0.1:0 --target 127.0.0.1:1
done
refuses "error: invalid value '+5' for '--count <N>': a number is decimal digits alone, from 0 to 4294967295" local --listen 127.0.0.1:0 --peer 127.0.0.1:1 --count +5
refuses "error: invalid value '+300000' for '--limit <BYTES>': a number is decimal digits alone, from 262144 to 16777216" frames --limit +300000
refuses "error: invalid value '1M' for '--window <BYTES>': a number is decimal digits alone, from 262144 to 16777216" local --listen 127.0.0.1:0 --peer 127.0.0.1:1 --window 1M
refuses "error: invalid value '5s' for '--ping <SECONDS>': a number is decimal digits alone, from 1 to 3600" remote --bind 127.0.0.1:0 --target 127.0.0.1:1 --ping 5s
refuses "error: invalid value '262143' for '--limit <BYTES>': a number is decimal digits alone, from 262144 to 16777216" frames --limit 262143
refuses "error: unexpected argument '-1' found" frames --limit -1
# networks, and the address of the status
for network in 192.0.2.0/33 192.0.2.0/ /24 192.0.2 192.0.2.0/+4 ::1 localhost ''; do
    refuses "error: invalid value '$network' for '--from <NETWORK>': it wants an IPv4 address, or one with '/' and a number from 0 to 32, as 192.0.2.0/24" \
        remote --bind 127.0.0.1:0 --target 127.0.0.1:1 "--from=$network"
done
refuses "error: the argument '--from <NETWORK>' cannot be used with '--peer <ADDRESS>'" \
    local --listen 127.0.0.1:0 --peer 127.0.0.1:1 --from 10.0.0.0/8
refuses "error: the argument '--from <NETWORK>' can be given 8 times at most" local --listen 127.0.0.1:0 --bind 127.0.0.1:1 \
    --from 1.1.1.1 --from 1.1.1.2 --from 1.1.1.3 --from 1.1.1.4 --from 1.1.1.5 --from 1.1.1.6 --from 1.1.1.7 --from 1.1.1.8 --from 1.1.1.9
refuses "error: invalid value '192.0.2.7:9100' for '--status <ADDRESS>': it wants an address of the loopback, as 127.0.0.1:9100, unless '--status-anywhere' is given" \
    local --listen 127.0.0.1:0 --peer 127.0.0.1:1 --status 192.0.2.7:9100
refuses "error: the argument '--status-anywhere' is only for '--status <ADDRESS>'" \
    remote --bind 127.0.0.1:0 --target 127.0.0.1:1 --status-anywhere
expect 2 nothing "$(wants status 127.0.0.1)" nothing local --listen 127.0.0.1:0 --peer 127.0.0.1:1 --status 127.0.0.1
expect 0 lines nothing hello frames --limit 16777216
expect 1 nothing "$(says 'ymx: --peer 127.0.0.1:1: refused' 'ymx: cannot reach 127.0.0.1:1')" nothing local --listen 127.0.0.1:0 --peer 127.0.0.1:1
expect 1 nothing "$(says 'ymx: --peer 127.0.0.1:1: refused' 'ymx: cannot reach 127.0.0.1:1')" nothing local --listen 127.0.0.1:0 --peer 127.0.0.1:1 --count 4294967295 --window 16777216
expect 1 nothing "$(says 'ymx: --peer 127.0.0.1:1: refused' 'ymx: cannot reach 127.0.0.1:1')" nothing local --listen 127.0.0.1:0 --peer 127.0.0.1:1 --count 005 --window=0262144
# 192.0.2.7 is no address of this machine
expect 1 nothing "$(says 'ymx: --bind 192.0.2.7:1: no address of this machine' 'ymx: cannot listen at 192.0.2.7:1')" nothing remote --bind 192.0.2.7:1 --target 127.0.0.1:1
for workers in 1 1024; do
    expect 1 nothing "$(says 'ymx: --bind 192.0.2.7:1: no address of this machine' 'ymx: cannot listen at 192.0.2.7:1')" nothing remote --bind 192.0.2.7:1 --target 127.0.0.1:1 --workers $workers --window 16777216
done

# a peer whose first header has version 1, and from where it comes
free_ports 2 > ports
port=$(sed -n 1p ports)
from=$(sed -n 2p ports)
python3 - "$port" "$from" << 'END' &
import socket, sys, time
while True:
    try:
        peer = socket.create_connection(("127.0.0.1", int(sys.argv[1])), source_address=("127.0.0.1", int(sys.argv[2])))
        break
    except ConnectionRefusedError:
        time.sleep(0.05)
peer.sendall(b"\x01" + bytes(11))
while peer.recv(4096):
    pass
END
jobs="$jobs $!"
expect 1 nothing "$(says "ymx: B1 from 127.0.0.1:$from: the version of a frame is not 0" 'ymx: session broken: B1')" nothing remote --bind "127.0.0.1:$port" --target 127.0.0.1:1

# scripts: of a file, of standard input, of a file that isn't there, and of one that can't be read
cp "$root/examples/stream.script" "$root/examples/stream.out" .
script=stream.script
answers=stream.out
expect 0 "$answers" nothing nothing script "$script"
expect 0 "$answers" nothing "$script" script
expect 0 "$answers" nothing "$script" script -
expect 0 nothing nothing nothing script
says 'ymx: line 1: no step, a number out of range, or a setting after a step: see `ymx script --help`' > /dev/null
mv said no_step
expect 1 "$(says 'error line 1')" no_step nothing script hello
expect 1 nothing "$(says 'ymx: absent: no such file' "ymx: absent: the file can't be opened")" nothing script absent
expect 1 nothing "$(says 'ymx: .: is a folder' "ymx: .: the file can't be opened")" nothing script .

# on_full SUBCOMMAND INPUT: a full device takes nothing
on_full() {
    got=0
    timeout 300 "$ymx" "$1" < "$2" > /dev/full 2> err || got=$?
    if [ "$got" = 1 ] && cmp -s err "$(says 'ymx: writing failed')"; then
        good
    else
        bad "ymx $1, on a full device: status $got" err
    fi
}

if [ -e /dev/full ]; then
    on_full frames hello
    on_full script "$script"
fi
awaited
counted
