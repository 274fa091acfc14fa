#!/bin/sh
# Plays scripts by the program, as ./ymx builds it, and compares what they print: each NAME.script here and in
# examples/ with NAME.out beside it, and those that are written below. The status is 1 where the last line
# printed is that of a mistake, and else 0.
set -eu
here=$(cd "$(dirname "$0")" && pwd)
. "$here/../over.sh"
find_program
alone
cd "$scratch"

# plays NAME SCRIPT WANTED: the script prints what is wanted, with its status, and on standard error why it ends at a line
plays() {
    wanted=0
    : > why
    last=$(tail -n 1 "$3")
    case $last in
    'error line '*)
        wanted=1
        echo "ymx: line ${last#error line }: no step, a number out of range, or a setting after a step: see \`ymx script --help\`" > why
        ;;
    esac
    status=0
    "$ymx" script < "$2" > out 2> err || status=$?
    if [ "$status" = "$wanted" ] && cmp -s out "$3" && cmp -s err why; then
        good
    else
        diff "$3" out | head -n 20 > differs
        bad "$1: status $status, and not $wanted, or another text:" differs err
    fi
}

# prints NAME TEXT: the file script prints this text
prints() {
    printf "$2" > wanted
    plays "$1" script wanted
}

for script in "$here"/*.script "$root"/examples/*.script; do
    plays "$script" "$script" "${script%.script}.out"
done

: > script
prints 'an empty input' ''

# ---- pipes cut at every byte: the open, `hello` and the end are 12, 17 and 12 bytes

# reads_of COUNT: what two reads give of a stream of which so many of the 41 bytes have come
reads_of() {
    hello=68656c6c6f
    if [ "$1" -gt 24 ]; then
        bytes=$(($1 - 24))
        [ "$bytes" -le 5 ] || bytes=5
        echo "bytes $bytes $(printf %s $hello | cut -c 1-$((2 * bytes)))"
    fi
    if [ "$1" = 41 ]; then
        echo end
    else
        echo 'refused 4 Lost'
    fi
}

# cut_of_the_client COUNT: A's 41 bytes are cut after so many
cut_of_the_client() {
    printf 'A open\nA write 1 68656c6c6f\nA finish 1\nemit A 100\ndeliver AB %s\nstop AB\nend AB\nB accept\n' "$1" > script
    printf 'opened 1\ntook 5\nok\nemitted 41\nfed %s\nok\nok\n' "$1" > wanted
    if [ "$1" -lt 12 ]; then
        echo 'refused 4 Lost' >> wanted
    else
        echo 'accepted 1' >> wanted
        reads_of "$1" >> wanted
        reads_of "$1" | while read -r _; do echo 'B read 1 10'; done >> script
    fi
    plays "A's bytes, cut after $1" script wanted
}

# cut_of_the_server COUNT: the same, of B's 41 bytes of an echo
cut_of_the_server() {
    {
        printf 'A open\nA write 1 68656c6c6f\nA finish 1\nemit A 100\ndeliver AB 100\nB accept\nB read 1 10\nB write 1 68656c6c6f\nB finish 1\n'
        printf 'emit B 100\ndeliver BA %s\nstop BA\nend BA\n' "$1"
        reads_of "$1" | while read -r _; do echo 'A read 1 10'; done
    } > script
    {
        printf 'opened 1\ntook 5\nok\nemitted 41\nfed 41\naccepted 1\nbytes 5 68656c6c6f\ntook 5\nok\nemitted 41\nfed %s\nok\nok\n' "$1"
        reads_of "$1"
    } > wanted
    plays "B's bytes, cut after $1" script wanted
}

count=0
while [ $count -le 41 ]; do
    cut_of_the_client $count
    cut_of_the_server $count
    count=$((count + 1))
done

# ---- lines that are none of the language

# mistake LINE: the fourth line, after a comment, an empty line and an open, is a mistake
mistake() {
    printf "# one\n\nA open\n$1\nA open\n" > script
    prints "the line '$1'" 'opened 1\nerror line 4\n'
}

for line in A C 'C open' 'a open' 'A opn' 'A open 1' 'A  open' ' A open' 'A open ' 'A\topen' 'A open\r' ' ' \
    'quiet now' Quiet quie 'open A' 'due AB' 'due' 'show A' 'stop A' 'end B' 'deliver A 1' 'deliver AB' 'emit AB 1' 'emit A' \
    'A write 1 6' 'A write 1 6g' 'A write 1 --' 'A write 1' 'A write 1 ' 'A write 1 68 69' 'A write x 68' 'A write  68' \
    'A openwith' 'A openwith 6' 'A openwith 68 69' 'A ponged' 'A ponged x' 'A forget' 'A reset 1 1' 'A accept 1' \
    'A fill 1 1000001' 'A read 1 1000001' 'A skip 1 1000001' 'emit A 1000001' \
    'A finish 4294967296' 'A finish 9999999999' 'A finish 00000000001' 'A finish -1' 'A finish +1' 'A finish 1x' 'A finish 0x1' \
    'deliver AB 4294967296' 'first A 1' 'first A 0' 'window A 262144'; do
    mistake "$line"
done

# bad_setting LINE: the first line is a mistake
bad_setting() {
    echo "$1" > script
    prints "the setting '$1'" 'error line 1\n'
}

for line in 'first A 2' 'first B 1' 'first A 4294967294' 'first B 4294967295' 'first C 1' 'first A' 'first A x' 'first A 4294967297' \
    'window A 262143' 'window B 0' 'window A 16777217' 'window AB 262144'; do
    bad_setting "$line"
done

# numbers as large as they may be
printf 'window A 16777216\nfirst A 4294967295\nfirst B 4294967292\nA open\nB open\nB open\nA finish 4294967295\nA reset 0000000001\ndeliver BA 4294967295\nemit A 1000000\n' > script
prints 'the largest numbers' 'refused 9 Exhausted\nopened 4294967292\nrefused 9 Exhausted\nrefused 1 NoStream\nrefused 1 NoStream\nfed 0\nemitted 0\n'
printf 'A open\nA fill 1 1000000\nA read 1 1000000\nA skip 1 1000000\nA fill 1 0\n' > script
prints 'the largest counts' 'opened 1\ntook 262144\nwait\nwait\ntook 0\n'
printf 'A open\nA write 1 aFFa\nemit A 28\nshow AB\ndeliver AB 100\nB accept\nB read 1 9\n' > script
prints 'digits of either case' \
    'opened 1\ntook 2\nemitted 26\npipe 26 000100010000000100000000000000000000000100000002affa\nfed 26\naccepted 1\nbytes 2 affa\n'

# ---- long lines: 65,536 bytes are a line, and one more is a mistake
digits() {
    head -c "$1" /dev/zero | tr '\0' 6
}

printf 'A open\n# %s\nA write 1 %s\nquiet\n' "$(digits 65534)" "$(digits 65526)" > script
prints 'the longest lines' 'opened 1\ntook 32763\nquiet no\n'
printf 'A open\n#%s\nA open\n' "$(digits 65536)" > script
prints 'a comment that is too long' 'opened 1\nerror line 2\n'
printf 'A open\nA openwith %s\nA open\n' "$(digits 65526)" > script
prints 'a line that is too long' 'opened 1\nerror line 2\n'
printf 'A open\n#%s' "$(digits 65536)" > script
prints 'a last line that is too long' 'opened 1\nerror line 2\n'
printf 'A open\n#%s' "$(digits 65535)" > script
prints 'a last line of the longest length' 'opened 1\n'

# ---- a row of 1,024 answers: B refuses each stream, and sends nothing. The reset after the last of these opens
# isn't taken any more. When B sends, its Go Away goes first, and then each answer gives room for another.
awk 'BEGIN { print "B away"; for (n = 0; n < 1024; n++) printf "A open\nA forget %d\nemit A 24\ndeliver AB 24\n", 2 * n + 1
    print "A open\nA forget 2049\nemit A 24\ndeliver AB 24"
    for (n = 0; n < 3; n++) print "emit B 12\ndeliver AB 24" }' > script
awk 'BEGIN { print "ok"; for (n = 0; n < 1024; n++) printf "opened %d\nok\nemitted 24\n%s\n", 2 * n + 1, n < 1023 ? "fed 24" : "held 12"
    print "opened 2049\nok\nemitted 24\nheld 0\nemitted 12\nheld 0\nemitted 12\nfed 24\nemitted 12\nfed 12" }' > wanted
plays 'a full row of answers' script wanted

counted
