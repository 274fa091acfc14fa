#!/bin/sh
# The README's first run in a root that has busybox and a copy of the repository, and nothing else: no glibc, no loader, no
# bash, as in a small container. Left out where there is no superuser, or busybox can't be had.
set -eu
here=$(cd "$(dirname "$0")" && pwd)
. "$here/../over.sh"
unset YMX_FROM_GATE

# shut WHY: nothing can be tried here
shut() {
    left_out 'a root with busybox alone' "$1"
    counted
    exit
}

cd "$scratch"
busybox=/bin/busybox
if ! grep -qa 'static' "$busybox" 2> /dev/null || ldd "$busybox" > said 2>&1; then
    "$root/tools/debian.sh" busybox-static amd64 > said 2>&1 || shut "$(cat said)"
    busybox=$root/out/debian/bin/busybox
fi
mkdir -p bare/bin bare/dev bare/proc bare/tmp
cp "$busybox" bare/bin/busybox
: > bare/dev/null
(cd "$root" && find ymx LICENSE release examples crates crates.txt HANDLES -name out -prune -o -type f -print | tar -cf - -T -) | tar -xf - -C bare
chroot bare /bin/busybox true 2> said || shut "$(cat said)"
chroot bare /bin/busybox --install -s /bin

# in_root COMMAND..: there
in_root() {
    chroot bare /bin/env -i PATH=/bin HOME=/tmp /bin/sh -c 'cd / && exec "$@"' sh "$@"
}

printf 'window flags=0001 id=1 len=0\ndata flags=0000 id=1 len=5 68656c6c6f\n' > wanted
if in_root ./ymx frames examples/hello.yamux > got 2> said && cmp got wanted; then good; else bad 'it shows no frames:' got said; fi
if in_root ./ymx frames < "$root/examples/hello.yamux" > got 2> said && cmp got wanted; then good; else bad 'it shows no frames of its input:' got said; fi
printf 'connection %s bytes echoed\n' '1: 0' '2: 1' '3: 300000' > wanted
if in_root ./ymx selftest > got 2> said && cmp got wanted; then good; else bad 'its selftest:' got said; fi
if in_root release/install.sh /usr > said 2>&1 && in_root /usr/bin/ymx --version > got && [ -s got ]; then good; else bad 'it is not installed:' said; fi
counted
