#!/bin/sh
# release/install.sh: what is put where, with which modes, is the same under umask 022 and 077; the program that was
# installed runs; SIGTERM ends it by the signal, which systemd takes for a clean end; `--uninstall` leaves no file and no
# folder, and takes nothing that isn't the program's; systemd finds no fault with the units; fish finds its completions below /usr/local too. And the man pages and the
# completions have the options of that program, and ymx-local's sample has its words.
set -eu
here=$(cd "$(dirname "$0")" && pwd)
. "$here/../over.sh"
cd "$scratch"
unset DESTDIR PREFIX

# what_lies FOLDER: each folder and file in it, with its mode
what_lies() {
    (cd "$1" && find . -mindepth 1 -printf '%M %P\n' | LC_ALL=C sort -k 2)
}

cat > wanted << 'END_OF_LIST'
drwxr-xr-x opt
drwxr-xr-x opt/bin
-rwxr-xr-x opt/bin/ymx
drwxr-xr-x opt/lib
drwxr-xr-x opt/lib/systemd
drwxr-xr-x opt/lib/systemd/system
-rw-r--r-- opt/lib/systemd/system/ymx-local@.service
-rw-r--r-- opt/lib/systemd/system/ymx-remote@.service
drwxr-xr-x opt/share
drwxr-xr-x opt/share/bash-completion
drwxr-xr-x opt/share/bash-completion/completions
-rw-r--r-- opt/share/bash-completion/completions/ymx
drwxr-xr-x opt/share/doc
drwxr-xr-x opt/share/doc/ymx
-rw-r--r-- opt/share/doc/ymx/LICENSE
-rw-r--r-- opt/share/doc/ymx/LICENSE.musl
drwxr-xr-x opt/share/fish
drwxr-xr-x opt/share/fish/vendor_completions.d
-rw-r--r-- opt/share/fish/vendor_completions.d/ymx.fish
drwxr-xr-x opt/share/man
drwxr-xr-x opt/share/man/man1
-rw-r--r-- opt/share/man/man1/ymx-local.1
-rw-r--r-- opt/share/man/man1/ymx-remote.1
-rw-r--r-- opt/share/man/man1/ymx.1
drwxr-xr-x opt/share/zsh
drwxr-xr-x opt/share/zsh/site-functions
-rw-r--r-- opt/share/zsh/site-functions/_ymx
END_OF_LIST
for mask in 022 077; do
    mkdir "place$mask"
    (umask $mask && DESTDIR=place$mask "$root/release/install.sh" /opt) > said 2>&1 || fail "it is not installed under umask $mask:" said
    what_lies "place$mask" > found
    if diff wanted found > differs; then
        good
    else
        bad "under umask $mask other things are put:" differs
    fi
done

# without DESTDIR, into a folder with a blank, of which the services speak
"$root/release/install.sh" "in stalled" > said 2>&1 || fail 'it is not installed without DESTDIR:' said
installed="$scratch/in stalled"
for end in local remote; do
    if grep -qxF "ExecStart=\"$installed/bin/ymx\" $end \$OPTIONS" "$installed/lib/systemd/system/ymx-$end@.service"; then
        good
    else
        bad "the service of ymx $end does not start the program that was installed"
    fi
    if grep -qxF "ExecStart=\"/opt/bin/ymx\" $end \$OPTIONS" "place022/opt/lib/systemd/system/ymx-$end@.service"; then
        good
    else
        bad "the service of ymx $end speaks of DESTDIR"
    fi
done

# systemd takes the units, and `man` finds their pages, also where it doesn't look by itself
"$root/release/install.sh" elsewhere > said 2>&1 || fail 'it is not installed elsewhere:' said
if command -v systemd-analyze > /dev/null && command -v man > /dev/null; then
    if systemd-analyze verify elsewhere/lib/systemd/system/*.service > said 2>&1 && [ ! -s said ]; then good; else bad 'systemd finds fault with the units:' said; fi
else
    left_out 'what systemd says of the units' 'no systemd-analyze, or no man' systemd man-db
fi
"$root/release/install.sh" --uninstall elsewhere > said

printf 'connection %s bytes echoed\n' '1: 0' '2: 1' '3: 300000' > echoed
if "$installed/bin/ymx" selftest > got && cmp got echoed; then good; else bad 'the installed program fails its selftest' got; fi

# shape FILE: its lines about connections, whatever their numbers
shape() {
    sed -n '/^ymx: connection /s/[0-9][0-9.]*/N/gp' "$1"
}

# a connection through both ends; nobody listens at the target, so both ways fail there
begin_anywhere remote_says "$installed/bin/ymx" remote -v --bind 127.0.0.1:0 --target 127.0.0.1:1
remote=${jobs##* }
begin_anywhere local_says "$installed/bin/ymx" local -v --listen 127.0.0.1:0 --peer "$address"
python3 -c 'import socket, sys; host, port = sys.argv[1].split(":"); socket.create_connection((host, int(port))).recv(1)' "$address" 2> /dev/null || true
in_time grep -q '^ymx: connection' local_says || bad 'local tells no connection' local_says
shape local_says | sed 's/([^)]*)/(WHY)/g' > wanted
shape "$installed/share/man/man1/ymx-local.1" | sed 's/([^)]*)/(WHY)/g' > found
if cmp -s wanted found; then good; else bad "the sample of ymx-local.1 isn't what the program says:" found wanted; fi
kill -TERM "$remote"
status=0
wait "$remote" 2> /dev/null || status=$?
stop
if [ $status = 143 ]; then good; else bad "SIGTERM ends the program with status $status" remote_says; fi

# below /usr/local; what fish finds in that folder, where it stands
DESTDIR=$scratch/local "$root/release/install.sh" > said 2>&1 || fail 'it is not installed below /usr/local:' said
completions=local/etc/fish/completions
if cmp -s "$root/release/share/ymx.fish" "$completions/ymx.fish" && [ -x local/usr/local/bin/ymx ] && [ -d local/etc/ymx ]; then good; else bad 'there is nothing for fish in /etc, or no folder for options'; fi
if command -v fish > /dev/null; then
    # shellcheck disable=SC2016
    if HOME=$scratch fish -c 'contains /etc/fish/completions $fish_complete_path'; then good; else bad 'fish does not look into /etc/fish/completions'; fi
    PATH=$scratch/local/usr/local/bin:$PATH HOME=$scratch fish -c "set fish_complete_path $completions; complete -C 'ymx fr'" > found
    if grep -q '^frames' found; then good; else bad 'fish completes nothing:' found; fi
fi
DESTDIR=$scratch/local "$root/release/install.sh" --uninstall > said
find local -mindepth 1 | LC_ALL=C sort > left
if printf 'local/%s\n' etc usr usr/local usr/local/bin usr/local/lib usr/local/share usr/local/share/man | diff - left > differs; then good; else bad 'something is left below /usr/local or /etc:' differs; fi

if python3 "$here/options.py" "$installed/bin/ymx" > said 2>&1; then
    good
else
    bad 'the man pages and the completions have other options than the program:' said
fi

# the library's header, and so the licence, stay
mkdir -p place022/opt/include
: > place022/opt/include/ymx.h
DESTDIR=$scratch/place022 "$root/release/install.sh" --uninstall /opt > said
find place022 ! -type d | LC_ALL=C sort > left
if printf 'place022/opt/%s\n' include/ymx.h share/doc/ymx/LICENSE | diff - left > differs; then good; else bad "what is the library's goes too:" differs; fi
DESTDIR=place077 "$root/release/install.sh" --uninstall /opt > said
"$root/release/install.sh" --uninstall "in stalled" > said
if [ -z "$(find place077 -mindepth 1)" ] && [ ! -e "$installed" ]; then good; else bad 'something is left' said; fi
counted
