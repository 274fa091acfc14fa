#!/bin/sh
# Installs the program ymx, with its man pages, completions for bash, zsh and fish, and services for systemd.
# Usage: release/install.sh [PREFIX]               PREFIX is /usr/local, if it is left out
#        release/install.sh --uninstall [PREFIX]   takes away what was installed there
# With DESTDIR all is put below that folder, to be moved from there to PREFIX. Modes are the same under any umask. fish
# finds its completions below PREFIX where XDG_DATA_DIRS names PREFIX/share; for /usr/local they lie in /etc too. The
# program is the one that lies beside this script, as in the archives of release/tar.sh, or that of ./ymx: the released one,
# where it was made from these very sources. The services' files of options are the user's: none is made or taken away.
set -eu
here=$(cd "$(dirname "$0")" && pwd)
root=$(cd "$here/.." && pwd)
task=install
[ "${1-}" != --uninstall ] || { task=uninstall; shift; }
case ${1-} in
-*) set -- too many ;;
esac
if [ $# -gt 1 ]; then
    echo 'usage: release/install.sh [--uninstall] [PREFIX]' >&2
    exit 2
fi

# absolute PATH: the same, from /
absolute() {
    case $1 in
    /*) printf '%s\n' "$1" ;;
    *) printf '%s\n' "$PWD/$1" ;;
    esac
}

prefix=$(absolute "${1-/usr/local}")
prefix=${prefix%/}
destdir=${DESTDIR-}
[ -z "$destdir" ] || destdir=$(absolute "$destdir")
destdir=${destdir%/}
place=$destdir$prefix

# Each file: its mode, what it is made from, and where it lies, below PREFIX unless it begins with a /.
files='755 ymx bin/ymx
644 ymx.1 share/man/man1/ymx.1
644 ymx-local.1 share/man/man1/ymx-local.1
644 ymx-remote.1 share/man/man1/ymx-remote.1
644 ymx.bash share/bash-completion/completions/ymx
644 _ymx share/zsh/site-functions/_ymx
644 ymx.fish share/fish/vendor_completions.d/ymx.fish
644 ymx-local@.service lib/systemd/system/ymx-local@.service
644 ymx-remote@.service lib/systemd/system/ymx-remote@.service
644 LICENSE share/doc/ymx/LICENSE
644 LICENSE.musl share/doc/ymx/LICENSE.musl'
# fish looks below /usr, where XDG_DATA_DIRS says, and always in /etc
[ "$prefix" != /usr/local ] || files="$files
644 ymx.fish /etc/fish/completions/ymx.fish"

# place_of FILE: where it is put
place_of() {
    case $1 in
    /*) printf '%s\n' "$destdir$1" ;;
    *) printf '%s\n' "$place/$1" ;;
    esac
}

# may_write PATH: ends the script unless it may be written, or the nearest folder above it that is there
may_write() {
    nearest=$1
    until [ -e "$nearest" ]; do nearest=$(dirname "$nearest"); done
    [ -w "$nearest" ] || { echo "release/install.sh: $nearest can't be written: be root, or name another PREFIX" >&2; exit 1; }
}

# systemd looks below these prefixes alone, for services whose options stand there
options=
case $prefix in
/usr | /usr/local) options=$destdir/etc/ymx ;;
esac
printf '%s\n' "$files" | while read -r _ _ file; do
    may_write "$(dirname "$(place_of "$file")")"
done
[ -z "$options" ] || may_write "$(dirname "$options")"

# sweep FOLDER: it goes where it is empty, and those above it, but none that a system has from its start
sweep() {
    case $1 in
    "$place" | "$place/bin" | "$place/lib" | "$place/share" | "$place/share/man" | "$destdir/etc") ;;
    *) ! rmdir "$1" 2> /dev/null || sweep "$(dirname "$1")" ;;
    esac
}

if [ $task = uninstall ]; then
    printf '%s\n' "$files" | while read -r _ _ file; do
        # the licence stays as long as the library for C does
        if [ "$file" = share/doc/ymx/LICENSE ] && [ -e "$place/include/ymx.h" ]; then continue; fi
        rm -f "$(place_of "$file")"
        sweep "$(dirname "$(place_of "$file")")"
    done
    [ -z "$options" ] || sweep "$options"
    case $prefix in
    '' | /usr | /usr/local) ;;
    *) rmdir "$place/bin" "$place/lib" "$place/share/man" "$place/share" "$place" 2> /dev/null || true ;;
    esac
    echo "ymx is no longer below $place"
    exit
fi

scratch=$(mktemp -d)
trap 'rm -rf "$scratch"' EXIT
trap 'exit 130' INT TERM
if [ -x "$here/ymx" ]; then
    cp "$here/ymx" "$here/LICENSE" "$scratch/"
else
    "$root/ymx" --copy "$scratch/ymx"
    cp "$root/LICENSE" "$scratch/"
fi
cp "$here/LICENSE.musl" "$here/share"/* "$scratch/"
# the services name the program by its place
literal=$(printf '%s\n' "$prefix" | sed 's/[\\&|]/\\&/g')
for end in local remote; do
    # below other folders than these man finds no page by its name, and systemd takes no blank
    case $prefix in
    /usr | /usr/local | *' '*) page="ymx-$end(1)" ;;
    *) page=$literal/share/man/man1/ymx-$end.1 ;;
    esac
    sed "s|@prefix@|$literal|; s|@page@|$page|" "$here/share/ymx-$end@.service.in" > "$scratch/ymx-$end@.service"
done
# for the folders that are made
umask 022
[ -z "$options" ] || mkdir -p "$options"
printf '%s\n' "$files" | while read -r mode source file; do
    to=$(place_of "$file")
    mkdir -p "$(dirname "$to")"
    # (a program that runs is not written to, and busybox may have no `install`)
    rm -f "$to"
    cp "$scratch/$source" "$to"
    chmod "$mode" "$to"
done
# (it may be for another machine)
version=$("$scratch/ymx" --version 2> /dev/null || echo ymx)
echo "$version installed below $place"
