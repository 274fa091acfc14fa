#!/bin/sh
# libymx, installed. Usage: tests/capi/installed.sh modes|pkg_config|cmake, for one of these:
# - modes: what is put where, with which modes, is the same under umask 022 and 077, and `uninstall` leaves no file
# - pkg_config: a program in a folder of its own is built and runs, by the ymx.pc of the folder that the library was built
#   in, by that of one that was installed elsewhere (LIBDIR), and by that of one below DESTDIR
# - cmake: the same, by the package for CMake, with the shared library and with the archive
set -eu
here=$(cd "$(dirname "$0")" && pwd)
. "$here/../over.sh"
cd "$scratch"
version=$(sed -n 's/^#define YMX_VERSION_\(MAJOR\|MINOR\|PATCH\) //p' "$root/c/ymx.h" | paste -sd.)
major=${version%%.*}
unset PREFIX LIBDIR DESTDIR

# what_lies FOLDER: each folder, file and link in it, with its mode, and where it leads
what_lies() {
    (cd "$1" && find . -mindepth 1 -printf '%M %P %l\n' | sed 's/ $//; s/^l[rwx-]*/link/' | LC_ALL=C sort -k 2)
}

modes() {
    cat > wanted << END_OF_LIST
drwxr-xr-x usr
drwxr-xr-x usr/include
-rw-r--r-- usr/include/ymx.h
drwxr-xr-x usr/lib
drwxr-xr-x usr/lib/cmake
drwxr-xr-x usr/lib/cmake/ymx
-rw-r--r-- usr/lib/cmake/ymx/ymxConfig.cmake
-rw-r--r-- usr/lib/cmake/ymx/ymxConfigVersion.cmake
-rw-r--r-- usr/lib/libymx.a
link usr/lib/libymx.so libymx.so.$major
link usr/lib/libymx.so.$major libymx.so.$version
-rwxr-xr-x usr/lib/libymx.so.$version
drwxr-xr-x usr/lib/pkgconfig
-rw-r--r-- usr/lib/pkgconfig/ymx.pc
drwxr-xr-x usr/share
drwxr-xr-x usr/share/doc
drwxr-xr-x usr/share/doc/ymx
-rw-r--r-- usr/share/doc/ymx/LICENSE
drwxr-xr-x usr/share/man
drwxr-xr-x usr/share/man/man3
-rw-r--r-- usr/share/man/man3/ymx.3
END_OF_LIST
    sed -n 's|^YMX_API.*[ *]\(ymx_[a-z_]*\)(.*|-rw-r--r-- usr/share/man/man3/\1.3|p' "$root/c/ymx.h" | LC_ALL=C sort >> wanted
    for mask in 022 077; do
        mkdir "place$mask"
        (umask $mask && DESTDIR=place$mask PREFIX=/usr "$root/c/build.sh" install)
        what_lies "place$mask" > found
        diff wanted found || fail "under umask $mask other things are put"
    done
    diff -r place022 place077 || fail 'under another umask other files are put'
    if command -v man > /dev/null && man --version 2> /dev/null | grep -q man; then
        for page in ymx ymx_open ymx_touched_is_all; do
            MANPAGER='cat' man -M place022/usr/share/man 3 $page > shown || fail "there is no page of $page"
            grep -q 'ymx_open(ymx_session' shown || fail "the page of $page does not lead to that of ymx"
        done
    fi

    # a library of one's own beside it, and the program's licence, stay
    mkdir place022/usr/bin
    : > place022/usr/bin/ymx
    DESTDIR=$scratch/place022 PREFIX=/usr "$root/c/build.sh" uninstall
    find place022 ! -type d | LC_ALL=C sort > left
    printf 'place022/usr/%s\n' bin/ymx share/doc/ymx/LICENSE | diff - left || fail "uninstall takes what is the program's"
    DESTDIR=$scratch/place077 PREFIX=/usr "$root/c/build.sh" uninstall
    [ -z "$(find place077 ! -type d -o -name ymx)" ] || fail 'uninstall leaves something'
}

# in three places: where it was built, installed, and installed below DESTDIR
put() {
    "$root/c/build.sh" ./built
    PREFIX="$scratch/in stalled" LIBDIR=lib/of/mine "$root/c/build.sh" install
    DESTDIR=$scratch/staged PREFIX=/usr "$root/c/build.sh" install
    mkdir program
    cp "$root/examples/c/pair.c" program/
}

# runs PROGRAM FOLDER: it finds the library in that folder, by its soname, and carries bytes
runs() {
    readelf -d "$1" | grep -q "(NEEDED).*\[libymx.so.$major\]" || fail "$1 doesn't ask for libymx.so.$major"
    LD_LIBRARY_PATH=$2 "$1" || fail "$1 does not run"
}

# with_flags PROGRAM: what pkg-config says is for a shell to read, which finds the blanks that belong to a name
with_flags() {
    [ "$(pkg-config --modversion ymx)" = "$version" ] || fail 'ymx.pc has another version'
    eval "cc -o $1 pair.c $(pkg-config --cflags --libs ymx)"
}

pkg_config() {
    put
    cd program
    export PKG_CONFIG_PATH
    PKG_CONFIG_PATH=$scratch/built/lib/pkgconfig
    with_flags by_built
    runs ./by_built "$scratch/built/lib"
    PKG_CONFIG_PATH="$scratch/in stalled/lib/of/mine/pkgconfig"
    with_flags by_installed
    runs ./by_installed "$scratch/in stalled/lib/of/mine"
    # what is below DESTDIR is spoken of as it will lie
    grep -qx 'prefix=/usr' "$scratch/staged/usr/lib/pkgconfig/ymx.pc" || fail 'ymx.pc names DESTDIR'
    PKG_CONFIG_PATH=$scratch/staged/usr/lib/pkgconfig
    PKG_CONFIG_SYSROOT_DIR=$scratch/staged
    export PKG_CONFIG_SYSROOT_DIR
    with_flags by_staged
    runs ./by_staged "$scratch/staged/usr/lib"
}

# by_cmake NAME PREFIX LIBDIR
by_cmake() {
    if ! { cmake -S "$here/cmake" -B "$1" -DPAIR="$scratch/program/pair.c" -Dymx_DIR="$3/cmake/ymx" && cmake --build "$1"; } > "$1.log" 2>&1; then
        fail "CMake doesn't build by what lies in $3:" "$1.log"
    fi
    runs "$1/pair_shared" "$3"
    "$1/pair_static" || fail 'the program with the archive does not run'
    if readelf -d "$1/pair_static" | grep -q 'libymx'; then fail 'the archive is not linked'; fi
    grep -rqF -- "$2/include" "$1" || fail "the header isn't that of $2"
}

by_all_cmake() {
    put
    by_cmake by_built "$scratch/built" "$scratch/built/lib"
    by_cmake by_installed "$scratch/in stalled" "$scratch/in stalled/lib/of/mine"
    by_cmake by_staged "$scratch/staged/usr" "$scratch/staged/usr/lib"
    # another major version was asked for, and a later one
    for asked in 1.0 "$major.999"; do
        sed "s/ymx 0.2 /ymx $asked /" "$here/cmake/CMakeLists.txt" > program/CMakeLists.txt
        if cmake -S program -B refused -DPAIR=pair.c -Dymx_DIR="$scratch/built/lib/cmake/ymx" > refused.log 2>&1; then
            fail "version $version is taken for $asked"
        fi
        grep -q 'requested version' refused.log || fail 'CMake fails for another reason:' refused.log
        rm -rf refused
    done
}

case $1 in
modes) modes ;;
pkg_config) pkg_config ;;
cmake) by_all_cmake ;;
*)
    echo 'usage: tests/capi/installed.sh modes|pkg_config|cmake' >&2
    exit 2
    ;;
esac
