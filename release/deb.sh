#!/bin/bash
# deb.sh FOLDER: makes Debian's packages of the release in FOLDER, for amd64 and arm64: ymx, the program, man pages,
# completions and services; libymx0, the shared library; libymx-dev, what programs are compiled with. The same release and the
# same compilers give the same bytes: times are those of its commit.
# It needs dpkg-deb and a C compiler for each: `cc`, and aarch64-linux-gnu-gcc with libc6-dev-arm64-cross. CC_amd64 and
# CC_arm64 name others.
set -euo pipefail
here=$(cd "$(dirname "$0")" && pwd)
root=$(cd "$here/.." && pwd)
[[ $# = 1 && $1 != -* ]] || { echo 'usage: release/deb.sh FOLDER' >&2; exit 2; }
for tool in dpkg-deb readelf "${CC_amd64-cc}" "${CC_arm64-aarch64-linux-gnu-gcc}"; do
    command -v "$tool" > /dev/null || { echo "release/deb.sh needs $tool" >&2; exit 1; }
done
mkdir -p "$1"
folder=$(cd "$1" && pwd)
scratch=$(mktemp -d)
# all come to the folder at the end, so that one that fails leaves nothing there
to=$scratch/packed
mkdir "$to"
trap 'rm -rf "$scratch"' EXIT
umask 022
SOURCE_DATE_EPOCH=$("$here/when.sh")
export SOURCE_DATE_EPOCH
version=$("$here/version.sh")
package_version=$version-1
musl=$(sed -n 's/^musl x86_64: //p' "$here/RELEASE")
cd "$scratch"

# copyright FOLDER PACKAGE: both licences, and the list of changes
documents() {
    local place=$1/usr/share/doc/$2
    mkdir -p "$place"
    {
        printf 'Format: https://www.debian.org/doc/packaging-manuals/copyright-format/1.0/\nUpstream-Name: ymx\n\nFiles: *\n'
        sed -n 's/^Copyright (c) /Copyright: /p' "$root/LICENSE"
        printf 'License: MIT\n'
        sed '1,/^Copyright/d; /^$/d; s/^/ /' "$root/LICENSE"
        if [ "$2" = ymx ]; then
            printf '\nFiles: usr/bin/ymx\n'
            sed -n 's/^Copyright \(20.*\)/\1/p' "$here/LICENSE.musl" | sed '1s/^/Copyright: /; 2,$s/^/           /'
            printf 'License: MIT\nComment: its parts of musl\n'
        fi
    } > "$place/copyright"
    {
        printf 'ymx (%s) unstable; urgency=medium\n\n  * Made of the release by release/deb.sh.\n\n' "$package_version"
        printf ' -- Moiregeode maintainers <maintainers@users.noreply.moiregeode.example>  %s\n' "$(date -u -R -d "@$SOURCE_DATE_EPOCH")"
    } | gzip -9n > "$place/changelog.Debian.gz"
    gzip -9n < "$root/CHANGELOG.md" > "$place/changelog.gz"
}

# pack FOLDER PACKAGE ARCHITECTURE SECTION SUMMARY FIELDS TEXT: the package of what lies in the folder
pack() {
    local folder=$1 package=$2 architecture=$3
    documents "$folder" "$package"
    [ ! -d "$folder/usr/share/man" ] || find "$folder/usr/share/man" -type f -exec gzip -9n {} +
    mkdir -p "$folder/DEBIAN"
    (cd "$folder" && find . -type f ! -path './DEBIAN/*' -printf '%P\n' | LC_ALL=C sort | xargs md5sum) > sums
    mv sums "$folder/DEBIAN/md5sums"
    {
        printf 'Package: %s\nSource: ymx\nVersion: %s\nArchitecture: %s\n' "$package" "$package_version" "$architecture"
        printf 'Maintainer: Moiregeode maintainers <maintainers@users.noreply.moiregeode.example>\n'
        printf 'Installed-Size: %s\nSection: %s\nPriority: optional\n' "$(du -sk --exclude=DEBIAN "$folder" | cut -f 1)" "$4"
        [ -z "$6" ] || printf '%s\n' "$6"
        printf 'Description: %s\n%s\n' "$5" "$(printf '%s\n' "$7" | sed 's/^/ /')"
    } > "$folder/DEBIAN/control"
    chmod -R u=rwX,go=rX "$folder"
    dpkg-deb --root-owner-group -Zxz --build "$folder" "$to/${package}_${package_version}_$architecture.deb" > said || { cat said >&2; exit 1; }
}

# program TARGET ARCHITECTURE
program() {
    local place=ymx.$2
    mkdir "$2"
    "$here/program.sh" "$2/ymx" "$1"
    cp "$here/install.sh" "$here/LICENSE.musl" "$root/LICENSE" "$2/"
    cp -r "$here/share" "$2/"
    DESTDIR=$PWD/$place "$2/install.sh" /usr > said
    rm -r "$place/usr/share/doc"
    mkdir -p "$place/lib" "$place/usr/share/zsh"
    mv "$place/usr/lib/systemd" "$place/lib/"
    rmdir "$place/usr/lib"
    mv "$place/usr/share/zsh/site-functions" "$place/usr/share/zsh/vendor-completions"
    mkdir -p "$place/usr/share/lintian/overrides"
    cat > "$place/usr/share/lintian/overrides/ymx" << 'TEXT'
# It is the released program, byte for byte, which needs no library.
ymx: statically-linked-binary [usr/bin/ymx]
ymx: unstripped-binary-or-object [usr/bin/ymx]
TEXT
    pack "$place" ymx "$2" net 'many TCP connections over one, by yamux' "Built-Using: musl (= $musl)" \
'ymx carries TCP connections over one connection between two ends, by the
protocol yamux. The end behind a firewall may be the one that connects. It
also shows the frames of a recorded session. Its sessions are formally
verified: no byte of a stream is lost, repeated, reordered or invented.'
}

# library TARGET ARCHITECTURE COMPILER
library() {
    local architecture=$2 triplet=$1-linux-gnu place=libymx.$2 least
    CC=$3 PREFIX=/usr LIBDIR=lib/$triplet DESTDIR=$PWD/$place "$root/c/build.sh" install > said 2>&1 || { cat said >&2; exit 1; }
    rm -r "$place/usr/share/doc"
    local own=libymx0.$architecture/usr/lib/$triplet shared
    mkdir -p "$own" "libymx0.$architecture/DEBIAN"
    shared=$(cd "$place/usr/lib/$triplet" && echo libymx.so.*.*)
    mv "$place/usr/lib/$triplet/$shared" "$place/usr/lib/$triplet/libymx.so.0" "$own/"
    $("$3" -print-prog-name=strip) --strip-unneeded "$own/$shared"
    # each symbol with the version of its node; they begin with that of the library that had it first
    {
        echo 'libymx.so.0 libymx0 #MINVER#'
        readelf -W --dyn-syms "$own/$shared" | sed -n 's/.* \([A-Za-z_0-9.]*@\)@\(LIBYMX_\)\([0-9.]*\)$/ \1\2\3 \3/p' | LC_ALL=C sort
    } > "libymx0.$architecture/DEBIAN/symbols"
    chmod 644 "$own/$shared"
    echo "libymx 0 libymx0 (>= $version)" > "libymx0.$architecture/DEBIAN/shlibs"
    echo 'activate-noawait ldconfig' > "libymx0.$architecture/DEBIAN/triggers"
    least=$(readelf -W --dyn-syms "$own/$shared" | sed -n 's/.*@GLIBC_\([0-9.]*\) .*/\1/p' | sort -V | tail -n 1)
    pack "libymx0.$architecture" libymx0 "$architecture" libs 'sessions of yamux for C, shared library' "Multi-Arch: same
Depends: libc6 (>= $least)" \
'libymx is one side of a session of yamux, a protocol by which many streams
share one connection. It does no input or output: it is fed the bytes that
came, and gives those to be sent. The session is proved.'
    pack "$place" libymx-dev "$architecture" libdevel 'sessions of yamux for C, for compiling' "Multi-Arch: same
Depends: libymx0 (= $package_version)" \
'The header, the static library, what pkg-config and CMake read, and the man
pages of libymx, which is one side of a session of yamux.'
}

program x86_64 amd64
program aarch64 arm64
library x86_64 amd64 "${CC_amd64-cc}"
library aarch64 arm64 "${CC_arm64-aarch64-linux-gnu-gcc}"
(cd "$to" && sha256sum -- *.deb)
mv "$to"/*.deb "$folder/"
