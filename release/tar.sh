#!/bin/bash
# tar.sh FOLDER: packs the release for each target into FOLDER, as ymx-VERSION-TARGET-linux.tar.gz: the program, its man
# pages, completions and services, install.sh, the licences, and SHA256SUMS. Beside them lies SHA256SUMS of the archives. The
# same release gives the same bytes: times are those of its commit.
set -euo pipefail
here=$(cd "$(dirname "$0")" && pwd)
root=$(cd "$here/.." && pwd)
[[ $# = 1 && $1 != -* ]] || { echo 'usage: release/tar.sh FOLDER' >&2; exit 2; }
mkdir -p "$1"
to=$(cd "$1" && pwd)
scratch=$(mktemp -d)
trap 'rm -rf "$scratch"' EXIT
umask 022
when=$("$here/when.sh")
version=$("$here/version.sh")
cd "$scratch"
for target in x86_64 aarch64; do
    name=ymx-$version-$target-linux
    mkdir "$name"
    "$here/program.sh" "$name/ymx" "$target"
    cp "$here/install.sh" "$here/LICENSE.musl" "$root/LICENSE" "$name/"
    cp -r "$here/share" "$name/"
    (cd "$name" && find . -type f -printf '%P\n' | LC_ALL=C sort | xargs sha256sum) > sums
    mv sums "$name/SHA256SUMS"
    chmod -R u=rwX,go=rX "$name"
    tar --format=ustar --sort=name --owner=0 --group=0 --numeric-owner --mtime="@$when" -cf - "$name" | gzip -9n > "$to/$name.tar.gz"
done
cd "$to"
sha256sum "ymx-$version"-*-linux.tar.gz > SHA256SUMS
cat SHA256SUMS
