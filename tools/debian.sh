#!/bin/bash
# debian.sh PACKAGE ARCHITECTURE: fetches a package of Debian's, of amd64 or arm64, as this machine's apt-get finds it, and
# unpacks it below out/debian, unless that was done before. It prints nothing. It needs no superuser, installs nothing, and
# has lists of packages of its own, since those of the machine may lack the architecture. Ends with status 1, and says why,
# where the package can't be had.
set -euo pipefail
top=$(cd "$(dirname "$0")/.." && pwd)
[ $# = 2 ] || { echo 'usage: tools/debian.sh PACKAGE ARCHITECTURE' >&2; exit 2; }
package=$1 architecture=$2
place=$top/out/debian
done=$place/$package.$architecture
[ ! -e "$done" ] || exit 0
for tool in apt-get dpkg-deb; do
    command -v $tool > /dev/null || { echo "$package:$architecture can't be fetched: there is no $tool" >&2; exit 1; }
done
mkdir -p "$place"
room=$(mktemp -d)
trap 'rm -rf "$room"' EXIT
mkdir -p "$room/state/lists/partial" "$room/cache/archives/partial"
: > "$room/status"
own=(-o "Dir::State=$room/state" -o "Dir::State::status=$room/status" -o "Dir::Cache=$room/cache"
    -o "APT::Architecture=$architecture" -o "APT::Architectures=$architecture" -o APT::Sandbox::User=)
cd "$room"
if ! { apt-get "${own[@]}" update && apt-get "${own[@]}" download "$package:$architecture" && dpkg-deb -x "$package"_*.deb "$place"; } > said 2>&1; then
    echo "$package:$architecture can't be fetched: $(tail -n 1 said)" >&2
    exit 1
fi
: > "$done"
