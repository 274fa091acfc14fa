#!/bin/bash
# image.sh FILE: packs the program into an image of containers, for each target, as a tar of OCI's layout: `skopeo copy
# oci-archive:FILE docker://..` or `podman load -i FILE` takes it. The image has one file, /ymx, which it runs; it runs as
# nobody, drains at a stop, and has the licences as labels. The same release gives the same bytes: times are those of its commit.
set -euo pipefail
here=$(cd "$(dirname "$0")" && pwd)
root=$(cd "$here/.." && pwd)
[[ $# = 1 && $1 != -* ]] || { echo 'usage: release/image.sh FILE' >&2; exit 2; }
to=$(cd "$(dirname "$1")" && pwd)/$(basename "$1")
scratch=$(mktemp -d)
trap 'rm -rf "$scratch"' EXIT
umask 022
when=$("$here/when.sh")
date=$(date -u -d "@$when" +%Y-%m-%dT%H:%M:%SZ)
version=$("$here/version.sh")
blobs=$scratch/layout/blobs/sha256
mkdir -p "$blobs"
cd "$scratch"

sum() {
    sha256sum < "$1" | cut -d ' ' -f 1
}

# keep FILE TYPE [MORE]: puts it among the blobs, and prints how it is named where it is used
keep() {
    local sum
    sum=$(sum "$1")
    mv "$1" "$blobs/$sum"
    printf '{"mediaType":"application/vnd.oci.image.%s","digest":"sha256:%s","size":%d%s}' "$2" "$sum" "$(stat -c %s "$blobs/$sum")" "${3-}"
}

archive() {
    tar --format=ustar --sort=name --owner=0 --group=0 --numeric-owner --mtime="@$when" "$@"
}

# text FILE: as it stands in a text of JSON
text() {
    sed 's/[\\"]/\\&/g' "$1" | awk '{ printf "%s\\n", $0 }'
}

labels="{\"org.opencontainers.image.title\":\"ymx\",\"org.opencontainers.image.version\":\"$version\",\"org.opencontainers.image.licenses\":\"MIT\",\"license\":\"$(text "$root/LICENSE")\",\"license.musl\":\"$(text "$here/LICENSE.musl")\"}"
images=
for target in x86_64 aarch64; do
    architecture=$([ $target = x86_64 ] && echo amd64 || echo arm64)
    "$here/program.sh" ymx "$target"
    archive -cf layer ymx
    unpacked=$(sum layer)
    gzip -9n < layer > layer.gz
    layer=$(keep layer.gz layer.v1.tar+gzip)
    printf '{"created":"%s","architecture":"%s","os":"linux","config":{"User":"65534:65534","Entrypoint":["/ymx"],"StopSignal":"SIGUSR1","Labels":%s},"rootfs":{"type":"layers","diff_ids":["sha256:%s"]},"history":[{"created":"%s","created_by":"release/image.sh"}]}' \
        "$date" "$architecture" "$labels" "$unpacked" "$date" > config
    config=$(keep config config.v1+json)
    printf '{"schemaVersion":2,"mediaType":"application/vnd.oci.image.manifest.v1+json","config":%s,"layers":[%s]}' "$config" "$layer" > manifest
    images="$images${images:+,}$(keep manifest manifest.v1+json ",\"platform\":{\"architecture\":\"$architecture\",\"os\":\"linux\"}")"
done
printf '{"schemaVersion":2,"mediaType":"application/vnd.oci.image.index.v1+json","manifests":[%s]}' "$images" > index
all=$(keep index index.v1+json ",\"annotations\":{\"org.opencontainers.image.ref.name\":\"$version\"}")
printf '{"schemaVersion":2,"mediaType":"application/vnd.oci.image.index.v1+json","manifests":[%s]}' "$all" > layout/index.json
printf '{"imageLayoutVersion":"1.0.0"}' > layout/oci-layout
(cd layout && archive -cf "$to" oci-layout index.json blobs)
echo "$(sum "$to")  $(basename "$to")"
