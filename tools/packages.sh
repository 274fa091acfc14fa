#!/bin/sh
# The packages of Debian's whose tools the tests need, a line for each kind. `tools/packages.sh` lists them, and
# `tools/packages.sh install` installs them, as a superuser. cargo is one of them only where none stands here.
set -eu
packages='
curl iproute2 openssl pkg-config python3 python3-setuptools python3-wheel
busybox-static cmake g++ make man-db musl-dev qemu-user strace tshark
haproxy nginx openssh-server postgresql prometheus redis-server stunnel4 systemd
golang-go golang-github-hashicorp-yamux-dev
mypy python3-aiohttp python3-hypercorn python3-uvicorn python3-uvloop python3-websockets
librust-futures-util-dev librust-hyper-dev librust-rustls-dev librust-tokio-dev librust-tokio-rustls-dev
'
# asyncio's own tests, which have the number of the distribution's python3 in their package's name
testsuite() {
    apt-cache depends python3 2> /dev/null | sed -n 's/^ *Depends: \(python3\.[0-9]*\)$/lib\1-testsuite/p'
}
command -v cargo > /dev/null || packages="$packages cargo"
case ${1-} in
'')
    # shellcheck disable=SC2046,SC2086
    printf '%s\n' $packages $(testsuite)
    ;;
install)
    export DEBIAN_FRONTEND=noninteractive
    apt-get update > /dev/null
    # a service that a package brings is not started here
    printf '#!/bin/sh\nexit 101\n' > /usr/sbin/policy-rc.d
    chmod +x /usr/sbin/policy-rc.d
    status=0
    # shellcheck disable=SC2046,SC2086
    apt-get install --yes --no-install-recommends $packages $(testsuite) > /dev/null || status=$?
    rm -f /usr/sbin/policy-rc.d
    exit $status
    ;;
*)
    echo 'usage: tools/packages.sh [install]' >&2
    exit 2
    ;;
esac
