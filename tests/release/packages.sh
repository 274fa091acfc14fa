#!/bin/sh
# The packages of the release, beside the gate: each script of release/ that packs it makes the same bytes twice, and what it
# made runs where nothing else stands. Archives and the image: in a root of their own. Debian's packages: lintian finds no
# error, and they are installed in a root that debootstrap makes, or in an empty one. Wheels: in an environment of their own.
# The Go module and the Rust crates: built and tested with no library installed. What runs is for this processor; what is for
# arm64 runs under qemu, where that stands. Where a tool is missing, that part is left out.
set -eu
here=$(cd "$(dirname "$0")" && pwd)
. "$here/../over.sh"
unset DESTDIR PREFIX
cd "$scratch"
version=$("$root/release/version.sh")
qemu=$(command -v qemu-aarch64-static || true)
printf 'connection %s bytes echoed\n' '1: 0' '2: 1' '3: 300000' > echoed

# has TOOL..: whether all of them stand here; else `lacks` is the first that doesn't
has() {
    for lacks in "$@"; do
        command -v "$lacks" > /dev/null || return 1
    done
}

# is NAME COMMAND..: one thing that must hold
is() {
    name=$1
    shift
    if "$@" > said 2>&1; then good; else bad "$name:" said; fi
}

# twice SCRIPT FIRST SECOND: it makes the same in both places
twice() {
    is "release/$1 packs" "$root/release/$1" "$2"
    cp said "$1.said"
    is "release/$1 packs twice" "$root/release/$1" "$3"
    is "release/$1 makes the same bytes twice" diff -r "$2" "$3"
}

# runs_alone FILE ROOT: the program in this root, which has nothing else, and the one for arm64 under qemu
runs_alone() {
    chroot "$2" "$1" selftest > got && cmp got echoed
}
runs_on_arm() {
    [ -z "$qemu" ] || { "$qemu" "$1" selftest > got && cmp got echoed; }
}

# ---- archives

twice tar.sh archives archives_again
(cd archives && sha256sum --quiet -c SHA256SUMS) || bad 'sums of the archives'
for target in x86_64 aarch64; do
    tar -xzf "archives/ymx-$version-$target-linux.tar.gz"
    is "sums in the archive for $target" sh -c "cd ymx-$version-$target-linux && sha256sum --quiet -c SHA256SUMS"
    is "install.sh in the archive for $target" env "DESTDIR=$scratch/of_$target" "ymx-$version-$target-linux/install.sh" /usr
done
is 'the program of the archive' runs_alone /usr/bin/ymx of_x86_64
is 'the program of the archive for arm64' runs_on_arm of_aarch64/usr/bin/ymx

# ---- the image

twice image.sh image image_again
is 'a stop of the image drains' sh -c "tar -xOf image | grep -aq '\"StopSignal\":\"SIGUSR1\"'"
if has skopeo umoci; then
    for processor in amd64 arm64; do
        is "skopeo copies the image for $processor" skopeo --override-arch $processor copy -q oci-archive:image "oci:layout:$processor"
        is "umoci unpacks the image for $processor" umoci unpack --rootless --image layout:$processor bundle.$processor
        is "the image for $processor has one file" [ "$(cd bundle.$processor/rootfs && find . -type f)" = ./ymx ]
    done
    is 'the program of the image' runs_alone /ymx bundle.amd64/rootfs
    is 'the program of the image for arm64' runs_on_arm bundle.arm64/rootfs/ymx
else
    left_out 'what is in the image' "no $lacks"
fi

# ---- Debian's packages, and the bindings

if ! has dpkg-deb aarch64-linux-gnu-gcc; then
    left_out "Debian's packages, and the bindings with the library" "no $lacks"
    counted
    exit
fi
# (its headers are in a package of their own, which is only recommended)
if ! echo '#include <stdint.h>' | aarch64-linux-gnu-gcc -E - > /dev/null 2> said; then
    left_out "Debian's packages, and the bindings with the library" "no libc6-dev-arm64-cross: $(grep -m 1 error said)"
    counted
    exit
fi
twice deb.sh debs debs_again
if has lintian; then
    lintian --fail-on error debs/*.deb > said 2>&1 || true
    if grep '^E:' said > errors; then bad 'lintian finds errors' errors; else good; fi
fi
mkdir -p on_debian/usr
for package in ymx libymx0 libymx-dev; do
    dpkg-deb -x "debs/${package}_$version-1_amd64.deb" on_debian
    mkdir -p on_arm && dpkg-deb -x "debs/${package}_$version-1_arm64.deb" on_arm
done
is "the program of Debian's package" runs_alone /usr/bin/ymx on_debian
is "the program of Debian's package for arm64" runs_on_arm on_arm/usr/bin/ymx
lib=on_debian/usr/lib/x86_64-linux-gnu
is "a program with libymx-dev and libymx0" sh -c "cc -o shared -Ion_debian/usr/include '$root/examples/c/pair.c' -L$lib -lymx && LD_LIBRARY_PATH=$lib ./shared"
lib=on_arm/usr/lib/aarch64-linux-gnu
is "a program for arm64 with libymx-dev and libymx0" sh -c "aarch64-linux-gnu-gcc -o arm_shared -Ion_arm/usr/include '$root/examples/c/pair.c' -L$lib -lymx &&
    { [ -z '$qemu' ] || '$qemu' -L /usr/aarch64-linux-gnu -E LD_LIBRARY_PATH=$lib ./arm_shared; }"
if has debootstrap && debootstrap --variant=minbase bookworm clean > said 2>&1; then
    cp debs/*_amd64.deb clean/tmp/
    is "dpkg installs Debian's packages" chroot clean sh -c 'dpkg -i /tmp/*.deb && dpkg --audit && ymx selftest && dpkg -r ymx libymx-dev libymx0'
else
    left_out "Debian's packages in a root of Debian's" "no debootstrap, or it fails: $(tail -n 1 said)"
fi

twice bindings.sh bindings bindings_again
if python3 -m venv environment > said 2>&1; then
    is 'the wheel is installed' environment/bin/pip install --no-index --no-deps -q "$(echo bindings/ymx-*_x86_64.whl)"
    is 'the binding of the wheel has its own library' environment/bin/python -I -c 'from ymx import _library; assert "/site-packages/" in _library._library._name, _library._library._name'
    is 'tests of the binding over the wheel' environment/bin/python -W ignore -m unittest discover -s "$root/bindings/python/tests"
else
    left_out 'the wheel' 'no venv'
fi
cat > loads.c << 'END_OF_PROGRAM'
#include <dlfcn.h>
#include <stdio.h>
int main(void) {
    void *library = dlopen("./libymx.so.0", RTLD_NOW), *session;
    if (!library) return puts(dlerror()), 1;
    if (((long long (*)(int, unsigned, unsigned, void **))dlsym(library, "ymx_new"))(1, 262144, 0, &session) != 0) return 1;
    return ((long long (*)(void *))dlsym(library, "ymx_shrink_spare"))(session) != 0;
}
END_OF_PROGRAM

# over_musl TARGET ARCHITECTURE COMPILER [QEMU]: a program that has musl alone loads the library of the wheel
over_musl() {
    if ! musl=$("$root/release/musl.sh" "$1" 2> said) || ! "$root/tools/debian.sh" musl "$2" 2> said; then
        left_out "the library of the wheel for $1 over musl" "$(cat said)"
        return
    fi
    libc=$musl/lib/$1-linux-musl
    shared=$root/out/debian/lib
    is "a program over musl for $1" "$3" -nostdinc -isystem "$musl/include/$1-linux-musl" -fno-stack-protector -fPIE -pie -nostdlib \
        "-Wl,-dynamic-linker,$shared/ld-musl-$1.so.1" -o "loads.$1" "$libc/Scrt1.o" "$libc/crti.o" loads.c "$shared/$1-linux-musl/libc.so" "$libc/crtn.o"
    python3 -m zipfile -e bindings/ymx-*"_$1.whl" "wheel.$1"
    is "the library of the wheel for $1 over musl" sh -c "cd wheel.$1/ymx && ${4-} ../../loads.$1"
}
over_musl x86_64 amd64 cc
if [ -n "$qemu" ]; then over_musl aarch64 arm64 aarch64-linux-gnu-gcc "$qemu"; fi
if has go; then
    is 'the Go module' sh -c 'cd bindings/go && CGO_ENABLED=0 timeout 600 go test ./...'
else
    left_out 'the Go module' 'no go' golang-go
fi
if has cargo; then
    is 'the Rust crates, with no library installed' sh -c "cd bindings/rust && CARGO_TARGET_DIR='$scratch/cargo' PKG_CONFIG=/nowhere timeout 600 cargo test --offline --features ymx/bundled -p ymx"
else
    left_out 'the Rust crates' 'no cargo' cargo
fi
counted
