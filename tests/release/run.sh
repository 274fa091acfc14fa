#!/bin/sh
# The released program. A copy of the repository in which nothing was built runs it within three seconds, with no toolchain
# on the PATH; also through a symlink, and where it can't be written. A machine that it isn't for is told so in one line, and
# a program that is one byte off is refused. Each file of the release has the sum that RELEASE names; all of them take at most
# 1.2 MB, and its parts in C, which are to be read, have at most 120 lines each. objects.sh has the gate compare it with
# what is built here.
set -eu
here=$(cd "$(dirname "$0")" && pwd)
. "$here/../over.sh"
# the launcher that is tried is that of a copy, in which no gate has built anything
unset YMX_FROM_GATE
target=$(uname -m)
packed=release/$target/ymx.gz

# sum_of FILE NAME: the packed file is the one of which RELEASE speaks by this name
sum_of() {
    [ "$(gzip -dc "$root/release/$1" | sha256sum | cut -d ' ' -f 1)" = "$(sed -n "s/^$2: //p" "$root/release/RELEASE")" ] || fail "release/$1 isn't what release/RELEASE says"
}
for each in x86_64 aarch64; do
    sum_of "$each/ymx.gz" "program $each"
    sum_of "$each/libymx_c.a.gz" "library $each"
done
[ "$(cat "$root"/release/*/*.gz | wc -c)" -le 1200000 ] || fail 'the release takes more than 1.2 MB'
for file in "$root"/release/*.c; do
    [ "$(wc -l < "$file")" -le 120 ] || fail "$file has more than 120 lines"
done
copy_repository ymx release examples
cd "$scratch"
printf 'window flags=0001 id=1 len=0\ndata flags=0000 id=1 len=5 68656c6c6f\n' > wanted

# What every system has, and no rt.
mkdir bare
for name in sh awk cat chmod cmp cp cut dirname env find gzip grep mkdir mv readlink rm sed sha256sum sort timeout tr uname xargs; do
    ln -s "$(command -v $name)" bare/
done
# the first use, again where a loaded machine may have been why it took long
for _ in 1 2 3 4 5; do
    rm -rf out
    began=$(date +%s%N)
    PATH=$scratch/bare ./ymx frames examples/hello.yamux > got || fail 'the released program does not run without a toolchain'
    took=$((($(date +%s%N) - began) / 1000000))
    cmp got wanted || fail 'the released program prints something else'
    [ "$took" -ge 3000 ] || break
done
[ "$took" -lt 3000 ] || fail "the first use took $took ms"
# the rest of the README's first run
PATH=$scratch/bare ./ymx frames < examples/hello.yamux > got || fail 'it shows no frames of its input'
cmp got wanted || fail 'of its input it prints something else'
printf 'connection %s bytes echoed\n' '1: 0' '2: 1' '3: 300000' > echoed
PATH=$scratch/bare ./ymx selftest > got || fail 'its selftest fails'
cmp got echoed || fail 'its selftest prints something else'

# only_says LINE COMMAND..: the command fails, and says this line alone
only_says() {
    line=$1
    shift
    if "$@" > got 2> said; then fail "$* does not fail"; fi
    if [ -s got ] || ! printf '%s\n' "$line" | cmp -s - said; then fail "$* does not say just '$line':" got said; fi
}

# Through a symlink to a symlink, from elsewhere.
mkdir elsewhere
ln -s ../ymx elsewhere/near
ln -s near elsewhere/far
(cd / && PATH=$scratch/bare "$scratch/elsewhere/far" frames "$scratch/examples/hello.yamux") > got || fail 'it does not run through a symlink'
cmp got wanted || fail 'through a symlink it prints something else'

# Where nothing can be written here, it is unpacked into a folder of the user's; where neither can be, it says so. What
# stands in the way is a file, as the superuser may write everywhere.
mv out kept
: > out
PATH=$scratch/bare XDG_CACHE_HOME=$scratch/cache ./ymx frames examples/hello.yamux > got || fail 'it does not run where it cannot be written'
cmp got wanted || fail 'where it cannot be written it prints something else'
folder=$(echo cache/ymx/*)
[ -x "$folder/ymx" ] || fail 'it is not unpacked into the folder of the user'
PATH=$scratch/bare XDG_CACHE_HOME='' HOME=$scratch/home ./ymx --version > got || fail 'it is not unpacked into the home folder'
[ -x "home/.cache/ymx/${folder##*/}/ymx" ] || fail 'it is not unpacked into .cache'
only_says "ymx: the program is unpacked into $scratch/out or $scratch/ymx/ymx/${folder##*/}, and neither can be written" \
    env PATH="$scratch/bare" XDG_CACHE_HOME="$scratch/ymx" ./ymx --version
only_says "ymx: the proofs are made by a checker, and the Rattle toolchain's rt is not on the PATH, so they can't be proved and built here" \
    env PATH="$scratch/bare" ./ymx --prove

# A copy of the program, and nothing else.
PATH=$scratch/bare ./ymx --copy copied > got 2>&1 || fail 'the program is not copied' got
[ ! -s got ] || fail 'a copy of the program prints something' got
./copied frames examples/hello.yamux > got || fail 'the copied program does not run'
cmp got wanted || fail 'the copied program prints something else'

# Another processor, as `uname` says, and a program that doesn't start.
rm out
mkdir other
cp -P bare/* other/
rm other/uname
printf '#!/bin/sh\n[ "$1" = -m ] && echo riscv64 || echo Linux\n' > other/uname
chmod +x other/uname
only_says 'ymx: there is no released program for Linux riscv64, but for Linux on: x86_64 aarch64' env PATH="$scratch/other" ./ymx --version
cp -r release kept_release
printf '#!/bin/sh\necho no such call >&2\nexit 1\n' > broken
gzip -9nc broken > "$packed"
sed -i "s/^program $target: .*/program $target: $(sha256sum < broken | cut -d ' ' -f 1)/" release/RELEASE
only_says 'ymx: the released program does not start here: no such call' env PATH="$scratch/bare" ./ymx --version
printf 'no program\n' | gzip -9nc > "$packed"
only_says "ymx: $packed isn't the program of which release/RELEASE speaks" env PATH="$scratch/bare" ./ymx --version
rm -rf release out
mv kept_release release
mv kept out

# A source that has changed wants a proof.
echo '//' >> crates/ymx_header/src/lib.rt
if PATH=$scratch/bare ./ymx frames examples/hello.yamux > got 2> said; then fail 'a changed source runs the old program'; fi
grep -q 'the sources have changed since the release' said || fail 'a changed source is not told'
[ "$(wc -l < said)" = 1 ] || fail 'a changed source is told in more than a line' said
cp "$root/crates/ymx_header/src/lib.rt" crates/ymx_header/src/lib.rt

# One byte off, in a release that is whole in itself: only the comparison finds it.
program=$scratch/out/ymx
release/compare.sh "$target" "$program" > said || fail 'the released program is not itself' said
gzip -dc "$packed" > off
printf 'X' | dd of=off bs=1 seek=1000 conv=notrunc 2> dd_said
gzip -9nc off > "$packed"
if release/compare.sh "$target" "$program" > said; then fail 'a program that is one byte off passes for the release'; fi
sed -i "s/^program $target: .*/program $target: $(sha256sum < off | cut -d ' ' -f 1)/" release/RELEASE
if release/compare.sh "$target" "$program" > said; then fail 'a program that is one byte off passes, with its own hash'; fi
grep -q 'is another one than was built here' said || fail "the comparison says: $(cat said)"
echo "the first use took $took ms; a program one byte off is refused"
