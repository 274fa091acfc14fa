#!/bin/sh
# `systemd_root.sh ROOT INSTALLED`, as process 1 of namespaces of its own: makes a root in the folder ROOT, of this machine's
# /usr, with INSTALLED/usr/local as its /usr/local, and of nothing else, and becomes systemd there. systemd.sh begins it.
set -eu
root=$1
mount --make-rprivate /
mount -t tmpfs -o mode=755 tmpfs "$root"
cd "$root"
mkdir usr old proc sys dev run var tmp etc root
chmod 1777 tmp
mount --bind /usr usr
mount -o remount,bind,ro usr
mount --bind "$2/usr/local" usr/local
for name in bin sbin lib lib32 lib64 libx32; do
    if [ -L /$name ]; then
        cp -P /$name $name
    elif [ -d /$name ]; then
        mkdir $name
        mount --bind /$name $name
    fi
done
# no unit of this machine is enabled there
mkdir -p etc/systemd/system etc/ymx
: > etc/machine-id
echo ymx-test > etc/hostname
for file in passwd group nsswitch.conf ld.so.cache; do
    [ ! -e /etc/$file ] || cp /etc/$file etc/
done
mount -t proc proc proc
mount --bind proc/sys proc/sys
mount -o remount,bind,ro proc/sys
mount -t sysfs -o ro sysfs sys
mount -t cgroup2 cgroup2 sys/fs/cgroup
mount -t tmpfs -o mode=755 tmpfs dev
for device in null zero full random urandom tty; do
    : > dev/$device
    mount --bind /dev/$device dev/$device
done
mkdir dev/shm dev/pts
mount -t devpts -o newinstance,ptmxmode=666 devpts dev/pts
ln -s pts/ptmx dev/ptmx
ln -s /proc/self/fd dev/fd
mount -t tmpfs -o mode=755 tmpfs run
mount -t tmpfs -o mode=755 tmpfs var
ip link set lo up
pivot_root . old
cd /
umount -l old
exec env -i container=other PATH=/usr/sbin:/usr/bin:/sbin:/bin /lib/systemd/systemd --system --unit=basic.target --log-target=journal
