#!/bin/sh
# Runs the units that release/install.sh installs under a real systemd: process 1 of namespaces of its own (processes, mounts,
# network, control groups), in a root that has this machine's /usr, and nothing of its /etc. systemd.py says what is looked at:
# above all that a restart of either end cuts none of 200 transfers. It needs root, systemd, util-linux, iproute2, Python 3, and
# a kernel with cgroup2 that lets one make namespaces; where one of these is missing it is left out with a word. It touches no
# unit of this machine. Ends with 'N passed, M failed'.
set -eu
here=$(cd "$(dirname "$0")" && pwd)
. "$here/../over.sh"
unset DESTDIR PREFIX

# leave_out HOW WHY [PACKAGE]: it can't be run here
leave_out() {
    how=$1
    shift
    "$how" 'the units under systemd' "$@"
    counted
    exit
}

PATH=$PATH:/usr/sbin:/sbin
[ "$(id -u)" = 0 ] || leave_out impossible 'only root can make such namespaces'
for tool in unshare nsenter pivot_root ip systemctl python3; do
    command -v $tool > /dev/null || leave_out left_out "no $tool" util-linux iproute2 systemd python3
done
[ -x /lib/systemd/systemd ] || leave_out left_out 'no /lib/systemd/systemd' systemd
groups=$(awk '$3 == "cgroup2" { print $2; exit }' /proc/mounts)
[ -n "$groups" ] || leave_out impossible 'cgroup2 is mounted nowhere'
find_program
DESTDIR=$scratch/installed "$root/release/install.sh" > "$scratch/said"
cp "$ymx" "$scratch/installed/usr/local/bin/ymx"

# its processes are in a group of their own, which is the root of theirs
group=$groups/ymx_test_$$
outer=
# end: ends systemd, and with it all of its namespace, and takes its groups away
end() {
    [ -z "$outer" ] || { kill -KILL "$outer" && wait "$outer"; } 2> /dev/null || true
    for _ in 1 2 3 4 5 6 7 8 9 10; do
        find "$group" -depth -type d -exec rmdir {} + 2> /dev/null || true
        [ -d "$group" ] || break
        sleep 0.5
    done
    rm -rf "$scratch"
}
trap end EXIT
mkdir "$group" 2> "$scratch/said" || leave_out impossible "no control group can be made: $(cat "$scratch/said")"
mkdir "$scratch/root"
# (a shell moves into the group first, as one enters no group from within the namespace)
sh -c 'echo $$ > "$1/cgroup.procs" && exec unshare --fork --kill-child --pid --mount --cgroup --uts --ipc --net "$2" "$3" "$4"' \
    sh "$group" "$here/systemd_root.sh" "$scratch/root" "$scratch/installed" > "$scratch/console" 2>&1 < /dev/null &
outer=$!

# process_1: `first` is the process that is process 1 there, once it is systemd and has begun all that it begins by itself
process_1() {
    first=$(tr -d ' ' < "/proc/$outer/task/$outer/children") || return 1
    [ -n "$first" ] || return 1
    case $(nsenter -t "$first" -m -u -i -n -p systemctl is-system-running 2> /dev/null) in
    running | degraded) ;;
    *) return 1 ;;
    esac
}

# up_or_over: systemd is up, or has ended, as nothing can be begun here
up_or_over() {
    process_1 || ! kill -0 "$outer" 2> /dev/null
}
in_time up_or_over || true
if ! process_1; then leave_out impossible "systemd doesn't come up here: $(tail -n 1 "$scratch/console")"; fi
said=0
nsenter -t "$first" -n python3 -B "$here/systemd.py" "$first" > "$scratch/said" 2>&1 || said=$?
cat "$scratch/said"
exit $said
