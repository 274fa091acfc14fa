#!/usr/bin/env python3
"""Lists the slowest functions of a crate: checks it from nothing at one job, and notes how much processor time has gone
by as each function's proof ends. It builds nothing and leaves out/ alone; the libraries below must be built in out/
(`rt check` in the crate's folder builds them). A function's figure is all the time since the line before it, so the
loading of what several functions share counts for the first of them.

Usage: tests/slow_functions.py NAME [COUNT]    the COUNT slowest functions of crates/NAME, 15 if it isn't given
"""
import os
import re
import subprocess
import sys

sys.dont_write_bytecode = True
sys.path.insert(0, f"{os.path.dirname(os.path.dirname(os.path.realpath(__file__)))}/tools")
import kit

CLOCK = os.sysconf("SC_CLK_TCK")


def command(name):
    """The words that check a crate from nothing at one job, and tell of each function that is proved."""
    return [*kit.Kit().proving("check", name, kit.listed(), lambda it: f"{kit.TOP}/crates/{it}/out/rlib", 1), "--progress"]


def seconds(process):
    """The processor time that a running process has taken."""
    with open(f"/proc/{process}/stat", encoding="utf-8") as file:
        fields = file.read().rpartition(")")[2].split()
    return sum(int(it) for it in fields[11:15]) / CLOCK


def main():
    name, count = sys.argv[1], int(sys.argv[2]) if len(sys.argv) > 2 else 15
    run = subprocess.Popen(command(name), cwd=f"{kit.TOP}/crates/{name}", text=True,
                           stdin=subprocess.DEVNULL, stdout=subprocess.PIPE, stderr=subprocess.STDOUT)
    times, before, last = [], None, ""
    for last in run.stdout:
        ended = re.match(r"checked (.+), \d+ of \d+", last)
        if ended:
            now = seconds(run.pid)
            times.append((now if before is None else now - before, ended[1] if before else f"{ended[1]}, and all before it"))
            before = now
    _, status, usage = os.wait4(run.pid, 0)
    for time, function in sorted(times, reverse=True)[:count]:
        print(f"{time:7.1f} s  {function}")
    print(f"{usage.ru_utime + usage.ru_stime:7.1f} s  in all, {usage.ru_maxrss / 1e6:.2f} GB at most; {last.strip()}")
    return os.waitstatus_to_exitcode(status)


if __name__ == "__main__":
    sys.exit(main())
