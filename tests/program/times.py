"""Starts both ends with `--times`, and compares the time before each line with the clock.

It says which tests failed, and nothing where none did. No test follows one that hangs.

usage: times.py YMX
"""

import calendar
import re
import subprocess
import sys
import time

import raw
from raw import ANY, Program, call, free_place, is_cut, refused

LINE = re.compile(r"(\d{4}-\d\d-\d\dT\d\d:\d\d:\d\d)\.(\d{3})Z (ymx: .*\n)")


def stamped(line):
    """When a line says that it was, in seconds since 1970, and its rest."""
    found = LINE.fullmatch(line)
    assert found, f"no time: {line!r}"
    return calendar.timegm(time.strptime(found[1], "%Y-%m-%dT%H:%M:%S")) + int(found[2]) / 1000, found[3]


def next_line(program):
    """The next line without its time, which is now."""
    line = program.process.stderr.readline().decode()
    at, rest = stamped(line)
    # it was said while this process waited for it, which a loaded machine may have held up
    assert time.time() - 30 < at < time.time() + 0.1, f"{line!r} at {time.time()}"
    return rest


def listening(program):
    rest = next_line(program)
    assert rest.startswith("ymx: listening at "), rest
    return rest.split()[-1]


def lines_of_both_ends():
    """Each has its time."""
    target, address = raw.listen()
    remote = Program("remote", "-v", "--times", "--bind", ANY, "--target", address)
    local = Program("local", "-v", "--times", "--listen", ANY, "--peer", listening(remote), "--count", "1")
    user = call(listening(local))
    service = raw.accept(target)
    user.sendall(b"bytes")
    assert raw.take(service, 5) == b"bytes"
    raw.break_off(user)
    assert is_cut(service)
    for program in local, remote:
        lines = []
        while line := program.process.stderr.readline().decode():
            lines.append(stamped(line)[1])
        assert sum(line.startswith("ymx: connection 1 from ") for line in lines) == 1, lines
        assert program.process.wait() == 0


def a_fault_and_its_reason():
    nobody = free_place()
    program = Program("local", "--times", "--listen", ANY, "--peer", nobody)
    assert next_line(program) == refused(nobody)
    assert next_line(program) == f"ymx: cannot reach {nobody}\n"
    assert program.process.wait() == 1


def none_unasked():
    """Without `--times` lines are as ever."""
    nobody = free_place()
    assert Program("local", "--listen", ANY, "--peer", nobody).end() == (1, f"{refused(nobody)}ymx: cannot reach {nobody}\n")


def none_before_a_mistake():
    said = subprocess.run([sys.argv[1], "local", "--times", "--listen", "x", "--peer", "y"], capture_output=True, text=True, check=False)
    assert said.stderr.endswith("ymx: bad address x\n") and not LINE.match(said.stderr), said


TESTS = (
    ("lines of both ends", lines_of_both_ends, ()),
    ("a fault and its reason", a_fault_and_its_reason, ()),
    ("none unasked", none_unasked, ()),
    ("none before a mistake", none_before_a_mistake, ()),
)


if __name__ == "__main__":
    sys.exit(raw.main(TESTS))
