#!/usr/bin/env python3
"""Runs each test of a test program alone, over TCP, over HashiCorp's package and over the binding, and says how many pass.

each.py NAME OURS THEIRS: the two test programs, run in the current folder. A test that passes over theirs and fails over
ours, three times, is a failure. One that passes over TCP alone is named, with what it says first. The last line is the count."""
import concurrent.futures
import os
import pathlib
import re
import subprocess
import sys

WAYS = ("TCP", "HashiCorp's", "ours")
REASON = re.compile(r"^ *(panic: .*|(?:\w+_test|grpctest)\.go:\d+: .*|Too many goroutines.*)$", re.M)


def tried(program: str, test: str, way: str) -> "tuple[str, str]":
    """Whether it passes, and why it doesn't."""
    env = {**os.environ, "YPLAIN": "1"} if way == "TCP" else os.environ
    pattern = "/".join(f"^{part}$" for part in test.split("/"))
    words = [program, "-test.run", pattern, "-test.v", "-test.timeout", "55s"]
    try:
        done = subprocess.run(words, env=env, stdin=subprocess.DEVNULL, capture_output=True, timeout=60)
    except subprocess.TimeoutExpired:
        return "hangs", ""
    said = (done.stdout + done.stderr).decode("utf8", "replace")
    if done.returncode != 0:
        reason = REASON.search(said)
        return "hangs" if "test timed out" in said else "fails", reason.group(1) if reason else ""
    return "skipped" if re.search(rf"^ *--- SKIP: {test} ", said, re.M) else "passes", ""


def judged(ours: str, theirs: str, test: str) -> "dict[str, str]":
    """What each way says, and why ours fails. One that fails is tried twice more, as such tests leave some to chance."""
    said = {}
    for way in WAYS:
        for _ in range(3):
            said[way], said["reason"] = tried(ours if way == "ours" else theirs, test, way)
            if said[way] in ("passes", "skipped"):
                break
    return said


def main() -> int:
    name, ours, theirs = sys.argv[1:]
    listed = subprocess.run([ours, "-test.list", "^Test"], capture_output=True, text=True).stdout.split()
    tests = [word for word in listed if word.startswith("Test")]
    if tests == ["Test"]:  # gRPC has methods, which that one runs
        text = "".join(path.read_text() for path in sorted(pathlib.Path(".").glob("*_test.go")))
        tests = ["Test/" + name for name in re.findall(r"^func \(s\) Test(\w+)\(t ", text, re.M)]
    with concurrent.futures.ThreadPoolExecutor(int(os.environ.get("LANES", "3"))) as pool:
        said = dict(zip(tests, pool.map(lambda test: judged(ours, theirs, test), tests)))
    sums = [sum(of[way] == "passes" for of in said.values()) for way in WAYS]
    print(f"{name}: of {len(tests)} tests pass " + ", ".join(f"{sum} over {way}" for sum, way in zip(sums, WAYS)))
    bad = 0
    for test, of in said.items():
        if of["ours"] in ("passes", "skipped") or of["TCP"] not in ("passes", "skipped"):
            continue
        is_bad = of["HashiCorp's"] == "passes"
        bad += is_bad
        print(f"  {'FAIL  ' if is_bad else ''}{test} {of['ours']}; over HashiCorp's it {of[WAYS[1]]}: {of['reason']}")
    print(f"{sums[2]} passed, {bad} failed")
    return bad > 0 or not tests


sys.exit(main())
