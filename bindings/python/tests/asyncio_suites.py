"""asyncio's own tests over our streams, readers and writers: `led_streams` leads their connections, TLS, Unix sockets and all, over
streams of one session. Each test runs in a process of its own. None fails that passes over asyncio's own transports, but for
those that DIFFERS names with a reason. Tests that make no connection and no reader are not counted.

Usage: python3 asyncio_suites.py [-v] [WORD..]    with words only the tests that have one in their names; -v names each

Debian has these tests in libpython3.11-testsuite, or as its python3 is numbered.
"""
import contextlib
import io
import os
import select
import signal
import sys
import tempfile
import traceback
import unittest
import warnings
from collections import Counter

import led_streams

PACKAGE = "test.test_asyncio."
# (Of test_events and test_sendfile one class is enough: the others run the same over other selectors.)
SUITES = (
    "test_streams",
    "test_sslproto",
    "test_ssl",
    "test_buffered_proto",
    "test_server",
    "test_base_events.BaseEventLoopWithSelectorTests",
    "test_events.EPollEventLoopTests",
    "test_sendfile.EPollEventLoopTests",
)
SECONDS = 60  # for one test
READ_FIRST = "what came before the error is read first"
IN_FRAMES = "bytes go into frames, so there is no sendfile of the system's"
IN_WINDOW = "the window takes the whole file, so the cut may come after it"
DIFFERS = {
    "test_streams.StreamTests.test_eof_feed_when_closing_writer": "closed before the peer's end, a stream is not at its end",
    "test_streams.StreamTests.test_exception": "each call gives an error of its own, as one that was raised holds frames",
    "test_streams.StreamTests.test_read_exception": READ_FIRST,
    "test_streams.StreamTests.test_readexactly_exception": READ_FIRST,
    "test_sendfile.EPollEventLoopTests.test_sendfile_force_unsupported_native": IN_FRAMES,
    "test_sendfile.EPollEventLoopTests.test_sendfile_prevents_bare_write": IN_FRAMES,
    "test_sendfile.EPollEventLoopTests.test_sendfile_close_peer_in_the_middle_of_receiving": IN_WINDOW,
    "test_sendfile.EPollEventLoopTests.test_sendfile_fallback_close_peer_in_the_middle_of_receiving": IN_WINDOW,
}
MAY_PASS = (IN_WINDOW,)


def each_test(suite):
    for part in suite:
        if isinstance(part, unittest.TestSuite):
            yield from each_test(part)
        else:
            yield part


def found(words):
    """The tests that have one of the words in their names."""
    tests = each_test(unittest.defaultTestLoader.loadTestsFromNames([PACKAGE + suite for suite in SUITES]))
    return [test for test in tests if not words or any(word in test.id() for word in words)]


def outcome(test, is_led):
    """How a test ends: a word, and what there is to see of it."""
    warnings.simplefilter("ignore")
    if is_led:
        led_streams.lead()
    result, seen = unittest.TestResult(), io.StringIO()
    with contextlib.redirect_stdout(seen), contextlib.redirect_stderr(seen):
        unittest.TestSuite([test]).run(result)
    if result.skipped:
        return "skipped", result.skipped[0][1]
    if not result.wasSuccessful():
        return "failed", "\n".join(text for _, text in result.failures + result.errors) + seen.getvalue()
    return ("passed" if led_streams.used else "unused"), ""


def in_child(test, is_led, pipe):
    try:
        word, text = outcome(test, is_led)
    except BaseException:
        word, text = "failed", traceback.format_exc()
    with os.fdopen(pipe, "w") as answer:
        answer.write(f"{word}\n{text}")
    os._exit(0)


def run(test, is_led):
    """The same, of a process of its own."""
    reading, writing = os.pipe()
    child = os.fork()
    if child == 0:
        os.close(reading)
        in_child(test, is_led, writing)
    os.close(writing)
    with os.fdopen(reading) as answer:
        if not select.select([reading], [], [], SECONDS)[0]:
            os.kill(child, signal.SIGKILL)
        word, _, text = answer.read().partition("\n")
    os.waitpid(child, 0)
    return (word, text) if word else ("failed", f"nothing within {SECONDS} seconds, or it has crashed")


def judged(test):
    """How a test ends over streams, seen beside asyncio's own transports."""
    name = test.id()[len(PACKAGE) :]
    word, text = run(test, is_led=True)
    if name in DIFFERS:
        return as_named(name, word)
    if word != "failed":
        return word, text
    if run(test, is_led=False)[0] == "failed":
        return "skipped", "fails over asyncio's own transports too"
    return "failed", f"{name} passes over asyncio's own transports:\n{text}"


def as_named(name, word):
    """A test of which DIFFERS says that it fails."""
    reason = DIFFERS[name]
    if word == "passed" and reason not in MAY_PASS:
        return "failed", f"{name} passes: DIFFERS need not name it"
    return ("differs" if word == "failed" else word), f"{name}: {reason}"


def main():
    words = [word for word in sys.argv[1:] if word != "-v"]
    counts, skipped = Counter(), Counter()
    for test in found(words):
        word, text = judged(test)
        counts[word] += 1
        if word == "skipped":
            skipped[text] += 1
        elif word in ("failed", "differs"):
            print(f"{word}: {text}", flush=True)
        if "-v" in sys.argv:
            print(f"{word}: {test.id()} {text}", flush=True)
    for reason, count in skipped.items():
        print(f"skipped by asyncio's tests: {count}: {reason}")
    print(f"left alone, as they make no connection and no reader: {counts['unused']}")
    tried = counts["passed"] + counts["failed"] + counts["differs"]
    print(f"Ran {tried} tests of asyncio's own over streams: {counts['failed']} failed, {counts['differs']} differ")
    sys.exit(1 if counts["failed"] or not counts["passed"] else 0)


if __name__ == "__main__":
    with tempfile.TemporaryDirectory() as folder:  # test_sendfile writes into the one that it is in
        os.chdir(folder)
        main()
