#!/usr/bin/env python3
"""Runs each block of commands (```sh) of the documents in a copy of the repository of its own, and compares what it
prints with the blocks of output that follow it in the same section.

- A line that serves (`ymx local`, `ymx remote`, a web server) is begun, as in a terminal of its own, and goes on until
  the block is over. Every other line is run to its end, and has to end well.
- The ports that are shown become free ones, and 192.0.2.7 this machine. In a block that begins no web server one stands
  at each `--target`. A block that has no user for its `--listen` gets one, which fetches a page.
- What lines print that end is compared letter by letter; a block of output may stand for some commands that print the
  same. What a line that serves prints is compared but for its numbers, of which only the ports that are shown must agree.
- `<!-- not run: WHY -->` in the line above a block leaves it out. `<!-- needs: COMMAND.. -->` leaves it out where these
  commands aren't there. LINE, a line of commands, leaves out the block in which it stands: a test before has run it.

It says which failed, how many were run and how many were not, and ends with 'N passed, M failed'.

usage: documents.py CLONE [LINE..]    a copy of the repository with the program in its out/
"""

import contextlib
import http.server
import os
import re
import shutil
import signal
import subprocess
import sys
import tempfile
import threading
import time
import urllib.request
from collections import Counter
from concurrent.futures import ThreadPoolExecutor
from pathlib import Path

from ports import free_ports

ROOT = Path(__file__).resolve().parent.parent
# How long a command may take, and how long a line that serves until it listens, or has said what it must: bounds for what hangs,
# which nothing comes to on a loaded machine either.
SECONDS, SOON = 600, 120
PAGE = b"a page\n"
# A block of code with the mark above it, or a heading.
PART = re.compile(r"^(?:<!-- (not run|needs): ([^\n]+) -->\n)?```([^`\n]*)\n(.*?)^```$|^#", re.M | re.S)
SERVES = re.compile(r"\bymx (?:remote|local) |-m http\.server |\becho\.py serve$", re.M)
PORT = re.compile(r"((?<=\d:)|(?<=http\.server ))\d+\b")
# How a line of commands begins, where a block forgets to say that it has any.
COMMAND = re.compile(r"^(?:\$ |ymx |\./|c/|release/|tests/|cc |go |cargo |pip )", re.M)


class Block:
    def __init__(self, path, line, mark, word, text):
        self.name = f"{path.relative_to(ROOT)}:{line}"
        self.mark, self.word, self.text, self.lines, self.outputs = mark, word, text, set(text.splitlines()), []


def blocks_of(path):
    """The blocks of commands of a document, each with its outputs."""
    text, found, commands = path.read_text(), [], None
    for part in PART.finditer(text):
        mark, word, language, body = part.groups()
        line = text.count("\n", 0, part.start()) + 1
        if language == "sh":
            commands = Block(path, line, mark, word, body)
            found.append(commands)
        elif language == "" and commands:
            commands.outputs.append(body)
        else:
            commands = None
            if language in ("bash", "shell", "console") or language == "" and COMMAND.search(body):
                sys.exit(f"FAIL  {path.relative_to(ROOT)}:{line}: a block of commands has to be called `sh`")
    return found


# ---- commands that end


@contextlib.contextmanager
def begun(line, folder, said):
    """These words in a shell, and all that they begin, which ends with this."""
    bin = folder / "bin"
    words = {**os.environ, "PATH": f"{bin}:{os.environ['PATH']}"}
    process = subprocess.Popen(["sh", "-e", "-c", line], cwd=folder / "clone", env=words, start_new_session=True,
                               stdin=subprocess.DEVNULL, stdout=said, stderr=subprocess.STDOUT)
    try:
        yield process
    finally:
        with contextlib.suppress(ProcessLookupError):
            os.killpg(process.pid, signal.SIGKILL)
        process.wait()


def printed(line, folder):
    """What these words print until they have ended well."""
    with tempfile.TemporaryFile() as said, begun(line, folder, said) as process:
        try:
            status = process.wait(SECONDS)
        except subprocess.TimeoutExpired:
            status = f"none after {SECONDS} seconds"
        said.seek(0)
        text = said.read().decode()
    assert status == 0, f"status {status} of {line}\n{text}"
    return text


def run(block, folder):
    text = printed(block.text, folder)
    wanted = "".join(f"(?:{re.escape(output)})+" for output in block.outputs)
    assert not wanted or re.fullmatch(wanted, text), f"it prints\n{text}"


# ---- lines that serve


class Page(http.server.BaseHTTPRequestHandler):
    def do_GET(self):
        self.send_response(200)
        self.end_headers()
        self.wfile.write(PAGE)

    def log_message(self, *_):
        pass


def listening():
    """The ports at which somebody of this machine listens."""
    rows = [row.split() for row in Path("/proc/net/tcp").read_text().splitlines()[1:]]
    return {int(row[1].split(":")[1], 16) for row in rows if row[3] == "0A"}


def in_time(holds, text):
    """Waits until this holds."""
    end = time.monotonic() + SOON
    while not holds():
        assert time.monotonic() < end, text()
        time.sleep(0.05)


@contextlib.contextmanager
def service(port):
    """A web server with one page."""
    server = http.server.ThreadingHTTPServer(("127.0.0.1", port), Page)
    threading.Thread(target=server.serve_forever, daemon=True).start()
    try:
        yield
    finally:
        server.shutdown()
        server.server_close()


def as_here(text, ports):
    """The same with the ports and the machine that stand for those that are shown."""
    return PORT.sub(lambda port: ports.get(port.group(), port.group()), text).replace("192.0.2.7", "127.0.0.1")


def but_for_numbers(text, ports):
    """What matches this text with other numbers, but with these ports."""
    return re.sub(r"\d+", lambda number: number.group() if number.group() in ports else r"\d+", re.escape(text))


def serve(block, folder):
    shown = sorted({port.group() for port in PORT.finditer(block.text)})
    ports = dict(zip(shown, map(str, free_ports(len(shown)))))
    text = as_here(block.text, ports)
    targets = [] if "http.server" in text else map(int, set(re.findall(r"--target [\d.]+:(\d+)", text)))
    # What the lines that serve have said, and where somebody has listened.
    said, serving, heard, has_user = [], [], set(), False

    def all_said():
        return "\n".join(file.read_text() for file in said)

    with contextlib.ExitStack() as until_the_end:
        for port in targets:
            until_the_end.enter_context(service(port))
            heard.add(port)
        for line in filter(None, text.splitlines()):
            if not SERVES.search(line):
                page, has_user = printed(line, folder), True
                assert "--listen" not in text or "http.server" in text or page.encode().endswith(PAGE), f"another page comes:\n{page}"
                continue
            file = folder / f"said{len(said)}"
            said.append(file)
            process = until_the_end.enter_context(begun(line, folder, until_the_end.enter_context(file.open("wb"))))
            serving.append(process)
            ours = {int(port.group()) for port in PORT.finditer(line)} - heard
            in_time(lambda: ours <= listening() if ours else heard or all_said(), lambda: f"{line}: nobody listens\n{all_said()}")
            heard |= ours
        if "--listen" in text and not has_user:
            place = re.search(r"--listen (\S+)", text).group(1)
            with urllib.request.urlopen(f"http://{place}/", timeout=SOON) as answer:
                assert answer.read() == PAGE, "another page comes"
        for output in block.outputs:
            wanted = but_for_numbers(as_here(output, ports), ports.values())
            in_time(lambda: any(re.fullmatch(wanted, file.read_text()) for file in said),
                    lambda: f"no line prints\n{as_here(output, ports)}\nbut\n{all_said()}")
        assert all(process.poll() is None for process in serving), f"a line that serves has ended\n{all_said()}"


# ---- all of them


def tried(block):
    """What is wrong with a block, or nothing."""
    with tempfile.TemporaryDirectory() as name:
        folder = Path(name)
        shutil.copytree(sys.argv[1], folder / "clone", ignore=shutil.ignore_patterns("crates"))
        (folder / "clone/crates").symlink_to(Path(sys.argv[1]) / "crates")
        (folder / "bin").mkdir()
        (folder / "bin/ymx").symlink_to(folder / "clone/out/ymx")
        block.text = block.text.replace("$HOME", str(folder / "home"))
        try:
            (serve if SERVES.search(block.text) else run)(block, folder)
        except (AssertionError, OSError) as wrong:
            return str(wrong).replace(name, "..")


def fate(block):
    """Whether it is run, and if not, why."""
    if not block.lines.isdisjoint(sys.argv[2:]):
        return "run before"
    if block.mark == "needs":
        absent = [word for word in block.word.split() if not shutil.which(word)]
        return f"no {absent[0]} (tools/packages.sh)" if absent else "run"
    return block.mark or "run"


def main():
    documents = [ROOT / "README.md", *sorted(ROOT.glob("docs/*.md")), *sorted(ROOT.glob("bindings/*/README.md"))]
    blocks = [block for path in documents for block in blocks_of(path)]
    for line in sys.argv[2:]:
        if sum(line in block.lines for block in blocks) != 1:
            sys.exit(f"FAIL  not just one block has the line {line}")
    fates = Counter(map(fate, blocks))
    wanted = [block for block in blocks if fate(block) == "run"]
    with ThreadPoolExecutor(4) as pool:
        results = list(pool.map(tried, wanted))
    for block, wrong in zip(wanted, results):
        if wrong:
            print(f"FAIL  {block.name}: {wrong}")
    print(f"{fates['run']} blocks of commands were run, {fates['run before']} were run by tests before, {fates['not run']} are marked as not run")
    for why in fates.keys() - {"run", "run before", "not run"}:
        print(f"--    {fates[why]} blocks of commands: left out: {why}")
    failed = sum(wrong is not None for wrong in results)
    print(f"{len(wanted) - failed} passed, {failed} failed")
    return failed > 0


if __name__ == "__main__":
    sys.exit(main())
