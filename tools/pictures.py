#!/usr/bin/env python3
"""pictures.py [--same]: draws docs/terminal.svg and docs/stream.svg from what the program really prints.

- The terminal: `ymx frames`, and a page that comes through the tunnel, with -v at both ends. The ports that are shown
  stand for free ones.
- The stream: the frames of one stream, as `ymx script` puts them onto the pipes.

With --same it draws nothing: it fails where a picture is another one, but for the ports that the system chose and how many
bytes the page and its request have. The program is ./ymx, or the one whose path YMX has.
"""
import contextlib
import os
import re
import subprocess
import sys
import tempfile
import time
from html import escape
from pathlib import Path

sys.dont_write_bytecode = True
ROOT = Path(__file__).resolve().parent.parent
sys.path.append(str(ROOT / "tests"))
from ports import free_ports

YMX = os.environ.get("YMX", str(ROOT / "ymx"))
SECONDS = 120
INK, LINE, PAPER = "#1f2d3a", "#33475b", "#c8d2dc"


def picture(width, height, alt, lines):
    head = (
        f'<svg xmlns="http://www.w3.org/2000/svg" viewBox="0 0 {width} {height}" font-family="sans-serif" font-size="13" fill="{INK}" role="img" aria-label="{alt}">',
        f'  <rect x="0.5" y="0.5" width="{width - 1}" height="{height - 1}" rx="8" fill="#ffffff" stroke="{PAPER}"/>',
    )
    return "\n".join([*head, *lines, "</svg>", ""])


# ---- the terminal

SERVICE, FRAMES = "python3 -m http.server 8000 --bind 127.0.0.1", "./ymx frames examples/hello.yamux"
REMOTE = "./ymx remote --bind 127.0.0.1:4000 --target 127.0.0.1:8000 -v"
LOCAL = "./ymx local --listen 127.0.0.1:8080 --peer 127.0.0.1:4000 -v"
USER = "curl -s http://127.0.0.1:8080/LICENSE | head -n 1"


@contextlib.contextmanager
def begun(line):
    """These words in a shell until this ends, and a call that waits until they have said a text, and gives all."""
    with tempfile.NamedTemporaryFile("r") as said:
        words = line.replace("./ymx", f"exec {YMX}").replace("python3", "exec python3 -u")
        process = subprocess.Popen(["sh", "-c", words], cwd=ROOT, stdin=subprocess.DEVNULL, stdout=said.fileno(), stderr=subprocess.STDOUT)

        def has_said(text):
            end = time.monotonic() + SECONDS
            while text not in (so_far := Path(said.name).read_text()):
                if time.monotonic() > end:
                    sys.exit(f"{line}: it has not said '{text}', but '{so_far}'")
                time.sleep(0.05)
            return so_far.splitlines()

        try:
            yield has_said
        finally:
            process.kill()
            process.wait()


def printed(line):
    return subprocess.run(["sh", "-c", line.replace("./ymx", YMX)], cwd=ROOT, stdin=subprocess.DEVNULL,
                          stdout=subprocess.PIPE, text=True, timeout=SECONDS, check=True).stdout.splitlines()


def screens():
    """What each terminal shows: its title, the command, and the lines after it."""
    ports = dict(zip(("8000", "4000", "8080"), map(str, free_ports(3))))

    def here(line):
        return re.sub(r"\b(8000|4000|8080)\b", lambda port: ports[port.group()], line)

    def shown(lines):
        for port, real in ports.items():
            lines = [line.replace(f":{real}", f":{port}") for line in lines]
        return lines

    frames = printed(FRAMES)
    with begun(here(SERVICE)) as service:
        service("Serving HTTP")
        with begun(here(REMOTE)) as remote:
            remote("listening at")
            with begun(here(LOCAL)) as local:
                local("listening at")
                page = printed(here(USER))
                told = " s\n"
                at_local, at_remote = local(told), remote(told)
    yield "the frames of a file", FRAMES, frames
    yield "beside the service, a web server at 127.0.0.1:8000", REMOTE, shown(at_remote)
    yield "beside the users", LOCAL, shown(at_local)
    yield "a user", USER, page


def terminal():
    width, left, step, y = 920, 16, 17, 14
    lines = []
    for title, command, told in screens():
        lines.append(f'  <text x="{left}" y="{y + 12}">{title}</text>')
        y += 20
        high = step * (1 + len(told)) + 14
        lines.append(f'  <rect x="{left}" y="{y}" width="{width - 2 * left}" height="{high}" rx="5" fill="#16202b"/>')
        lines.append(f'  <g font-family="monospace" font-size="12" fill="#dbe3ea" transform="translate({left + 10} {y + 19})" xml:space="preserve">')
        lines.append(f'    <text><tspan fill="#8fb4dd">$ </tspan>{escape(command)}</text>')
        lines += [f'    <text y="{step * at}">{escape(line)}</text>' for at, line in enumerate(told, 1)]
        lines.append("  </g>")
        y += high + 14
    return picture(width, y, "Terminals that show ymx frames, and a page that comes through the tunnel", lines)


# ---- one stream

# What each side calls, as a line of a script, and in words. A frame goes to the other side as soon as it is due.
CALLS = (
    ("A open", "opens the stream"),
    ("A write 1 68656c6c6f", "writes 5 bytes"),
    ("B accept", "accepts it"),
    ("B read 1 5", "reads 5 bytes"),
    ("A fill 1 131067", "writes 131,067 more"),
    ("B skip 1 131067", "reads them: half a window now"),
    ("B write 1 776f726c64", "writes 5 bytes"),
    ("A read 1 5", "reads 5 bytes"),
    ("A finish 1", "finishes: no more from here"),
    ("B read 1 1", "reads the end"),
    ("B finish 1", "finishes"),
    ("A read 1 1", "reads the end"),
)
KINDS, FLAGS = ("Data", "Window Update"), {1: "SYN", 2: "ACK", 4: "FIN"}
# The longest frame is a header and 16,384 bytes; no call here makes more than ten frames due.
LONGEST, MOST = 12 + 16_384, 10


def frames_of(calls):
    """For each call the frames that its side then sends: kind, flags and length."""
    script = []
    for call, _ in calls:
        side = call[0]
        way = "AB" if side == "A" else "BA"
        script += [call, *[f"emit {side} {LONGEST}", f"show {way}", f"deliver {way} {LONGEST}"] * MOST]
    answers = iter(subprocess.run([YMX, "script"], input="\n".join(script), stdout=subprocess.PIPE, text=True,
                                  timeout=SECONDS, check=True).stdout.splitlines())
    for call, words in calls:
        answer = next(answers)
        if re.match("refused|wait|error", answer):
            sys.exit(f"{call}: {answer}")
        sent = []
        for _ in range(MOST):
            emitted, header, _ = next(answers), next(answers), next(answers)
            if emitted != "emitted 0":
                frame = bytes.fromhex(header.split()[2].rstrip("."))
                sent.append((KINDS[frame[1]], int.from_bytes(frame[2:4], "big"), int.from_bytes(frame[8:12], "big")))
        yield call[0], words, sent


def label_of(sent):
    """These frames in words: all of one kind, and none or each of them Data."""
    kind, flags, length = sent[0]
    names = [name for bit, name in FLAGS.items() if flags & bit]
    if kind == "Data":
        count = f"{len(sent)} frames of " if len(sent) > 1 else ""
        return f"{count}Data: {sum(length for _, _, length in sent):,} bytes"
    return f"{kind}, {names[0] if names else f'delta {length:,}'}"


def stream():
    width, left, right, y = 800, 230, 570, 84
    lines = []
    for side, words, sent in frames_of(CALLS):
        x, anchor = (left - 14, "end") if side == "A" else (right + 14, "start")
        lines.append(f'  <text x="{x}" y="{y + 4}" text-anchor="{anchor}">{words}</text>')
        if sent:
            start, end = (left, right) if side == "A" else (right, left)
            way = 1 if end > start else -1
            lines.append(f'  <path d="M{start} {y} L{end - 9 * way} {y + 14}" stroke="{LINE}" stroke-width="1.5"/>')
            lines.append(f'  <path d="M{end} {y + 14} l{-10 * way} -5 v10 Z" fill="{LINE}"/>')
            lines.append(f'  <text x="{(left + right) // 2}" y="{y - 2}" text-anchor="middle" font-weight="bold">{label_of(sent)}</text>')
            y += 14
        y += 24
    for x, name in ((left, "client"), (right, "server")):
        lines.insert(0, f'  <path d="M{x} 56 V{y}" stroke="{LINE}" stroke-width="1.5" stroke-dasharray="4 3"/>')
        lines.append(f'  <rect x="{x - 60}" y="24" width="120" height="32" rx="5" fill="#eef3f8" stroke="{LINE}" stroke-width="1.5"/>')
        lines.append(f'  <text x="{x}" y="45" text-anchor="middle" font-weight="bold">{name}</text>')
    return picture(width, y + 20, "The frames of one stream, from its SYN to the FIN of each side", lines)


def without_numbers(text):
    """The same, but for what differs from run to run: the numbers in a line about a connection."""
    return re.sub(r"connection 1 from .*", lambda line: re.sub(r"\d+", "N", line.group()), text)


def main(words):
    if words not in ([], ["--same"]):
        sys.exit(__doc__)
    wrong = 0
    for path, drawn in ((ROOT / "docs/terminal.svg", terminal()), (ROOT / "docs/stream.svg", stream())):
        if not words:
            path.write_text(drawn)
        elif not path.exists() or without_numbers(path.read_text()) != without_numbers(drawn):
            wrong += 1
            print(f"docs/{path.name} is not what tools/pictures.py draws: run it again")
    print(f"2 pictures, {wrong} of something else")
    return wrong > 0


if __name__ == "__main__":
    sys.exit(main(sys.argv[1:]))
