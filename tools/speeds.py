#!/usr/bin/env python3
"""speeds.py [--same | --take FILE DAY MACHINE]: draws docs/speeds.svg from the table of bench/README.md.

It takes the rows `tunnel, ..: ymx; Go's yamux; ..`, which may have more that are compared, such as `ssh -L`, and the day
and the machine that the page tells of them; and below them the rows `latency, ..: ymx; Go's yamux; ..`, of which a lower
figure is better. Each row has a scale of its own: its longest bar is its highest figure.
With --same it draws nothing: it fails if the picture is another one, or if what README.md says of the tunnel's
speed isn't what bench/README.md says.
With --take it first writes the figures of one run into both pages. FILE has what `bench/tunnel.sh 3` and
`bench/latency.sh 3` printed, one after the other. DAY and MACHINE are told as today: '26 November 2026', 'four cores of an
Intel Xeon at 2.5 GHz'.
"""
import re
import sys
from pathlib import Path

ROOT = Path(__file__).resolve().parent.parent
PICTURE = ROOT / "docs/speeds.svg"
COLOURS = {"ymx": "#2b6cb0", "Go's yamux": "#d69e4a", "ssh -L": "#8a6fb0", "haproxy": "#5f9e7e"}
PLAIN = "#a3aebb"
LEFT, LONGEST, BAR, WIDTH = 110, 430, 13, 640


def rows_of(page, kind="tunnel"):
    """(what is measured, the unit, [(who, the figure as it is written)]) for each row of this kind that compares."""
    rows = []
    for line in page.splitlines():
        row = re.fullmatch(rf"\| {kind}, (.*): (ymx; Go's yamux; .*) \| (.*) \|", line)
        if row:
            what, who, told = row.groups()
            figures = re.findall(r"\d[\d,]*", told)[: len(who.split("; "))]
            unit = told[told.rindex(figures[-1]) + len(figures[-1]) :].strip()
            rows.append((what, unit, list(zip(who.split("; "), figures))))
    return rows


def latencies_of(page):
    return rows_of(page, "latency")


def taken_at(page):
    """How many runs the figures are medians of, on which day, and on what machine."""
    told = re.search(r"The tunnel's figures are medians of (\w+) runs on ([^,]*), on a virtual machine with ([^,]*? GHz)", page)
    if told is None:
        sys.exit("bench/README.md doesn't say any more when the tunnel's figures were taken, in words that this script knows")
    return told.groups()


def bars(y, what, unit, pairs):
    """The lines of one row, and where the next begins."""
    most = max(int(figure.replace(",", "")) for _, figure in pairs)
    lines = [f'  <text x="{LEFT}" y="{y}" font-weight="bold">{what} ({unit})</text>']
    y += 6
    for who, figure in pairs:
        long = LONGEST * int(figure.replace(",", "")) // most
        lines.append(f'  <rect x="{LEFT}" y="{y}" width="{long}" height="{BAR - 2}" fill="{COLOURS.get(who, PLAIN)}"/>')
        lines.append(f'  <text x="{LEFT - 6}" y="{y + BAR - 4}" text-anchor="end">{who}</text>')
        lines.append(f'  <text x="{LEFT + long + 5}" y="{y + BAR - 4}">{figure}</text>')
        y += BAR
    return lines, y + 18


def picture_of(page):
    runs, day, machine = taken_at(page)
    lines, y = [], 80
    for what, unit, pairs in rows_of(page):
        more, y = bars(y, what, unit, pairs)
        lines += more
    if latencies_of(page):
        lines.append(f'  <text x="{LEFT}" y="{y + 10}">64 bytes there and back, beside downloads over a slow line. A shorter bar is better.</text>')
        y += 36
    for what, unit, pairs in latencies_of(page):
        more, y = bars(y, what, unit, pairs)
        lines += more
    head = [
        f'<svg xmlns="http://www.w3.org/2000/svg" viewBox="0 0 {WIDTH} {y}" font-family="sans-serif" font-size="11" fill="#1f2d3a" role="img" '
        'aria-label="Speeds of ymx and of others, as bars; bench/README.md has the figures">',
        f'  <rect x="0.5" y="0.5" width="{WIDTH - 1}" height="{y - 1}" rx="8" fill="#ffffff" stroke="#c8d2dc"/>',
        f'  <text x="{LEFT}" y="22">Through the tunnel. A longer bar is faster. Each group of bars has its own scale.</text>',
        f'  <text x="{LEFT}" y="38">Medians of {runs} runs on {day},</text>',
        f'  <text x="{LEFT}" y="54">on a virtual machine with {machine}.</text>',
    ]
    return "\n".join([*head, *lines, "</svg>", ""])


# How README.md names them in a sentence, which begins and ends so.
THROUGH = {"ymx": "through ymx", "Go's yamux": "through Go's yamux", "ssh -L": "through `ssh -L`", "haproxy": "through haproxy", "plain copying": "by plain copying", "plain TCP": "without a tunnel"}
SPEED = re.compile(r"1 GiB goes through ymx [^\n]*? without a tunnel\.")


def joined(told):
    *all, last = told
    return f"{', '.join(all)}, and {last}"


def sentences(page):
    """What README.md has to say of the tunnel's speed."""
    rows = {what: pairs for what, _, pairs in rows_of(page) + latencies_of(page)}
    moved, slow = rows["1 connection of 1 GiB"], rows["8 downloads over 10 Mbit/s and 50 ms"]
    runs, day, machine = taken_at(page)
    quick = re.search(r"^\| nothing \| (.*) ms \|$", page, re.M).group(1).split(" ms | ")
    return (
        f"1 GiB goes {joined(f'{THROUGH[who]} at {figure} MB/s' for who, figure in moved)}. In the same order, 64 bytes there and back "
        f"take {', '.join(quick[:-1])} and {quick[-1]} ms. These are medians of {runs} runs on {day}, on {machine}. Beside eight downloads "
        f"over a line of 10 Mbit/s and 50 ms, 64 bytes take {joined(f'{figure} ms {THROUGH[who]}' for who, figure in slow)}."
    )


def strange_figures(page):
    """What README.md says of the tunnel's speed, if it isn't what the page says."""
    told = SPEED.search((ROOT / "README.md").read_text())
    if told is None:
        yield "README.md doesn't tell the tunnel's speed in words that this script knows"
    elif told.group() != sentences(page):
        yield f"README.md says\n{told.group()}\nand bench/README.md\n{sentences(page)}"


def take(file, day, machine):
    """Writes the lines that the scripts printed, and the day and the machine, into both pages."""
    page, printed = (ROOT / "bench/README.md").read_text(), Path(file).read_text()
    for row in re.findall(r"^\| (?:tunnel,|latency,|the same with `local --links) .*$", printed, re.M):
        name = re.escape(re.split(r": ymx| \| ", row)[0])
        page, found = re.subn(rf"^{name}(?:: ymx| \| ).*$", lambda _: row, page, flags=re.M)
        if not found:
            sys.exit(f"bench/README.md has no row {name}")
    for table in re.findall(r"^\| (?:Connections|Beside) \|.*\n(?:\|.*\n)+", printed, re.M):
        head = table.split(" |")[0]
        page = re.sub(rf"^{re.escape(head)} \|.*\n(?:\|.*\n)+", lambda _: table, page, flags=re.M)
    runs = re.search(r"medians of (\d+)", printed).group(1)
    told = f"are medians of { {'3': 'three', '5': 'five'}.get(runs, runs)} runs on {day}, on a virtual machine with {machine}"
    page = re.sub(r"(The tunnel's figures) are medians of [^\n]*? GHz", rf"\1 {told}", page)
    page = re.sub(r"(The latencies) are medians of [^\n]*?: 64 bytes", rf"\1 {told}: 64 bytes", page)
    print("now read what bench/README.md says below its tables: some of it is of earlier runs")
    (ROOT / "bench/README.md").write_text(page)
    readme = (ROOT / "README.md").read_text()
    (ROOT / "README.md").write_text(SPEED.sub(lambda _: sentences(page), readme))


def main(words):
    page = (ROOT / "bench/README.md").read_text()
    if words == ["--same"]:
        wrong = list(strange_figures(page))
        if not PICTURE.exists() or PICTURE.read_text() != picture_of(page):
            wrong.append("docs/speeds.svg is not what tools/speeds.py draws: run it again")
        print("\n".join(wrong) or f"{len(rows_of(page) + latencies_of(page))} rows, as in bench/README.md")
        return 1 if wrong else 0
    if words[:1] == ["--take"] and len(words) == 4:
        take(*words[1:])
        page = (ROOT / "bench/README.md").read_text()
    elif words:
        sys.exit(__doc__)
    PICTURE.write_text(picture_of(page))
    return 0


if __name__ == "__main__":
    sys.exit(main(sys.argv[1:]))
