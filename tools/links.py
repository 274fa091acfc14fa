#!/usr/bin/env python3
"""links.py [--root FOLDER]: whether each link of the documents leads somewhere.

The documents are README.md and CHANGELOG.md, those of docs/, and each README.md of bench, tests and bindings. A link with no scheme
must lead to a file or folder of the repository, from the folder of its document. What stands after `#` must be a heading
there, spelt as the usual pages of a repository spell it: in small letters, with `-` for each blank, and without all else
but letters, digits, `-` and `_`; a second heading of the same words has `-1` after it. Code is not read. It prints each
link that leads nowhere, and ends with 'N links, M lead nowhere'.
"""
import re
import sys
from pathlib import Path

ROOT = Path(__file__).resolve().parent.parent
DOCUMENTS = ("README.md", "CHANGELOG.md", "docs/*.md", "bench/README.md", "tests/README.md", "bindings/README.md", "bindings/*/README.md")
LINK = re.compile(r"!?\[(?:[^\[\]]|\[[^\]]*\])*\]\(\s*<?([^)\s>]+)>?(?:\s+\"[^\"]*\")?\s*\)|^\[[^\]]+\]:\s*(\S+)|<(?:a|img)\b[^>]*?\b(?:href|src)=\"([^\"]+)\"")


def prose_of(path):
    """The lines of a document that are no block of code, each with its number."""
    fence = None
    for number, line in enumerate(path.read_text(encoding="utf-8").splitlines(), 1):
        mark = re.match(r"\s*(```+|~~~+)", line)
        if fence:
            fence = None if mark and mark[1].startswith(fence) else fence
        elif mark:
            fence = mark[1]
        else:
            yield number, line


def headings_of(path):
    """The anchors of a document's headings."""
    found = set()
    for _, line in prose_of(path):
        head = re.match(r"#{1,6}\s+(.*?)\s*#*$", line)
        if not head:
            continue
        told = re.sub(r"!?\[([^\]]*)\]\([^)]*\)", r"\1", head[1])
        plain = re.sub(r"[^\w\- ]", "", told.lower()).replace(" ", "-")
        anchor, count = plain, 0
        while anchor in found:
            count += 1
            anchor = f"{plain}-{count}"
        found.add(anchor)
    return found


def links_of(path):
    for number, line in prose_of(path):
        # a link's own text may be code, what stands in code is none
        for found in LINK.finditer(re.sub(r"`[^`]*`", lambda code: "`" * len(code[0]), line)):
            yield number, next(it for it in found.groups() if it)


def fault_of(path, link):
    """What is wrong with a link, or None."""
    if re.match(r"[a-z][a-z0-9+.-]*:|//", link):
        return None
    to, _, anchor = link.partition("#")
    place = (path.parent / to).resolve() if to else path
    if not place.is_relative_to(ROOT):
        return "it leads out of the repository"
    if not place.exists():
        return "there is no such file"
    if anchor and (place.suffix != ".md" or anchor not in headings_of(place)):
        return "there is no such heading"
    return None


def main():
    count, wrong = 0, 0
    for path in (it for pattern in DOCUMENTS for it in sorted(ROOT.glob(pattern))):
        for number, link in links_of(path):
            count += 1
            fault = fault_of(path, link)
            if fault:
                wrong += 1
                print(f"{path.relative_to(ROOT)}:{number}: {link}: {fault}")
    print(f"{count} links, {wrong} lead nowhere")
    return 1 if wrong or not count else 0


if __name__ == "__main__":
    if sys.argv[1:2] == ["--root"] and len(sys.argv) == 3:
        ROOT = Path(sys.argv[2]).resolve()
    elif sys.argv[1:]:
        sys.exit(__doc__)
    sys.exit(main())
