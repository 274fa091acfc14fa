#!/usr/bin/env python3
"""requests.py: which sources ask for memory without a bound.

Two functions of `ymx_memory` take a count of any size, `zeros_as_asked` and `resize_as_asked`, for a count that a user's own
argument names. Whoever else called them could be refused at will. The calls that there are stand below. It prints any
other, and ends with 'N calls, M unknown'.
"""
import re
import sys
from pathlib import Path

CRATES = Path(__file__).resolve().parent.parent / "crates"
# a read and an emission of a world: the step says how many bytes
KNOWN = {
    ("ymx_world/src/calls.rt", "let mut buffer = ymx_memory::zeros_as_asked(alloc, size_of(call))?;"),
    ("ymx_world/src/pipe.rt", "ymx_memory::resize_as_asked(buffer, length)?;"),
}


def main():
    found = set()
    for path in sorted(CRATES.glob("*/src/**/*.rt")):
        file = str(path.relative_to(CRATES))
        if file.startswith("ymx_memory/"):
            continue
        for line in path.read_text(encoding="utf-8").splitlines():
            if re.search(r"\b\w+_as_asked\b", line.split("//")[0]):
                found.add((file, line.strip()))
    for file, line in sorted(found ^ KNOWN):
        print(f"crates/{file}: {'a request without a bound' if (file, line) in found else 'no such call any more'}: {line}")
    print(f"{len(found)} calls, {len(found ^ KNOWN)} unknown")
    return 1 if found != KNOWN else 0


if __name__ == "__main__":
    sys.exit(main())
