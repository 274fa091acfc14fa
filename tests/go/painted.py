#!/usr/bin/env python3
"""painted.py FOLDER: copies bindings/go to FOLDER, with calls that fill their room of the stack with a pattern before, and look at its
lowest 56 bytes after. Where one has changed, the program ends by a trap: the machine code takes more of the stack than
release/go_code.py has counted. `go test` there, for amd64, tries it. With --small each room is 1,024 bytes smaller than it should be
for the call that takes most, so that the test itself is seen to fail."""
import os
import re
import shutil
import sys

TOP = os.path.dirname(os.path.dirname(os.path.dirname(os.path.realpath(__file__))))
LOOKED_AT = range(0, 56, 8)
CALL = """#define CALL_AT(place, room) LEAQ ·proved+place(SB), AX; MOVQ SP, R12; LEAQ room(SP), SP; ANDQ $~15, SP; \\
	MOVQ AX, R10; MOVQ DI, R11; MOVQ CX, R13; MOVQ R12, DI; MOVQ SP, CX; SUBQ R12, CX; MOVQ $0xA5, AX; CLD; REP; STOSB; \\
	MOVQ R10, AX; MOVQ R11, DI; MOVQ R13, CX; CALL AX; MOVQ R12, SP; MOVQ $0xA5A5A5A5A5A5A5A5, R10; \\
"""


def main():
    *options, folder = sys.argv[1:]
    shutil.copytree(f"{TOP}/bindings/go", folder)
    with open(f"{folder}/calls_amd64.s", encoding="utf-8") as file:
        text = file.read()
    call = CALL + "\t" + " ".join(f"CMPQ R10, {at}(SP); JEQ 2(PC); INT $3;" for at in LOOKED_AT).rstrip(";")
    text, count = re.subn(r"#define CALL_AT.*", lambda _: call, text)
    assert count == 1
    if options == ["--small"]:
        rooms = [int(it) for it in re.findall(r"CALL_AT\(\d+, (\d+)\)", text)]
        text = text.replace(f", {max(rooms)})", f", {max(rooms) - 1024})").replace(f", 0, ${max(rooms)}-", f", 0, ${max(rooms) - 1024}-")
    with open(f"{folder}/calls_amd64.s", "w", encoding="utf-8") as file:
        file.write(text)


main()
