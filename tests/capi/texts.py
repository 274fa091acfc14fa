#!/usr/bin/env python3
"""`texts.py LIBRARY HEADER ERRORS DOCUMENT`: what the library says of refusals and faults has the words of the library's own
Error, a text for each number of ymx.h, and the document names each call of the header."""
import ctypes
import re
import sys

library, header, errors, document = sys.argv[1], *(open(path).read() for path in sys.argv[2:])
calls = ctypes.CDLL(library)
for name in "refusal_text", "error_name", "fault_text", "fault_name":
    call = getattr(calls, "ymx_" + name)
    call.argtypes, call.restype = [ctypes.c_int64], ctypes.c_char_p

door = {}
for name, text in re.findall(r'"([A-Z]\w+): (.*?)"', errors):
    door[re.sub(r"(?<=[a-z])(?=[A-Z])", "_", name).upper()] = text
numbers = re.findall(r"YMX_E_(\w+) = (-\d+)", header)
assert len(numbers) == 15 and "BAD_WINDOW" in door, (numbers, door)
shared = 0
for name, number in numbers:
    text = calls.ymx_refusal_text(int(number)).decode()
    assert text.startswith(name + ": ") and calls.ymx_error_name(int(number)).decode() == name, text
    said = door.get({"NO_MEMORY": "MEMORY"}.get(name, name))
    assert said is None or text == f"{name}: {said}", f"{text!r}, where the library says {said!r}"
    shared += said is not None
assert shared == 12, f"{shared} texts are the library's own"
faults = re.findall(r"YMX_FAULT_\w+ = (\d),? *\/\* (.*?) \(", header)
assert len(faults) == 9, faults
for number, what in faults:
    text = calls.ymx_fault_text(int(number)).decode()
    assert text.startswith(f"B{number}: {what}"), (text, what)
    assert calls.ymx_fault_name(int(number)).decode() == f"B{number}"
for number in 0, 10, -1, 2**63 - 1, -(2**63):
    assert calls.ymx_fault_text(number).startswith(b"UNKNOWN: ")
for number in -17, -(2**63):
    assert calls.ymx_refusal_text(number).startswith(b"UNKNOWN: ")
assert calls.ymx_refusal_text(0).startswith(b"OK: ") and calls.ymx_refusal_text(-12).startswith(b"WAIT: ")
missing = [name for name in re.findall(r"^YMX_API .*?(ymx_\w+)\(", header, re.M) if f"`{name}`" not in document]
assert not missing, f"docs/C.md doesn't name {missing}"
