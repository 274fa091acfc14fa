#!/usr/bin/env python3
"""Packs the binding for Python with the library in it, as a wheel of a platform.

usage: release/wheel.py BINDING LIBRARY PLATFORMS FOLDER

BINDING is the folder of the binding, LIBRARY the file that becomes ymx/libymx.so.0, PLATFORMS the wheel's tags, with a dot
between two. The wheel is written into FOLDER. All its times are SOURCE_DATE_EPOCH.
"""
import base64
import hashlib
import os
import re
import sys
import time
import zipfile

# No file of a zip is older.
EARLIEST = 315_532_800


def facts(binding):
    """What pyproject.toml says of the project, as far as METADATA repeats it. (Python has no parser for it before 3.11.)"""
    with open(f"{binding}/pyproject.toml", encoding="utf-8") as file:
        text = file.read()
    found = dict(re.findall(r'^(name|version|description|requires-python) = "(.*)"$', text, re.M))
    found["classifiers"] = re.findall(r'"([^"]*)"', re.search(r"^classifiers = \[(.*)\]$", text, re.M).group(1))
    return found


def metadata(binding, said):
    lines = ["Metadata-Version: 2.1", f"Name: {said['name']}", f"Version: {said['version']}", f"Summary: {said['description']}"]
    lines += ["License: MIT", f"Requires-Python: {said['requires-python']}"]
    lines += [*(f"Classifier: {it}" for it in said["classifiers"]), "Description-Content-Type: text/markdown"]
    with open(f"{binding}/README.md", encoding="utf-8") as file:
        return "\n".join([*lines, "", file.read()])


def parts(binding, library, platforms, said):
    """The files of the wheel, but for the list of them: the name of each, and its bytes."""
    for name in sorted(os.listdir(f"{binding}/src/ymx")):
        if name.endswith((".py", ".typed")):
            with open(f"{binding}/src/ymx/{name}", "rb") as file:
                yield f"ymx/{name}", file.read()
    with open(library, "rb") as file:
        yield "ymx/libymx.so.0", file.read()
    folder = f"{said['name']}-{said['version']}.dist-info"
    with open(f"{binding}/LICENSE", "rb") as file:
        yield f"{folder}/LICENSE", file.read()
    yield f"{folder}/METADATA", metadata(binding, said).encode()
    tags = "".join(f"Tag: py3-none-{it}\n" for it in platforms.split("."))
    yield f"{folder}/WHEEL", f"Wheel-Version: 1.0\nGenerator: release/wheel.py\nRoot-Is-Purelib: false\n{tags}".encode()


def main(binding, library, platforms, to):
    said = facts(binding)
    when = time.gmtime(max(EARLIEST, int(os.environ["SOURCE_DATE_EPOCH"])))[:6]
    name, record = f"{to}/{said['name']}-{said['version']}-py3-none-{platforms}.whl", ""
    with zipfile.ZipFile(name, "w", zipfile.ZIP_DEFLATED) as wheel:

        def put(file, data):
            entry = zipfile.ZipInfo(file, when)
            entry.compress_type = zipfile.ZIP_DEFLATED
            entry.external_attr = (0o755 if file.endswith(".so.0") else 0o644) << 16
            wheel.writestr(entry, data)

        for file, data in parts(binding, library, platforms, said):
            put(file, data)
            total = base64.urlsafe_b64encode(hashlib.sha256(data).digest()).rstrip(b"=").decode()
            record += f"{file},sha256={total},{len(data)}\n"
        place = f"{said['name']}-{said['version']}.dist-info/RECORD"
        put(place, f"{record}{place},,\n".encode())


if __name__ == "__main__":
    if len(sys.argv) != 5:
        print(__doc__, end="", file=sys.stderr)
        sys.exit(2)
    main(*sys.argv[1:])
