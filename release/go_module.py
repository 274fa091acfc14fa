#!/usr/bin/env python3
"""Packs the Go package as a module, in a folder as Go's own proxies serve them: GOPROXY=file://FOLDER finds it there.

usage: release/go_module.py FOLDER

The module has the files of bindings/go that the repository has. Its version is the library's, and all its times are
SOURCE_DATE_EPOCH, or that of the release's sources, so that the same files give the same bytes.
"""
import json
import os
import subprocess
import sys
import time
import zipfile

TOP = os.path.dirname(os.path.dirname(os.path.realpath(__file__)))
PACKAGE = f"{TOP}/bindings/go"


def said_by(*words):
    return subprocess.run(words, cwd=PACKAGE, stdout=subprocess.PIPE, text=True, check=True).stdout


def main():
    if len(sys.argv) != 2 or sys.argv[1].startswith("-"):
        print(__doc__, end="", file=sys.stderr)
        return 2
    version = f"v{said_by(f'{TOP}/release/version.sh').strip()}"
    when = time.gmtime(int(said_by(f"{TOP}/release/when.sh")))
    with open(f"{PACKAGE}/go.mod", encoding="utf-8") as file:
        words = file.read()
    module = words.split()[1]
    folder = f"{sys.argv[1]}/{module}/@v"
    os.makedirs(folder, exist_ok=True)
    with zipfile.ZipFile(f"{folder}/{version}.zip", "w", zipfile.ZIP_DEFLATED, compresslevel=9) as made:
        for name in sorted(said_by("git", "ls-files", ".").split()):
            entry = zipfile.ZipInfo(f"{module}@{version}/{name}", when[:6])
            entry.compress_type, entry.external_attr = zipfile.ZIP_DEFLATED, 0o644 << 16
            with open(f"{PACKAGE}/{name}", "rb") as file:
                made.writestr(entry, file.read(), compresslevel=9)
    info = json.dumps({"Version": version, "Time": time.strftime("%Y-%m-%dT%H:%M:%SZ", when)})
    for name, text in {"list": f"{version}\n", f"{version}.mod": words, f"{version}.info": info}.items():
        with open(f"{folder}/{name}", "w", encoding="utf-8") as file:
            file.write(text)
    return 0


if __name__ == "__main__":
    sys.exit(main())
