#!/usr/bin/env python3
"""lines_to_believe.py MODULE NAME [MODULE NAME ..]: what a reader must believe of a statement.

It takes the definitions named, as `ymx_machine.specs.Promise AllDeliverInOrder`, and all that these name in turn, in the
specs of this repository. It prints each file, how many lines of it are needed, and the names that stand there. Lines are
counted without imports, blank lines and comments. The plain types of the sources (`declared`) and the library are not
counted.
"""
import re
import sys
from pathlib import Path

ROOT = Path(__file__).resolve().parent.parent
WORD = re.compile(r"[^\s(){}\[\],;.=λ→×:]+")
HEAD = re.compile(r"^(?:(?:unfoldable|abbrev|pub|data|record) )*([^\s:]+)(?: .*)? : ")
EQUATION = re.compile(r"^([^\s:]+) ")


def path_of(module):
    """The file of a module, as ymx_model.specs.world.Worlds; none if it is not one of this repository's specs."""
    crate, _, rest = module.partition(".")
    if not rest.startswith("specs.") or rest.startswith("specs.declared."):
        return None
    path = ROOT / "crates" / crate / (rest.replace(".", "/") + ".antt")
    return path if path.exists() else None


class Module:
    """A file of specs: its imports, and the lines of each definition."""

    def __init__(self, name):
        self.name = name
        self.path = path_of(name)
        self.imports = {}
        self.blocks = {}
        self.owners = {}
        current = None
        for line in self.path.read_text().splitlines():
            if not line.strip() or line.lstrip().startswith("--") or line.startswith("pub mod "):
                continue
            if line.startswith("use "):
                self.read_import(line)
                continue
            if not line.startswith((" ", "}", ")", "]")):
                current = self.name_at(line)
            self.blocks.setdefault(current, []).append(line)
            self.own_parts(current, line)

    def read_import(self, line):
        found = re.match(r"use Rattle\.([^{ ]+?)(?:\.\{(.*)\})?(?: as (\S+))?$", line)
        if not found:
            # of another library, which is not counted
            return
        module, names, short = found.groups()
        if names is None:
            self.imports[short or module.rsplit(".", 1)[1]] = (module, None)
            return
        for item in names.split(", "):
            name, _, other = item.partition(" as ")
            self.imports[other or name] = (module, name)

    def name_at(self, line):
        head = HEAD.match(line)
        return head.group(1) if head else EQUATION.match(line).group(1)

    def own_parts(self, current, line):
        """The constructors of a data type lead to the type."""
        if line.startswith("  ") and self.blocks[current][0].startswith(("pub data", "data")):
            part = re.match(r"  (?:pub )?([^\s:]+) :", line)
            if part:
                self.owners[part.group(1)] = current

    def named_in(self, name):
        text = "\n".join(self.blocks[name])
        words = set(WORD.findall(text)) | set(re.findall(r"[^\s(){}\[\],;=:]+", text))
        operators = {word for word in self.imports if word.startswith("◌") and all(part in text for part in word.split("◌") if part)}
        return words | operators


def closure(starts):
    modules, needed, open_ends = {}, {}, list(starts)
    while open_ends:
        module, name = open_ends.pop()
        if path_of(module) is None:
            # a constructor is imported from a module below its file
            upper, _, last = module.rpartition(".")
            if not upper or path_of(upper) is None:
                continue
            module, name = upper, last
        if module not in modules:
            modules[module] = Module(module)
        here = modules[module]
        name = here.owners.get(name, name)
        if name not in here.blocks:
            sys.exit(f"{module} has no {name}")
        if name in needed.setdefault(module, set()):
            continue
        needed[module].add(name)
        for word in here.named_in(name):
            if word in here.blocks or word in here.owners:
                open_ends.append((module, word))
            elif word in here.imports and here.imports[word][1]:
                open_ends.append(here.imports[word])
    return modules, needed


def main(words):
    if not words or len(words) % 2:
        sys.exit(__doc__)
    modules, needed = closure(zip(words[::2], words[1::2]))
    total = 0
    for module in sorted(needed):
        lines = sum(len(modules[module].blocks[name]) for name in needed[module])
        total += lines
        print(f"{lines:5}  {modules[module].path.relative_to(ROOT)}: {', '.join(sorted(needed[module]))}")
    print(f"{total:5}  lines in {len(needed)} files")


main(sys.argv[1:])
