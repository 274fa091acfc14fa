#!/usr/bin/env python3
"""quotes.py [--root FOLDER]: whether what the documents quote stands in the code, word for word.

What it compares, layout aside:

- in the code blocks of README.md and docs/THEOREMS.md a clause: `function  name { clause }`, or `Type::function`, or
  `requires { clause }`. A function stands at the start of a line or before a name; one without a name has a clause
  without a name. Such a clause must stand at that function.
- there, a definition: an equation `Name words = ..` or a record at the start of a line, with the indented lines after
  it. It must stand in the specs of a crate.
- in README.md and docs/GUIDE.md a block of Rust: its lines must stand so, one after another, in a file of examples/. A
  block of Go in README.md must stand so in the program that bindings/go/README.md shows, which its tests run.
- everywhere in them and in docs/PROVED.md a formula between backticks: it must stand in a clause or a definition.
- in docs/THEOREMS.md the table of the lines that a reader must believe: tools/lines_to_believe.py must count as
  many, and README.md must say the same.
- in docs/PROVED.md the rows of crates: each crate of crates.txt must have one, in that order, and the crate must have
  each name of its row. What stands in brackets there must be a clause, a function, a type, a definition or its field. The
  map docs/crates.svg must have just these crates.
- in the documents of `OF_OURS` a name between backticks: it must stand in the repository.
- in README.md and docs/GUIDE.md the name of the kit: it must be the one that made the release.

A quote may leave out words by `..`, the type of a variable, and the variables at its front. A formula that stands in a
code block outside a quote is a mistake, as nothing would compare it. It prints each quote that isn't in the code, and
what stands there in its place, and ends with 'N quotes, M not in the code'.
"""
import re
import subprocess
import sys
from pathlib import Path

sys.dont_write_bytecode = True
import kit

ROOT = Path(__file__).resolve().parent.parent
WORD = re.compile(r"[(){}\[\],;]|[^\s(){}\[\],;]+")
NAME = r"[A-Za-z_][A-Za-z_0-9']*"
OF_OURS = ("README.md", "docs/THEOREMS.md", "docs/PROVED.md", "docs/ASSURANCE.md", "docs/ARCHITECTURE.md", "docs/WORDS.md")
SIGNS = re.compile(r"[≡≢→×⊎λ∷↔≤<⊥]|\+\+")


def words_of(text):
    return WORD.findall(text)


def closing(text, at):
    """The place after the brace that closes the one at `at`; none if there is none."""
    depth = 0
    for place in range(at, len(text)):
        depth += {"{": 1, "}": -1}.get(text[place], 0)
        if depth == 0:
            return place + 1
    return None


# ---- the code


def clauses_of(path):
    """The clauses of a file: (function, type or none, 'requires' or the name or '', words)."""
    text = re.sub(r"^\s*//.*$", "", path.read_text(), flags=re.M)
    owners = [(m.start(), m.group(1)) for m in re.finditer(rf"^(?:impl|trait|pub trait)\b[^\n{{]*?\b({NAME})(?:<[^\n{{]*>)? *\{{$", text, re.M)]
    functions = [(m.start(), m.group(1), m.group(0)[0].isspace()) for m in re.finditer(rf"^ *(?:pub(?:\([a-z]*\))? )?fn ({NAME})", text, re.M)]
    found = []
    for m in re.finditer(rf"^\s*(ensures|requires)\*?(?: ({NAME}))? \{{", text, re.M):
        end = closing(text, m.end() - 1)
        above = [f for f in functions if f[0] < m.start()]
        if end is None or not above:
            continue
        start, function, inside = above[-1]
        owner = [name for place, name in owners if place < start][-1:] if inside else []
        kind = "requires" if m.group(1) == "requires" else m.group(2) or ""
        found.append((function, owner[0] if owner else None, kind, words_of(text[m.end() : end - 1])))
    return found


def definitions_of(path):
    """The definitions of a file, each as (its first word, its words)."""
    found, current = [], []
    for line in path.read_text().splitlines() + ["end"]:
        if not line.strip() or line.lstrip().startswith("--"):
            continue
        if not line[0].isspace() and current:
            words = plain(" ".join(current))
            found.append((words[1] if words[0] == "record" else words[0], words))
            current = []
        current.append(line)
    return found


def plain(text):
    """The words of a definition, without `pub` and the type of a record."""
    text = re.sub(r"\b(pub|abbrev|unfoldable) ", "", text)
    return words_of(re.sub(r" : Type \d+ where\b", "", text))


class Code:
    def __init__(self):
        self.clauses, self.definitions = {}, {}
        for path in sorted(ROOT.glob("crates/*/src/**/*.rt")):
            for function, owner, kind, words in clauses_of(path):
                self.clauses.setdefault(function, []).append((owner, kind, words))
        for path in sorted(ROOT.glob("crates/*/specs/**/*.antt")):
            for name, words in definitions_of(path):
                self.definitions.setdefault(name, []).append(words)

    def at(self, item, kind):
        """The clauses of this kind at this function."""
        owner, _, function = item.rpartition("::")
        return [words for type_, name, words in self.clauses.get(function, []) if name == kind and owner in ("", type_)]

    def all_words(self):
        for clauses in self.clauses.values():
            yield from (words for _, _, words in clauses)
        for definitions in self.definitions.values():
            yield from definitions


def is_quoted(quote, code):
    """Whether the quote is these words, but for what a quote may leave out."""
    if fits(quote, code, 0, 0):
        return True
    at = 0
    while at < len(code) and code[at] == "(" and (end := behind_group(code, at)) and ":" in code[at:end]:
        at = end
        if at < len(code) and code[at] == "→" and fits(quote, code, 0, at + 1):
            return True
    return False


def behind_group(code, at):
    depth = 0
    for place in range(at, len(code)):
        depth += {"(": 1, ")": -1}.get(code[place], 0)
        if depth == 0:
            return place + 1
    return None


def places_behind(code, at):
    """Where a quote may go on after `..`: what is left out has as many opening brackets as closing ones."""
    depth = 0
    yield at
    for place in range(at, len(code)):
        depth += {"(": 1, ")": -1}.get(code[place], 0)
        if depth < 0:
            return
        if depth == 0:
            yield place + 1


def fits(quote, code, q, c, whole=True):
    """Whether the quote from place q is the code from place c: all of the rest of it, or its beginning."""
    while q < len(quote):
        if quote[q] == "..":
            return any(fits(quote, code, q + 1, place, whole) for place in places_behind(code, c))
        if c >= len(code):
            return False
        if quote[q] == code[c]:
            q, c = q + 1, c + 1
        elif quote[q] == ")" and code[c] == ":":
            # the type of a variable is left out
            depth = 1
            while depth and c < len(code):
                depth += {"(": 1, ")": -1}.get(code[c], 0)
                c += 1
            if depth:
                return False
            q += 1
        else:
            return False
    return c == len(code) or not whole


# ---- the documents


class Document:
    def __init__(self, name):
        self.name, self.lines = name, (ROOT / name).read_text().splitlines()

    def blocks(self):
        """The code blocks: (language, the number of the first line, the lines)."""
        inside = None
        for number, line in enumerate(self.lines, 1):
            if not line.startswith("```"):
                continue
            if inside is None:
                inside = (line[3:].strip(), number + 1)
            else:
                yield inside[0], inside[1], self.lines[inside[1] - 1 : number - 1]
                inside = None

    def marked(self):
        """What stands between backticks, outside the code blocks: (line, text)."""
        inside = False
        for number, line in enumerate(self.lines, 1):
            if line.startswith("```"):
                inside = not inside
            elif not inside:
                yield from ((number, text) for text in re.findall(r"`([^`]*)`", line))


def parts_of(first, lines):
    """A block of quotes: definitions ('definition', line, name, words), clauses ('clause', line, item, kind, words), and
    formulas that stand outside both ('outside', line, text)."""
    at = 0
    while at < len(lines):
        line = lines[at]
        if re.match(rf"(record |{NAME}( [^={{]*)? =( |$))", line):
            end = at + 1
            while end < len(lines) and lines[end].startswith(" "):
                end += 1
            words = plain(" ".join(lines[at:end]))
            yield "definition", first + at, words[1] if words[0] == "record" else words[0], words
            at = end
            continue
        end = at + 1
        while end < len(lines) and (not lines[end].strip() or lines[end].startswith(" ")):
            end += 1
        yield from clauses_in(first + at, "\n".join(lines[at:end]))
        at = end


def clauses_in(first, text):
    item, place = "", 0
    while True:
        brace = text.find("{", place)
        told = text[place : brace if brace >= 0 else len(text)]
        line = first + text.count("\n", 0, place)
        if SIGNS.search(told):
            yield "outside", line + told[: SIGNS.search(told).start()].count("\n"), " ".join(told.split())
        if brace < 0:
            return
        end = closing(text, brace) or len(text)
        if place == 0:
            item = told.split()[0].rstrip(",:")
        names = re.findall(r"[A-Za-z_0-9':]+", told)
        heads = [name for name in names if "::" in name]
        if heads:
            item = heads[-1]
        last = re.search(rf"({NAME}(?:::{NAME})?) *$", told)
        kind = last.group(1) if last else ""
        kind = "" if kind == item else kind
        yield "clause", first + text.count("\n", 0, brace), item, kind, words_of(text[brace + 1 : end - 1])
        place = end


def compare_block(code, name, first, lines):
    """The count of the quotes of a block, and what is wrong with them."""
    count, wrong = 0, []
    for kind, line, *rest in parts_of(first, lines):
        where = f"{name}:{line}"
        if kind == "outside":
            wrong.append(f"{where}: a formula that is no quote: {rest[0]}")
            continue
        count += 1
        if kind == "definition":
            item, words = rest
            there = code.definitions.get(item, [])
        else:
            item, clause, words = rest
            there = code.at(item, clause)
            item = f"{item} {clause}".strip()
        if not any(is_quoted(words, other) for other in there):
            stands = "".join(f"\n    in the code: {' '.join(other)}" for other in there[:3]) or "\n    the code has none"
            wrong.append(f"{where}: {item}\n    quoted:      {' '.join(words)}{stands}")
    return count, wrong


PROGRAMS = {"rust": "examples/**/*.rattle", "go": "bindings/go/README.md"}


def compare_program(name, first, language, lines):
    def joined(text):
        return "\n".join(" ".join(line.split()) for line in text if line.strip())

    wanted = joined(lines)
    if any(wanted in joined(path.read_text().splitlines()) for path in ROOT.glob(PROGRAMS[language])):
        return []
    return [f"{name}:{first}: these lines stand nowhere in {PROGRAMS[language]}: {lines[0].strip()} .."]


def compare_formula(code, name, line, text):
    words = words_of(text)
    for other in code.all_words():
        if any(fits(words, other, 0, at, whole=False) for at in range(len(other)) if other[at] == words[0] or words[0] == ".."):
            return []
    return [f"{name}:{line}: no clause and no definition has: {text}"]


def compare_promise():
    """The README says how many lines one reads to believe the promise: as many as the first row of that table."""
    told = re.search(r"To believe (?:it|the first) you read ([\d,]+) lines", "\n".join(Document("README.md").lines))
    row = re.search(r"^\| `face` \| ([\d,]+) \|", "\n".join(Document("docs/THEOREMS.md").lines), re.M)
    if not told or not row:
        yield "README.md or docs/THEOREMS.md doesn't say any more, in words that this script knows, how many lines one reads to believe the promise"
    elif row.group(1) != told.group(1):
        yield f"README.md: it says {told.group(1)} lines, and docs/THEOREMS.md {row.group(1)}"


def compare_crates():
    """The table of docs/PROVED.md has a row of each crate, in the order of crates.txt, and the map has each."""
    crates = list(kit.listed(ROOT))
    rows = re.findall(r"^\| `(\w+)` \|", (ROOT / "docs/PROVED.md").read_text(), re.M)
    yield from (f"docs/PROVED.md: there is no row of {crate}" for crate in crates if crate not in rows)
    if set(rows) >= set(crates) and rows != crates:
        yield f"docs/PROVED.md: the rows aren't the crates in their order: {' '.join(rows)}"
    drawn = re.findall(r">(ymx_\w+|yamux)</text>", (ROOT / "docs/crates.svg").read_text())
    yield from (f"docs/crates.svg: it has {crate}, and crates.txt hasn't, or the other way round" for crate in set(crates) ^ set(drawn))


def words_in(pattern, *files):
    return {word for glob in files for path in ROOT.glob(glob) if path.is_file() for word in re.findall(pattern, path.read_text(), re.M)}


def compare_proved(code):
    """The names of docs/PROVED.md: those of a row stand in its crate, and those in brackets say what is proved."""
    clauses = {kind for found in code.clauses.values() for _, kind, _ in found} | set(code.definitions)
    clauses |= words_in(rf"\b(?:fn|struct|enum|trait) ({NAME})", "crates/*/src/**/*.rt") | words_in(rf"^ +(?:pub )?({NAME}) :", "crates/*/specs/**/*.antt")
    for number, line in enumerate(Document("docs/PROVED.md").lines, 1):
        for brackets in re.findall(r"\(([^()]*`[^()]*)\)", line):
            yield from (f"docs/PROVED.md:{number}: nothing that is proved is called {name}" for name in re.findall(rf"`({NAME})`", brackets) if name not in clauses)
        row = re.match(r"\| `(\w+)` \|(.*)", line)
        if row:
            words = words_in(NAME, f"crates/{row.group(1)}/src/**/*", f"crates/{row.group(1)}/specs/**/*")
            yield from (f"docs/PROVED.md:{number}: {row.group(1)} has no {name}" for name in re.findall(rf"`({NAME})`", row.group(2)) if name not in words)


def compare_kit():
    made = re.search(r"^kit: (.*)$", (ROOT / "release/RELEASE").read_text(), re.M).group(1)
    for name in ("README.md", "docs/GUIDE.md"):
        for line, text in Document(name).marked():
            if text.startswith("rattle-kit-") and text not in (made, made.split()[0]):
                yield f"{name}:{line}: it names the kit {text}, and release/RELEASE {made}"


def names_of_repository():
    names = set()
    for pattern in ("crates/*/src/**/*.rt", "crates/*/specs/**/*.antt", "crates/*/must-fail/*", "crates.txt", "HANDLES", "ymx", "c/*", "*/*.sh", "*/*/*.sh", "*/*/*.rattle", "*/*.py"):
        for path in filter(Path.is_file, ROOT.glob(pattern)):
            names.update(re.findall(NAME, f"{path.read_text(errors='replace')} {path.relative_to(ROOT)}"))
    return names


def compare_names(known):
    for name in OF_OURS:
        for line, text in Document(name).marked():
            if re.fullmatch(rf"{NAME}((::|\.){NAME})*", text):
                yield from (f"{name}:{line}: the repository has no {word}" for word in re.findall(NAME, text) if word not in known)


def counts_begun():
    """The rows `| what | lines | files | `words` |` that say what lines_to_believe.py counts for these words, each with
    the count, which goes on beside this program."""
    for number, line in enumerate(Document("docs/THEOREMS.md").lines, 1):
        row = re.fullmatch(r"\|.*\| ([\d,]+) \| ([\d,]+) \| `(\w+\.specs\..*)` \|", line)
        if row:
            command = [sys.executable, str(ROOT / "tools/lines_to_believe.py"), *row.group(3).split()]
            counting = subprocess.Popen(command, stdout=subprocess.PIPE, stderr=subprocess.STDOUT, text=True)
            yield number, f"{row.group(1)}  lines in {row.group(2)} files".replace(",", ""), counting


def compare_counts(begun):
    for number, told, counting in begun:
        last = counting.communicate()[0].splitlines()[-1].strip()
        if last != told:
            yield f"docs/THEOREMS.md:{number}: it says {told}, and there are: {last}"


def main():
    begun = list(counts_begun())
    code = Code()
    count, wrong = 0, list(compare_names(names_of_repository()))
    for name in ("README.md", "docs/THEOREMS.md", "docs/GUIDE.md", "docs/PROVED.md"):
        document = Document(name)
        for language, first, lines in document.blocks():
            if language == "":
                more, bad = compare_block(code, name, first, lines)
                count, wrong = count + more, wrong + bad
            elif language in PROGRAMS:
                count, wrong = count + 1, wrong + compare_program(name, first, language, lines)
        for line, text in document.marked():
            if SIGNS.search(text) and " " in text and "<" not in text:
                count, wrong = count + 1, wrong + compare_formula(code, name, line, text)
    wrong.extend([*compare_promise(), *compare_crates(), *compare_proved(code), *compare_kit(), *compare_counts(begun)])
    for text in wrong:
        print(text)
    print(f"{count} quotes, {len(wrong)} not in the code")
    return 1 if wrong else 0


if __name__ == "__main__":
    if sys.argv[1:2] == ["--root"]:
        ROOT = Path(sys.argv[2]).resolve()
    elif sys.argv[1:]:
        sys.exit(__doc__)
    sys.exit(main())
