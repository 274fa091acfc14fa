"""Tries the wrong statements of tests/refused: see refused.sh."""
import os
import re
import subprocess
import sys
import tempfile

TOP = os.path.dirname(os.path.dirname(os.path.realpath(__file__)))
sys.dont_write_bytecode = True
sys.path.insert(0, f"{TOP}/tools")
import kit

# The crate that the statements are about: what it exports is all that they name of it.
ABOUT = "ymx_headline"
# What the check says of a statement for which it found values at which it is false.
UNTRUE = re.compile(r"proofs/Wrong\.antt:\d+:\d+: error: `(\S+)`: `grind`: the goal does not follow\b")


def library(name):
    return f"{TOP}/crates/{name}/out/rlib"


def check(file):
    """The file, what the check says of an empty program with it among its proofs, and the check's status."""
    with open(f"{TOP}/tests/refused/{file}", encoding="utf-8") as it:
        wrong = it.read()
    crates = kit.listed()
    crates["wrong"] = [ABOUT, *crates[ABOUT]]
    texts = {"src/main.rt": "#![tactic(auto)]\n\nfn main() {}\n", "proofs/Lib.antt": "pub mod Wrong\n", "proofs/Wrong.antt": wrong}
    with tempfile.TemporaryDirectory(prefix="refused-") as room:
        for path, text in texts.items():
            os.makedirs(os.path.dirname(f"{room}/{path}"), exist_ok=True)
            with open(f"{room}/{path}", "w", encoding="utf-8") as it:
                it.write(text)
        words = kit.Kit().proving("check", "wrong", crates, library, 1)
        how = {"cwd": room, "stdin": subprocess.DEVNULL, "stdout": subprocess.PIPE, "stderr": subprocess.STDOUT, "errors": "replace"}
        ran = subprocess.run(words, **how)
    return wrong, ran.stdout, ran.returncode


def main():
    lacking = [it for it in (*kit.below(kit.listed(), ABOUT), ABOUT) if not os.path.isdir(f"{library(it)}/{it}.rlib")]
    if lacking:
        print(f"there is no library of {lacking[0]}: `rt ci` leaves it, and so does `rt lib` in crates/{ABOUT}")
        return 1
    wrong, said, status = check("headline.txt")
    untrue = len(re.findall(r"(?m)^(?:pub )?not-\S+ :", wrong))
    if status:
        print(f"tests/refused/headline.txt isn't proved:\n{said[-2000:]}")
        return 1
    print(f"ok    headline.txt: {untrue} lemmas, each of which proves a wrong statement false")
    wrong, said, status = check("stream_law.txt")
    names = re.findall(r"(?m)^(wrong-\S+) :", wrong)
    passed = [it for it in names if it not in UNTRUE.findall(said)]
    if status != 1 or passed:
        print(f"these statements are proved, or were not tried: {passed or names}\n{said[-2000:]}")
        return 1
    other = [it for it in said.split("\n") if ": error" in it and not UNTRUE.search(it)]
    if other:
        print("tests/refused/stream_law.txt has another mistake:", *other, sep="\n")
        return 1
    print(f"ok    stream_law.txt: {len(names)} statements, each refused")
    return 0


if __name__ == "__main__":
    sys.exit(main())
