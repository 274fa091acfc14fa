"""Tries wrong bodies over kept work: see wrong_bodies.sh."""
import os
import re
import shutil
import sys
import tempfile
import threading
from concurrent.futures import ThreadPoolExecutor

TOP = os.path.dirname(os.path.dirname(os.path.realpath(__file__)))
sys.dont_write_bytecode = True
sys.path.insert(0, f"{TOP}/tools")
import kit


def edits_of(folder):
    wrong = f"{folder}/{shelf}"
    names = sorted(os.listdir(wrong)) if os.path.isdir(wrong) else []
    return [f"{wrong}/{it}" for it in names if it.endswith(".edit")]


# ---- edits that can be tried together: each in the body of another function

HEAD = re.compile(r'^([ \t]*)(?:pub(?:\([a-z]+\))? )?(?:const )?(?:unsafe )?(?:extern "C" )?fn (\w+)', re.M)
NAMES = re.compile(r"(?:note: )?(?:\./)?proofs/.*(has no field|is not in scope|has no `|was not admitted)")


class Change:
    """What an edit changes: a part of one source file, and the function in whose body that part lies."""

    def __init__(self, crate, edit):
        self.edit, self.function = edit, None
        texts, why = rt.read_edit(edit, crate.folder)
        if why or len(texts) != 1:
            return
        self.path, new = next(iter(texts.items()))
        with open(f"{crate.folder}/{self.path}", encoding="utf-8") as it:
            old = it.read()
        same = len(os.path.commonprefix([old, new]))
        tail = len(os.path.commonprefix([old[same:][::-1], new[same:][::-1]]))
        self.at, self.end, self.text = same, len(old) - tail, new[same : len(new) - tail]
        self.function = function_at(old, self.at, self.end)


def functions_of(text):
    """The functions of a source that have a body: the name, and where the body begins and ends."""
    for head in HEAD.finditer(text):
        opens = re.compile(r"\{$", re.M).search(text, head.end())
        closes = opens and re.compile(rf"^{head[1]}\}}$", re.M).search(text, opens.end())
        following = HEAD.search(text, head.end())
        # one that begins before is the sign of a declaration, which has no body
        if closes and not (following and following.start() < opens.start()):
            yield head[2], opens.end(), closes.start()


def function_at(text, at, end):
    """The name of the function in whose body this part of a source lies, or None."""
    return next((name for name, opens, closes in functions_of(text) if opens <= at and end <= closes), None)


def together(crate, changes):
    """The crate's sources with all these changes."""
    texts = {}
    for it in sorted(changes, key=lambda it: -it.at):
        if it.path not in texts:
            with open(f"{crate.folder}/{it.path}", encoding="utf-8") as file:
                texts[it.path] = file.read()
        texts[it.path] = texts[it.path][: it.at] + it.text + texts[it.path][it.end :]
    return texts


def batches_of(changes):
    """The changes in as few batches as may be: in a batch each is in a function of another name."""
    batches = []
    for it in changes:
        batch = next((batch for batch in batches if all(other.function != it.function for other in batch)), None)
        if batch is None:
            batches.append([it])
        else:
            batch.append(it)
    return batches


def is_refused(words, own):
    """Whether the prover refuses a function for what its own body does, by these words of it and these errors in its own proofs.
    One that calls another which isn't proved has its goals tried too, and is refused where one of them is open."""
    if "`search` did not prove" in words or any(not NAMES.match(line) for line in own):
        return True
    return not own and "it calls `" not in words and "borrow checker" not in words


def judged(crate, batch, kept):
    """Tries a batch at once, and returns the changes whose own function the prover refused, each with what it said.

    A change is left out where its function is proved, where only another that it calls isn't, and where only a proof file
    that names what the edit took away refuses it.
    """
    ran = rt.checked(crate, together(crate, batch), ["--jobs", "1"], kept)
    lines = ran.stdout.rstrip("\n").split("\n")
    if ran.returncode != 1 or not lines[-1].startswith("logic=not-proved") or rt.rtlib.STALE.search(ran.stdout):
        if len(batch) == 1:
            return []
        half = len(batch) // 2
        return judged(crate, batch[:half], kept) + judged(crate, batch[half:], kept)
    unproved, found = re.findall(r"^fn (?:\S+::)?(\w+): ((?:no proof|not proved).*)$", ran.stdout, re.M), []
    for it in batch:
        own = [line for line in lines if re.search(rf"proofs/(\S+/)?{it.function}/", line) and ": error" in line]
        words = next((words for name, words in unproved if name == it.function and is_refused(words, own)), None)
        if words:
            found.append((it, words))
    return found


def one_job(crate):
    """A library's own words for a check, which say nothing."""
    crate.out = open(os.devnull, "w", encoding="utf-8")
    return ["--jobs", "1"]


def keep(crate):
    """Proves the crate over the work that out/ keeps, and returns a copy of that work, which the edits may change."""
    flags = one_job(crate)
    words = [*crate.words(flags), *rt.rtlib.KEPT]
    os.makedirs(f"{crate.folder}/out", exist_ok=True)
    if crate.call(rt.rtlib.RATTLE, "check", *words):
        return None
    kept = tempfile.mkdtemp(prefix="wrong-bodies-")
    shutil.copytree(f"{crate.folder}/out/incremental", kept, dirs_exist_ok=True)
    return kept


def try_crate(crate):
    """How many of the crate's wrong bodies the prover refuses."""
    kept = keep(crate)
    if kept is None:
        tell(f"{crate.name} isn't proved as it stands")
        return 0
    try:
        refused, left = 0, edits_of(crate.folder)
        for batch in batches_of([it for it in (Change(crate, edit) for edit in left) if it.function]):
            for it, words in judged(crate, batch, kept):
                tell(f"{crate.name}/{os.path.basename(it.edit)}: refused, as it must be: {words[:160]}")
                left.remove(it.edit)
                refused += 1
        # what was not refused so is tried by itself
        for edit in left:
            outcome, text = rt.must_fail(crate, edit, ["--jobs", "1"], kept)
            tell(text.replace("must-fail ", "", 1))
            # one kit answers whether it was refused, another has a word for it
            refused += outcome == getattr(rt, "REFUSED", True)
        # what was kept has to be good still: else a refusal would say nothing
        if rt.checked(crate, {}, ["--jobs", "1"], kept).returncode:
            tell(f"{crate.name}: the kept work was spoilt by an edit, so its refusals don't count")
            return 0
        return refused
    finally:
        shutil.rmtree(kept, ignore_errors=True)


def tell(text):
    with printing:
        print(text, flush=True)


def fit():
    """Whether each edit still fits its crate's sources. Nothing is proved."""
    global shelf
    count, wrong = 0, 0
    for shelf in "must-fail", "wrong":
        for crate in rt.rtlib.crates_below(TOP):
            for edit in edits_of(crate.folder):
                _, why = rt.read_edit(edit, crate.folder)
                count += 1
                if why:
                    wrong += 1
                    tell(f"{os.path.relpath(edit, TOP)}: {why}")
    print(f"{count} edits, {wrong} of which don't fit the sources")
    return 1 if wrong else 0


def main(names):
    global shelf
    if names == ["--fit"]:
        return fit()
    if names[:1] == ["--gate"]:
        shelf, names = "must-fail", names[1:]
    crates = [it for it in rt.rtlib.crates_below(TOP) if edits_of(it.folder) and (not names or it.name in names)]
    unknown = set(names) - {it.name for it in crates}
    if unknown:
        print(f"no folder crates/{sorted(unknown)[0]}/{shelf}", file=sys.stderr)
        return 2
    # the libraries first, as the edits of several crates stand on the same ones
    for crate in crates:
        for below in crate.below():
            if below.build_rlib(one_job(below), anew=False):
                tell(f"{below.name} isn't proved as it stands")
                return 1
    wanted = sum(len(edits_of(it.folder)) for it in crates)
    crates.sort(key=lambda it: -len(edits_of(it.folder)))
    with ThreadPoolExecutor(max(1, int(os.environ.get("LANES", os.cpu_count() or 1)))) as pool:
        refused = sum(pool.map(try_crate, crates))
    print(f"{refused} refused, {wanted - refused} not")
    return 0 if refused == wanted else 1


def start():
    """Loads rt, and goes to the top of the repository."""
    global rt
    rt = kit.Kit().rt()
    rt.rtlib.guarded()
    os.chdir(TOP)


rt, shelf, printing = None, "wrong", threading.Lock()

if __name__ == "__main__":
    start()
    sys.exit(main(sys.argv[1:]))
