#!/usr/bin/env python3
"""Proves the crates of which the program ymx is made, from nothing, and compiles it; or those of the library for C.

usage: release/prove.py [--kept | --gate] [--seconds FILE] [--target NAME].. [--objects FOLDER] [--libraries FOLDER] [PROGRAM]

The program is written to the file PROGRAM, linked with this machine's C library, as `rt ci` links it. A crate begins as
soon as those below it are proved, the one with the longest way to the program first, and takes processors that are left
over. `rt` has to be on the PATH: the compiler is the one that belongs to it, and is called with the words that `rt ci`
gives it.

--kept              takes over what `rt check` and earlier runs with --kept proved: only what has changed is proved again
--gate              takes the libraries as `rt ci` has just proved and built them here, and proves what stands on them
--target NAME       x86_64 or aarch64: what is compiled for. Both, if none is named; PROGRAM is always for x86_64
--objects FOLDER    writes the program's objects, FOLDER/NAME.o for each target
--libraries FOLDER  proves and compiles the library for C too, and writes its objects, FOLDER/NAME.c.o for each target.
                    With neither --objects nor PROGRAM only the crates of the library are proved
--seconds FILE      writes how many seconds of processor time each crate took, for the estimate of later runs
"""
import argparse
import hashlib
import os
import shutil
import subprocess
import sys
import threading
import time

TOP = os.path.dirname(os.path.dirname(os.path.realpath(__file__)))
sys.dont_write_bytecode = True
sys.path.insert(0, f"{TOP}/tools")
import kit

LAST = "ymx_cli"
LIBRARY = "ymx_c"
# The target of a program that is linked with this machine's C library.
MACHINE = "x86_64"
KNOWN_SECONDS = f"{TOP}/release/seconds"
MEMORY_OF_A_CHECK = 3_000_000_000


def sources(name):
    """The files of a crate that a proof reads."""
    for part in ("src", "specs", "proofs"):
        for folder, folders, files in os.walk(f"{TOP}/crates/{name}/{part}"):
            folders.sort()
            yield from (f"{folder}/{it}" for it in sorted(files))


class Crate:
    """One crate, and how it is proved; for a target, where machine code is wanted."""

    def __init__(self, tools, room, crates, name, target=None):
        self.tools, self.room, self.name, self.crates, self.target = tools, room, name, crates, target
        self.label = f"{name}.{target}" if target else name
        self.uses = crates[name]
        # the labels of those that have to be proved before
        self.below = kit.below(crates, name)
        self.ending = ".rlib" if not target else ".o" if kit.is_program(name) else ".a"
        self.seconds = 60.0
        self.took = 0.0

    def made(self, ending):
        return f"{self.room.of(self.name)}/{self.label}{ending}"

    def words(self, jobs):
        """The compiler's words."""
        words = self.tools.proving("build", self.name, self.crates, self.room.library, jobs)
        if self.target:
            words += [*self.tools.compiling(self.toolchain()), *self.tools.targeting(self.target)]
            if self.ending == ".a":
                words += ["--crate-type", "staticlib", "--backend", "llvm"]
        elif not self.room.keeps:
            words += ["--statements"]
        # what one target has proved serves the next
        if self.target or self.room.keeps:
            words += ["--incremental", self.room.proofs(self.name)]
        return [*words, "-o", self.made(self.ending)]

    def beside(self):
        """What clang is given for this crate beside the kit's words."""
        return kit.BESIDE[self.target] if self.target and self.name == LIBRARY else []

    def toolchain(self):
        """The toolchain that compiles the crate, where it isn't the kit's own."""
        return self.tools.toolchain_with(self.beside(), self.made(".toolchain")) if self.beside() else None

    def stamp(self, stamps):
        """A sum of all that the crate is made from."""
        below = [stamps[it] if it in stamps else self.room.sum_of(it) for it in kit.below(self.crates, self.name)]
        total = hashlib.sha256(repr((self.kit_line, self.uses, self.target, below, *self.beside())).encode())
        for file in sources(self.name):
            with open(file, "rb") as it:
                total.update(repr((os.path.relpath(file, TOP), it.read())).encode())
        return total.hexdigest()

    def build(self, jobs):
        """Proves and builds the crate, and returns whether that went well."""
        os.makedirs(self.room.of(self.name), exist_ok=True)
        os.makedirs(f"{TOP}/crates/{self.name}/out", exist_ok=True)
        with open(self.made(".log"), "w", encoding="utf-8") as log:
            how = {"cwd": f"{TOP}/crates/{self.name}", "stdin": subprocess.DEVNULL, "stdout": log, "stderr": log}
            ran = subprocess.Popen(self.words(jobs), **how)
            status, used = os.wait4(ran.pid, 0)[1:]
            if os.WIFSIGNALED(status):
                log.write(f"it was stopped by signal {os.WTERMSIG(status)}\n")
        self.took = used.ru_utime + used.ru_stime
        return status == 0


class Room:
    """Where what is made stands, and what of earlier runs is taken over."""

    def __init__(self, is_kept, is_gate):
        self.keeps, self.is_gate = is_kept or is_gate, is_gate
        self.folder = f"{TOP}/out/{'gate' if is_gate else 'kept' if is_kept else 'proved'}"

    def of(self, name):
        return f"{self.folder}/{name}"

    def library(self, name):
        """The folder of a crate's library."""
        return f"{TOP}/crates/{name}/out/rlib" if self.is_gate else self.of(name)

    def sum_of(self, name):
        """A sum of a library that `rt ci` has built: its format names the sums of its files."""
        with open(f"{self.library(name)}/{name}.rlib/format", "rb") as it:
            return hashlib.sha256(it.read()).hexdigest()

    def proofs(self, name):
        """The folder of what checks of the crate keep."""
        return f"{TOP}/crates/{name}/out/incremental" if self.keeps else f"{self.of(name)}/incremental"


class Work:
    """All crates that are wanted: which are proved, which are under way, and which are left."""

    def __init__(self, crates, good):
        self.crates = crates
        self.left = [it for it in crates if it.label not in good]
        self.under_way, self.done, self.failed = {}, set(good), None
        self.turn, self.began = threading.Condition(), time.time()
        self.way = {}
        for it in reversed(crates):
            above = [self.way[other.label] for other in crates if it.label in other.below]
            self.way[it.label] = it.seconds + max(above, default=0)
        self.left.sort(key=lambda it: -self.way[it.label])

    def minutes_left(self, lanes):
        """About how long it still takes: as the crates that are proved took, beside what was known of them."""
        proved = [it for it in self.crates if it.took and it.label in self.done]
        known, took = sum(it.seconds for it in proved), sum(it.took for it in proved)
        pace = took / known if known > 60 else 1
        rest = [*self.left, *self.under_way]
        longest = max((self.way[it.label] for it in rest), default=0)
        return max(longest, sum(it.seconds for it in rest) / lanes) * pace / 60

    def say(self, lanes):
        now = ", ".join(sorted(it.label for it in self.under_way))
        text = f"{len(self.done)} of {len(self.crates)} crates, {time.time() - self.began:.0f} seconds"
        return f"{text}, about {self.minutes_left(lanes):.0f} minutes left; now {now}"

    def go(self, crate, jobs):
        well = crate.build(jobs)
        with self.turn:
            del self.under_way[crate]
            if well:
                self.done.add(crate.label)
            else:
                self.failed = crate
            self.turn.notify_all()

    def start_ready(self, lanes):
        """Starts the crates whose turn it is."""
        ready = [it for it in self.left if all(other in self.done for other in it.below)]
        while ready and not self.failed:
            idle = lanes - sum(self.under_way.values())
            if idle <= 0:
                return
            # the first has the longest way, so what is left over is for it
            jobs = max(1, min(4, idle - len(ready) + 1))
            crate = ready.pop(0)
            self.left.remove(crate)
            self.under_way[crate] = jobs
            threading.Thread(target=self.go, args=(crate, jobs)).start()

    def run(self, lanes):
        """Proves all crates, and returns whether that went well. Says how far it is."""
        is_terminal, said = sys.stderr.isatty(), -1
        with self.turn:
            while self.left or self.under_way:
                self.start_ready(lanes)
                if not self.under_way:
                    break
                if is_terminal:
                    print(f"\r\033[Kymx: {self.say(lanes)}"[:160], end="", file=sys.stderr, flush=True)
                elif len(self.done) != said:
                    said = len(self.done)
                    print(f"ymx: {self.say(lanes)}", file=sys.stderr, flush=True)
                self.turn.wait(1)
        if is_terminal:
            print("\r\033[K", end="", file=sys.stderr, flush=True)
        return not self.failed


def lanes():
    """How many checks run side by side: as many as there are processors, each with 3 GB of free memory."""
    with open("/proc/meminfo", encoding="ascii") as lines:
        free = next((int(it.split()[1]) * 1024 for it in lines if it.startswith("MemAvailable:")), 0)
    return max(1, min(len(os.sched_getaffinity(0)), free // MEMORY_OF_A_CHECK))


def known_seconds():
    try:
        with open(KNOWN_SECONDS, encoding="ascii") as lines:
            return {it.split()[0]: float(it.split()[1]) for it in lines if it.strip()}
    except OSError:
        return {}


def tail_of(file):
    with open(file, encoding="utf-8", errors="replace") as it:
        return "".join(it.readlines()[-20:])


def take_over(crates):
    """Sorts out, of work that is kept, what has changed since; returns the crates that are still good."""
    stamps, good = {}, set()
    for it in crates:
        stamps[it.label] = it.stamp(stamps)
        file = it.made(".stamp")
        try:
            with open(file, encoding="ascii") as kept:
                is_same = kept.read() == stamps[it.label]
        except OSError:
            is_same = False
        if is_same and os.path.exists(it.made(it.ending)):
            good.add(it.label)
    return stamps, good


def crates_for(asked, room):
    """The crates that are wanted, bottom up: the libraries, and then the last ones for each target, one behind the other."""
    tools, crates = kit.Kit(), kit.listed()
    lasts = [(LAST, it) for it in asked.targets if asked.objects] or [(LAST, MACHINE)] * bool(asked.program)
    if asked.program and (LAST, MACHINE) not in lasts:
        lasts.append((LAST, MACHINE))
    lasts += [(LIBRARY, it) for it in asked.targets if asked.libraries]
    below = [] if asked.gate else [it for name, _ in lasts for it in kit.below(crates, name)]
    own = [Crate(tools, room, crates, it) for it in dict.fromkeys(below)]
    for name, target in lasts:
        last = Crate(tools, room, crates, name, target)
        last.below = [it for it in last.below if not asked.gate] + [it.label for it in own if it.name == name]
        own.append(last)
    return own


def replace(made, file, mode=0o644):
    """Puts a copy of what was made at the place of this file, at once."""
    shutil.copyfile(made, f"{file}.new")
    os.chmod(f"{file}.new", mode)
    os.replace(f"{file}.new", file)


def hand_out(asked, own):
    """Writes what was asked for, and returns whether that went well."""
    for it in (it for it in own if it.target):
        if it.name == LAST and asked.objects:
            replace(it.made(".o"), f"{asked.objects}/{it.target}.o")
        if it.name == LIBRARY:
            with open(it.made(".o"), "wb") as file:
                subprocess.run(["ar", "p", it.made(".a")], stdout=file, check=True)
            replace(it.made(".o"), f"{asked.libraries}/{it.target}.c.o")
        if it.name == LAST and it.target == MACHINE and asked.program:
            words = it.tools.linking(it.made(".o"), it.made(""))
            if subprocess.run(words, stdin=subprocess.DEVNULL).returncode:
                return False
            replace(it.made(""), asked.program, 0o755)
    return True


def words_of():
    """What is asked for, or None where it can't be told."""
    asked = argparse.ArgumentParser(add_help=False)
    asked.add_argument("--kept", action="store_true")
    asked.add_argument("--gate", action="store_true")
    asked.add_argument("--seconds")
    asked.add_argument("--target", action="append", choices=kit.TARGETS, dest="targets")
    asked.add_argument("--objects")
    asked.add_argument("--libraries")
    asked.add_argument("program", nargs="?")
    asked = asked.parse_args()
    asked.targets = asked.targets or [*kit.TARGETS]
    return asked if (asked.objects or asked.libraries or asked.program) and not (asked.kept and asked.gate) else None


def main():
    asked = words_of()
    if not asked:
        print(__doc__, end="", file=sys.stderr)
        return 2
    for folder in filter(None, (asked.objects, asked.libraries)):
        os.makedirs(folder, exist_ok=True)
    Crate.kit_line, seconds = kit.Kit().version(), known_seconds()
    room = Room(asked.kept, asked.gate)
    own = crates_for(asked, room)
    for it in own:
        it.seconds = seconds.get(it.label, it.seconds)
    if not room.keeps:
        shutil.rmtree(room.folder, ignore_errors=True)
    os.makedirs(room.folder, exist_ok=True)
    stamps, good = take_over(own)
    work = Work(own, good)
    # what --gate leaves is one crate after another, and each further job of one would load all that is below it once more
    well = work.run(1 if asked.gate else lanes())
    for it in own:
        if it.label in work.done:
            with open(it.made(".stamp"), "w", encoding="ascii") as kept:
                kept.write(stamps[it.label])
    if not well:
        print(f"ymx: {work.failed.label} isn't proved or can't be built:\n{tail_of(work.failed.made('.log'))}", end="", file=sys.stderr)
        return 1
    if asked.seconds:
        with open(asked.seconds, "w", encoding="ascii") as it:
            it.writelines(f"{crate.label} {crate.took:.0f}\n" for crate in own)
    if not hand_out(asked, own):
        return 1
    spent, took = sum(it.took for it in own) / 60, (time.time() - work.began) / 60
    print(f"ymx: proved and built in {took:.1f} minutes, {spent:.1f} minutes of processor time", file=sys.stderr)
    return 0


if __name__ == "__main__":
    sys.exit(main())
