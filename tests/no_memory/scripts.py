"""Plays scripts with each allocation refused in turn. Its words: the program, the library that refuses, and scripts.

Beside each NAME.script stands NAME.out, what it prints where there is memory. With an allocation refused the program
prints the same; or it says `ymx: out of memory` after a beginning of it; or one answer is another:

- `refused 11 OutOfMemory`. Then nothing was changed: the same line once more is answered as it would have been, and so
  is all that follows.
- ` nomem 1` after the answer of a delivery. Then a stream was rejected: its opener reads `refused 3 Reset`, the other
  side is offered the others and not this one, and a further stream comes through.
"""

import os
import subprocess
import sys
import tempfile

REFUSED = "refused 11 OutOfMemory"
OUT_OF_MEMORY = "ymx: out of memory\n"


class Player:
    """Plays lines by the program, with one allocation refused."""

    def __init__(self, program, failing, folder):
        self.program, self.failing = program, failing
        self.script, self.mark = os.path.join(folder, "script"), os.path.join(folder, "failed")

    def play(self, lines, number):
        """The status, what is printed, what is said, and whether it came to the allocation of this number."""
        with open(self.script, "w") as out:
            out.writelines(line + "\n" for line in lines)
        environment = dict(os.environ, FAIL_AT=str(number), FAILED=self.mark, LD_PRELOAD=self.failing)
        words = [self.program, "script", self.script]
        done = subprocess.run(words, env=environment, capture_output=True, text=True, check=False, timeout=60)
        came = os.path.exists(self.mark)
        if came:
            os.remove(self.mark)
        return done.returncode, done.stdout, done.stderr, came


class Row:
    """One script, and how often its runs ended in which way."""

    def __init__(self, player, path):
        self.player = player
        self.name = os.path.basename(path)
        with open(path) as script, open(path.replace(".script", ".out")) as answers:
            self.lines = [line.rstrip("\n") for line in script if line.strip() and not line.startswith("#")]
            self.answers = answers.read().splitlines()
        self.counts = {"as ever": 0, "out of memory": 0, "refused": 0, "rejected": 0}

    def fail(self, number, why):
        sys.exit(f"FAIL  {self.name}: allocation {number}: {why}")

    def answers_to(self, lines, number):
        """The answers to these lines, in a run that ends well."""
        status, text, said, _ = self.player.play(lines, number)
        if (status, said) != (0, ""):
            self.fail(number, f"status {status}, {said!r} after {text!r}")
        return text.splitlines()

    def try_all(self):
        """Refuses one allocation after another, until a run comes to no more."""
        if self.answers_to(self.lines, 0) != self.answers:
            self.fail(0, "other answers")
        number = 0
        came = True
        while came:
            number += 1
            status, text, said, came = self.player.play(self.lines, number)
            self.counts[self.judge(status, text, said, number)] += 1
        told = ", ".join(f"{count} {name}" for name, count in self.counts.items())
        print(f"ok    {self.name}: {number - 1} allocations: {told}")

    def judge(self, status, text, said, number):
        """How a run ended."""
        whole = "".join(line + "\n" for line in self.answers)
        if status == 1 and said == OUT_OF_MEMORY and whole.startswith(text):
            return "out of memory"
        if (status, said) != (0, ""):
            self.fail(number, f"status {status}, {said!r} after {text!r}")
        answers = text.splitlines()
        if answers == self.answers:
            return "as ever"
        place = next(k for k, (one, other) in enumerate(zip(answers, self.answers)) if one != other)
        if answers[place] == REFUSED:
            self.repeat(place, number)
            return "refused"
        if answers[place] == self.answers[place] + " nomem 1":
            self.reject(place, number)
            return "rejected"
        self.fail(number, f"{answers[place]!r} and not {self.answers[place]!r}")

    def repeat(self, place, number):
        """The line at this place was refused. It stands there once more."""
        wanted = self.answers[:place] + [REFUSED] + self.answers[place:]
        answers = self.answers_to(self.lines[: place + 1] + self.lines[place:], number)
        if answers != wanted:
            self.fail(number, f"the line {place + 1} once more: {answers} and not {wanted}")

    def reject(self, place, number):
        """A stream in the delivery at this place was rejected. Its opener knows which."""
        opened = [answer.split()[1] for answer in self.answers[:place] if answer.startswith("opened ")]
        moved = ["emit B 1000000", "deliver BA 1000000"]
        lines = self.lines[: place + 1] + moved + [f"A read {stream} 1" for stream in opened]
        answers = self.answers_to(lines, number)
        wanted = self.answers[:place] + [self.answers[place] + " nomem 1", "emitted 12", "fed 12"]
        reads = answers[place + 3 :]
        if answers[: place + 3] != wanted or sorted(reads) != ["refused 3 Reset"] + ["wait"] * (len(opened) - 1):
            self.fail(number, f"after line {place + 1}: {answers} and not {wanted} and one reset")
        others = [stream for stream, answer in zip(opened, reads) if answer == "wait"]
        self.go_on(lines, answers, others, number)

    def go_on(self, lines, before, others, number):
        """The other streams are offered, and a further one comes through."""
        further = str(2 * len(others) + 3)
        lines = lines + ["B accept"] * (len(others) + 1)
        lines += ["A open", f"A write {further} 68", "emit A 1000000", "deliver AB 1000000", "B accept", f"B read {further} 9"]
        answers = self.answers_to(lines, number)[len(before) :]
        fed = answers[len(others) + 4]
        wanted = [f"accepted {stream}" for stream in others] + ["none", f"opened {further}", "took 1", "emitted 25", fed]
        wanted += [f"accepted {further}", "bytes 1 68"]
        if answers != wanted or not fed.startswith("fed ") or "nomem" in fed:
            self.fail(number, f"after a rejected stream: {answers} and not {wanted}")


def main():
    program, failing, *scripts = sys.argv[1:]
    with tempfile.TemporaryDirectory() as folder:
        player = Player(program, failing, folder)
        for path in scripts:
            Row(player, path).try_all()


main()
